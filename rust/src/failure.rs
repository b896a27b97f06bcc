//! What a store knows of a flash service that failed.
use crate::stepped::Request;
use core::error::Error;
use core::fmt;

/// A service that a store asks of its flash (R8.4 of docs/RULES.md): what one call of [`Flash`](crate::Flash) does.
#[derive(Clone, Copy, Debug, PartialEq, Eq)]
pub enum Service {
    /// A read of a region.
    Read {
        /// The region's number.
        region: usize,
    },
    /// A write within a region.
    Write {
        /// The place in the image of the first byte.
        place: usize,
        /// How many bytes.
        length: usize,
    },
    /// An erase of a region.
    Erase {
        /// The region's number.
        region: usize,
    },
}

impl Service {
    /// The service that a request asks for; none where it is an answer.
    #[inline]
    pub(crate) fn of(request: Request) -> Option<Service> {
        match request {
            Request::Read { region } => Some(Service::Read { region }),
            Request::Write { from, to, place } => Some(Service::Write { place, length: to.saturating_sub(from) }),
            Request::Erase { region } => Some(Service::Erase { region }),
            Request::Answer(_) => None,
        }
    }
}

/// Why a store takes a service for failed.
#[derive(Clone, Copy, Debug, PartialEq, Eq)]
pub enum Reason<E> {
    /// The flash said so, with its own error.
    Failed(E),
    /// The flash said NotReady more often in a row than the store's [limit](crate::Store::set_limit) allows. It may still be busy with
    /// the service, which the store's next operation asks for again ([`Store::begun`](crate::Store::begun)).
    NeverReady {
        /// The limit.
        limit: u32,
    },
}

/// A service that failed, and why. `E` is the flash's own [error](crate::Flash::Error).
///
/// Its words say which service it was, whatever `E` is; `E`'s own words are those of the [source](Error::source), where `E` is an
/// error.
///
/// ```
/// use stilefray::{Failure, Reason, Service};
/// let failed = Failure { service: Service::Read { region: 3 }, reason: Reason::Failed(()), earlier: false };
/// assert_eq!(failed.to_string(), "the read of region 3: the flash failed");
/// let service = Service::Write { place: 64, length: 18 };
/// let never: Failure<()> = Failure { service, reason: Reason::NeverReady { limit: 9 }, earlier: true };
/// let words = "the write of 18 bytes at place 64, of an earlier operation: \
///     the flash was not ready, more often in a row than the limit of 9";
/// assert_eq!(never.to_string(), words);
/// ```
#[derive(Clone, Copy, Debug, PartialEq, Eq)]
pub struct Failure<E> {
    /// Which service.
    pub service: Service,
    /// Why.
    pub reason: Reason<E>,
    /// Whether it is a service that an earlier operation had [begun](crate::Store::begun): the operation that is refused has then asked
    /// for nothing of its own, and what is to be mended is the earlier one's.
    pub earlier: bool,
}

impl<E> Failure<E> {
    /// The flash's own error, where it gave one.
    #[must_use]
    pub fn error(&self) -> Option<&E> {
        match &self.reason {
            Reason::Failed(error) => Some(error),
            Reason::NeverReady { .. } => None,
        }
    }
}

impl fmt::Display for Service {
    fn fmt(&self, f: &mut fmt::Formatter<'_>) -> fmt::Result {
        match self {
            Service::Read { region } => write!(f, "the read of region {region}"),
            Service::Write { place, length: 1 } => write!(f, "the write of 1 byte at place {place}"),
            Service::Write { place, length } => write!(f, "the write of {length} bytes at place {place}"),
            Service::Erase { region } => write!(f, "the erase of region {region}"),
        }
    }
}

impl<E> fmt::Display for Reason<E> {
    fn fmt(&self, f: &mut fmt::Formatter<'_>) -> fmt::Result {
        match self {
            Reason::Failed(_) => f.write_str("the flash failed"),
            Reason::NeverReady { limit } => write!(f, "the flash was not ready, more often in a row than the limit of {limit}"),
        }
    }
}

impl<E> fmt::Display for Failure<E> {
    fn fmt(&self, f: &mut fmt::Formatter<'_>) -> fmt::Result {
        let earlier = if self.earlier { ", of an earlier operation" } else { "" };
        write!(f, "{}{earlier}: {}", self.service, self.reason)
    }
}

/// The source is the flash's own error.
impl<E: Error + 'static> Error for Failure<E> {
    fn source(&self) -> Option<&(dyn Error + 'static)> {
        self.error().map(|error| error as &(dyn Error + 'static))
    }
}
