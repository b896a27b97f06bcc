//! What the store answers: the refusals and the three ways of success.
use crate::failure::Failure;
use crate::ffi::AnswerNumbers;
use core::error::Error;
use core::fmt;

/// Why the store says no. R6 of docs/RULES.md says of each number exactly when it comes and what it leaves; [`number`](Refusal::number)
/// gives the number.
///
/// R7.2 says in which order they come. Most leave everything as it was (R7.3).
///
/// `F` is what is known of a failed service. In the one-call form, where no service can fail, and in the [stepped](crate::stepped) form,
/// where it was the host itself that said so, that is nothing, and a plain `Refusal` is meant. A [`Store`](crate::Store) answers
/// `Refusal<Failure<E>>` ([`StoreRefusal`](crate::StoreRefusal)), which says which service it was and holds the flash's own error.
///
/// Where nothing says which one is meant, as in a comparison of two numbers, the plain one is written `<Refusal>::KeyNotFound`.
///
/// More may come in a later edition, so a `match` needs a last arm for any other:
///
/// ```compile_fail,E0004
/// # use stilefray::Refusal::{self, *};
/// fn exhaustive(refusal: Refusal) -> u32 {
///     match refusal {
///         BadGeometry | BadKey | ObjectTooLarge | KeyNotFound | KeyAlreadyExists | FlashFull => 1,
///         UnsupportedVersion | CorruptData | BufferTooSmall(_) | InvalidCheckSum | BadCall | FlashFailed(()) => 2,
///         Unknown(_) | UnknownKind(_) => 3,
///     }
/// }
/// ```
#[derive(Clone, Copy, Debug, PartialEq, Eq)]
#[non_exhaustive]
pub enum Refusal<F = ()> {
    /// 1: a region has not 64 to 4,096 bytes, the chip has not 1 to 64 regions, or the image is not exactly all its regions.
    BadGeometry,
    /// 2: the key is 0 or 2^64 - 1.
    BadKey,
    /// 3: the value has more than 4,079 bytes.
    ObjectTooLarge,
    /// 4: no region decides: none has a live record of the key or a bad place.
    KeyNotFound,
    /// 5: append met a live record of its key.
    KeyAlreadyExists,
    /// 6: no region has room for the record. Collect may free some.
    FlashFull,
    /// 7: a record's place begins with a byte that is neither 1 nor 255.
    UnsupportedVersion,
    /// 8: a record's length is below 15 or past the region's end, or the place that append would write is not blank.
    CorruptData,
    /// 9: the value is longer than the buffer. The buffer is full of the value's first bytes, and the number is the value's full
    /// length. The checksum was not looked at.
    BufferTooSmall(usize),
    /// 10: the record's checksum is not that of its header and value. The value stands in the buffer all the same.
    InvalidCheckSum,
    /// 11: the host made a mistake in the stepped form. Nothing is altered, neither the operation nor a buffer, so the host may put
    /// its mistake right and step again. Of a [`Store`](crate::Store)'s operations it comes only where one is served or polled after
    /// its end.
    BadCall,
    /// 12: a service failed. The operation has ended; what was done to the flash before stays done.
    FlashFailed(F),
    /// A refusal whose number this crate does not know: the archive is newer than the crate. What it leaves is in the archive's own
    /// rules.
    Unknown(u32),
    /// An answer or a request of a kind that this crate does not know, by the kind's number, which is no refusal's: the archive is newer
    /// than the crate.
    UnknownKind(u32),
}

impl<F> Refusal<F> {
    /// The refusal's number, 1 to 12, or the one that is not known; 0 for an [unknown kind](Refusal::UnknownKind), which is none.
    ///
    /// ```
    /// use stilefray::Refusal;
    /// let refusals: [Refusal; 4] = [Refusal::BadGeometry, Refusal::BufferTooSmall(3), Refusal::FlashFailed(()), Refusal::Unknown(13)];
    /// assert_eq!(refusals.map(|refusal| refusal.number()), [1, 9, 12, 13]);
    /// ```
    #[must_use]
    pub fn number(&self) -> u32 {
        match self {
            Refusal::BadGeometry => 1,
            Refusal::BadKey => 2,
            Refusal::ObjectTooLarge => 3,
            Refusal::KeyNotFound => 4,
            Refusal::KeyAlreadyExists => 5,
            Refusal::FlashFull => 6,
            Refusal::UnsupportedVersion => 7,
            Refusal::CorruptData => 8,
            Refusal::BufferTooSmall(_) => 9,
            Refusal::InvalidCheckSum => 10,
            Refusal::BadCall => 11,
            Refusal::FlashFailed(_) => 12,
            Refusal::Unknown(number) => *number,
            Refusal::UnknownKind(_) => 0,
        }
    }

    /// What is known of the failed service, where that is the refusal.
    #[must_use]
    pub fn failure(&self) -> Option<&F> {
        match self {
            Refusal::FlashFailed(failure) => Some(failure),
            _ => None,
        }
    }

    /// The refusal without what is known of a failed service: to compare, or to hand on where the flash's error does not matter.
    #[must_use]
    pub fn plain(self) -> Refusal {
        self.map_failure(drop)
    }

    /// The refusal with something else in the place of what is known of a failed service.
    #[must_use]
    pub fn map_failure<G>(self, other: impl FnOnce(F) -> G) -> Refusal<G> {
        self.instead_of_failure(|failure| Refusal::FlashFailed(other(failure)))
    }

    /// The refusal with another one in the place of FlashFailed.
    fn instead_of_failure<G>(self, other: impl FnOnce(F) -> Refusal<G>) -> Refusal<G> {
        match self {
            Refusal::BadGeometry => Refusal::BadGeometry,
            Refusal::BadKey => Refusal::BadKey,
            Refusal::ObjectTooLarge => Refusal::ObjectTooLarge,
            Refusal::KeyNotFound => Refusal::KeyNotFound,
            Refusal::KeyAlreadyExists => Refusal::KeyAlreadyExists,
            Refusal::FlashFull => Refusal::FlashFull,
            Refusal::UnsupportedVersion => Refusal::UnsupportedVersion,
            Refusal::CorruptData => Refusal::CorruptData,
            Refusal::BufferTooSmall(length) => Refusal::BufferTooSmall(length),
            Refusal::InvalidCheckSum => Refusal::InvalidCheckSum,
            Refusal::BadCall => Refusal::BadCall,
            Refusal::FlashFailed(failure) => other(failure),
            Refusal::Unknown(number) => Refusal::Unknown(number),
            Refusal::UnknownKind(kind) => Refusal::UnknownKind(kind),
        }
    }

    /// The words for it, with those for a failed service.
    fn say(&self, f: &mut fmt::Formatter<'_>, failed: impl FnOnce(&F, &mut fmt::Formatter<'_>) -> fmt::Result) -> fmt::Result {
        let words = match self {
            Refusal::BadGeometry => "the number or the size of the regions, or the image's length, is outside the rules",
            Refusal::BadKey => "the key is 0 or 2^64 - 1",
            Refusal::ObjectTooLarge => "the value has more than 4079 bytes",
            Refusal::KeyNotFound => "no live record of the key",
            Refusal::KeyAlreadyExists => "the key has a live record",
            Refusal::FlashFull => "no region has room",
            Refusal::UnsupportedVersion => "a record of an unknown version",
            Refusal::CorruptData => "a record's length is wrong, or its place is not blank",
            Refusal::BufferTooSmall(length) => return write!(f, "the buffer is too small for a value of {length} bytes"),
            Refusal::InvalidCheckSum => "the checksum is wrong",
            Refusal::BadCall => "the step's operation, reply or buffers are not those of a running operation",
            Refusal::FlashFailed(failure) => return failed(failure, f),
            Refusal::Unknown(number) => return write!(f, "refusal {number}, which this crate does not know"),
            Refusal::UnknownKind(kind) => return write!(f, "an answer or a request of kind {kind}, which this crate does not know"),
        };
        f.write_str(words)
    }
}

impl Refusal {
    /// The refusal of a number, with the length that goes with 9. The library gives no number but 1 to 12, that is proved of it.
    pub(crate) fn of(number: u32, value: usize) -> Refusal {
        match number {
            1 => Refusal::BadGeometry,
            2 => Refusal::BadKey,
            3 => Refusal::ObjectTooLarge,
            4 => Refusal::KeyNotFound,
            5 => Refusal::KeyAlreadyExists,
            6 => Refusal::FlashFull,
            7 => Refusal::UnsupportedVersion,
            8 => Refusal::CorruptData,
            9 => Refusal::BufferTooSmall(value),
            10 => Refusal::InvalidCheckSum,
            11 => Refusal::BadCall,
            12 => Refusal::FlashFailed(()),
            _ => Refusal::Unknown(number),
        }
    }

    /// The refusal where no service has failed. FlashFailed cannot come there; if it did, nothing would be known of it.
    #[inline]
    pub(crate) fn without_failure<E>(self) -> Refusal<Failure<E>> {
        self.instead_of_failure(|()| Refusal::Unknown(12))
    }
}

impl fmt::Display for Refusal {
    fn fmt(&self, f: &mut fmt::Formatter<'_>) -> fmt::Result {
        self.say(f, |(), f| f.write_str("the flash failed"))
    }
}

impl<E> fmt::Display for Refusal<Failure<E>> {
    fn fmt(&self, f: &mut fmt::Formatter<'_>) -> fmt::Result {
        self.say(f, fmt::Display::fmt)
    }
}

impl Error for Refusal {}

/// The source is the flash's own error.
impl<E: Error + 'static> Error for Refusal<Failure<E>> {
    fn source(&self) -> Option<&(dyn Error + 'static)> {
        self.failure().and_then(Error::source)
    }
}

/// What an operation answers when it is not refused (R7.1 of docs/RULES.md).
#[derive(Clone, Copy, Debug, PartialEq, Eq)]
#[must_use = "`Written` from an initialise says that the chip was erased"]
pub enum Success {
    /// Nothing on the flash was changed. Get: the value's length. Initialise: 0, the main key was there.
    Complete(usize),
    /// The write was done and the host confirmed it.
    Written,
    /// Collect: how many bytes were freed, a region's size for each region erased.
    Freed(usize),
}

impl Success {
    /// The number that the answer carries: the value's length, or the bytes freed; Written carries 0.
    #[must_use]
    pub fn value(self) -> usize {
        match self {
            Success::Complete(len) => len,
            Success::Written => 0,
            Success::Freed(bytes) => bytes,
        }
    }
}

/// An operation's answer. `F` as for [`Refusal`].
pub type Answer<F = ()> = Result<Success, Refusal<F>>;

impl AnswerNumbers {
    /// The answer that the numbers stand for. The library gives no kind but 0 to 3, that is proved of it; any other is
    /// [`Refusal::UnknownKind`].
    #[inline]
    pub fn answer(self) -> Answer {
        match self.kind {
            0 => Err(Refusal::of(self.refusal, self.value)),
            1 => Ok(Success::Complete(self.value)),
            2 => Ok(Success::Written),
            3 => Ok(Success::Freed(self.value)),
            kind => Err(Refusal::UnknownKind(kind)),
        }
    }
}
