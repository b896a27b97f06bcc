//! The host's flash.
use core::error::Error;
use core::fmt;
use core::task::Waker;

/// Why a flash service is not done. `E` is the flash's own error.
///
/// An error of the host's own becomes `Failed` by itself, so that `?` serves in the functions of [`Flash`].
#[derive(Clone, Copy, Debug, PartialEq, Eq)]
pub enum NotDone<E> {
    /// Nothing was begun, or it is not over yet: the same call will be made again.
    NotReady,
    /// It cannot be done. The operation ends with [`Refusal::FlashFailed`](crate::Refusal::FlashFailed), which carries this error.
    Failed(E),
}

impl<E> From<E> for NotDone<E> {
    fn from(error: E) -> Self {
        NotDone::Failed(error)
    }
}

impl<E> fmt::Display for NotDone<E> {
    fn fmt(&self, f: &mut fmt::Formatter<'_>) -> fmt::Result {
        f.write_str(match self {
            NotDone::NotReady => "the flash is not ready",
            NotDone::Failed(_) => "the flash failed",
        })
    }
}

/// The source is the flash's own error.
impl<E: Error + 'static> Error for NotDone<E> {
    fn source(&self) -> Option<&(dyn Error + 'static)> {
        match self {
            NotDone::NotReady => None,
            NotDone::Failed(error) => Some(error),
        }
    }
}

/// The host's flash: tickv's `FlashController`. Its three calls are the three services of R8.4 of docs/RULES.md.
///
/// A call that answers [`NotDone::NotReady`] is made again with the same arguments until it answers otherwise. So a slow flash begins
/// the service at the first call, says NotReady while it is under way, and says `Ok` or `Failed` once it is over. (tickv does not
/// repeat a write or an erase that was not ready; here it is repeated, and the answer waits for it.)
///
/// That holds also where the operation is given up meanwhile, by the store's [limit](crate::Store::set_limit) or because its
/// [`Underway`](crate::Underway) is dropped: the store's next operation makes that same call, until the service is over, before it asks
/// for anything of its own ([`Store::begun`](crate::Store::begun)). So a flash never has two services at once, as long as one
/// store is kept for it.
///
/// What is lent to a call is lent for that call alone. While a write is not ready it is called again with the same bytes, but a flash
/// that goes on reading them between two calls, or writing to a buffer, as by DMA, needs a copy of its own.
///
/// ```
/// use stilefray::{Flash, NotDone, Store};
///
/// #[derive(Debug, PartialEq)]
/// enum BusError {
///     Stuck,
/// }
///
/// /// A flash behind a bus that always fails.
/// struct Chip;
///
/// fn transfer() -> Result<(), BusError> {
///     Err(BusError::Stuck)
/// }
///
/// impl Flash for Chip {
///     type Error = BusError;
///
///     fn read_region(&mut self, _region: usize, _buffer: &mut [u8]) -> Result<(), NotDone<BusError>> {
///         Ok(transfer()?)
///     }
///     fn write(&mut self, _place: usize, _bytes: &[u8]) -> Result<(), NotDone<BusError>> {
///         Ok(transfer()?)
///     }
///     fn erase_region(&mut self, _region: usize) -> Result<(), NotDone<BusError>> {
///         Ok(transfer()?)
///     }
/// }
///
/// use stilefray::{Failure, Reason, Refusal, Service};
/// let mut region_buffer = [0u8; 64];
/// let refusal = Store::new(Chip, &mut region_buffer, 4).get_key(5, &mut []).unwrap_err();
/// let failure = Failure { service: Service::Read { region: 1 }, reason: Reason::Failed(BusError::Stuck), earlier: false };
/// assert_eq!(refusal, Refusal::FlashFailed(failure));
/// ```
pub trait Flash {
    /// The flash's own error. It comes back in [`Refusal::FlashFailed`](crate::Refusal::FlashFailed). A flash that cannot fail has
    /// [`Infallible`](core::convert::Infallible).
    type Error;

    /// Reads the region's bytes into `buffer`, which has the length of one region. While it is not ready the buffer may hold anything
    /// (R8.9).
    fn read_region(&mut self, region: usize, buffer: &mut [u8]) -> Result<(), NotDone<Self::Error>>;

    /// Writes the bytes at an image place: region `place / s`, byte `place % s` in it. They lie within one region. Each byte of the
    /// flash becomes the bitwise AND of old and new (R1.4).
    fn write(&mut self, place: usize, bytes: &[u8]) -> Result<(), NotDone<Self::Error>>;

    /// Makes every byte of the region 255 (R1.3).
    fn erase_region(&mut self, region: usize) -> Result<(), NotDone<Self::Error>>;

    /// Called by the futures after a service has said NotReady: see to it that the waker is woken once it is worth asking again.
    ///
    /// As it stands it wakes at once, so that an executor asks again at its next turn: right, though busy, for every flash. A flash
    /// whose interrupt says when it is done keeps a clone of the waker, and its handler wakes it. The service may have come to its end
    /// between the call that said NotReady and this one: so keep the waker first, then look once more, and wake it if the service is
    /// over; otherwise that interrupt is lost and the future sleeps for ever. Only the last waker counts; an earlier one may be
    /// dropped. The blocking calls and [`serve`](crate::Underway::serve) do not call it.
    fn wake_when_ready(&mut self, waker: &Waker) {
        waker.wake_by_ref();
    }
}

impl<F: Flash + ?Sized> Flash for &mut F {
    type Error = F::Error;

    fn read_region(&mut self, region: usize, buffer: &mut [u8]) -> Result<(), NotDone<F::Error>> {
        (**self).read_region(region, buffer)
    }

    fn write(&mut self, place: usize, bytes: &[u8]) -> Result<(), NotDone<F::Error>> {
        (**self).write(place, bytes)
    }

    fn erase_region(&mut self, region: usize) -> Result<(), NotDone<F::Error>> {
        (**self).erase_region(region)
    }

    fn wake_when_ready(&mut self, waker: &Waker) {
        (**self).wake_when_ready(waker);
    }
}
