//! The calls of a store for an executor. Each is its operation [under way](crate::Underway), with the answer that the blocking call has.
use crate::flash::Flash;
use crate::refusal::{Refusal, Success};
use crate::store::{Store, StoreRefusal};
use crate::underway::Underway;
use core::fmt;
use core::future::Future;
use core::pin::Pin;
use core::task::{Context, Poll};

/// A call of a store for an executor: [`get_key_async`](Store::get_key_async) and its kin hand it out, to be awaited.
///
/// It is an [`Underway`] with another answer, and what is said there holds: it borrows the store, each poll does one service of the
/// flash, and dropped before it is ready it gives the operation up. Where the start was refused the first poll says so. It may be moved
/// between polls, and polled after the end it is ready with BadCall.
#[must_use = "nothing is done until it is polled or awaited, and dropping it gives the operation up"]
pub struct Awaited<'o, F: Flash, T> {
    /// The operation; or the start's refusal, until it is given.
    started: Result<Underway<'o, F>, Option<Refusal>>,
    answer: fn(Success) -> T,
}

impl<'o, F: Flash, T> Awaited<'o, F, T> {
    fn new(started: Result<Underway<'o, F>, StoreRefusal<F>>, answer: fn(Success) -> T) -> Self {
        Awaited { started: started.map_err(|refusal| Some(refusal.plain())), answer }
    }
}

impl<F: Flash, T> Future for Awaited<'_, F, T> {
    type Output = Result<T, StoreRefusal<F>>;

    fn poll(self: Pin<&mut Self>, context: &mut Context<'_>) -> Poll<Self::Output> {
        let this = self.get_mut();
        match &mut this.started {
            Ok(underway) => Pin::new(underway).poll(context).map(|answer| answer.map(this.answer)),
            Err(refusal) => Poll::Ready(Err(refusal.take().unwrap_or(Refusal::BadCall).without_failure())),
        }
    }
}

impl<F: Flash, T> fmt::Debug for Awaited<'_, F, T> {
    fn fmt(&self, f: &mut fmt::Formatter<'_>) -> fmt::Result {
        f.debug_struct("Awaited").field("started", &self.started).finish_non_exhaustive()
    }
}

/// The same calls for an executor: one service of the flash for each poll, in the order of R9 of docs/RULES.md. Nothing is asked of the
/// flash before the first.
///
/// ```
/// use stilefray::{Flash, Store, StoreRefusal};
///
/// async fn keep<F: Flash>(store: &mut Store<'_, F>, key: u64, value: &[u8]) -> Result<usize, StoreRefusal<F>> {
///     store.append_key_async(key, value).await?;
///     store.garbage_collect_async().await
/// }
/// ```
impl<F: Flash> Store<'_, F> {
    /// [`get_key`](Store::get_key) for an executor.
    pub fn get_key_async<'o>(&'o mut self, key: u64, buffer: &'o mut [u8]) -> Awaited<'o, F, usize> {
        Awaited::new(self.start_get_key(key, buffer), Success::value)
    }

    /// [`append_key`](Store::append_key) for an executor.
    pub fn append_key_async<'o>(&'o mut self, key: u64, value: &'o [u8]) -> Awaited<'o, F, ()> {
        Awaited::new(self.start_append_key(key, value), drop)
    }

    /// [`invalidate_key`](Store::invalidate_key) for an executor.
    pub fn invalidate_key_async(&mut self, key: u64) -> Awaited<'_, F, ()> {
        Awaited::new(self.start_invalidate_key(key), drop)
    }

    /// [`zeroise_key`](Store::zeroise_key) for an executor.
    pub fn zeroise_key_async(&mut self, key: u64) -> Awaited<'_, F, ()> {
        Awaited::new(self.start_zeroise_key(key), drop)
    }

    /// [`garbage_collect`](Store::garbage_collect) for an executor.
    pub fn garbage_collect_async(&mut self) -> Awaited<'_, F, usize> {
        Awaited::new(self.start_garbage_collect(), Success::value)
    }

    /// [`initialise`](Store::initialise) for an executor.
    pub fn initialise_async(&mut self, key: u64) -> Awaited<'_, F, Success> {
        Awaited::new(self.start_initialise(key), |answer| answer)
    }
}
