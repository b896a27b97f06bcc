//! An operation of a store that is under way.
use crate::failure::{Failure, Reason, Service};
use crate::flash::{Flash, NotDone};
use crate::refusal::{Answer, Refusal};
use crate::stepped::{Reply, Request, Running};
use crate::store::StoreAnswer;
use core::fmt;
use core::future::Future;
use core::pin::Pin;
use core::task::{Context, Poll};

/// What came of one service. `E` is the flash's own error.
#[derive(Clone, Copy, Debug, PartialEq, Eq)]
#[must_use = "the operation's answer comes in it"]
pub enum Served<E> {
    /// The flash was not ready: the operation waits for the same service.
    NotReady,
    /// The service is done, and the operation goes on with another.
    More,
    /// The operation has ended with this answer.
    Answer(Answer<Failure<E>>),
}

/// An operation of a [`Store`](crate::Store) that is under way: what its `start_` calls hand out.
///
/// [`serve`](Underway::serve) does one service of the flash, for a main loop with other work between two;
/// [`poll_service`](Underway::poll_service) does the same as a [`Poll`]; and it is itself a [`Future`], of one service a poll. The first
/// step is already taken, and nothing is asked of the flash before the first service.
///
/// It borrows the store, and the value or the buffer, until its last use: no other operation can use the store's flash and region
/// buffer meanwhile. An append that waits for its write has the bytes to write in that buffer, and a get in between would lose them:
///
/// ```compile_fail,E0499
/// # use stilefray::{Flash, Store, StoreRefusal};
/// fn interleaved<F: Flash>(store: &mut Store<'_, F>) -> Result<(), StoreRefusal<F>> {
///     let append = store.start_append_key(1, b"gains")?;
///     store.get_key(2, &mut [0; 8])?; // the store is borrowed, as `append` is used below
///     append.finish()?;
///     Ok(())
/// }
/// ```
///
/// **Dropping it gives the operation up.** Of a get, an append or a removal the chip is then as it was, or as the whole operation leaves
/// it; of a collect some of the dead regions are erased; of an initialise some or all regions may be, and the main key may be missing: do
/// it again (R11.9 of docs/RULES.md; docs/HOST.md says what to do about an initialise on a chip that was not well-formed). A service that
/// had said NotReady is not given up with it: the store's next operation asks for it again, before anything of its own, until it is over
/// ([`Store::begun`](crate::Store::begun)). So no service's end is taken for another's.
///
/// ```
/// # use stilefray::{Flash, NotDone, Served, Store, StoreRefusal, Success};
/// # struct Chip([u8; 256]);
/// # impl Flash for Chip {
/// #     type Error = ();
/// #     fn read_region(&mut self, region: usize, buffer: &mut [u8]) -> Result<(), NotDone<()>> {
/// #         Ok(buffer.copy_from_slice(&self.0[region * 64..][..64]))
/// #     }
/// #     fn write(&mut self, place: usize, bytes: &[u8]) -> Result<(), NotDone<()>> {
/// #         Ok(self.0[place..].iter_mut().zip(bytes).for_each(|(old, new)| *old &= new))
/// #     }
/// #     fn erase_region(&mut self, region: usize) -> Result<(), NotDone<()>> {
/// #         Ok(self.0[region * 64..][..64].fill(255))
/// #     }
/// # }
/// # let chip = Chip([255; 256]);
/// let mut region_buffer = [0u8; 64];
/// let mut store = Store::new(chip, &mut region_buffer, 4);
/// let mut append = store.start_append_key(1, b"abc")?;
/// let mut turns = 0;
/// let answer = loop {
///     turns += 1; // the main loop's other work
///     if let Served::Answer(answer) = append.serve() {
///         break answer;
///     }
/// };
/// assert_eq!((answer, turns), (Ok(Success::Written), 5)); // four reads and a write
/// # Ok::<(), StoreRefusal<Chip>>(())
/// ```
#[must_use = "nothing is done until it is served, polled or awaited, and dropping it gives the operation up"]
pub struct Underway<'o, F: Flash> {
    flash: &'o mut F,
    region_buffer: &'o mut [u8],
    value: &'o [u8],
    buffer: &'o mut [u8],
    running: Running,
    /// What is asked for, so that a service needs one step and not two. Once the answer is given, what is answered from then on.
    request: Request,
    /// The store's: what the flash has begun and not ended.
    begun: &'o mut Option<Request>,
    /// Whether that is an earlier operation's.
    settles: bool,
    limit: u32,
    /// How often in a row the service at hand has said NotReady.
    waited: u32,
}

/// What is not a service that is done.
enum Other<E> {
    NotDone(NotDone<E>),
    Answer(Answer),
}

/// What an operation borrows of its store.
pub(crate) struct Host<'o, F: Flash> {
    pub flash: &'o mut F,
    pub region_buffer: &'o mut [u8],
    pub begun: &'o mut Option<Request>,
    pub limit: u32,
}

impl<'o, F: Flash> Underway<'o, F> {
    /// Takes the first step of a fresh operation. It alters no buffer, so that what an earlier write has still to write stays.
    #[inline]
    pub(crate) fn begin(mut running: Running, host: Host<'o, F>, value: &'o [u8], buffer: &'o mut [u8]) -> Self {
        let Host { flash, region_buffer, begun, limit } = host;
        let request = running.step(Reply::Begin, region_buffer, value, buffer);
        let settles = begun.is_some();
        Underway { flash, region_buffer, value, buffer, running, request, begun, settles, limit, waited: 0 }
    }

    /// Does one service of the operation. Once it has answered, every further call answers BadCall and asks the flash for nothing.
    #[inline]
    pub fn serve(&mut self) -> Served<F::Error> {
        if self.settles {
            return self.settle();
        }
        match self.ask(self.request) {
            Ok(()) => {
                if self.waited > 0 {
                    *self.begun = None;
                }
                self.goes_on()
            }
            Err(other) => self.not_done(self.request, other),
        }
    }

    /// Does one service, and says whether the operation has answered: [`serve`](Underway::serve) for an interrupt loop or a poll
    /// function of one's own. Nobody is woken: call it again when the flash may be ready, or at the next turn.
    #[inline]
    pub fn poll_service(&mut self) -> Poll<StoreAnswer<F>> {
        match self.serve() {
            Served::Answer(answer) => Poll::Ready(answer),
            Served::NotReady | Served::More => Poll::Pending,
        }
    }

    /// Does one service after the other until the operation answers.
    #[inline]
    pub fn finish(mut self) -> StoreAnswer<F> {
        loop {
            if let Served::Answer(answer) = self.serve() {
                return answer;
            }
        }
    }

    /// The service that the next call asks for; none once the operation has ended. At first it may be an earlier operation's, which the
    /// flash has not ended.
    #[must_use]
    pub fn waits_for(&self) -> Option<Service> {
        Service::of(self.asks())
    }

    /// Whether the operation has ended: its answer was given.
    #[must_use]
    pub fn has_ended(&self) -> bool {
        matches!(self.request, Request::Answer(_))
    }

    /// The flash.
    #[must_use]
    pub fn flash(&self) -> &F {
        self.flash
    }

    /// The flash, to alter: an interrupt loop tells it here what its hardware says. What is changed on the chip behind the operation's
    /// back is taken as it is found, or overwritten.
    #[must_use]
    pub fn flash_mut(&mut self) -> &mut F {
        self.flash
    }

    /// Asks the flash for a service.
    #[inline]
    fn ask(&mut self, request: Request) -> Result<(), Other<F::Error>> {
        let done = match request {
            Request::Read { region } => self.flash.read_region(region, self.region_buffer),
            Request::Write { from, to, place } => match self.region_buffer.get(from..to) {
                Some(bytes) => self.flash.write(place, bytes),
                // A write's bytes lie in the region buffer, that is proved: this is no write that this crate knows.
                None => return Err(Other::Answer(Err(Refusal::UnknownKind(2)))),
            },
            Request::Erase { region } => self.flash.erase_region(region),
            Request::Answer(answer) => return Err(Other::Answer(answer)),
        };
        done.map_err(Other::NotDone)
    }

    /// What comes of a service that is not done; or there is none, and this is the answer.
    #[cold]
    fn not_done(&mut self, request: Request, other: Other<F::Error>) -> Served<F::Error> {
        let reason = match other {
            Other::Answer(answer) => return self.answers(answer.map_err(Refusal::without_failure)),
            Other::NotDone(NotDone::Failed(error)) => {
                *self.begun = None;
                Reason::Failed(error)
            }
            Other::NotDone(NotDone::NotReady) => {
                *self.begun = Some(request);
                if self.waited < self.limit {
                    self.waited += 1;
                    return Served::NotReady;
                }
                Reason::NeverReady { limit: self.limit }
            }
        };
        self.fails(request, reason)
    }

    /// First comes what the flash has begun for an earlier operation, until it is over.
    #[cold]
    fn settle(&mut self) -> Served<F::Error> {
        let request = self.asks();
        match self.ask(request) {
            Ok(()) => {
                *self.begun = None;
                (self.settles, self.waited) = (false, 0);
                Served::More
            }
            Err(other) => self.not_done(request, other),
        }
    }

    /// What is asked of the flash next: what it has begun for an earlier operation, or the operation's own.
    fn asks(&self) -> Request {
        match *self.begun {
            Some(begun) if self.settles && !self.has_ended() => begun,
            _ => self.request,
        }
    }

    #[inline]
    fn step(&mut self, reply: Reply) -> Request {
        self.waited = 0;
        self.running.step(reply, self.region_buffer, self.value, self.buffer)
    }

    /// The service at hand is done.
    #[inline]
    fn goes_on(&mut self) -> Served<F::Error> {
        self.request = self.step(Reply::Done);
        match self.request {
            Request::Answer(answer) => self.answers(answer.map_err(Refusal::without_failure)),
            _ => Served::More,
        }
    }

    /// A service is taken for failed, which ends the operation (R8.5 of docs/RULES.md).
    #[cold]
    fn fails(&mut self, request: Request, reason: Reason<F::Error>) -> Served<F::Error> {
        let earlier = self.settles;
        let failed = Service::of(request).map(|service| Failure { service, reason, earlier });
        let refusal = match (self.step(Reply::Failed), failed) {
            (Request::Answer(Err(Refusal::FlashFailed(()))), Some(failure)) => Refusal::FlashFailed(failure),
            (Request::Answer(Err(refusal)), _) => refusal.without_failure(),
            // No operation goes on after a failure, that is proved; this one does not either.
            (_, failed) => failed.map_or(Refusal::Unknown(12), Refusal::FlashFailed),
        };
        self.answers(Err(refusal))
    }

    /// The answer is given, and the operation has ended.
    #[inline]
    fn answers(&mut self, answer: StoreAnswer<F>) -> Served<F::Error> {
        self.request = Request::Answer(Err(Refusal::BadCall));
        Served::Answer(answer)
    }
}

/// Neither the flash nor the bytes that are lent.
impl<F: Flash> fmt::Debug for Underway<'_, F> {
    fn fmt(&self, f: &mut fmt::Formatter<'_>) -> fmt::Result {
        let (service, waited, limit) = (self.waits_for(), self.waited, self.limit);
        let mut words = f.debug_struct("Underway");
        words.field("waits_for", &service).field("waited", &waited).field("limit", &limit).finish_non_exhaustive()
    }
}

/// One service a poll, so that an executor's other tasks run between two. After a service that is done it wakes itself; after one that
/// was not ready it calls [`Flash::wake_when_ready`]. Each poll asks the flash, one that nobody woke for too, and so each counts for the
/// store's [limit](crate::Store::set_limit). Polled after the end it is ready with BadCall.
impl<F: Flash> Future for Underway<'_, F> {
    type Output = StoreAnswer<F>;

    fn poll(self: Pin<&mut Self>, context: &mut Context<'_>) -> Poll<StoreAnswer<F>> {
        let this = self.get_mut();
        match this.serve() {
            Served::Answer(answer) => return Poll::Ready(answer),
            Served::More => context.waker().wake_by_ref(),
            Served::NotReady => this.flash.wake_when_ready(context.waker()),
        }
        Poll::Pending
    }
}
