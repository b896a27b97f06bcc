//! The stepped form: a running operation is plain data, and each step answers or asks for one flash service. It never sees the chip.
//!
//! Start an operation, step it first with [`Reply::Begin`], do what each [`Request`] asks, and step again with what became of it. This
//! is for hosts that keep an operation's numbers, or have no [`Flash`](crate::Flash) to lend; a [`Store`](crate::Store) does it all and
//! keeps the buffers apart by its types, which here is the host's to do. Which services an operation asks for, and in which order, is R9
//! of docs/RULES.md; docs/HOST.md shows the loop.
//!
//! What to lend at each step:
//!
//! - `region`: a buffer of exactly `s` bytes. Nothing may change it while the operation runs, but for the reads that are asked for: an
//!   operation that waits for a write has its bytes there, so two that run at once need a buffer each (R8.9).
//! - `value`: append's value, of the length named at the start; where the operation is no append it is not looked at, lend `&[]`. The
//!   value lent at the step that first asks for the write is the one written.
//! - `buffer`: get's buffer, of the length named at the start; where the operation is no get it is not looked at, lend `&mut []`.
//!
//! ```
//! use stilefray::stepped::{Reply, Request, Running};
//! use stilefray::{Refusal, Success};
//!
//! let mut chip = [255u8; 256]; // stands for the flash: 4 regions of 64 bytes
//! let mut region = [0u8; 64];
//! let mut running = Running::append_key(64, 4, 1, 3)?;
//! let mut request = running.step(Reply::Begin, &mut region, b"abc", &mut []);
//! let answer = loop {
//!     match request {
//!         Request::Read { region: r } => region.copy_from_slice(&chip[r * 64..][..64]),
//!         Request::Write { from, to, place } => {
//!             for (byte, new) in chip[place..].iter_mut().zip(&region[from..to]) {
//!                 *byte &= new;
//!             }
//!         }
//!         Request::Erase { region: r } => chip[r * 64..][..64].fill(255),
//!         Request::Answer(answer) => break answer,
//!     }
//!     request = running.step(Reply::Done, &mut region, b"abc", &mut []);
//! };
//! assert_eq!(answer, Ok(Success::Written));
//! assert_eq!(&chip[75..78], b"abc");
//! # Ok::<(), Refusal>(())
//! ```
use crate::ffi::{self, Operation, RequestNumbers, StartNumbers};
use crate::refusal::{Answer, Refusal};

/// What the host says of the service that was asked for last.
#[derive(Clone, Copy, Debug, PartialEq, Eq)]
pub enum Reply {
    /// The first step, and only the first: nothing was asked for yet.
    Begin,
    /// The service is done.
    Done,
    /// The service is not done yet: the step repeats the request and alters nothing.
    NotReady,
    /// The service failed: the operation ends with [`Refusal::FlashFailed`].
    Failed,
}

impl Reply {
    /// The reply's number: 0 begin, 1 done, 2 not ready, 3 failed (R12.3).
    #[inline]
    #[must_use]
    pub fn number(self) -> u32 {
        match self {
            Reply::Begin => 0,
            Reply::Done => 1,
            Reply::NotReady => 2,
            Reply::Failed => 3,
        }
    }
}

/// What a step asks of the host, or its answer.
#[must_use = "the operation waits for the service, or has answered"]
#[derive(Clone, Copy, Debug, PartialEq, Eq)]
pub enum Request {
    /// Read the `s` bytes of a region, image places `region * s` on, into the region buffer.
    Read {
        /// The region's number, below `n`.
        region: usize,
    },
    /// Write the region buffer's bytes `from` up to `to` at the image place `place` on, which is `from` in its region.
    Write {
        /// The place in the region buffer of the first byte.
        from: usize,
        /// The place in the region buffer after the last byte, at most `s`.
        to: usize,
        /// The place in the image of the first byte.
        place: usize,
    },
    /// Erase a region: make each of its bytes 255.
    Erase {
        /// The region's number, below `n`.
        region: usize,
    },
    /// Nothing more: the operation has ended with this answer; but `Err(BadCall)` leaves it as it was before the step, running or not.
    Answer(Answer),
}

/// A running operation on a chip of `n` regions of `s` bytes. It is plain data and holds no pointer.
///
/// To keep one, over a restart say, keep its [`numbers`](Running::numbers) and the region buffer of its last step together:
/// [`from_numbers`](Running::from_numbers) takes it up again. Where it waits for a write, the bytes to write are in that buffer, and only
/// there; taken up with another one it writes that one's bytes, and answers Written.
///
/// It cannot be copied or cloned, since a step of a copy leaves the other where it was, to ask for a service that is already done:
///
/// ```compile_fail,E0382
/// # use stilefray::stepped::{Reply, Running};
/// # let mut region = [0u8; 64];
/// let mut running = Running::append_key(64, 4, 1, 3)?;
/// let mut copy = running;
/// let _ = copy.step(Reply::Begin, &mut region, b"abc", &mut []);
/// let _ = running.step(Reply::Begin, &mut region, b"abc", &mut []); // moved away
/// # Ok::<(), stilefray::Refusal>(())
/// ```
#[derive(Debug, PartialEq, Eq)]
#[must_use = "nothing is done until it is stepped"]
pub struct Running(Operation);

impl Running {
    /// Starts a get into a buffer of `capacity` bytes. Refused: BadGeometry, BadKey; nothing runs then.
    pub fn get_key(s: usize, n: usize, key: u64, capacity: usize) -> Result<Running, Refusal> {
        Running::of(ffi::start_get(s, n, key, capacity))
    }

    /// Starts an append of a value of `length` bytes. Refused: BadGeometry, BadKey, ObjectTooLarge; nothing runs then.
    pub fn append_key(s: usize, n: usize, key: u64, length: usize) -> Result<Running, Refusal> {
        Running::of(ffi::start_append(s, n, key, length))
    }

    /// Starts an invalidate. Refused: BadGeometry, BadKey; nothing runs then.
    pub fn invalidate_key(s: usize, n: usize, key: u64) -> Result<Running, Refusal> {
        Running::of(ffi::start_invalidate(s, n, key))
    }

    /// Starts a zeroise. Refused: BadGeometry, BadKey; nothing runs then.
    pub fn zeroise_key(s: usize, n: usize, key: u64) -> Result<Running, Refusal> {
        Running::of(ffi::start_zeroise(s, n, key))
    }

    /// Starts a collect. Refused: BadGeometry; nothing runs then.
    pub fn garbage_collect(s: usize, n: usize) -> Result<Running, Refusal> {
        Running::of(ffi::start_collect(s, n))
    }

    /// Starts an initialise with the main key. Refused: BadGeometry, BadKey; nothing runs then.
    pub fn initialise(s: usize, n: usize, key: u64) -> Result<Running, Refusal> {
        Running::of(ffi::start_initialise(s, n, key))
    }

    /// One step: takes the host's reply to the last request, and answers or asks for one service.
    ///
    /// A mistake is BadCall, which alters neither the operation nor a buffer and comes before FlashFailed: a part that is lent has the
    /// wrong length, the reply is out of turn, the operation has ended, or its numbers are none that a start or a step hands out. R6.11
    /// of docs/RULES.md is the whole list.
    ///
    /// A step alters `region` only where it asks for a write: the bytes to write then lie in it at their own place, and the rest stays
    /// as last read (R8.6). It alters `buffer` only where a get answers Complete, BufferTooSmall or InvalidCheckSum: by the value's
    /// first bytes, as far as they fit (R8.7).
    #[inline]
    pub fn step(&mut self, reply: Reply, region: &mut [u8], value: &[u8], buffer: &mut [u8]) -> Request {
        let stepped = ffi::step(self.0, reply.number(), region, value, buffer);
        self.0 = stepped.op;
        stepped.request.into()
    }

    /// Whether the operation is fresh, so that the next step is given [`Reply::Begin`].
    #[inline]
    #[must_use]
    pub fn is_fresh(&self) -> bool {
        self.0.fresh == 1
    }

    /// Whether the operation has ended: its answer was given, and any further step is BadCall.
    #[inline]
    #[must_use]
    pub fn has_ended(&self) -> bool {
        self.0.next == Operation::NEXT_ENDED
    }

    /// The operation's numbers, to look at or to keep; to take it up again the region buffer of its last step has to be kept too.
    #[must_use]
    pub fn numbers(&self) -> Operation {
        self.0
    }

    /// An operation of any numbers, such as [`numbers`](Running::numbers) gave. Each step tests them first, so numbers that something
    /// overwrote are answered by BadCall, or lead to requests within the chip that they name; and numbers of another
    /// [layout](Operation::LAYOUT), kept over an update of the library, are answered by BadCall. Lend it the region buffer that was
    /// kept with them. Two made of the same numbers are two operations: step only one of them.
    pub fn from_numbers(numbers: Operation) -> Running {
        Running(numbers)
    }

    fn of(start: StartNumbers) -> Result<Running, Refusal> {
        match start.refusal {
            0 => Ok(Running(start.op)),
            number => Err(Refusal::of(number, 0)),
        }
    }
}

/// A request by its numbers. The library gives no kind but 1 to 4, that is proved of it; any other is an answer, [`Refusal::UnknownKind`]
/// with the number of the kind.
impl From<RequestNumbers> for Request {
    #[inline]
    fn from(numbers: RequestNumbers) -> Request {
        match numbers.kind {
            1 => Request::Read { region: numbers.region },
            2 => Request::Write { from: numbers.from, to: numbers.to, place: numbers.place },
            3 => Request::Erase { region: numbers.region },
            4 => Request::Answer(numbers.answer.answer()),
            kind => Request::Answer(Err(Refusal::UnknownKind(kind))),
        }
    }
}
