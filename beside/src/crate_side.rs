//! The crate, driven over a flash in memory. Each call gets a fresh `TicKV` on
//! the given bytes, so that a read buffer it lost never carries over.

use crate::straight::{Answer, Call, Outcome, Refusal};
use std::cell::RefCell;
use std::panic::{catch_unwind, AssertUnwindSafe};
use std::sync::atomic::{AtomicBool, Ordering};
use tickv::success_codes::SuccessCode;
use tickv::{ErrorCode, FlashController, TicKV};

/// The sizes of region that the harness is compiled for.
pub const SIZES: [usize; 15] =
    [64, 65, 79, 80, 96, 128, 255, 256, 500, 512, 1000, 1024, 2048, 4095, 4096];

/// A synchronous flash: a write is a bitwise AND, an erase makes 255.
pub struct Memory<'a, const S: usize>(pub RefCell<&'a mut [u8]>);

impl<const S: usize> FlashController<S> for Memory<'_, S> {
    fn read_region(&self, region: usize, buffer: &mut [u8; S]) -> Result<(), ErrorCode> {
        buffer.copy_from_slice(&self.0.borrow()[region * S..][..S]);
        Ok(())
    }

    fn write(&self, place: usize, bytes: &[u8]) -> Result<(), ErrorCode> {
        for (old, new) in self.0.borrow_mut()[place..].iter_mut().zip(bytes) {
            *old &= new;
        }
        Ok(())
    }

    fn erase_region(&self, region: usize) -> Result<(), ErrorCode> {
        self.0.borrow_mut()[region * S..][..S].fill(255);
        Ok(())
    }
}

/// What was seen of one call.
#[derive(Clone, PartialEq, Debug)]
pub enum Seen {
    Answered(Outcome),
    /// An error for which R6 has no number.
    Other(ErrorCode),
    Panicked,
}

pub fn error(e: ErrorCode) -> Seen {
    Seen::Answered(Err(match e {
        ErrorCode::UnsupportedVersion => Refusal::UnsupportedVersion,
        ErrorCode::CorruptData => Refusal::CorruptData,
        ErrorCode::InvalidCheckSum => Refusal::InvalidCheckSum,
        ErrorCode::KeyNotFound => Refusal::KeyNotFound,
        ErrorCode::KeyAlreadyExists => Refusal::KeyAlreadyExists,
        ErrorCode::FlashFull => Refusal::FlashFull,
        ErrorCode::ObjectTooLarge => Refusal::ObjectTooLarge,
        ErrorCode::BufferTooSmall(full) => Refusal::BufferTooSmall(full),
        other => return Seen::Other(other),
    }))
}

fn success(code: SuccessCode, length: usize) -> Seen {
    match code {
        SuccessCode::Complete => Seen::Answered(Ok(Answer::Complete(length))),
        SuccessCode::Written => Seen::Answered(Ok(Answer::Written)),
        SuccessCode::Queued => unreachable!("a synchronous flash queues nothing"),
    }
}

/// One call on a given `TicKV`; used twice on the same one to show a lost buffer.
pub fn on<const S: usize>(store: &TicKV<Memory<'_, S>, S>, call: Call, buffer: &mut [u8]) -> Seen {
    let code = match call {
        Call::Get { key } => match store.get_key(key, buffer) {
            Ok((code, length)) => return success(code, length),
            Err(e) => return error(e),
        },
        Call::Collect => match store.garbage_collect() {
            Ok(freed) => return Seen::Answered(Ok(Answer::Freed(freed))),
            Err(e) => return error(e),
        },
        Call::Append { key, value } => store.append_key(key, value),
        Call::Invalidate { key } => store.invalidate_key(key),
        Call::Zeroise { key } => store.zeroise_key(key),
        Call::Initialise { key } => store.initialise(key),
    };
    match code {
        Ok(code) => success(code, 0),
        Err(e) => error(e),
    }
}

/// Whether a panic would be the crate's, to be counted and not printed.
static IN_CRATE: AtomicBool = AtomicBool::new(false);

pub fn is_running() -> bool {
    IN_CRATE.load(Ordering::Relaxed)
}

fn caught(call: impl FnOnce() -> Seen) -> Seen {
    IN_CRATE.store(true, Ordering::Relaxed);
    let seen = catch_unwind(AssertUnwindSafe(call)).unwrap_or(Seen::Panicked);
    IN_CRATE.store(false, Ordering::Relaxed);
    seen
}

fn fresh<const S: usize>(image: &mut [u8], call: Call, buffer: &mut [u8]) -> Seen {
    let mut region = [0; S];
    let size = image.len();
    let store = TicKV::<_, S>::new(Memory(RefCell::new(image)), &mut region, size);
    caught(|| on(&store, call, buffer))
}

macro_rules! by_size {
    ($s:expr, $image:expr, $call:expr, $buffer:expr; $($size:literal)*) => {
        match $s {
            $($size => fresh::<$size>($image, $call, $buffer),)*
            other => panic!("the harness is not compiled for regions of {other} bytes"),
        }
    };
}

pub fn run(image: &mut [u8], s: usize, call: Call, buffer: &mut [u8]) -> Seen {
    by_size!(s, image, call, buffer;
        64 65 79 80 96 128 255 256 500 512 1000 1024 2048 4095 4096)
}

/// A buffer for gets of faults: longer than any value they meet.
pub const FAULT_BUFFER: usize = 64;

fn several<const S: usize>(image: &mut [u8], calls: &[Call], mut say: impl FnMut(Seen)) {
    let mut region = [0; S];
    let size = image.len();
    let store = TicKV::<_, S>::new(Memory(RefCell::new(image)), &mut region, size);
    for call in calls {
        let mut buffer = [0; FAULT_BUFFER];
        say(caught(|| on(&store, *call, &mut buffer)));
    }
}

/// Calls in turn on one and the same `TicKV`.
pub fn in_turn(image: &mut [u8], s: usize, calls: &[Call], say: impl FnMut(Seen)) {
    match s {
        64 => several::<64>(image, calls, say),
        4_096 => several::<4_096>(image, calls, say),
        other => panic!("no fault has regions of {other} bytes"),
    }
}

pub fn shown(seen: &Seen) -> String {
    match seen {
        Seen::Answered(Ok(Answer::Complete(length))) => format!("Complete, {length}"),
        Seen::Answered(Ok(answer)) => format!("{answer:?}"),
        Seen::Answered(Err(why)) => format!("{why:?}"),
        Seen::Other(e) => format!("{e:?}"),
        Seen::Panicked => "panic".to_string(),
    }
}
