//! Our store, by the one-call form of its Rust crate, in the straight version's terms.

use crate::straight::{Answer, Call, Outcome, Refusal};
use stilefray::image;

/// A failed service is one, whatever is known of it.
pub fn refusal<F>(r: stilefray::Refusal<F>) -> Refusal {
    use stilefray::Refusal as R;
    match r {
        R::BadGeometry => Refusal::BadGeometry,
        R::BadKey => Refusal::BadKey,
        R::ObjectTooLarge => Refusal::ObjectTooLarge,
        R::KeyNotFound => Refusal::KeyNotFound,
        R::KeyAlreadyExists => Refusal::KeyAlreadyExists,
        R::FlashFull => Refusal::FlashFull,
        R::UnsupportedVersion => Refusal::UnsupportedVersion,
        R::CorruptData => Refusal::CorruptData,
        R::BufferTooSmall(full) => Refusal::BufferTooSmall(full),
        R::InvalidCheckSum => Refusal::InvalidCheckSum,
        R::BadCall => Refusal::BadCall,
        R::FlashFailed(_) => Refusal::FlashFailed,
        other => panic!("the library gave number {}, which is none of the twelve", other.number()),
    }
}

pub fn outcome<F>(answer: stilefray::Answer<F>) -> Outcome {
    use stilefray::Success as Y;
    match answer {
        Ok(Y::Complete(length)) => Ok(Answer::Complete(length)),
        Ok(Y::Written) => Ok(Answer::Written),
        Ok(Y::Freed(bytes)) => Ok(Answer::Freed(bytes)),
        Err(why) => Err(refusal(why)),
    }
}

pub fn length(r: Result<usize, stilefray::Refusal>) -> Outcome {
    r.map(Answer::Complete).map_err(refusal)
}

pub fn freed(r: Result<usize, stilefray::Refusal>) -> Outcome {
    r.map(Answer::Freed).map_err(refusal)
}

pub fn written(r: Result<(), stilefray::Refusal>) -> Outcome {
    r.map(|()| Answer::Written).map_err(refusal)
}

pub fn run(chip: &mut [u8], s: usize, n: usize, call: Call, buffer: &mut [u8]) -> Outcome {
    match call {
        Call::Get { key } => length(image::get_key(chip, s, n, key, buffer)),
        Call::Append { key, value } => written(image::append_key(chip, s, n, key, value)),
        Call::Invalidate { key } => written(image::invalidate_key(chip, s, n, key)),
        Call::Zeroise { key } => written(image::zeroise_key(chip, s, n, key)),
        Call::Collect => freed(image::garbage_collect(chip, s, n)),
        Call::Initialise { key } => outcome(image::initialise(chip, s, n, key)),
    }
}
