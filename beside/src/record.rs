//! A fixed list of the crate's own answers, as plain text for a program in any
//! language. One call a line, eight numbers:
//!
//!   op key length seed number value buffer image
//!
//! op 0 is a new blank chip (key holds S, length N), 1 get, 2 append,
//! 3 invalidate, 4 zeroise, 5 collect, 6 initialise, 9 the end of the list.
//! length is get's buffer's or append's value's; both start as
//! pattern(seed)[i] = (seed + 7 i) mod 256. number is 0 or R6's
//! number of the refusal; value the length that get names, the bytes that
//! collect freed, or 1 for an initialise that wrote; buffer and image are
//! checksums of get's whole buffer and of the whole image after the call.

use crate::choose::{Habit, STRETCH};
use crate::crate_side::{self, Seen};
use crate::domain::touches;
use crate::prng::Prng;
use crate::straight::{checksum, Answer, Call, Outcome, Refusal};

const CHIPS: [(usize, usize); 27] = [
    (64, 1),
    (64, 2),
    (64, 4),
    (64, 64),
    (65, 3),
    (79, 5),
    (80, 2),
    (80, 7),
    (96, 8),
    (128, 4),
    (128, 64),
    (255, 3),
    (255, 33),
    (256, 4),
    (256, 16),
    (256, 63),
    (500, 5),
    (512, 2),
    (512, 16),
    (1000, 3),
    (1024, 4),
    (1024, 16),
    (2048, 8),
    (4095, 1),
    (4095, 4),
    (4096, 1),
    (4096, 4),
];

const CALLS_A_CHIP: usize = 148;

pub fn pattern(seed: u64, length: usize) -> Vec<u8> {
    (0..length as u64).map(|i| ((seed + 7 * i) % 256) as u8).collect()
}

/// The columns `number` and `value` for an answer.
fn columns(outcome: Outcome) -> (u8, usize) {
    match outcome {
        Ok(Answer::Complete(length)) => (0, length),
        Ok(Answer::Freed(bytes)) => (0, bytes),
        Ok(Answer::Written) => (0, 0),
        Err(Refusal::BufferTooSmall(full)) => (9, full),
        Err(why) => (why.number(), 0),
    }
}

/// One call on the crate, and its line; None if a line of docs/DIFFERENCES.md
/// touches it, and then it is not made.
fn line(
    image: &mut [u8],
    s: usize,
    n: usize,
    call: Call,
    buffer_len: usize,
    seed: u64,
) -> Option<String> {
    let lent = match call {
        Call::Append { value, .. } => value.len(),
        _ => buffer_len,
    };
    let value = pattern(seed, lent);
    let call = match call {
        Call::Append { key, .. } => Call::Append { key, value: &value },
        other => other,
    };
    if touches(image, s, n, call).is_some() {
        return None;
    }
    let mut buffer = pattern(seed, buffer_len);
    let Seen::Answered(outcome) = crate_side::run(image, s, call, &mut buffer) else {
        panic!("the crate left the domain at {call:?}");
    };
    let (number, mut shown) = columns(outcome);
    let is_get = matches!(call, Call::Get { .. });
    if matches!(call, Call::Initialise { .. }) && outcome == Ok(Answer::Written) {
        shown = 1;
    }
    let sum = if is_get { checksum::of(&buffer) } else { 0 };
    let op = call.number() + 1;
    let key = call.key().unwrap_or(0);
    Some(format!("{op} {key} {lent} {seed} {number} {shown} {sum} {}", checksum::of(image)))
}

fn chip(rng: &mut Prng, s: usize, n: usize, stretch: &[u8]) {
    println!("0 {s} {n} 0 0 0 0 0");
    let mut image = vec![255; s * n];
    let mut habit = Habit::new(rng, s, n);
    let mut written = 0;
    while written < CALLS_A_CHIP {
        if rng.one_in(50) {
            habit = Habit::new(rng, s, n);
        }
        let (call, buffer_len) = habit.next(rng, stretch, &image, s, n);
        let seed = match call {
            Call::Get { .. } | Call::Append { .. } => rng.below(256) as u64,
            _ => 0,
        };
        if let Some(text) = line(&mut image, s, n, call, buffer_len, seed) {
            println!("{text}");
            written += 1;
        }
    }
}

pub fn run() {
    let mut rng = Prng::new(2_001);
    let stretch = rng.bytes(STRETCH);
    for (s, n) in CHIPS {
        chip(&mut rng, s, n, &stretch);
    }
    println!("9 0 0 0 0 0 0 0");
}
