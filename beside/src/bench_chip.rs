//! Chips three quarters full for the benchmarks: every record in its home
//! region and no region full or empty, so that the crate finds each key (D1)
//! and looks for an absent one in every region, as we do.

use crate::prng::Prng;
use crate::straight::{self, probe, Answer, FRAME};

pub struct Chip {
    pub s: usize,
    pub n: usize,
    pub length: usize,
    pub image: Vec<u8>,
    /// Keys on the chip, in random order.
    pub present: Vec<u64>,
    /// Keys that are not, also for appends; homes in turn.
    pub absent: Vec<u64>,
}

const KEYS: usize = 512;

/// A key of this home; the high bits make it one of many.
fn key(rng: &mut Prng, home: usize) -> u64 {
    rng.next() << 16 | home as u64
}

pub fn chip(s: usize, n: usize, length: usize) -> Chip {
    let mut rng = Prng::new((s + n + length) as u64);
    let mut image = vec![255; s * n];
    let mut present = Vec::new();
    let value = rng.bytes(length);
    // The nearest whole number of records to three quarters of a region.
    let each = (s * 3 / 4 + (length + FRAME) / 2) / (length + FRAME);
    for home in 0..n {
        for _ in 0..each {
            let key = key(&mut rng, home);
            assert_eq!(straight::append(&mut image, s, n, key, &value), Ok(Answer::Written));
            assert_eq!(probe(key, n).next(), Some(home));
            present.push(key);
        }
    }
    for at in (1..present.len()).rev() {
        let other = rng.below(at + 1);
        present.swap(at, other);
    }
    present.truncate(KEYS);
    let absent = (0..KEYS).map(|index| key(&mut rng, index % n)).collect();
    Chip { s, n, length, image, present, absent }
}
