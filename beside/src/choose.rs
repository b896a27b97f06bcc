//! Which calls a history makes: keys from a small pool, lengths around every
//! boundary, buffers short, exact and long.

use crate::domain::{free, stored};
use crate::prng::Prng;
use crate::straight::walk::Record;
use crate::straight::{probe, records, Call, FRAME};

/// Values and prefilled buffers are parts of one random stretch.
pub const STRETCH: usize = 16_384;

pub struct Habit {
    keys: Vec<u64>,
    /// Weights of the six operations, in their order.
    weights: [usize; 6],
    /// Longest value of an everyday append.
    everyday: usize,
}

/// Keys that share a few homes make spills; keys of any home fill evenly.
fn keys(rng: &mut Prng, n: usize) -> Vec<u64> {
    let count = 2 + rng.below(3 * n + 12);
    let homes = 1 + rng.below(n);
    let narrow = rng.one_in(2);
    (0..count)
        .map(|_| {
            let low = if narrow { rng.below(homes) as u64 } else { rng.next() & 0xffff };
            let high = if rng.one_in(3) { 0 } else { rng.next() & !0xffff };
            (high | low).clamp(1, u64::MAX - 1)
        })
        .collect()
}

fn live_keys(region: &[u8]) -> Vec<u64> {
    records(region).records.iter().filter(|r| r.live).map(|r| r.key).collect()
}

impl Habit {
    pub fn new(rng: &mut Prng, s: usize, n: usize) -> Habit {
        let weights = rng.pick(&[
            [30, 40, 10, 10, 6, 2],
            [20, 60, 5, 4, 2, 1],
            [40, 25, 14, 14, 6, 1],
            [30, 30, 20, 2, 10, 0],
            [20, 40, 8, 24, 6, 4],
        ]);
        let everyday = rng.pick(&[3, 20, 40, s / 4, s / 2, s]);
        Habit { keys: keys(rng, n), weights, everyday: everyday.min(4_079) }
    }

    fn key(&self, rng: &mut Prng) -> u64 {
        if rng.one_in(150) {
            return rng.pick(&[0, u64::MAX]);
        }
        if rng.one_in(40) {
            return rng.next();
        }
        rng.pick(&self.keys)
    }

    /// A key to look up: half of them are live somewhere, if any is.
    fn sought(&self, rng: &mut Prng, image: &[u8], s: usize, n: usize) -> u64 {
        if rng.one_in(2) {
            let region = rng.below(n);
            let live = live_keys(&image[region * s..][..s]);
            if !live.is_empty() {
                return rng.pick(&live);
            }
        }
        self.key(rng)
    }

    /// Half of the time a key that is live without a value, if there is one,
    /// so that an initialise leaves some chips alone.
    fn main_key(&self, rng: &mut Prng, image: &[u8], s: usize, other: u64) -> u64 {
        let bare = |r: &Record| r.live && r.length == FRAME;
        let found =
            image.chunks(s).find_map(|region| records(region).records.into_iter().find(bare));
        match found {
            Some(record) if rng.one_in(2) => record.key,
            _ if rng.one_in(3) => other,
            _ => self.keys[0],
        }
    }

    /// A length that fits one of the first regions of the key's probe exactly,
    /// or misses by up to five bytes either way.
    fn edge(rng: &mut Prng, image: &[u8], s: usize, n: usize, key: u64) -> usize {
        let at = rng.below(n.min(3));
        let region = probe(key, n).nth(at).expect("the probe has every region");
        let exact = free(image, s, region) as isize - FRAME as isize;
        (exact + rng.below(11) as isize - 5).max(0) as usize
    }

    fn length(&self, rng: &mut Prng, image: &[u8], s: usize, n: usize, key: u64) -> usize {
        match rng.below(20) {
            0 => 0,
            1 => 1,
            2 => rng.below(s + 8),
            3 if s >= 2048 || rng.one_in(8) => {
                rng.pick(&[4_078, 4_079, 4_080, 4_081, 4_095, 5_000])
            }
            3..=6 => Self::edge(rng, image, s, n, key),
            _ => rng.below(self.everyday + 1),
        }
    }

    fn buffer(rng: &mut Prng, image: &[u8], s: usize, n: usize, key: u64) -> usize {
        let full = stored(image, s, n, key).unwrap_or(5);
        match rng.below(8) {
            0 => 0,
            1 => full.saturating_sub(1),
            2 => rng.below(full + 1),
            3 => full + 1 + rng.below(20),
            _ => full,
        }
    }

    /// The next call, and the length of get's buffer.
    pub fn next<'a>(
        &self,
        rng: &mut Prng,
        stretch: &'a [u8],
        image: &[u8],
        s: usize,
        n: usize,
    ) -> (Call<'a>, usize) {
        let mut turn = rng.below(self.weights.iter().sum());
        let mut op = 0;
        while turn >= self.weights[op] {
            turn -= self.weights[op];
            op += 1;
        }
        let key =
            if matches!(op, 0 | 2 | 3) { self.sought(rng, image, s, n) } else { self.key(rng) };
        let call = match op {
            0 => return (Call::Get { key }, Self::buffer(rng, image, s, n, key)),
            1 => {
                let length = self.length(rng, image, s, n, key);
                let from = rng.below(STRETCH - length);
                Call::Append { key, value: &stretch[from..from + length] }
            }
            2 => Call::Invalidate { key },
            3 => Call::Zeroise { key },
            4 => Call::Collect,
            _ => Call::Initialise { key: self.main_key(rng, image, s, key) },
        };
        (call, 0)
    }
}
