//! Which images are well-formed.

use super::walk::{records, Record, CHECKSUM};
use super::{checksum, geometry, key_allowed};

pub const LONGEST: usize = 4_094;

fn checksum_right(region: &[u8], r: &Record) -> bool {
    let last = r.o + r.length - CHECKSUM;
    checksum::of(&region[r.o..last]).to_le_bytes() == region[last..r.o + r.length]
}

fn record_good(region: &[u8], r: &Record) -> bool {
    (r.flags == 8 || r.flags == 0)
        && r.length <= LONGEST
        && (!r.live || (key_allowed(r.key) && checksum_right(region, r)))
}

pub fn well_formed(image: &[u8], s: usize, n: usize) -> bool {
    if geometry(image, s, n).is_err() {
        return false;
    }
    let mut live = Vec::new();
    for region in image.chunks(s) {
        let seen = records(region);
        let blank_after = region[seen.end..].iter().all(|b| *b == 255);
        if seen.bad.is_some() || !blank_after {
            return false;
        }
        if !seen.records.iter().all(|r| record_good(region, r)) {
            return false;
        }
        live.extend(seen.records.iter().filter(|r| r.live).map(|r| r.key));
    }
    live.sort_unstable();
    live.windows(2).all(|w| w[0] != w[1])
}
