//! Images of every kind: blank, well-formed, damaged, random bytes, and
//! records with their lengths, flags and versions at the edges.

use crate::prng::Prng;
use crate::straight::{self, checksum, records, FRAME, HEADER};

#[derive(Clone, Copy, PartialEq, Eq, Debug)]
pub enum Kind {
    Blank,
    WellFormed,
    OneByte,
    SeveralBytes,
    RandomBytes,
    EdgeRecords,
}

pub const KINDS: [Kind; 6] = [
    Kind::Blank,
    Kind::WellFormed,
    Kind::OneByte,
    Kind::SeveralBytes,
    Kind::RandomBytes,
    Kind::EdgeRecords,
];

/// Keys that all kinds share, so that calls meet the records.
pub const KEYS: [u64; 14] =
    [1, 2, 3, 4, 5, 8, 9, 65_535, 65_536, 65_537, 0x0102_0304_0506_0708, u64::MAX - 1, 0, u64::MAX];

pub fn key(rng: &mut Prng) -> u64 {
    // The two forbidden ones stand last and come seldom.
    let bound = if rng.one_in(20) { KEYS.len() } else { KEYS.len() - 2 };
    KEYS[rng.below(bound)]
}

fn well_formed(rng: &mut Prng, s: usize, n: usize) -> Vec<u8> {
    let mut image = vec![255; s * n];
    for _ in 0..4 + rng.below(3 * n + 6) {
        let key = key(rng);
        let _ = match rng.below(6) {
            0 => straight::invalidate(&mut image, s, n, key),
            1 => straight::zeroise(&mut image, s, n, key),
            2 => append_filling(rng, &mut image, s, n, key),
            _ => {
                let length = rng.below(s / 3);
                let value = rng.bytes(length);
                straight::append(&mut image, s, n, key, &value)
            }
        };
    }
    image
}

/// A value that leaves few bytes or none behind it in a blank region.
fn append_filling(
    rng: &mut Prng,
    image: &mut [u8],
    s: usize,
    n: usize,
    key: u64,
) -> straight::Outcome {
    let length = (s - FRAME - rng.below(20)).min(4_079);
    let value = rng.bytes(length);
    straight::append(image, s, n, key, &value)
}

/// A place to damage: half of the time in a record's header or checksum.
fn weak_place(rng: &mut Prng, image: &[u8], s: usize) -> usize {
    let r = rng.below(image.len() / s);
    let seen = records(&image[r * s..][..s]);
    if rng.one_in(2) || seen.records.is_empty() {
        return match rng.below(3) {
            0 => r * s + (seen.end + rng.below(FRAME)).min(s - 1),
            _ => rng.below(image.len()),
        };
    }
    let record = seen.records[rng.below(seen.records.len())];
    let at = match rng.below(3) {
        0 => rng.below(3),
        1 => rng.below(HEADER),
        _ => record.length - 1 - rng.below(4),
    };
    r * s + record.o + at
}

fn damage(rng: &mut Prng, image: &mut [u8], s: usize) {
    let at = weak_place(rng, image, s);
    image[at] = match rng.below(5) {
        0 => image[at] ^ (1 << rng.below(8)),
        1 => rng.pick(&[0, 1, 2, 14, 15, 0x80, 0x8f, 254, 255]),
        2 => image[at].wrapping_add(1),
        3 => image[at].wrapping_sub(1),
        _ => rng.next() as u8,
    };
}

fn edge_length(rng: &mut Prng, left: usize) -> usize {
    match rng.below(14) {
        0 => 0,
        1 => 1 + rng.below(13),
        2 => 14,
        3 => FRAME,
        4 => left,
        5 => left + 1,
        6 => left.saturating_sub(rng.below(16)),
        7 => 4_094,
        8 => 4_095,
        _ => FRAME + rng.below(left.min(60)),
    }
    .min(4_095)
}

/// One record at `o`, of whatever length it says, its bytes cut at the end.
fn put_record(rng: &mut Prng, region: &mut [u8], o: usize) -> usize {
    let left = region.len() - o;
    let length = edge_length(rng, left);
    let flags = if rng.one_in(2) { rng.pick(&[0, 8]) } else { rng.below(16) };
    let version = if rng.one_in(12) { rng.pick(&[0, 2, 255]) } else { 1 };
    let mut record = vec![version, (flags << 4 | length >> 8) as u8, length as u8];
    record.extend(key(rng).to_be_bytes());
    let value = length.saturating_sub(FRAME);
    record.extend(rng.bytes(value));
    let mut sum = checksum::of(&record);
    if rng.one_in(4) {
        sum ^= 1 << rng.below(32);
    }
    record.extend(sum.to_le_bytes());
    let fits = record.len().min(left);
    region[o..o + fits].copy_from_slice(&record[..fits]);
    o + length.max(FRAME)
}

fn edge_records(rng: &mut Prng, s: usize, n: usize) -> Vec<u8> {
    let mut image = vec![255; s * n];
    for region in image.chunks_mut(s) {
        let mut o = 0;
        for _ in 0..rng.below(6) {
            if o + FRAME <= s {
                o = put_record(rng, region, o);
            }
        }
        if rng.one_in(6) {
            let at = rng.below(s);
            region[at] = rng.next() as u8;
        }
    }
    image
}

pub fn make(rng: &mut Prng, kind: Kind, s: usize, n: usize) -> Vec<u8> {
    match kind {
        Kind::Blank => vec![255; s * n],
        Kind::WellFormed => well_formed(rng, s, n),
        Kind::RandomBytes => rng.bytes(s * n),
        Kind::EdgeRecords => edge_records(rng, s, n),
        Kind::OneByte | Kind::SeveralBytes => {
            let mut image = well_formed(rng, s, n);
            let times = if kind == Kind::OneByte { 1 } else { 2 + rng.below(7) };
            (0..times).for_each(|_| damage(rng, &mut image, s));
            image
        }
    }
}
