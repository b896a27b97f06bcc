//! Inputs for the program `list` that hold a chip, or nearly: records laid one
//! behind the other, damage, random bytes, and first lines and lengths that are
//! wrong by a little.

use crate::images::{self, Kind};
use crate::list_text::MOST;
use crate::prng::Prng;
use crate::straight::{self, checksum, records, FRAME};

/// The first line, and the bytes behind it.
pub fn input(s: usize, n: usize, image: &[u8]) -> Vec<u8> {
    with_line(&format!("{s} {n}\n"), image)
}

pub fn with_line(line: &str, image: &[u8]) -> Vec<u8> {
    [line.as_bytes(), image].concat()
}

/// Any geometry that the program takes, small ones most.
fn geometry(rng: &mut Prng) -> (usize, usize) {
    match rng.below(40) {
        0 => rng.pick(&[(64, 1), (64, 64), (1_024, 64), (4_096, 1), (4_096, 16), (3_855, 17)]),
        1 => {
            let s = 64 + rng.below(4_033);
            (s, 1 + rng.below((MOST / s).min(64)))
        }
        2..=4 => (4_080 + rng.below(17), 1 + rng.below(3)),
        5..=7 => (64 + rng.below(30), 20 + rng.below(45)),
        _ => (64 + rng.below(200), 1 + rng.below(6)),
    }
}

/// Every digit at every place, and any number of leading zeros.
fn key(rng: &mut Prng) -> u64 {
    match rng.below(8) {
        0 => rng.pick(&[0, 1, 9, 10, 0x0123_4567_89ab_cdef, 0xfedc_ba98_7654_3210, u64::MAX]),
        _ => rng.next() >> rng.below(64),
    }
}

/// A length of 15 to `left`: the least, all that is left, all but 1 to 14 bytes, or any.
fn length(rng: &mut Prng, left: usize) -> usize {
    let length = match rng.below(10) {
        0 | 1 => FRAME,
        2 => left,
        3 => left - 1 - rng.below(14).min(left - 1),
        4 => FRAME + rng.below(left - FRAME + 1),
        _ => FRAME + rng.below((left - FRAME + 1).min(40)),
    };
    length.clamp(FRAME, 4_095)
}

/// A record that is live or dead, zeroised, or has a wrong checksum or odd flags.
fn record(rng: &mut Prng, length: usize) -> Vec<u8> {
    let high = (length >> 8) as u8;
    let mut bytes = vec![1, 0x80 | high, length as u8];
    bytes.extend(key(rng).to_be_bytes());
    bytes.extend(rng.bytes(length - FRAME));
    bytes.extend(checksum::of(&bytes).to_le_bytes());
    match rng.below(8) {
        0 | 1 => bytes[1] = high,
        2 => {
            bytes[1] = high;
            bytes[11..].fill(0);
        }
        3 => bytes[length - 1 - rng.below(4)] ^= 1 << rng.below(8),
        4 => bytes[1] = (rng.below(16) << 4) as u8 | high,
        _ => {}
    }
    bytes
}

/// Records as they come, in regions that are seldom their keys' own. What follows
/// the last is blank, or has a blank first byte and anything behind it; fewer than
/// 15 bytes may hold anything.
fn laid(rng: &mut Prng, s: usize, n: usize) -> Vec<u8> {
    let mut image = vec![255; s * n];
    for region in image.chunks_mut(s) {
        let mut o = 0;
        while s - o >= FRAME && !rng.one_in(12) {
            let length = length(rng, s - o);
            region[o..o + length].copy_from_slice(&record(rng, length));
            o += length;
        }
        if rng.one_in(3) {
            let from = if s - o < FRAME { o } else { o + 1 };
            let tail = rng.bytes(s - from);
            region[from..].copy_from_slice(&tail);
        }
    }
    image
}

/// One of the three bytes by which a walk goes on, at a record or where one would follow.
fn strike(rng: &mut Prng, image: &mut [u8], s: usize) {
    let r = rng.below(image.len() / s);
    let seen = records(&image[r * s..][..s]);
    let mut places: Vec<usize> = seen.records.iter().map(|record| record.o).collect();
    places.push(seen.end.min(s - 1));
    let at = r * s + rng.pick(&places);
    match rng.below(6) {
        0 => image[at] = rng.pick(&[0, 2, 3, 128, 129, 254, 255]),
        1 => image[at] = rng.next() as u8,
        2 => image[(at + 1).min(r * s + s - 1)] ^= 1 << rng.below(8),
        3 => image[(at + 2).min(r * s + s - 1)] ^= 1 << rng.below(8),
        // A length of 0, 14, 15, of all that is left, and of one more.
        _ if at + FRAME <= r * s + s => {
            let left = r * s + s - at;
            let length = rng.pick(&[0, 14, 15, left, left + 1, 4_095]).min(4_095);
            image[at + 1] = image[at + 1] & 0xf0 | (length >> 8) as u8;
            image[at + 2] = length as u8;
        }
        _ => {
            let any = rng.below(image.len());
            image[any] = rng.next() as u8;
        }
    }
}

fn struck(rng: &mut Prng, s: usize, n: usize) -> Vec<u8> {
    if rng.one_in(3) {
        return images::make(rng, Kind::SeveralBytes, s, n);
    }
    let mut image = laid(rng, s, n);
    (0..1 + rng.below(4)).for_each(|_| strike(rng, &mut image, s));
    image
}

/// Bytes of few values, so that a record stands where only chance put it.
fn random(rng: &mut Prng, s: usize, n: usize) -> Vec<u8> {
    match rng.below(4) {
        0 => rng.bytes(s * n),
        1 => vec![rng.next() as u8; s * n],
        _ => (0..s * n).map(|_| rng.pick(&[1, 1, 1, 1, 0, 15, 16, 17, 128, 255])).collect(),
    }
}

/// A chip whose first line is changed in one byte or two. Some are still good.
fn changed_line(rng: &mut Prng) -> Vec<u8> {
    let (s, n) = (rng.pick(&[64, 100, 110, 640]), rng.pick(&[1, 2, 6, 10, 11]));
    let image = laid(rng, s, n);
    let mut line = format!("{s} {n}\n").into_bytes();
    for _ in 0..1 + rng.below(2) {
        let (at, byte) =
            (rng.below(line.len()), rng.pick(b"00123456789 \n\r\t+-.,;:/xA_\0\x0b\xa0\xff"));
        match rng.below(4) {
            0 => line[at] = byte,
            1 if line.len() > 1 => {
                line.remove(at);
            }
            _ => line.insert(at, byte),
        }
    }
    [line, image].concat()
}

/// A chip cut short anywhere, or with more behind it. A few are left as they are.
fn changed_length(rng: &mut Prng) -> Vec<u8> {
    let (s, n) = geometry(rng);
    let mut bytes = input(s, n, &laid(rng, s, n));
    match rng.below(8) {
        0 => bytes.truncate(rng.below(10)),
        1 => bytes.truncate(rng.below(bytes.len())),
        2 | 3 => bytes.truncate(bytes.len() - 1),
        4 | 5 => bytes.push(rng.pick(&[255, 10, 0, 1])),
        6 => {
            let more = 1 + rng.below(3 * s);
            bytes.extend(rng.bytes(more));
        }
        _ => {}
    }
    bytes
}

/// A kind of input: its name, how many of a thousand are of it, and one by a seed.
pub struct Sort {
    pub name: &'static str,
    pub share: usize,
    pub make: fn(&mut Prng) -> Vec<u8>,
}

fn of(rng: &mut Prng, image: fn(&mut Prng, usize, usize) -> Vec<u8>) -> Vec<u8> {
    let (s, n) = geometry(rng);
    input(s, n, &image(rng, s, n))
}

pub const SORTS: [Sort; 8] = [
    Sort {
        name: "blank",
        share: 10,
        make: |rng| of(rng, |rng, s, n| images::make(rng, Kind::Blank, s, n)),
    },
    Sort {
        name: "well-formed",
        share: 150,
        make: |rng| of(rng, |rng, s, n| images::make(rng, Kind::WellFormed, s, n)),
    },
    Sort { name: "laid", share: 200, make: |rng| of(rng, laid) },
    Sort { name: "damaged", share: 250, make: |rng| of(rng, struck) },
    Sort {
        name: "edges",
        share: 150,
        make: |rng| of(rng, |rng, s, n| images::make(rng, Kind::EdgeRecords, s, n)),
    },
    Sort { name: "random", share: 80, make: |rng| of(rng, random) },
    Sort { name: "another first line", share: 100, make: changed_line },
    Sort { name: "another length", share: 60, make: changed_length },
];

/// Every region full of the shortest records, as many as there is room for.
pub fn full(s: usize, n: usize) -> Vec<u8> {
    let mut image = vec![255; s * n];
    let mut key = 0;
    for region in image.chunks_mut(s) {
        for place in region.chunks_exact_mut(FRAME) {
            key += 1;
            let mut bytes = vec![1, 0x80, FRAME as u8];
            bytes.extend(u64::to_be_bytes(key));
            bytes.extend(checksum::of(&bytes).to_le_bytes());
            place.copy_from_slice(&bytes);
        }
    }
    image
}

/// The chip of docs/chip.img, which README shows: see there what is done to it.
pub fn shown_chip() -> Vec<u8> {
    let mut image = vec![255; 256];
    let chip = &mut image[..];
    let done = [
        straight::append(chip, 64, 4, 1, &[7, 8, 9]),
        straight::append(chip, 64, 4, 5, &[7; 40]),
        straight::append(chip, 64, 4, 3, b"R1.1 G1 B0.9"),
        straight::invalidate(chip, 64, 4, 3),
        straight::append(chip, 64, 4, 3, b"R1.125 G1.00 B0.88"),
    ];
    assert!(done.iter().all(|answer| *answer == Ok(straight::Answer::Written)));
    image
}
