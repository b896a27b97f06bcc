//! Looking into a chip, timed: a value where it lies against a get of the same
//! key, and a pass over the whole chip against a straight one.

use crate::bench::{each, row, sink};
use crate::bench_chip::Chip;
use crate::straight::checksum;
use crate::straight::walk::{key_at, stand, Stand, CHECKSUM};
use std::time::Instant;
use stilefray::image;

/// A value lent against one copied, both by ours: what the copy costs.
pub fn values(chip: &Chip) {
    let (s, n, length) = (chip.s, chip.n, chip.length);
    let mut buffer = vec![0; length];
    for key in &chip.present {
        image::get_key(&chip.image, s, n, *key, &mut buffer).expect("it is there");
        assert_eq!(image::value(&chip.image, s, n, *key), Ok(&buffer[..]));
    }
    let mut lent = || each(&chip.present, |key| sink(image::value(&chip.image, s, n, key)));
    let mut copied = || each(&chip.present, |key| sink(image::get_key(&chip.image, s, n, key, &mut buffer)));
    row(&format!("value lent, S {s} N {n}, {length} bytes: `value` / one-call get"), &mut lent, &mut copied);
}

/// A pass by a straight walk: the keys, lengths and right checksums, added up.
fn straight_pass(chip: &Chip) -> (usize, u64) {
    let (mut records, mut sum) = (0, 0u64);
    for region in chip.image.chunks(chip.s) {
        let mut o = 0;
        while let Stand::Record { length, live } = stand(region, o) {
            let bytes = &region[o..o + length];
            let (front, end) = bytes.split_at(length - CHECKSUM);
            let right = end == checksum::of(front).to_le_bytes();
            sum = sum.wrapping_add(key_at(region, o)).wrapping_add(length as u64 + live as u64 + right as u64);
            records += 1;
            o += length;
        }
    }
    (records, sum)
}

/// The same by the iterator of ours.
fn our_pass(chip: &Chip) -> (usize, u64) {
    let (mut records, mut sum) = (0, 0u64);
    for record in image::records(&chip.image, chip.s, chip.n).expect("it is a chip") {
        let record = record.expect("no place is bad");
        let length = record.value.len() as u64 + 15;
        sum = sum.wrapping_add(record.key).wrapping_add(length + record.live as u64 + record.checksum_right as u64);
        records += 1;
    }
    (records, sum)
}

/// A pass over the chip, a record's share of it: that it does not grow with
/// the chip is what one walk means.
pub fn passes(chip: &Chip) {
    assert_eq!(our_pass(chip), straight_pass(chip));
    let timed = |pass: fn(&Chip) -> (usize, u64)| {
        move || {
            let start = Instant::now();
            let records = pass(chip).0;
            (start.elapsed(), records)
        }
    };
    let name = format!("a record of a pass, S {} N {}, {} bytes", chip.s, chip.n, chip.length);
    row(&format!("{name}: `records` / straight"), &mut timed(our_pass), &mut timed(straight_pass));
}
