//! What somebody does about a chip by the flash's own commands, and looks at by the walk: the recipes of docs/WORKSHOP.md.
use super::walk::{live_and_right, walk};

/// A write by the flash's own commands: it ANDs.
pub fn write(chip: &mut [u8], place: usize, bytes: &[u8]) {
    chip[place..].iter_mut().zip(bytes).for_each(|(old, new)| *old &= new);
}

/// The three bytes that make whatever a cut append of this length left a dead record.
pub fn three(length: usize) -> [u8; 3] {
    [1, (length / 256) as u8, (length % 256) as u8]
}

pub fn is_blank(bytes: &[u8]) -> bool {
    bytes.iter().all(|&byte| byte == 255)
}

/// The records of a region: place and length.
pub fn records(region: &[u8]) -> Vec<(usize, usize)> {
    let mut records = Vec::new();
    walk(region, |place, length| records.push((place, length)));
    records
}

/// The places of a region's live records whose checksum is wrong.
pub fn false_places(region: &[u8]) -> Vec<usize> {
    let is_false = |&(place, length): &(usize, usize)| live_and_right(&region[place..place + length]) == (true, false);
    records(region).into_iter().filter(is_false).map(|(place, _)| place).collect()
}

/// After a loss of power, region by region: one byte for each live record whose checksum is wrong; three for a bad place, and where
/// something stands behind the free one. Where only the first two bytes of a bad place are written, the length that the record was to
/// have is not needed.
pub fn mend(chip: &mut [u8], s: usize, length: usize) {
    for region in chip.chunks_mut(s) {
        false_places(region).into_iter().for_each(|place| write(region, place + 1, &[127]));
        let (place, bad) = walk(region, |_, _| ());
        if bad || !is_blank(&region[place..]) {
            let length = if bad && is_blank(&region[place + 2..]) { 15 } else { length };
            write(region, place, &three(length));
        }
    }
}

/// No bad place, no live record whose checksum is wrong, and nothing behind the free place.
pub fn is_mended(chip: &[u8], s: usize) -> bool {
    chip.chunks(s).all(|region| {
        let (place, bad) = walk(region, |_, _| ());
        !bad && false_places(region).is_empty() && is_blank(&region[place..])
    })
}

/// Whether a value of this length has room somewhere, by the walk.
pub fn has_room(chip: &[u8], s: usize, length: usize) -> bool {
    chip.chunks(s).any(|region| {
        let (place, bad) = walk(region, |_, _| ());
        !bad && s - place >= length + 15
    })
}

/// A key's record, as it stands wherever it is written: made on a blank image of one region.
pub fn record_of(s: usize, key: u64, value: &[u8]) -> Vec<u8> {
    let mut blank = vec![255; s];
    assert!(stilefray::image::append_key(&mut blank, s, 1, key, value).is_ok());
    blank.truncate(value.len() + 15);
    blank
}

/// Numbers that look like chance, the same at every run.
pub struct Dice(pub u64);

impl Dice {
    pub fn next(&mut self) -> u64 {
        self.0 ^= self.0 << 13;
        self.0 ^= self.0 >> 7;
        self.0 ^= self.0 << 17;
        self.0
    }
}
