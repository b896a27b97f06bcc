//! The same lines by the archive's own call, one place after the other. The
//! declaration is written from the header, not taken from the Rust crate.

use crate::list_text::{HEADER, REFUSED};
use crate::straight::{checksum, FRAME, HEADER as BEFORE_VALUE};

#[derive(Clone, Copy, PartialEq, Eq, Debug)]
#[repr(C)]
struct Place {
    region: usize,
    place: usize,
}

#[derive(Clone, Copy, PartialEq, Eq, Debug)]
#[repr(C)]
struct Entry {
    kind: u32,
    refusal: u32,
    live: u32,
    checksum_right: u32,
    key: u64,
    value_place: usize,
    value_len: usize,
    next: Place,
}

extern "C" {
    fn stilefray_record_at(
        image: *const u8,
        image_len: usize,
        s: usize,
        n: usize,
        region: usize,
        place: usize,
    ) -> Entry;
}

fn record_at(image: &[u8], s: usize, n: usize, at: Place) -> Entry {
    // SAFETY: the call reads no byte but those of `image`, and keeps none.
    unsafe { stilefray_record_at(image.as_ptr(), image.len(), s, n, at.region, at.place) }
}

const REFUSED_CHIP: u32 = 0;
const RECORD: u32 = 1;
const ENDS: u32 = 2;
const BAD: u32 = 3;
const OVER: u32 = 4;

/// The line of a record, if what the text does not show of it is right too: where
/// the value lies, whether the checksum is that of the bytes, and where to go on.
fn line(image: &[u8], s: usize, at: Place, entry: Entry) -> Option<String> {
    let start = at.region * s + at.place;
    let sum = start + entry.value_len + BEFORE_VALUE;
    let right = image.get(sum..sum + 4)? == checksum::of(&image[start..sum]).to_le_bytes();
    let next = Place { region: at.region, place: at.place + entry.value_len + FRAME };
    let agrees = entry.value_place == start + BEFORE_VALUE
        && entry.checksum_right == u32::from(right)
        && entry.live < 2
        && entry.refusal == 0
        && entry.next == next;
    let state = ["dead", "live"][entry.live as usize % 2];
    agrees.then(|| {
        format!("{} {} {state} {:016x} {}\n", at.region, at.place, entry.key, entry.value_len)
    })
}

/// Of a bad place: UnsupportedVersion by its first byte, or else CorruptData.
fn refusal(image: &[u8], s: usize, at: Place) -> u32 {
    match image[at.region * s + at.place] {
        1 => 8,
        _ => 7,
    }
}

/// The text of an image, or what the call said that cannot be.
pub fn text(image: &[u8], s: usize, n: usize) -> Result<String, String> {
    let mut text = String::from(HEADER);
    let mut at = Place { region: 0, place: 0 };
    // A call for each record, for each region's end, and the last.
    for _ in 0..image.len() / FRAME + n + 1 {
        let entry = record_at(image, s, n, at);
        let wrong = || format!("record_at at {at:?}: {entry:?}");
        let next_region = Place { region: at.region + 1, place: 0 };
        match entry.kind {
            RECORD => text += &line(image, s, at, entry).ok_or_else(wrong)?,
            ENDS if entry.next == next_region => {}
            BAD if entry.next == next_region && entry.refusal == refusal(image, s, at) => {
                return Ok(format!("{text}bad {} {}\n", at.region, at.place));
            }
            OVER if entry.next == at && at == (Place { region: n, place: 0 }) => return Ok(text),
            REFUSED_CHIP if entry.next == at && entry.refusal == 1 => {
                return Ok(REFUSED.to_string())
            }
            _ => return Err(wrong()),
        }
        at = entry.next;
    }
    Err(format!("record_at: a pass does not end, and is at {at:?}"))
}
