//! The lines of docs/DIFFERENCES.md as a test that a call passes through
//! before it is compared. It looks at the image with the straight version's
//! walk and never runs the crate.

use crate::straight::walk::{key_at, seek, stand, Event, Stand};
use crate::straight::{key_allowed, probe, records, Call, FRAME, HEADER};

#[derive(Clone, Copy, PartialEq, Eq, Debug)]
pub enum Line {
    D1,
    D2,
    D3,
    D4,
    D5,
    D6,
    D7,
    D8,
}

pub const LINES: [Line; 8] =
    [Line::D1, Line::D2, Line::D3, Line::D4, Line::D5, Line::D6, Line::D7, Line::D8];

/// The place where a well-formed region's walk ends.
fn end(region: &[u8]) -> usize {
    let mut o = 0;
    while let Stand::Record { length, .. } = stand(region, o) {
        o += length;
    }
    o
}

/// D1: the crate's lookup goes on from a region only if it is neither full
/// (place + 11 at or past the end) nor empty. Where no region decides, both
/// say KeyNotFound, so only a live record behind such a region is touched.
/// D5 is asked of the record where there is one.
fn lookup(image: &[u8], s: usize, n: usize, key: u64, zeroise: bool) -> Option<Line> {
    let mut stopped = false;
    for r in probe(key, n) {
        match seek(&image[r * s..][..s], key) {
            Event::Live { .. } if stopped => return Some(Line::D1),
            Event::Live { o, length } => {
                let behind = s - (o + length);
                return (zeroise && behind < HEADER).then_some(Line::D5);
            }
            Event::End { o } => stopped |= o == 0 || o + HEADER >= s,
            Event::Bad(_) => unreachable!("the image is well-formed"),
        }
    }
    None
}

/// The crate takes the first region with o + 11 + length below S. A live
/// record of the key up to that region is met by both; one behind it only by
/// us (D1). With no live record, a place that lacks some of the four checksum
/// bytes is D3. The crate's room holds ours, so with none both say FlashFull.
fn append(image: &[u8], s: usize, n: usize, key: u64, length: usize) -> Option<Line> {
    let mut taken = None;
    for r in probe(key, n) {
        match seek(&image[r * s..][..s], key) {
            Event::Live { .. } => return taken.map(|_| Line::D1),
            Event::End { o } if taken.is_none() && o + HEADER + length < s => taken = Some(o),
            Event::End { .. } => {}
            Event::Bad(_) => unreachable!("the image is well-formed"),
        }
    }
    taken.filter(|o| o + FRAME + length > s).map(|_| Line::D3)
}

/// The line that touches a call on a well-formed image, if any.
pub fn touches(image: &[u8], s: usize, n: usize, call: Call) -> Option<Line> {
    if call.key().is_some_and(|key| !key_allowed(key)) {
        return Some(Line::D6);
    }
    match call {
        Call::Append { value, .. } if value.len() == 4_080 => Some(Line::D2),
        // Both refuse this before they read.
        Call::Append { value, .. } if value.len() > 4_080 => None,
        Call::Append { key, value } => append(image, s, n, key, value.len()),
        Call::Get { key } | Call::Invalidate { key } => lookup(image, s, n, key, false),
        Call::Zeroise { key } => lookup(image, s, n, key, true),
        // Its append runs on a blank chip, where an empty value always fits.
        Call::Initialise { key } => lookup(image, s, n, key, false),
        Call::Collect => None,
    }
}

/// For an image that is not well-formed: the line whose damage it shows first.
/// Other damage (versions, flags, checksums, keys) has no line of its own.
pub fn damage(image: &[u8], s: usize) -> Option<Line> {
    let mut seen = None;
    for region in image.chunks_exact(s) {
        let o = end(region);
        let left = s - o;
        if left >= FRAME && region[o] == 1 {
            let length = (region[o + 1] as usize & 15) * 256 + region[o + 2] as usize;
            return Some(if length == 0 { Line::D4 } else { Line::D7 });
        }
        if records(region).bad.is_none() && region[o..].iter().any(|b| *b != 255) {
            seen = Some(Line::D8);
        }
    }
    seen
}

/// The value length of the key's live record, however far it spilled.
pub fn stored(image: &[u8], s: usize, n: usize, key: u64) -> Option<usize> {
    probe(key, n).find_map(|r| match seek(&image[r * s..][..s], key) {
        Event::Live { o, length } => {
            debug_assert_eq!(key_at(&image[r * s..], o), key);
            Some(length - FRAME)
        }
        _ => None,
    })
}

/// The free bytes behind the last record of a region.
pub fn free(image: &[u8], s: usize, r: usize) -> usize {
    s - end(&image[r * s..][..s])
}
