//! A look into an image: a key's value where it lies, and the records one after the other.
use crate::ffi;
#[doc(inline)]
pub use crate::ffi::Place;
use crate::refusal::{Refusal, Success};
use core::error::Error;
use core::fmt;
use core::iter::FusedIterator;

/// The value of a key where it lies: a part of the image, lent and not copied (R16.1 to R16.3 of docs/RULES.md).
///
/// It is what [`get_key`](crate::image::get_key) copies into a buffer long enough, and the checksum is looked at before anything is lent.
/// Refused as get is by 1, 2, 4, 7, 8 and 10, and never by BufferTooSmall.
///
/// ```
/// use stilefray::{image, Refusal};
///
/// let mut chip = [255u8; 256]; // 4 regions of 64 bytes
/// image::append_key(&mut chip, 64, 4, 1, &[7, 8, 9])?;
/// let value = image::value(&chip, 64, 4, 1)?;
/// assert_eq!(value, [7, 8, 9]);
/// assert!(std::ptr::eq(value, &chip[75..78]));
/// # Ok::<(), Refusal>(())
/// ```
///
/// The image stays borrowed for as long as the value is used:
///
/// ```compile_fail,E0502
/// # use stilefray::{image, Refusal};
/// # let mut chip = [255u8; 256];
/// let value = image::value(&chip, 64, 4, 1)?;
/// image::zeroise_key(&mut chip, 64, 4, 1)?; // the image is borrowed, as `value` is used below
/// assert_eq!(value, [7, 8, 9]);
/// # Ok::<(), Refusal>(())
/// ```
pub fn value(image: &[u8], s: usize, n: usize, key: u64) -> Result<&[u8], Refusal> {
    let found = ffi::find_value(image, s, n, key);
    let length = found.answer.answer().map(Success::value)?;
    part(image, found.place, length, found.answer.kind)
}

/// So many bytes of the image from a place on. They lie in it, that is proved: where they did not, the numbers would be of a kind that
/// this crate does not know.
fn part(image: &[u8], place: usize, length: usize, kind: u32) -> Result<&[u8], Refusal> {
    image.get(place..).and_then(|rest| rest.get(..length)).ok_or(Refusal::UnknownKind(kind))
}

/// A record of a chip, as it stands in the image.
#[derive(Clone, Copy, Debug, PartialEq, Eq)]
#[non_exhaustive]
pub struct Record<'a> {
    /// The region that it lies in.
    pub region: usize,
    /// The place of its first byte, counted from the region's first.
    pub place: usize,
    /// Whether it is live. A dead record takes its room until its region is erased.
    pub live: bool,
    /// Its key: of any record that nothing but a store wrote, one that R2.1 allows.
    pub key: u64,
    /// Its value, lent from the image: of a dead record too, and of one whose checksum is wrong.
    pub value: &'a [u8],
    /// Whether its checksum is that of its bytes. Do not use a live record's value where it is not. Of a dead record it says nothing: the
    /// checksum is not mended when a record is made dead (R3.6).
    pub checksum_right: bool,
}

/// A bad place: no record can begin with what stands there (R4.4, R4.5). Behind it nothing of its region can be read.
///
/// ```
/// use stilefray::{image, Refusal};
///
/// let mut chip = [255u8; 256];
/// chip[128] = 2;
/// let bad = image::records(&chip, 64, 4)?.last().unwrap().unwrap_err();
/// assert_eq!(bad, image::BadPlace { region: 2, place: 0, refusal: Refusal::UnsupportedVersion });
/// assert_eq!(bad.to_string(), "region 2 is bad at place 0: a record of an unknown version");
/// # Ok::<(), Refusal>(())
/// ```
#[derive(Clone, Copy, Debug, PartialEq, Eq)]
pub struct BadPlace {
    /// The region.
    pub region: usize,
    /// The place, counted from the region's first byte.
    pub place: usize,
    /// What a call that meets the place is refused by: UnsupportedVersion or CorruptData. From an archive that knows more than this crate it
    /// may be `UnknownKind`, and what stands there is then not known.
    pub refusal: Refusal,
}

impl fmt::Display for BadPlace {
    fn fmt(&self, f: &mut fmt::Formatter<'_>) -> fmt::Result {
        let BadPlace { region, place, refusal } = self;
        write!(f, "region {region} is bad at place {place}: {refusal}")
    }
}

impl Error for BadPlace {}

/// Where it is in the way that an answer of `records` is another error than a call's: the refusal that such a call meets there.
impl From<BadPlace> for Refusal {
    fn from(bad: BadPlace) -> Refusal {
        bad.refusal
    }
}

/// What stands at a place of a chip (R16.4).
#[derive(Clone, Copy, Debug, PartialEq, Eq)]
pub enum Entry<'a> {
    /// A record, live or dead.
    Record(Record<'a>),
    /// The region ends here: what is left of it is free, or too short for a record.
    End,
    /// The place is bad.
    Bad(BadPlace),
    /// There is no such region: the chip is through.
    NoRegion,
}

/// What stands at a place of a chip, and where to go on (R16.4, R16.5).
#[derive(Clone, Copy, Debug, PartialEq, Eq)]
pub struct Shown<'a> {
    /// What stands there.
    pub entry: Entry<'a>,
    /// Behind a record; where a region ends or is bad, the next region's first place; and where there is no such region, the same place.
    pub next: Place,
}

/// What stands at a place of a region: what a walk meets there (R16.4 of docs/RULES.md). It looks at that place alone; [`records`] is the
/// pass over a chip that is made of it.
///
/// Any numbers are answered. A place past the region's end is an [`End`](Entry::End), and at one where no record begins the bytes there
/// are read as if one did. Refused by 1 alone.
pub fn record_at(image: &[u8], s: usize, n: usize, region: usize, place: usize) -> Result<Shown<'_>, Refusal> {
    let numbers = ffi::record_at(image, s, n, region, place);
    let refusal = Refusal::of(numbers.refusal, 0);
    let entry = match numbers.kind {
        0 => return Err(refusal),
        1 => Entry::Record(record(image, region, place, &numbers)?),
        2 => Entry::End,
        3 => Entry::Bad(BadPlace { region, place, refusal }),
        4 => Entry::NoRegion,
        kind => return Err(Refusal::UnknownKind(kind)),
    };
    Ok(Shown { entry, next: numbers.next })
}

/// The record that the numbers say, at the place that was asked for.
fn record<'a>(image: &'a [u8], region: usize, place: usize, numbers: &ffi::EntryNumbers) -> Result<Record<'a>, Refusal> {
    let value = part(image, numbers.value_place, numbers.value_len, numbers.kind)?;
    Ok(Record { region, place, live: numbers.live == 1, key: numbers.key, value, checksum_right: numbers.checksum_right == 1 })
}

/// The records of a chip in region and place order, up to the first bad place (R16.6 of docs/RULES.md). Refused by 1 alone.
///
/// ```
/// use stilefray::{image, Refusal};
///
/// let mut chip = [255u8; 256]; // 4 regions of 64 bytes
/// image::append_key(&mut chip, 64, 4, 1, &[7, 8, 9])?;
/// image::append_key(&mut chip, 64, 4, 5, &[])?;
/// image::invalidate_key(&mut chip, 64, 4, 1)?;
/// let mut seen = Vec::new();
/// for record in image::records(&chip, 64, 4)? {
///     let record = record?; // a bad place ends it, as the refusal that a call meets there
///     seen.push((record.region, record.place, record.live, record.key, record.value.len()));
/// }
/// assert_eq!(seen, [(1, 0, false, 1, 3), (1, 18, true, 5, 0)]);
/// # Ok::<(), Refusal>(())
/// ```
pub fn records(image: &[u8], s: usize, n: usize) -> Result<Records<'_>, Refusal> {
    // At the region behind the last one nothing stands, so that this asks for nothing but the geometry.
    record_at(image, s, n, n, 0)?;
    Ok(Records { image, s, n, at: Place { region: 0, place: 0 } })
}

/// The records of a chip, one after the other: what [`records`] hands out.
///
/// A whole pass is one walk of the image. A bad place ends it: it comes once, as the last item, and no later region is looked at. On any
/// image the pass ends.
#[derive(Clone)]
#[must_use = "nothing is looked at until it is asked for the next record"]
pub struct Records<'a> {
    image: &'a [u8],
    s: usize,
    n: usize,
    /// What is looked at next. It is over where there is no such region.
    at: Place,
}

impl<'a> Iterator for Records<'a> {
    type Item = Result<Record<'a>, BadPlace>;

    fn next(&mut self) -> Option<Self::Item> {
        while self.at.region < self.n {
            let Place { region, place } = self.at;
            self.at.region = self.n; // all but a record and an end is the last
            match record_at(self.image, self.s, self.n, region, place) {
                Ok(Shown { entry: Entry::Record(record), next }) => {
                    self.at = next;
                    return Some(Ok(record));
                }
                Ok(Shown { entry: Entry::End, next }) => self.at = next,
                Ok(Shown { entry: Entry::Bad(bad), .. }) => return Some(Err(bad)),
                Ok(Shown { entry: Entry::NoRegion, .. }) => {}
                // The geometry was right at the start: this is an archive that knows more kinds than the crate.
                Err(refusal) => return Some(Err(BadPlace { region, place, refusal })),
            }
        }
        None
    }

    /// A record has 15 bytes or more, and a bad place is one item more.
    fn size_hint(&self) -> (usize, Option<usize>) {
        let regions = self.n.saturating_sub(self.at.region);
        (0, Some(if regions == 0 { 0 } else { regions * (self.s / 15) + 1 }))
    }
}

impl FusedIterator for Records<'_> {}

/// Not the image's bytes.
impl fmt::Debug for Records<'_> {
    fn fmt(&self, f: &mut fmt::Formatter<'_>) -> fmt::Result {
        let mut words = f.debug_struct("Records");
        words.field("s", &self.s).field("n", &self.n).field("at", &self.at).finish_non_exhaustive()
    }
}
