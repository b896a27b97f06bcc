//! The library's calls in its own numbers, as R12 and R16.11 of docs/RULES.md have them and `c/stilefray.h` declares them. The rest of
//! the crate gives them names; most users need nothing from here.
//!
//! Every `unsafe` of the crate stands in this file. The functions here are safe because the library asks only that each pointer lead to
//! as many bytes as its length says and that no two lent parts overlap where one is written (R12.8), which Rust's slices always keep. It is
//! proved that it takes any numbers and answers, reads and writes nothing out of bounds, and keeps no pointer.

#[cfg(not(all(target_arch = "x86_64", target_pointer_width = "64")))]
compile_error!("libstilefray.a is built for x86-64, where a usize has 64 bits");

/// An answer in numbers (R12.1 of docs/RULES.md).
#[repr(C)]
#[must_use]
#[derive(Clone, Copy, Debug, PartialEq, Eq)]
pub struct AnswerNumbers {
    /// 0 refused, 1 complete, 2 written, 3 freed.
    pub kind: u32,
    /// The refusal's number, 1 to 12; 0 where nothing is refused.
    pub refusal: u32,
    /// Complete: the value's length. Freed: the bytes freed. Refusal 9: the value's full length. Else 0.
    pub value: usize,
}

/// A running operation in numbers: what [`Running`](crate::stepped::Running) keeps. R12.4 of docs/RULES.md says what each number means;
/// those that an operation does not use are 0.
#[repr(C)]
#[derive(Clone, Copy, Debug, PartialEq, Eq)]
pub struct Operation {
    /// Which numbers these are: [`Operation::LAYOUT`]. One of another layout, such as a host kept over an update of the library, is
    /// answered by BadCall.
    pub layout: u32,
    /// 1: nothing was asked for yet. Else 0.
    pub fresh: u32,
    /// What is lent beside the region buffer.
    pub lent: u32,
    /// What is to be written or erased first.
    pub edit: u32,
    /// What follows it.
    pub next: u32,
    /// What a lookup is for.
    pub aim: u32,
    /// What room a lookup has gathered.
    pub tag: u32,
    /// The version of the record that is to be made dead.
    pub version: u8,
    /// Its flags.
    pub flags: u8,
    /// The bytes of a region.
    pub s: usize,
    /// How many regions there are.
    pub n: usize,
    /// The key.
    pub key: u64,
    /// The length of what is lent.
    pub len: usize,
    /// The region of what is to be written or erased.
    pub region: usize,
    /// Its place there, or the end of a run of regions.
    pub at: usize,
    /// The length of the record that is to be made dead.
    pub size: usize,
    /// Its key.
    pub found: u64,
    /// How far what follows has come, or what it answers.
    pub a: usize,
    /// The room's region, or collect's count.
    pub b: usize,
    /// The room's place.
    pub c: usize,
}

impl Operation {
    /// The layout of the operations that this library hands out and takes.
    pub const LAYOUT: u32 = 8;
    /// What is next where an operation has ended.
    pub const NEXT_ENDED: u32 = 6;
}

/// What a start hands out (R12.6).
#[repr(C)]
#[must_use]
#[derive(Clone, Copy, Debug, PartialEq, Eq)]
pub struct StartNumbers {
    /// 0: `op` runs. Else the refusal's number, and `op` is all zeros.
    pub refusal: u32,
    /// The fresh running operation.
    pub op: Operation,
}

/// What a step asks for (R12.2). Numbers that a request does not use are 0.
#[repr(C)]
#[derive(Clone, Copy, Debug, PartialEq, Eq)]
pub struct RequestNumbers {
    /// 1 read a region, 2 write, 3 erase a region, 4 answer.
    pub kind: u32,
    /// Read, erase: the region's number.
    pub region: usize,
    /// Write: the place in the region buffer of the first byte to write.
    pub from: usize,
    /// Write: the place in the region buffer after the last byte to write.
    pub to: usize,
    /// Write: the place in the image of the first byte to write.
    pub place: usize,
    /// Answer: the answer.
    pub answer: AnswerNumbers,
}

/// What a step hands back (R12.7).
#[repr(C)]
#[must_use]
#[derive(Clone, Copy, Debug, PartialEq, Eq)]
pub struct SteppedNumbers {
    /// The operation as it now stands.
    pub op: Operation,
    /// What it asks for.
    pub request: RequestNumbers,
}

/// Where a key's value lies (R16.1, R16.2, R16.11).
#[repr(C)]
#[must_use]
#[derive(Clone, Copy, Debug, PartialEq, Eq)]
pub struct FoundNumbers {
    /// Complete with the value's length, or refused.
    pub answer: AnswerNumbers,
    /// Complete: the place in the image of the value's first byte. Refused: 0.
    pub place: usize,
}

/// A place of a chip (R16.4).
#[repr(C)]
#[derive(Clone, Copy, Debug, PartialEq, Eq)]
pub struct Place {
    /// The region's number.
    pub region: usize,
    /// The place, counted from the region's first byte.
    pub place: usize,
}

/// What stands at a place of a chip, and where to go on (R16.4, R16.5, R16.11). Numbers that a kind does not use are 0.
#[repr(C)]
#[must_use]
#[derive(Clone, Copy, Debug, PartialEq, Eq)]
pub struct EntryNumbers {
    /// 0 refused, 1 a record, 2 the region ends here, 3 the place is bad, 4 there is no such region.
    pub kind: u32,
    /// Refused: 1. Bad: 7 or 8. Else 0.
    pub refusal: u32,
    /// Record: 1 live, 0 dead.
    pub live: u32,
    /// Record: 1 if its checksum is that of its bytes, else 0.
    pub checksum_right: u32,
    /// Record: its key.
    pub key: u64,
    /// Record: the place in the image of the value's first byte.
    pub value_place: usize,
    /// Record: the value's length.
    pub value_len: usize,
    /// Record: behind it. End, bad: the next region's first place. Else the place that was asked for.
    pub next: Place,
}

#[rustfmt::skip]
extern "C" {
    fn stilefray_get_key(image: *const u8, image_len: usize, s: usize, n: usize, key: u64, buffer: *mut u8, buffer_len: usize)
        -> AnswerNumbers;
    fn stilefray_append_key(image: *mut u8, image_len: usize, s: usize, n: usize, key: u64, value: *const u8, value_len: usize)
        -> AnswerNumbers;
    fn stilefray_invalidate_key(image: *mut u8, image_len: usize, s: usize, n: usize, key: u64) -> AnswerNumbers;
    fn stilefray_zeroise_key(image: *mut u8, image_len: usize, s: usize, n: usize, key: u64) -> AnswerNumbers;
    fn stilefray_garbage_collect(image: *mut u8, image_len: usize, s: usize, n: usize) -> AnswerNumbers;
    fn stilefray_initialise(image: *mut u8, image_len: usize, s: usize, n: usize, key: u64) -> AnswerNumbers;
    fn stilefray_checksum(bytes: *const u8, len: usize) -> u32;
    fn stilefray_find_value(image: *const u8, image_len: usize, s: usize, n: usize, key: u64) -> FoundNumbers;
    fn stilefray_record_at(image: *const u8, image_len: usize, s: usize, n: usize, region: usize, place: usize) -> EntryNumbers;
    fn stilefray_start_get(s: usize, n: usize, key: u64, capacity: usize) -> StartNumbers;
    fn stilefray_start_append(s: usize, n: usize, key: u64, length: usize) -> StartNumbers;
    fn stilefray_start_invalidate(s: usize, n: usize, key: u64) -> StartNumbers;
    fn stilefray_start_zeroise(s: usize, n: usize, key: u64) -> StartNumbers;
    fn stilefray_start_collect(s: usize, n: usize) -> StartNumbers;
    fn stilefray_start_initialise(s: usize, n: usize, key: u64) -> StartNumbers;
    fn stilefray_step(op: Operation, reply: u32, region: *mut u8, region_len: usize, value: *const u8, value_len: usize,
                      buffer: *mut u8, buffer_len: usize) -> SteppedNumbers;
}

/// `stilefray_get_key`.
#[inline]
pub fn get_key(image: &[u8], s: usize, n: usize, key: u64, buffer: &mut [u8]) -> AnswerNumbers {
    // SAFETY: both slices are valid for their lengths, and a `&mut` overlaps nothing.
    unsafe { stilefray_get_key(image.as_ptr(), image.len(), s, n, key, buffer.as_mut_ptr(), buffer.len()) }
}

/// `stilefray_append_key`.
#[inline]
pub fn append_key(image: &mut [u8], s: usize, n: usize, key: u64, value: &[u8]) -> AnswerNumbers {
    // SAFETY: both slices are valid for their lengths, and a `&mut` overlaps nothing.
    unsafe { stilefray_append_key(image.as_mut_ptr(), image.len(), s, n, key, value.as_ptr(), value.len()) }
}

/// `stilefray_invalidate_key`.
#[inline]
pub fn invalidate_key(image: &mut [u8], s: usize, n: usize, key: u64) -> AnswerNumbers {
    // SAFETY: the slice is valid for its length, and nothing else is lent.
    unsafe { stilefray_invalidate_key(image.as_mut_ptr(), image.len(), s, n, key) }
}

/// `stilefray_zeroise_key`.
#[inline]
pub fn zeroise_key(image: &mut [u8], s: usize, n: usize, key: u64) -> AnswerNumbers {
    // SAFETY: the slice is valid for its length, and nothing else is lent.
    unsafe { stilefray_zeroise_key(image.as_mut_ptr(), image.len(), s, n, key) }
}

/// `stilefray_garbage_collect`.
#[inline]
pub fn garbage_collect(image: &mut [u8], s: usize, n: usize) -> AnswerNumbers {
    // SAFETY: the slice is valid for its length, and nothing else is lent.
    unsafe { stilefray_garbage_collect(image.as_mut_ptr(), image.len(), s, n) }
}

/// `stilefray_initialise`.
#[inline]
pub fn initialise(image: &mut [u8], s: usize, n: usize, key: u64) -> AnswerNumbers {
    // SAFETY: the slice is valid for its length, and nothing else is lent.
    unsafe { stilefray_initialise(image.as_mut_ptr(), image.len(), s, n, key) }
}

/// `stilefray_checksum`.
#[inline]
#[must_use]
pub fn checksum(bytes: &[u8]) -> u32 {
    // SAFETY: the slice is valid for its length, and nothing else is lent.
    unsafe { stilefray_checksum(bytes.as_ptr(), bytes.len()) }
}

/// `stilefray_find_value`.
#[inline]
pub fn find_value(image: &[u8], s: usize, n: usize, key: u64) -> FoundNumbers {
    // SAFETY: the slice is valid for its length, and is only read.
    unsafe { stilefray_find_value(image.as_ptr(), image.len(), s, n, key) }
}

/// `stilefray_record_at`.
#[inline]
pub fn record_at(image: &[u8], s: usize, n: usize, region: usize, place: usize) -> EntryNumbers {
    // SAFETY: the slice is valid for its length, and is only read.
    unsafe { stilefray_record_at(image.as_ptr(), image.len(), s, n, region, place) }
}

/// `stilefray_start_get`.
#[inline]
pub fn start_get(s: usize, n: usize, key: u64, capacity: usize) -> StartNumbers {
    // SAFETY: numbers alone are passed, and any numbers are answered.
    unsafe { stilefray_start_get(s, n, key, capacity) }
}

/// `stilefray_start_append`.
#[inline]
pub fn start_append(s: usize, n: usize, key: u64, length: usize) -> StartNumbers {
    // SAFETY: numbers alone are passed, and any numbers are answered.
    unsafe { stilefray_start_append(s, n, key, length) }
}

/// `stilefray_start_invalidate`.
#[inline]
pub fn start_invalidate(s: usize, n: usize, key: u64) -> StartNumbers {
    // SAFETY: numbers alone are passed, and any numbers are answered.
    unsafe { stilefray_start_invalidate(s, n, key) }
}

/// `stilefray_start_zeroise`.
#[inline]
pub fn start_zeroise(s: usize, n: usize, key: u64) -> StartNumbers {
    // SAFETY: numbers alone are passed, and any numbers are answered.
    unsafe { stilefray_start_zeroise(s, n, key) }
}

/// `stilefray_start_collect`.
#[inline]
pub fn start_collect(s: usize, n: usize) -> StartNumbers {
    // SAFETY: numbers alone are passed, and any numbers are answered.
    unsafe { stilefray_start_collect(s, n) }
}

/// `stilefray_start_initialise`.
#[inline]
pub fn start_initialise(s: usize, n: usize, key: u64) -> StartNumbers {
    // SAFETY: numbers alone are passed, and any numbers are answered.
    unsafe { stilefray_start_initialise(s, n, key) }
}

/// `stilefray_step`. An operation that no start or step handed out, and a reply that is not 0 to 3, are answered too: BadCall, or the
/// request of the running operation that the numbers stand for.
#[inline]
pub fn step(op: Operation, reply: u32, region: &mut [u8], value: &[u8], buffer: &mut [u8]) -> SteppedNumbers {
    let (region_at, region_len) = (region.as_mut_ptr(), region.len());
    let (buffer_at, buffer_len) = (buffer.as_mut_ptr(), buffer.len());
    // SAFETY: the three slices are valid for their lengths, and no `&mut` overlaps another slice.
    unsafe { stilefray_step(op, reply, region_at, region_len, value.as_ptr(), value.len(), buffer_at, buffer_len) }
}
