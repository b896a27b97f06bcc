//! The one-call form: the whole chip lies in memory as an image of `n` regions of `s` bytes.
//!
//! `s` is 64 to 4,096, `n` is 1 to 64 and the image is exactly `n * s` bytes, or the call is refused as
//! [`BadGeometry`](Refusal::BadGeometry). A blank chip is an image whose every byte is 255. The calls alter the image as a chip would
//! be altered: a write only clears bits, and an erase makes every byte of one region 255. What each does in full is R5 of docs/RULES.md;
//! the numbers that it is refused by are those of [`Refusal`], and R6 says exactly when each comes.
//!
//! ```
//! use stilefray::{image, Refusal};
//!
//! let mut chip = [255u8; 256]; // 4 regions of 64 bytes
//! image::append_key(&mut chip, 64, 4, 1, &[7, 8, 9])?;
//! assert_eq!(chip[64..78], [1, 0x80, 18, 0, 0, 0, 0, 0, 0, 0, 1, 7, 8, 9]);
//!
//! let mut buffer = [0u8; 8];
//! assert_eq!(image::get_key(&chip, 64, 4, 1, &mut buffer), Ok(3));
//! assert_eq!(buffer, [7, 8, 9, 0, 0, 0, 0, 0]);
//!
//! image::invalidate_key(&mut chip, 64, 4, 1)?;
//! assert_eq!(image::get_key(&chip, 64, 4, 1, &mut buffer), Err(Refusal::KeyNotFound));
//! assert_eq!(image::garbage_collect(&mut chip, 64, 4), Ok(64));
//! assert_eq!(chip, [255u8; 256]);
//! # Ok::<(), Refusal>(())
//! ```
//!
//! [`value`], [`records`] and [`record_at`] look into an image: they only read it, copy nothing, and lend what they find as a part of it
//! (R16). A [`Store`](crate::Store) has no image to look into: for that read the chip's regions into one, region 0 first.
use crate::ffi;
pub use crate::looking::{record_at, records, value, BadPlace, Entry, Place, Record, Records, Shown};
use crate::refusal::{Answer, Refusal, Success};

/// The value of a key, copied to the front of `buffer`; its length is the answer, and the buffer's bytes after it stay (R5.2).
///
/// Refused by 1, 2, 4 and 7 to 10. BufferTooSmall leaves the buffer full of the value's first bytes, InvalidCheckSum leaves the value in
/// the buffer, and the others leave it as it was.
pub fn get_key(image: &[u8], s: usize, n: usize, key: u64, buffer: &mut [u8]) -> Result<usize, Refusal> {
    ffi::get_key(image, s, n, key, buffer).answer().map(Success::value)
}

/// Stores a value of at most 4,079 bytes under a key that has no live record: one write, in the first region of the key's probe order
/// that has room (R5.3, R5.4).
///
/// Refused by 1, 2, 3 and 5 to 8, which leave the image as it was. To replace a value see docs/WORKSHOP.md: on a full chip removing it
/// first loses it.
pub fn append_key(image: &mut [u8], s: usize, n: usize, key: u64, value: &[u8]) -> Result<(), Refusal> {
    ffi::append_key(image, s, n, key, value).answer().map(drop)
}

/// Makes the key's record dead: one write of one byte, its second, with the top bit cleared. The value stays readable on the chip
/// until its region is collected; [`zeroise_key`] does not leave it there (R5.5).
///
/// The checksum is not looked at. Refused by 1, 2, 4, 7 and 8, which leave the image as it was.
pub fn invalidate_key(image: &mut [u8], s: usize, n: usize, key: u64) -> Result<(), Refusal> {
    ffi::invalidate_key(image, s, n, key).answer().map(drop)
}

/// Makes the key's record dead and its value and checksum zeros: one write over the whole record, which keeps its length and key (R5.6).
///
/// Refused as [`invalidate_key`] is.
pub fn zeroise_key(image: &mut [u8], s: usize, n: usize, key: u64) -> Result<(), Refusal> {
    ffi::zeroise_key(image, s, n, key).answer().map(drop)
}

/// Erases each region that has records, all of them dead. The answer is the bytes freed, `s` for each region erased (R5.7, R5.8).
///
/// Refused by 1, and by 7 and 8, before which regions may have been erased.
pub fn garbage_collect(image: &mut [u8], s: usize, n: usize) -> Result<usize, Refusal> {
    ffi::garbage_collect(image, s, n).answer().map(Success::value)
}

/// Sees to it that the chip is one of this store's: `key` is the main key (R5.9). Call it with the same key, `s` and `n` each time: with
/// others, **every record on the chip may be erased**.
///
/// `Complete(0)`: the main key was there with an empty value, nothing changed. `Written`: the chip was erased and begun anew. Refused by
/// 1 and 2, which leave the image as it was.
pub fn initialise(image: &mut [u8], s: usize, n: usize, key: u64) -> Answer {
    ffi::initialise(image, s, n, key).answer()
}
