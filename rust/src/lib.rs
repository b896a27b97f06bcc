//! Stilefray: a key-value store for raw flash, proved. This crate is the safe way in from Rust; the store itself is a static library
//! written in Rattle, every function of which is proved to meet its contract, to do nothing undefined and to end.
//!
//! Small values, up to 4,079 bytes, are kept under 64-bit keys in the record format of the crate tickv 2.0.0. There are three ways in:
//!
//! - [`Store`]: over your [`Flash`], one call for an operation, blocking or for an executor; or the operation [`Underway`], one service at
//!   a time.
//! - [`stepped`]: the operations as plain data, one flash service at a time, with no flash and no buffer of their own.
//! - [`image`](mod@image): one call for an operation, on an image of the chip in memory; and to look into one, value by value and record
//!   by record.
//!
//! Every call takes whatever it is given, and answers, as long as each call of its flash returns; what it refuses it refuses by one of
//! twelve [`Refusal`]s. The crate allocates nothing, has nothing in it that panics, and needs no `std`. What the store does is laid down,
//! rule by rule, in docs/RULES.md of the repository; these pages cite it by number.
//!
//! # What is proved
//!
//! Of every call of the archive, for every input: it answers as its definition says, alters nothing but what it is lent to alter, and
//! ends. Of an operation taken one service at a time and lent buffers of the right lengths, whatever the flash replies and whatever
//! bytes it hands over: it asks for nothing outside the chip (R8.4), and ends after at most so many services that are said to be done, on
//! a chip of N regions: get N, append and the removals N + 1, collect 2 N, initialise 3 N + 1 (R9.6). A flash that is never ready is asked
//! again as often as the store's [limit](Store::set_limit) says. On a well-formed chip, as a blank one is and a [`Store::initialise`] that
//! answers Written makes, to which nothing else writes and whose flash does what it is asked: every value that is stored is found until
//! its key is removed or the chip erased, also after operations that were broken off between two services (R11.8, R11.9). What a write or
//! an erase leaves that failed halfway, or that a loss of power cut off, is not promised (R13.8). This crate itself is ordinary Rust, and
//! tested. That no other operation comes between the services of one that is under way is seen to by its types: [`Underway`] borrows the
//! store.
//!
//! # Coming from tickv
//!
//! **Pass to [`initialise`](Store::initialise) the very main-key hash that you gave tickv, or the chip is erased.** With another size or
//! number of regions than tickv had it may be erased too.
//!
//! | tickv 2.0.0 | here |
//! |---|---|
//! | `TicKV::new(controller, &mut [u8; S], flash_size)` | [`Store::new`]`(flash, &mut [u8], regions)`; `regions` is `flash_size / S` |
//! | `FlashController<S>`, with `&self` | [`Flash`], with `&mut self` and an error type of its own |
//! | `ReadNotReady(_)`, `WriteNotReady(_)`, `EraseNotReady(_)` | [`NotDone::NotReady`]; asked again, up to a [limit](Store::set_limit) |
//! | `ReadFail`, `WriteFail`, `EraseFail` | [`NotDone::Failed`] with your error, then [`Refusal::FlashFailed`] with a [`Failure`] |
//! | `initialise(hash)` | [`Store::initialise`]: `Complete(0)` or `Written`, as there |
//! | `append_key(hash, &value)` | [`Store::append_key`]: `Ok(())` is its `Written` |
//! | `get_key(hash, &mut buf)`, `Ok((Complete, len))` | [`Store::get_key`], `Ok(len)` |
//! | `invalidate_key(hash)`, `zeroise_key(hash)`, `garbage_collect()` | the same names |
//! | `AsyncTicKV`, `continue_operation()` | [`Store::start_get_key`] and [`Underway::serve`], or [`Store::get_key_async`]; and their kin |
//! | `SuccessCode::Queued` | [`Served::More`] and [`Served::NotReady`]; Written is answered after the write is confirmed |
//! | `RegionFull` | does not come |
//! | other `ErrorCode`s | the [`Refusal`] of the same name |
//!
//! The record format is tickv's, so a chip that tickv wrote is read as it stands, if its host was little-endian and the chip has 1 to 64
//! regions of 64 to 4,096 bytes. The way back is not as smooth: tickv does not find a record that lies beyond a full region. Where tickv
//! loses a record, asserts or loops for ever, this store does not; docs/DIFFERENCES.md of the repository lists each case. Names are not
//! hashed: pass the 64-bit hash, which must not be 0 or 2^64 - 1.
#![no_std]
#![deny(missing_docs)]
#![deny(unsafe_code)]
#![deny(unsafe_op_in_unsafe_fn)]

mod asynchronous;
mod failure;
#[allow(unsafe_code)] // the one module that needs it
pub mod ffi;
mod flash;
pub mod image;
mod looking;
mod refusal;
pub mod stepped;
mod store;
mod underway;

pub use asynchronous::Awaited;
pub use failure::{Failure, Reason, Service};
pub use flash::{Flash, NotDone};
pub use refusal::{Answer, Refusal, Success};
pub use store::{Store, StoreAnswer, StoreRefusal};
pub use underway::{Served, Underway};

/// The checksum that a record carries over its header and value, here of any bytes: CRC-32/CKSUM, tickv's.
///
/// ```
/// assert_eq!(stilefray::checksum(b"123456789"), 0x765e_7680); // the published vector
/// ```
#[must_use]
pub fn checksum(bytes: &[u8]) -> u32 {
    ffi::checksum(bytes)
}
