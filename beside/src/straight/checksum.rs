//! The record's checksum: polynomial 0x04c11db7, start 0, no reflection,
//! last step an exclusive or with 0xffffffff (CRC-32/CKSUM without its length).

const POLYNOMIAL: u32 = 0x04c1_1db7;

const fn entry(index: u32) -> u32 {
    let mut word = index << 24;
    let mut bit = 0;
    while bit < 8 {
        word = if word & 0x8000_0000 != 0 { (word << 1) ^ POLYNOMIAL } else { word << 1 };
        bit += 1;
    }
    word
}

const fn table() -> [u32; 256] {
    let mut words = [0; 256];
    let mut index = 0;
    while index < 256 {
        words[index] = entry(index as u32);
        index += 1;
    }
    words
}

static TABLE: [u32; 256] = table();

/// Carries the running word over `bytes`; a fresh word is 0.
#[inline]
pub fn carry(word: u32, bytes: &[u8]) -> u32 {
    let mut word = word;
    for byte in bytes {
        word = (word << 8) ^ TABLE[((word >> 24) as u8 ^ byte) as usize];
    }
    word
}

/// The last step.
#[inline]
pub fn finish(word: u32) -> u32 {
    word ^ 0xffff_ffff
}

/// The checksum of `bytes`.
#[inline]
pub fn of(bytes: &[u8]) -> u32 {
    finish(carry(0, bytes))
}
