//! The requirements said straight in Rust: the second opinion beside the store.
//! Written from their text alone; no line of it comes from either store.

pub mod checksum;
pub mod services;
pub mod walk;
pub mod well_formed;

pub use services::{services, Call, Service};
pub use walk::{probe, records, FRAME, HEADER};
pub use well_formed::well_formed;

use walk::{seek, stand, Event, Stand, CHECKSUM};

pub const LARGEST: usize = 4_079;

#[derive(Clone, Copy, PartialEq, Eq, Debug)]
pub enum Refusal {
    BadGeometry,
    BadKey,
    ObjectTooLarge,
    KeyNotFound,
    KeyAlreadyExists,
    FlashFull,
    UnsupportedVersion,
    CorruptData,
    BufferTooSmall(usize),
    InvalidCheckSum,
    BadCall,
    FlashFailed,
}

impl Refusal {
    pub fn number(self) -> u8 {
        match self {
            Refusal::BadGeometry => 1,
            Refusal::BadKey => 2,
            Refusal::ObjectTooLarge => 3,
            Refusal::KeyNotFound => 4,
            Refusal::KeyAlreadyExists => 5,
            Refusal::FlashFull => 6,
            Refusal::UnsupportedVersion => 7,
            Refusal::CorruptData => 8,
            Refusal::BufferTooSmall(_) => 9,
            Refusal::InvalidCheckSum => 10,
            Refusal::BadCall => 11,
            Refusal::FlashFailed => 12,
        }
    }
}

#[derive(Clone, Copy, PartialEq, Eq, Debug)]
pub enum Answer {
    Complete(usize),
    Written,
    Freed(usize),
}

pub type Outcome = Result<Answer, Refusal>;

pub fn geometry(image: &[u8], s: usize, n: usize) -> Result<(), Refusal> {
    let sizes = (64..=4_096).contains(&s) && (1..=64).contains(&n);
    if sizes && image.len() == s * n {
        Ok(())
    } else {
        Err(Refusal::BadGeometry)
    }
}

pub fn key_allowed(key: u64) -> bool {
    key != 0 && key != u64::MAX
}

fn start(image: &[u8], s: usize, n: usize, key: u64) -> Result<(), Refusal> {
    geometry(image, s, n)?;
    if key_allowed(key) {
        Ok(())
    } else {
        Err(Refusal::BadKey)
    }
}

/// The image place and length of the key's live record.
fn find(image: &[u8], s: usize, n: usize, key: u64) -> Result<(usize, usize), Refusal> {
    for r in probe(key, n) {
        match seek(&image[r * s..][..s], key) {
            Event::Live { o, length } => return Ok((r * s + o, length)),
            Event::Bad(why) => return Err(why),
            Event::End { .. } => {}
        }
    }
    Err(Refusal::KeyNotFound)
}

pub fn get(image: &[u8], s: usize, n: usize, key: u64, buffer: &mut [u8]) -> Outcome {
    start(image, s, n, key)?;
    let (place, length) = find(image, s, n, key)?;
    let record = &image[place..place + length];
    let value = &record[HEADER..length - CHECKSUM];
    if buffer.len() < value.len() {
        buffer.copy_from_slice(&value[..buffer.len()]);
        return Err(Refusal::BufferTooSmall(value.len()));
    }
    buffer[..value.len()].copy_from_slice(value);
    let sum = checksum::of(&record[..length - CHECKSUM]);
    if record[length - CHECKSUM..] == sum.to_le_bytes() {
        Ok(Answer::Complete(value.len()))
    } else {
        Err(Refusal::InvalidCheckSum)
    }
}

/// Where an append of so many value bytes would put its record.
fn place_for(image: &[u8], s: usize, n: usize, key: u64, value: usize) -> Result<usize, Refusal> {
    let mut room = None;
    for r in probe(key, n) {
        match seek(&image[r * s..][..s], key) {
            Event::Live { .. } => return Err(Refusal::KeyAlreadyExists),
            Event::Bad(why) => return Err(why),
            Event::End { o } if room.is_none() && o + value + FRAME <= s => room = Some(r * s + o),
            Event::End { .. } => {}
        }
    }
    room.ok_or(Refusal::FlashFull)
}

pub fn append(image: &mut [u8], s: usize, n: usize, key: u64, value: &[u8]) -> Outcome {
    start(image, s, n, key)?;
    if value.len() > LARGEST {
        return Err(Refusal::ObjectTooLarge);
    }
    let place = place_for(image, s, n, key, value.len())?;
    let length = value.len() + FRAME;
    let target = &mut image[place..place + length];
    if target.iter().any(|b| *b != 255) {
        return Err(Refusal::CorruptData);
    }
    target[0] = 1;
    target[1] = 0x80 | (length >> 8) as u8;
    target[2] = length as u8;
    target[3..HEADER].copy_from_slice(&key.to_be_bytes());
    target[HEADER..HEADER + value.len()].copy_from_slice(value);
    let sum = checksum::of(&target[..length - CHECKSUM]);
    target[length - CHECKSUM..].copy_from_slice(&sum.to_le_bytes());
    Ok(Answer::Written)
}

pub fn invalidate(image: &mut [u8], s: usize, n: usize, key: u64) -> Outcome {
    start(image, s, n, key)?;
    let (place, _) = find(image, s, n, key)?;
    image[place + 1] &= 0x7f;
    Ok(Answer::Written)
}

pub fn zeroise(image: &mut [u8], s: usize, n: usize, key: u64) -> Outcome {
    start(image, s, n, key)?;
    let (place, length) = find(image, s, n, key)?;
    image[place + 1] &= 0x7f;
    image[place + HEADER..place + length].fill(0);
    Ok(Answer::Written)
}

/// What collect does with one region.
#[derive(Clone, Copy, PartialEq, Eq, Debug)]
enum Fate {
    Stays,
    Due,
    Bad(Refusal),
}

fn collect_region(region: &[u8]) -> Fate {
    let mut o = 0;
    loop {
        match stand(region, o) {
            Stand::Record { live: true, .. } => return Fate::Stays,
            Stand::Record { length, .. } => o += length,
            Stand::Bad(why) => return Fate::Bad(why),
            // A walk that has moved has met a record.
            Stand::End => return if o > 0 { Fate::Due } else { Fate::Stays },
        }
    }
}

pub fn collect(image: &mut [u8], s: usize, n: usize) -> Outcome {
    geometry(image, s, n)?;
    let mut freed = 0;
    for region in image.chunks_mut(s) {
        match collect_region(region) {
            Fate::Stays => {}
            Fate::Bad(why) => return Err(why),
            Fate::Due => {
                region.fill(255);
                freed += s;
            }
        }
    }
    Ok(Answer::Freed(freed))
}

fn initialise_must_erase(image: &[u8], s: usize, n: usize, key: u64) -> bool {
    match get(image, s, n, key, &mut []) {
        Ok(_) => false,
        Err(why) => matches!(why.number(), 4 | 7 | 8 | 9 | 10),
    }
}

pub fn initialise(image: &mut [u8], s: usize, n: usize, key: u64) -> Outcome {
    if initialise_must_erase(image, s, n, key) {
        image.fill(255);
        return append(image, s, n, key, &[]);
    }
    get(image, s, n, key, &mut [])
}

/// Any of the six by its call; only get uses the buffer.
pub fn run(image: &mut [u8], s: usize, n: usize, call: Call, buffer: &mut [u8]) -> Outcome {
    match call {
        Call::Get { key } => get(image, s, n, key, buffer),
        Call::Append { key, value } => append(image, s, n, key, value),
        Call::Invalidate { key } => invalidate(image, s, n, key),
        Call::Zeroise { key } => zeroise(image, s, n, key),
        Call::Collect => collect(image, s, n),
        Call::Initialise { key } => initialise(image, s, n, key),
    }
}
