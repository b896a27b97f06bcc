//! The worked examples of docs/RULES.md (R15), on our store and on the straight version.

use crate::ours;
use crate::straight::{self, checksum, probe, well_formed, Answer, Call, Outcome, Refusal};

/// A side, and a chip that it works on.
struct Day {
    run: fn(&mut [u8], usize, usize, Call, &mut [u8]) -> Outcome,
    s: usize,
    n: usize,
    image: Vec<u8>,
}

const WRITTEN: Outcome = Ok(Answer::Written);
const FOUND: Outcome = Ok(Answer::Complete(0));

impl Day {
    fn call(&mut self, call: Call) -> Outcome {
        (self.run)(&mut self.image, self.s, self.n, call, &mut [])
    }

    fn append(&mut self, key: u64, length: usize) -> Outcome {
        self.call(Call::Append { key, value: &vec![7; length] })
    }

    fn get(&mut self, key: u64) -> Outcome {
        self.call(Call::Get { key })
    }
}

/// 1 to 3: probes, the bytes of a record, a buffer that is too short.
fn first(day: &mut Day) -> bool {
    let probes = probe(1, 4).eq([1, 2, 0, 3]) && probe(3, 4).eq([3, 2, 1, 0]);
    let written = day.call(Call::Append { key: 1, value: b"abc" }) == WRITTEN;
    let mut two = [9; 2];
    let short = (day.run)(&mut day.image, 64, 4, Call::Get { key: 1 }, &mut two);
    let mut record = vec![1, 0x80, 0x12, 0, 0, 0, 0, 0, 0, 0, 1, b'a', b'b', b'c'];
    record.extend(checksum::of(&record).to_le_bytes());
    probes
        && written
        && day.image[64..82] == record
        && short == Err(Refusal::BufferTooSmall(3))
        && &two == b"ab"
        && well_formed(&day.image, 64, 4)
}

/// 4 to 7: a region filled, a spill, collect and zeroise.
fn second(day: &mut Day) -> bool {
    let full = day.append(1, 50) == Err(Refusal::FlashFull) && day.append(1, 49) == WRITTEN;
    let spilled = day.append(5, 0) == WRITTEN && day.image[128] == 1 && day.get(5) == FOUND;
    let kept = day.image.clone();
    let freed = day.call(Call::Invalidate { key: 1 }) == WRITTEN
        && day.call(Call::Collect) == Ok(Answer::Freed(64))
        && day.get(5) == FOUND;
    day.image = kept;
    let wiped = day.call(Call::Zeroise { key: 1 }) == WRITTEN
        && day.image[64..67] == [1, 0, 0x40]
        && day.image[67..75] == 1u64.to_be_bytes()
        && day.image[75..128] == [0; 53];
    full && spilled && freed && wiped
}

/// 8 to 10: bad places, and collect on a blank chip.
fn third(day: &mut Day) -> bool {
    let blank = day.call(Call::Collect) == Ok(Answer::Freed(0));
    day.image[64] = 2;
    let version = [1, 3].iter().all(|key| day.get(*key) == Err(Refusal::UnsupportedVersion));
    let length = |day: &mut Day, length| {
        day.image[64..67].copy_from_slice(&[1, 0, length]);
        day.get(1)
    };
    blank
        && version
        && length(day, 0) == Err(Refusal::CorruptData)
        && length(day, 14) == Err(Refusal::CorruptData)
        && length(day, 15) == Err(Refusal::KeyNotFound)
}

/// 11: the largest value.
fn fourth(day: &mut Day) -> bool {
    (day.s, day.n, day.image) = (4_096, 2, vec![255; 8_192]);
    day.append(1, 4_080) == Err(Refusal::ObjectTooLarge) && day.append(1, 4_079) == WRITTEN
}

/// 12: initialise erases over a main key that has a value, and then stays.
fn fifth(day: &mut Day) -> bool {
    let filled = day.append(9, 1) == WRITTEN && day.append(2, 1) == WRITTEN;
    let erased = day.call(Call::Initialise { key: 9 }) == WRITTEN
        && day.get(2) == Err(Refusal::KeyNotFound)
        && day.get(9) == FOUND;
    let kept = day.image.clone();
    filled && erased && day.call(Call::Initialise { key: 9 }) == FOUND && day.image == kept
}

pub fn run() -> Result<(), String> {
    let days = [first, second, third, fourth, fifth];
    for (name, run) in [("ours", ours::run as _), ("straight", straight::run as _)] {
        for (index, day) in days.iter().enumerate() {
            if !day(&mut Day { run, s: 64, n: 4, image: vec![255; 256] }) {
                return Err(format!("afternoon group {} fails on {name}", index + 1));
            }
        }
    }
    let vector = b"123456789";
    if checksum::of(vector) != 0x765e_7680 || stilefray::checksum(vector) != 0x765e_7680 {
        return Err("the published vector of CRC-32/CKSUM without its length fails".to_string());
    }
    println!("afternoons: as written, ours and straight; published checksum vector right");
    Ok(())
}
