//! Whole runs of each operation, one service at a time: their services by name and order, and that they end as the one call does.
mod common;
use common::Did::{Erase, Read, Write};
use common::{blank, Call, Did, Numbers, N, S};
use stilefray::image::{append_key, invalidate_key};
use stilefray::{checksum, Answer, Refusal, Success};

/// Runs the call in both forms: the same answer, image and buffer, and these services.
fn runs(call: Call, image: &[u8], answer: Answer, services: &[Did]) -> Vec<u8> {
    let (left, did) = call.by_steps(image, S, N);
    assert_eq!(left.answer, answer, "{call:?}");
    assert_eq!(did, services, "{call:?}");
    assert_eq!(left, call.at_once(image, S, N), "{call:?}");
    left.image
}

fn record(key: u64, value: &[u8]) -> Vec<u8> {
    let length = value.len() + 15;
    let mut bytes = vec![1, 0x80 | (length >> 8) as u8, length as u8];
    bytes.extend(key.to_be_bytes());
    bytes.extend(value);
    let sum = checksum(&bytes).to_le_bytes();
    bytes.extend(sum);
    bytes
}

/// Key 1 in region 1, full; key 5 spilled to region 2.
fn spilled() -> Vec<u8> {
    let mut chip = blank();
    append_key(&mut chip, S, N, 1, &[7; 49]).unwrap();
    append_key(&mut chip, S, N, 5, &[8; 4]).unwrap();
    chip
}

#[test]
fn get_reads_in_probe_order_up_to_the_deciding_region() {
    let chip = spilled();
    runs(Call::Get(1, 60), &chip, Ok(Success::Complete(49)), &[Read(1)]);
    runs(Call::Get(5, 4), &chip, Ok(Success::Complete(4)), &[Read(1), Read(2)]);
    runs(Call::Get(5, 3), &chip, Err(Refusal::BufferTooSmall(4)), &[Read(1), Read(2)]);
    runs(Call::Get(9, 4), &chip, Err(Refusal::KeyNotFound), &[Read(1), Read(2), Read(0), Read(3)]);
    runs(Call::Get(3, 4), &chip, Err(Refusal::KeyNotFound), &[Read(3), Read(2), Read(1), Read(0)]);
    let mut bad = chip.clone();
    bad[0] = 2;
    runs(Call::Get(9, 4), &bad, Err(Refusal::UnsupportedVersion), &[Read(1), Read(2), Read(0)]);
}

#[test]
fn append_reads_all_and_writes_once() {
    let chip = spilled();
    let all = [Read(1), Read(2), Read(0), Read(3)];
    let after = runs(
        Call::Append(9, vec![3; 20]),
        &chip,
        Ok(Success::Written),
        &[Read(1), Read(2), Read(0), Read(3), Write(128 + 19, record(9, &[3; 20]))],
    );
    assert_eq!(after[147..182], record(9, &[3; 20]));
    let after = runs(
        Call::Append(9, vec![3; 40]),
        &chip,
        Ok(Success::Written),
        &[Read(1), Read(2), Read(0), Read(3), Write(0, record(9, &[3; 40]))],
    );
    assert_eq!(after[..55], record(9, &[3; 40]));
    runs(Call::Append(9, vec![3; 50]), &chip, Err(Refusal::FlashFull), &all);
    runs(Call::Append(5, vec![3; 50]), &chip, Err(Refusal::KeyAlreadyExists), &all[..2]);
    let mut stained = chip.clone();
    stained[128 + 19 + 10] = 0;
    runs(Call::Append(9, vec![3; 2]), &stained, Err(Refusal::CorruptData), &all);
}

#[test]
fn a_removal_reads_as_get_and_writes_once() {
    let chip = spilled();
    let dead = runs(Call::Invalidate(5), &chip, Ok(Success::Written), &[Read(1), Read(2), Write(129, vec![0])]);
    assert_eq!(dead[128..147], [&[1, 0], &record(5, &[8; 4])[2..]].concat());
    let mut zeros = record(5, &[]);
    zeros.truncate(11);
    (zeros[1], zeros[2]) = (0, 19);
    zeros.resize(19, 0);
    let gone = runs(Call::Zeroise(5), &chip, Ok(Success::Written), &[Read(1), Read(2), Write(128, zeros.clone())]);
    assert_eq!(gone[128..147], zeros);
    for call in [Call::Invalidate(5), Call::Zeroise(5)] {
        runs(call, &dead, Err(Refusal::KeyNotFound), &[Read(1), Read(2), Read(0), Read(3)]);
    }
}

#[test]
fn collect_reads_each_region_and_erases_where_due() {
    let mut chip = spilled();
    invalidate_key(&mut chip, S, N, 1).unwrap();
    runs(Call::Collect, &chip, Ok(Success::Freed(64)), &[Read(0), Read(1), Erase(1), Read(2), Read(3)]);
    invalidate_key(&mut chip, S, N, 5).unwrap();
    runs(Call::Collect, &chip, Ok(Success::Freed(128)), &[Read(0), Read(1), Erase(1), Read(2), Erase(2), Read(3)]);
    runs(Call::Collect, &blank(), Ok(Success::Freed(0)), &[Read(0), Read(1), Read(2), Read(3)]);
    chip[128] = 3;
    let after = runs(Call::Collect, &chip, Err(Refusal::UnsupportedVersion), &[Read(0), Read(1), Erase(1), Read(2)]);
    assert_eq!(after[64..128], [255; 64]);
    assert_eq!(after[128..], chip[128..]);
}

#[test]
fn initialise_erases_where_the_main_key_is_not_well() {
    let anew = |reads: &[usize]| -> Vec<Did> {
        let erases = (0..N).map(Erase);
        let append = [Read(1), Read(2), Read(0), Read(3), Write(64, record(1, &[]))];
        reads.iter().map(|&r| Read(r)).chain(erases).chain(append).collect()
    };
    let fresh = runs(Call::Initialise(1), &blank(), Ok(Success::Written), &anew(&[1, 2, 0, 3]));
    runs(Call::Initialise(1), &fresh, Ok(Success::Complete(0)), &[Read(1)]);
    runs(Call::Initialise(1), &spilled(), Ok(Success::Written), &anew(&[1])); // 9: a value
    let mut wrong = fresh.clone();
    wrong[64 + 11] ^= 1; // 10: the checksum
    assert_eq!(runs(Call::Initialise(1), &wrong, Ok(Success::Written), &anew(&[1])), fresh);
    for (bytes, place) in [([2, 255, 255], 64), ([1, 0x80, 14], 64)] {
        let mut bad = blank(); // 7 and 8
        bad[place..place + 3].copy_from_slice(&bytes);
        assert_eq!(runs(Call::Initialise(1), &bad, Ok(Success::Written), &anew(&[1])), fresh);
    }
}

fn any_call(numbers: &mut Numbers, keys: usize) -> Call {
    let key = 1 + numbers.below(keys) as u64;
    match numbers.below(16) {
        0..=4 => Call::Get(key, numbers.below(40)),
        5..=9 => Call::Append(key, (0..numbers.below(36)).map(|_| numbers.next() as u8).collect()),
        10..=11 => Call::Invalidate(key),
        12..=13 => Call::Zeroise(key),
        14 => Call::Collect,
        _ => Call::Initialise(1 + numbers.below(2 * keys) as u64),
    }
}

#[test]
fn both_forms_agree_on_long_lives_of_a_chip() {
    let mut numbers = Numbers(1);
    for (s, n, keys) in [(64, 4, 12), (64, 1, 4), (97, 7, 30), (128, 64, 40)] {
        let mut chip: Vec<u8> = vec![255; s * n];
        let mut answers = std::collections::BTreeSet::new();
        for _ in 0..600 {
            let call = any_call(&mut numbers, keys);
            let (stepped, _) = call.by_steps(&chip, s, n);
            let whole = call.at_once(&chip, s, n);
            assert_eq!(stepped, whole, "{call:?}");
            answers.insert(whole.answer.map_or_else(|refusal| refusal.number(), |_| 0));
            chip = whole.image;
        }
        assert!(answers.contains(&0) && answers.contains(&4) && answers.contains(&5), "{s} {n}: {answers:?}");
    }
}

#[test]
fn both_forms_agree_on_chips_of_any_bytes() {
    let mut numbers = Numbers(2);
    for _ in 0..3000 {
        let mut chip = blank();
        for r in 0..N {
            // A region that often begins as a record does, then anything.
            let at = r * S;
            for byte in &mut chip[at..at + numbers.below(S)] {
                *byte = [0, 1, 0x80, 15, 16, 255, numbers.next() as u8][numbers.below(7)];
            }
            if numbers.below(3) > 0 {
                let bytes = record(1 + numbers.below(6) as u64, &vec![5; numbers.below(20)]);
                chip[at..at + bytes.len()].copy_from_slice(&bytes);
            }
        }
        let call = any_call(&mut numbers, 6);
        assert_eq!(call.by_steps(&chip, S, N).0, call.at_once(&chip, S, N), "{call:?} on {chip:?}");
    }
}
