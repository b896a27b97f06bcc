//! The worked examples R15.2 to R15.12 of docs/RULES.md through the one-call form. S 64, N 4, blank at first, but for R15.11. (R15.1, the
//! probe order, is seen by the services of the tests in runs.rs.)
mod common;
use common::{blank, N, S};
use stilefray::image::{append_key, garbage_collect, get_key, initialise, invalidate_key, zeroise_key};
use stilefray::{checksum, Refusal, Success};

#[test]
fn afternoon_2_and_3_append_and_get_too_little() {
    let mut chip = blank();
    assert_eq!(append_key(&mut chip, S, N, 1, &[7, 8, 9]), Ok(()));
    assert_eq!(chip[64..75], [1, 0x80, 0x12, 0, 0, 0, 0, 0, 0, 0, 1]);
    assert_eq!(chip[75..78], [7, 8, 9]);
    assert_eq!(chip[78..82], [0x96, 0xc0, 0xf7, 0x18]);
    assert_eq!(chip[78..82], checksum(&chip[64..78]).to_le_bytes());
    assert!(chip[..64].iter().chain(&chip[82..]).all(|&byte| byte == 255));

    let mut two = [0; 2];
    assert_eq!(get_key(&chip, S, N, 1, &mut two), Err(Refusal::BufferTooSmall(3)));
    assert_eq!(two, [7, 8]);
}

#[test]
fn afternoon_4_exact_fit() {
    let mut chip = blank();
    assert_eq!(append_key(&mut chip, S, N, 1, &[7; 50]), Err(Refusal::FlashFull));
    assert_eq!(chip, blank());
    assert_eq!(append_key(&mut chip, S, N, 1, &[7; 49]), Ok(()));
    assert_eq!(chip[64..67], [1, 0x80, 64]);
    assert_eq!(chip[124..128], checksum(&chip[64..124]).to_le_bytes());
    assert!(chip[..64].iter().chain(&chip[128..]).all(|&byte| byte == 255));
}

#[test]
fn afternoon_5_and_6_spill_is_found_and_survives_a_collect() {
    let mut chip = blank();
    append_key(&mut chip, S, N, 1, &[7; 49]).unwrap();
    assert_eq!(append_key(&mut chip, S, N, 5, &[]), Ok(()));
    let spilled = [1, 0x80, 15, 0, 0, 0, 0, 0, 0, 0, 5, 0xe4, 0x3f, 0x83, 0x34];
    assert_eq!(chip[128..143], spilled);
    assert_eq!(get_key(&chip, S, N, 5, &mut []), Ok(0));

    assert_eq!(invalidate_key(&mut chip, S, N, 1), Ok(()));
    assert_eq!(chip[65], 0);
    assert_eq!(garbage_collect(&mut chip, S, N), Ok(64));
    assert_eq!(chip[64..128], [255; 64]);
    assert_eq!(chip[128..143], spilled);
    assert_eq!(get_key(&chip, S, N, 5, &mut []), Ok(0));
}

#[test]
fn afternoon_7_zeroise() {
    let mut chip = blank();
    append_key(&mut chip, S, N, 1, &[7; 49]).unwrap();
    assert_eq!(zeroise_key(&mut chip, S, N, 1), Ok(()));
    assert_eq!(chip[64..75], [1, 0, 0x40, 0, 0, 0, 0, 0, 0, 0, 1]);
    assert_eq!(chip[75..128], [0; 53]);
    assert!(chip[..64].iter().chain(&chip[128..]).all(|&byte| byte == 255));
    assert_eq!(get_key(&chip, S, N, 1, &mut []), Err(Refusal::KeyNotFound));
}

#[test]
fn afternoon_8_version_2() {
    let mut chip = blank();
    chip[64] = 2;
    assert_eq!(get_key(&chip, S, N, 1, &mut []), Err(Refusal::UnsupportedVersion));
    assert_eq!(get_key(&chip, S, N, 3, &mut []), Err(Refusal::UnsupportedVersion));
}

#[test]
fn afternoon_9_lengths() {
    let record = |length: u8| {
        let mut chip = blank();
        chip[64..75].copy_from_slice(&[1, 0x80, length, 0, 0, 0, 0, 0, 0, 0, 1]);
        let sum = checksum(&chip[64..75]).to_le_bytes();
        chip[75..79].copy_from_slice(&sum);
        chip
    };
    assert_eq!(get_key(&record(14), S, N, 1, &mut []), Err(Refusal::CorruptData));
    assert_eq!(get_key(&record(15), S, N, 1, &mut []), Ok(0));
    assert_eq!(get_key(&record(0), S, N, 1, &mut []), Err(Refusal::CorruptData));
}

#[test]
fn afternoon_10_collect_on_a_blank_image() {
    let mut chip = blank();
    assert_eq!(garbage_collect(&mut chip, S, N), Ok(0));
    assert_eq!(chip, blank());
}

#[test]
fn afternoon_11_the_largest_value() {
    let (s, n) = (4096, 4);
    let mut chip = vec![255; s * n];
    let value: Vec<u8> = (0..4080u32).map(|i| (i % 251) as u8).collect();
    assert_eq!(append_key(&mut chip, s, n, 1, &value), Err(Refusal::ObjectTooLarge));
    assert!(chip.iter().all(|&byte| byte == 255));
    assert_eq!(append_key(&mut chip, s, n, 1, &value[..4079]), Ok(()));
    assert_eq!(chip[4096..4099], [1, 0x8f, 0xfe]);
    let mut buffer = vec![0; 4079];
    assert_eq!(get_key(&chip, s, n, 1, &mut buffer), Ok(4079));
    assert_eq!(buffer, value[..4079]);
}

#[test]
fn afternoon_12_initialise_erases_a_main_key_with_a_value() {
    let mut chip = blank();
    append_key(&mut chip, S, N, 1, &[7]).unwrap();
    append_key(&mut chip, S, N, 2, &[]).unwrap();
    assert_eq!(initialise(&mut chip, S, N, 1), Ok(Success::Written));
    let mut anew = blank();
    append_key(&mut anew, S, N, 1, &[]).unwrap();
    assert_eq!(chip, anew);
    assert_eq!(initialise(&mut chip, S, N, 1), Ok(Success::Complete(0)));
    assert_eq!(chip, anew);
}

#[test]
fn the_published_vector_of_the_checksum() {
    assert_eq!(checksum(b"123456789"), 0x765e_7680);
    assert_eq!(checksum(b""), 0xffff_ffff);
}
