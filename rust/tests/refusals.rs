//! Every refusal by its number, what comes first where several hold, and what a refusal leaves.
mod common;
use common::{blank, Call, Chip, Left, N, S};
use stilefray::ffi::{AnswerNumbers, RequestNumbers};
use stilefray::stepped::{Reply, Request, Running};
use stilefray::{checksum, image, Refusal, Success};

/// A call that must be refused with this number, in the one-call and in the stepped form, and leave image and buffer as they were.
fn refused(call: &Call, image: &[u8], s: usize, n: usize, number: u32) {
    let left = call.at_once(image, s, n);
    assert_eq!(left.answer.unwrap_err().number(), number, "{call:?}");
    assert_eq!(left, Left { answer: left.answer, image: image.to_vec(), buffer: call.buffer() }, "{call:?}");
}

/// The same in both forms.
fn refused_in_both(call: &Call, image: &[u8], number: u32) {
    refused(call, image, S, N, number);
    let (left, _) = call.by_steps(image, S, N);
    assert_eq!(left.answer.unwrap_err().number(), number, "{call:?}");
    assert_eq!((left.image, left.buffer), (image.to_vec(), call.buffer()), "{call:?}");
}

fn every_call(key: u64) -> Vec<Call> {
    vec![Call::Get(key, 5), Call::Append(key, vec![7; 5]), Call::Invalidate(key), Call::Zeroise(key), Call::Initialise(key), Call::Collect]
}

#[test]
fn number_1_bad_geometry() {
    let shapes = [(63, 4), (4097, 4), (64, 0), (64, 65), (0, 0), (usize::MAX, 1), (64, usize::MAX), (1 << 63, 2), (1 << 32, 1 << 32)];
    for call in every_call(1) {
        for (s, n) in shapes {
            refused(&call, &vec![255; s.wrapping_mul(n).min(5000)], s, n, 1);
            assert_eq!(call.start(s, n), Err(Refusal::BadGeometry), "{call:?} {s} {n}");
        }
        for length in [0, 64, 255, 257, 512] {
            refused(&call, &vec![255; length], S, N, 1);
        }
        for (s, n) in [(64, 1), (64, 64), (4096, 1), (4096, 64), (65, 3)] {
            let answer = call.at_once(&vec![255; s * n], s, n).answer;
            assert_ne!(answer, Err(Refusal::BadGeometry), "{call:?} {s} {n}");
            assert!(call.start(s, n).is_ok(), "{call:?} {s} {n}");
        }
    }
}

#[test]
fn number_2_bad_key() {
    for key in [0, u64::MAX] {
        for call in &every_call(key)[..5] {
            refused_in_both(call, &blank(), 2);
            assert_eq!(call.start(S, N), Err(Refusal::BadKey));
        }
    }
    for key in [1, u64::MAX - 1] {
        for call in every_call(key) {
            assert!(call.start(S, N).is_ok());
            assert_ne!(call.at_once(&blank(), S, N).answer, Err(Refusal::BadKey));
        }
    }
}

#[test]
fn number_3_object_too_large() {
    refused_in_both(&Call::Append(1, vec![7; 4080]), &blank(), 3);
    for length in [4080, 4081, 5000, usize::MAX] {
        assert_eq!(Running::append_key(S, N, 1, length), Err(Refusal::ObjectTooLarge));
    }
    assert!(Running::append_key(S, N, 1, 4079).is_ok());
    assert!(Running::get_key(S, N, 1, usize::MAX).is_ok());
}

#[test]
fn numbers_1_2_3_come_in_this_order_and_before_reading() {
    let bad = vec![2; S * N];
    refused(&Call::Append(0, vec![7; 4080]), &bad, 63, N, 1);
    refused(&Call::Append(0, vec![7; 4080]), &bad, S, N, 2);
    refused(&Call::Append(1, vec![7; 4080]), &bad, S, N, 3);
    refused(&Call::Append(1, vec![7; 4079]), &bad, S, N, 7);
    assert_eq!(Running::append_key(63, N, 0, 4080), Err(Refusal::BadGeometry));
    assert_eq!(Running::append_key(S, N, 0, 4080), Err(Refusal::BadKey));
}

#[test]
fn numbers_4_5_6_of_everyday_life() {
    for call in [Call::Get(1, 5), Call::Invalidate(1), Call::Zeroise(1)] {
        refused_in_both(&call, &blank(), 4);
    }
    let mut chip = blank();
    image::append_key(&mut chip, S, N, 1, &[7; 49]).unwrap();
    refused_in_both(&Call::Append(1, vec![]), &chip, 5);
    for key in [2, 3, 4] {
        image::append_key(&mut chip, S, N, key, &[7; 49]).unwrap();
    }
    refused_in_both(&Call::Append(9, vec![]), &chip, 6);
    // The key is met before the room is missed.
    refused_in_both(&Call::Append(4, vec![7; 50]), &chip, 5);
}

#[test]
fn numbers_7_and_8_of_a_bad_place() {
    for (bytes, number) in [([2, 0x80, 15], 7), ([0, 255, 255], 7), ([254, 255, 255], 7), ([1, 0x80, 14], 8), ([1, 0x80, 65], 8)] {
        let mut chip = blank();
        chip[64..67].copy_from_slice(&bytes);
        for call in &every_call(1)[..4] {
            refused_in_both(call, &chip, number);
        }
        refused_in_both(&Call::Collect, &chip, number);
    }
}

#[test]
fn number_8_of_a_place_that_is_not_blank() {
    let mut chip = blank();
    chip[64 + 14] = 254; // in the record's place; a blank byte before it ends the walk
    refused_in_both(&Call::Append(1, vec![]), &chip, 8);
    chip[64 + 14] = 255;
    chip[64 + 15] = 254; // just behind it
    assert_eq!(Call::Append(1, vec![]).at_once(&chip, S, N).answer, Ok(Success::Written));
}

#[test]
fn number_9_leaves_the_first_bytes_and_looks_at_no_checksum() {
    let mut chip = blank();
    image::append_key(&mut chip, S, N, 1, &[7, 8, 9]).unwrap();
    for wrong in [false, true] {
        chip[78] = if wrong { 0 } else { chip[78] };
        for (buffer_len, first) in [(0, vec![]), (1, vec![7]), (2, vec![7, 8])] {
            let expected = Left { answer: Err(Refusal::BufferTooSmall(3)), image: chip.clone(), buffer: first };
            assert_eq!(Call::Get(1, buffer_len).at_once(&chip, S, N), expected);
            assert_eq!(Call::Get(1, buffer_len).by_steps(&chip, S, N).0, expected);
        }
    }
    assert_eq!(<Refusal>::BufferTooSmall(3).number(), 9);
}

#[test]
fn number_10_leaves_the_copy() {
    let mut chip = blank();
    image::append_key(&mut chip, S, N, 1, &[7, 8, 9]).unwrap();
    let sum = checksum(&chip[64..78]).to_le_bytes();
    for i in 0..4 {
        let mut wrong = chip.clone();
        wrong[78 + i] = !sum[i];
        let expected = Left { answer: Err(Refusal::InvalidCheckSum), image: wrong.clone(), buffer: vec![7, 8, 9, 0xEE] };
        assert_eq!(Call::Get(1, 4).at_once(&wrong, S, N), expected);
        assert_eq!(Call::Get(1, 4).by_steps(&wrong, S, N).0, expected);
        // A removal looks at no checksum.
        assert_eq!(Call::Invalidate(1).at_once(&wrong, S, N).answer, Ok(Success::Written));
    }
    assert_eq!(<Refusal>::InvalidCheckSum.number(), 10);
}

#[test]
fn numbers_11_and_12_of_the_stepped_form() {
    let mut chip = Chip::new(S, blank());
    chip.fails_at = Some(2);
    let mut running = Running::append_key(S, N, 1, 3).unwrap();
    let mut region = [0; S];
    let mut request = running.step(Reply::Begin, &mut region[..63], &[7; 3], &mut []);
    assert_eq!(request, Request::Answer(Err(Refusal::BadCall)));
    assert_eq!(<Refusal>::BadCall.number(), 11);
    request = running.step(Reply::Begin, &mut region, &[7; 3], &mut []);
    let mut replies = Vec::new();
    while !matches!(request, Request::Answer(_)) {
        replies.push(chip.reply(request, &mut region));
        request = running.step(replies[replies.len() - 1], &mut region, &[7; 3], &mut []);
    }
    assert_eq!(replies, [Reply::Done, Reply::Done, Reply::Failed]);
    assert_eq!(request, Request::Answer(Err(Refusal::FlashFailed(()))));
    assert_eq!(<Refusal>::FlashFailed(()).number(), 12);
    assert!(running.has_ended());
    assert_eq!(chip.image, blank());
}

fn answer(kind: u32, refusal: u32) -> AnswerNumbers {
    AnswerNumbers { kind, refusal, value: 5 }
}

#[test]
fn a_number_that_is_not_known_is_said_to_be_so() {
    for number in 0..=20 {
        let refusal = answer(0, number).answer().unwrap_err();
        assert_eq!(refusal.number(), number);
        assert_eq!(refusal == Refusal::Unknown(number), !(1..=12).contains(&number));
    }
    assert_eq!(answer(0, u32::MAX).answer(), Err(Refusal::Unknown(u32::MAX)));
    assert_eq!(answer(3, 0).answer(), Ok(Success::Freed(5)));
    for kind in [4, 5, 11, 12, 255, u32::MAX] {
        assert_eq!(answer(kind, 4).answer(), Err(Refusal::UnknownKind(kind)));
    }
}

#[test]
fn a_request_that_is_not_known_is_said_to_be_so() {
    let numbers = RequestNumbers { kind: 1, region: 3, from: 4, to: 5, place: 6, answer: answer(0, 13) };
    assert_eq!(Request::from(numbers), Request::Read { region: 3 });
    assert_eq!(Request::from(RequestNumbers { kind: 4, ..numbers }), Request::Answer(Err(Refusal::Unknown(13))));
    for kind in [0, 5, 11, u32::MAX] {
        assert_eq!(Request::from(RequestNumbers { kind, ..numbers }), Request::Answer(Err(Refusal::UnknownKind(kind))));
    }
}

#[test]
fn a_refusal_is_an_error_with_words() {
    let error: &dyn std::error::Error = &<Refusal>::BufferTooSmall(3);
    assert_eq!(error.to_string(), "the buffer is too small for a value of 3 bytes");
    assert!(error.source().is_none());
    let words: [(Refusal, &str); 3] = [
        (Refusal::FlashFull, "no region has room"),
        (Refusal::FlashFailed(()), "the flash failed"),
        (Refusal::Unknown(13), "refusal 13, which this crate does not know"),
    ];
    words.iter().for_each(|(refusal, said)| assert_eq!(refusal.to_string(), *said));
}

/// Every refusal keeps its number when what is known of a failure is left out or replaced.
#[test]
fn a_refusal_without_what_is_known_of_a_failure() {
    for number in 1..=13 {
        let refusal = answer(0, number).answer().unwrap_err();
        let named: Refusal<&str> = refusal.map_failure(|()| "worn out");
        assert_eq!((named.number(), named.plain()), (number, refusal));
        assert_eq!(named.failure(), (number == 12).then_some(&"worn out"));
    }
}
