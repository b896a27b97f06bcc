//! The smallest inputs that show D1 to D8, and what each side answers to them.

use crate::domain::Line;
use crate::faults::FOR_EVER;
use crate::straight::{self, Answer, Call, Outcome, Refusal};

pub struct Fault {
    pub line: Line,
    pub input: &'static str,
    pub says: &'static str,
    pub s: usize,
    pub n: usize,
    pub image: Vec<u8>,
    pub calls: Vec<Call<'static>>,
    /// The crate's answers, as the child prints them.
    pub theirs: Vec<&'static str>,
    pub ours: Vec<Outcome>,
}

static BYTES: [u8; 4_096] = [0x5a; 4_096];

const WRITTEN: Outcome = Ok(Answer::Written);
const CORRUPT: Outcome = Err(Refusal::CorruptData);
const PANIC: &str = "panic";

fn append(key: u64, length: usize) -> Call<'static> {
    Call::Append { key, value: &BYTES[..length] }
}

fn blank(s: usize, n: usize) -> Vec<u8> {
    vec![255; s * n]
}

/// S 64: a chip that the straight version made by these appends.
fn made(n: usize, appends: &[(u64, usize)]) -> Vec<u8> {
    let mut image = blank(64, n);
    for (key, length) in appends {
        straight::append(&mut image, 64, n, *key, &BYTES[..*length]).expect("it has room");
    }
    image
}

/// S 64, N 1: a blank chip with these bytes at a place.
fn with(place: usize, bytes: &[u8]) -> Vec<u8> {
    let mut image = blank(64, 1);
    image[place..place + bytes.len()].copy_from_slice(bytes);
    image
}

/// As `made` with keys 2 and 4 of home 0, key 4 spilled, and home collected.
fn spilled_past_empty() -> Vec<u8> {
    let mut image = made(2, &[(2, 49), (4, 0)]);
    straight::invalidate(&mut image, 64, 2, 2).expect("it is live");
    straight::collect(&mut image, 64, 2).expect("no bad place");
    image
}

fn d1() -> Vec<Fault> {
    let lookup = |input, image| Fault {
        line: Line::D1,
        input,
        says: "every region is read: Complete with length 0",
        s: 64,
        n: 2,
        image,
        calls: vec![Call::Get { key: 4 }],
        theirs: vec!["KeyNotFound"],
        ours: vec![Ok(Answer::Complete(0))],
    };
    let full = made(2, &[(2, 49), (4, 0)]);
    vec![
        lookup("S 64, N 2: region 0 full, key 4 of home 0 in region 1; get 4", full),
        lookup(
            "S 64, N 2: region 0 blank, key 4 of home 0 in region 1; get 4",
            spilled_past_empty(),
        ),
        Fault {
            line: Line::D1,
            input: "S 64, N 2: the same chip; append 4 without a value",
            says: "KeyAlreadyExists",
            s: 64,
            n: 2,
            image: spilled_past_empty(),
            calls: vec![append(4, 0)],
            theirs: vec!["Written"],
            ours: vec![Err(Refusal::KeyAlreadyExists)],
        },
    ]
}

fn d2_d3() -> Vec<Fault> {
    vec![
        Fault {
            line: Line::D2,
            input: "S 4,096, N 1, blank; append 1, a value of 4,080 bytes",
            says: "ObjectTooLarge",
            s: 4_096,
            n: 1,
            image: blank(4_096, 1),
            calls: vec![append(1, 4_080)],
            theirs: vec![PANIC],
            ours: vec![Err(Refusal::ObjectTooLarge)],
        },
        Fault {
            line: Line::D3,
            input: "S 64, N 2: key 2 without a value in region 0; append 4, 35 bytes (one too many for region 0), then get 2",
            says: "the next region takes it: Written; then Complete",
            s: 64,
            n: 2,
            image: made(2, &[(2, 0)]),
            calls: vec![append(4, 35), Call::Get { key: 2 }],
            theirs: vec!["ObjectTooLarge", PANIC],
            ours: vec![WRITTEN, Ok(Answer::Complete(0))],
        },
    ]
}

fn d4() -> Vec<Fault> {
    let fault = |input, byte1, call, theirs| Fault {
        line: Line::D4,
        input,
        says: "CorruptData",
        s: 64,
        n: 1,
        image: with(0, &[1, byte1, 0]),
        calls: vec![call],
        theirs: vec![theirs],
        ours: vec![CORRUPT],
    };
    vec![
        fault(
            "S 64, N 1: length 0 at place 0; append 1 without a value",
            0x80,
            append(1, 0),
            FOR_EVER,
        ),
        fault("S 64, N 1: length 0 at place 0, dead; collect", 0, Call::Collect, FOR_EVER),
        fault("S 64, N 1: length 0 at place 0; get 1", 0x80, Call::Get { key: 1 }, "KeyNotFound"),
    ]
}

fn d5() -> Vec<Fault> {
    vec![Fault {
        line: Line::D5,
        input: "S 64, N 1: key 1 with 39 bytes, ten bytes behind it; zeroise 1, then get 1",
        says: "Written; then KeyNotFound",
        s: 64,
        n: 1,
        image: made(1, &[(1, 39)]),
        calls: vec![Call::Zeroise { key: 1 }, Call::Get { key: 1 }],
        theirs: vec!["RegionFull", PANIC],
        ours: vec![WRITTEN, Err(Refusal::KeyNotFound)],
    }]
}

fn d6() -> Vec<Fault> {
    let fault = |input, key| Fault {
        line: Line::D6,
        input,
        says: "BadKey",
        s: 64,
        n: 1,
        image: blank(64, 1),
        calls: vec![Call::Get { key }],
        theirs: vec![PANIC],
        ours: vec![Err(Refusal::BadKey)],
    };
    vec![fault("S 64, N 1, blank; get 0", 0), fault("S 64, N 1, blank; get 2^64 - 1", u64::MAX)]
}

fn d7() -> Vec<Fault> {
    let fault = |input, image, call, theirs| Fault {
        line: Line::D7,
        input,
        says: "CorruptData",
        s: 64,
        n: 1,
        image,
        calls: vec![call],
        theirs: vec![theirs],
        ours: vec![CORRUPT],
    };
    let mut short = with(0, &[1, 0, 14]);
    short[14..29].copy_from_slice(&made(1, &[(1, 0)])[..15]);
    let past = with(0, &[1, 0x80, 65, 0, 0, 0, 0, 0, 0, 0, 1]);
    let behind = "S 64, N 1: dead, length 14, key 1 behind it; get 1";
    let beyond = "S 64, N 1: key 1, length 65; invalidate 1";
    vec![
        fault(behind, short, Call::Get { key: 1 }, "Complete, 0"),
        fault(beyond, past, Call::Invalidate { key: 1 }, "Written"),
    ]
}

fn d8() -> Vec<Fault> {
    vec![Fault {
        line: Line::D8,
        input: "S 64, N 1: blank but for a 0 at place 11; append 1, one byte; then get 1",
        says: "CorruptData and nothing written; then KeyNotFound",
        s: 64,
        n: 1,
        image: with(11, &[0]),
        calls: vec![append(1, 1), Call::Get { key: 1 }],
        theirs: vec!["Written", "InvalidCheckSum"],
        ours: vec![CORRUPT, Err(Refusal::KeyNotFound)],
    }]
}

pub fn faults() -> Vec<Fault> {
    [d1(), d2_d3(), d4(), d5(), d6(), d7(), d8()].into_iter().flatten().collect()
}
