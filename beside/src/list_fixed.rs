//! Inputs for the program `list` that are the same in every run: texts worked out by
//! hand, the limits, and every kind that is refused.

use crate::list_inputs::{full, input, shown_chip, with_line};
use crate::list_text::{limits, HEADER, MOST, REFUSED};

/// A name, and inputs that go by it.
pub type Group = (&'static str, Vec<Vec<u8>>);

/// Inputs with the whole text that they must give.
pub fn by_hand() -> Vec<(Vec<u8>, String)> {
    let record = [1, 0x80, 0x12, 0, 0, 0, 0, 0, 0, 0, 1, 7, 8, 9, 0x96, 0xc0, 0xf7, 0x18];
    let mut second = vec![255; 256];
    second[64..82].copy_from_slice(&record);
    let listed = |image: &[u8], lines: &str| (input(64, 4, image), format!("{HEADER}{lines}"));
    let struck = |place: usize, bytes: &[u8]| {
        let mut image = second.clone();
        image[place..place + bytes.len()].copy_from_slice(bytes);
        image
    };
    let line = "1 0 live 0000000000000001 3\n";
    vec![
        listed(&[255; 256], ""),
        listed(&second, line),
        listed(&struck(65, &[0]), "1 0 dead 0000000000000001 3\n"),
        listed(&struck(81, &[0]), line),
        listed(&struck(64, &[2]), "bad 1 0\n"),
        listed(&struck(0, &[2]), "bad 0 0\n"),
        listed(&struck(82, &[0]), "1 0 live 0000000000000001 3\nbad 1 18\n"),
        listed(&struck(65, &[0x80, 14]), "bad 1 0\n"),
        listed(&struck(65, &[0x80, 0]), "bad 1 0\n"),
        listed(&struck(65, &[0x80, 15]), "1 0 live 0000000000000001 0\nbad 1 15\n"),
        listed(&struck(65, &[0x80, 64]), "1 0 live 0000000000000001 49\n"),
        listed(&struck(65, &[0x80, 65]), "bad 1 0\n"),
        listed(
            &struck(67, &[0xfe, 0xdc, 0xba, 0x98, 0x76, 0x54, 0x32, 0x10]),
            "1 0 live fedcba9876543210 3\n",
        ),
        listed(
            &shown_chip(),
            "1 0 live 0000000000000001 3\n2 0 live 0000000000000005 40\n\
             3 0 dead 0000000000000003 12\n3 27 live 0000000000000003 18\n",
        ),
        (Vec::new(), REFUSED.to_string()),
    ]
}

/// The least and the greatest chips, full ones, and those of one byte's value.
fn taken() -> Vec<Vec<u8>> {
    let mut list = Vec::new();
    for (s, n) in [(64, 1), (65, 1), (64, 64), (4_096, 1), (4_096, 16), (1_024, 64), (3_855, 17)] {
        list.push(input(s, n, &full(s, n)));
        list.extend([0, 1, 15, 255].map(|byte| input(s, n, &vec![byte; s * n])));
    }
    // A record of 4,095 bytes, which the format can say and the store does not write.
    let mut longest = vec![255; 4_096];
    longest[..3].copy_from_slice(&[1, 0x8f, 0xff]);
    list.push(input(4_096, 1, &longest));
    list
}

/// Geometries with so many bytes in all.
fn with_bytes(all: std::ops::RangeInclusive<usize>) -> impl Iterator<Item = (usize, usize)> {
    let chips = all.flat_map(|bytes| (1..=64).map(move |n| (bytes, n)));
    chips
        .filter(|(bytes, n)| bytes % n == 0 && limits(bytes / n, *n))
        .map(|(bytes, n)| (bytes / n, n))
}

/// Chips of just so many bytes as are taken, or a few less.
fn nearly_over() -> Vec<Vec<u8>> {
    with_bytes(65_500..=MOST).map(|(s, n)| input(s, n, &full(s, n))).collect()
}

fn over() -> Vec<Vec<u8>> {
    let larger = [(4_096, 17), (1_025, 64), (4_096, 64), (2_048, 33), (4_000, 60)];
    let least = with_bytes(MOST + 1..=65_600);
    least.chain(larger).map(|(s, n)| input(s, n, &full(s, n))).collect()
}

/// S or N outside its limits, with all the bytes that they say.
fn outside() -> Vec<Vec<u8>> {
    let pairs = [
        (0, 0),
        (0, 1),
        (64, 0),
        (63, 1),
        (63, 64),
        (1, 1),
        (32, 2),
        (4_097, 1),
        (4_097, 15),
        (8_192, 8),
        (65_535, 1),
        (65_536, 1),
    ];
    let more = [
        (64, 65),
        (64, 66),
        (64, 128),
        (64, 257),
        (100, 100),
        (256, 256),
        (1, 64),
        (10, 10),
        (63, 65),
    ];
    let list = pairs.into_iter().chain(more);
    list.map(|(s, n)| input(s, n, &vec![255; s * n])).collect()
}

/// First lines that are no "S N": with the bytes of a chip of 64 by 1 behind each,
/// which a reader that is too kind would take it for.
const LINES: [&str; 52] = [
    "\n",
    "\n64 1\n",
    " \n",
    "64\n",
    "64 \n",
    " 1\n",
    "64 1 \n",
    " 64 1\n",
    "  64 1\n",
    "64  1\n",
    "64   1\n",
    "64 1  \n",
    "64 1 1\n",
    "64 1 x\n",
    "64\t1\n",
    "\t64 1\n",
    "64 1\t\n",
    "64 \t1\n",
    "64 1\r\n",
    "64\r 1\n",
    "\r64 1\n",
    "64 1\r",
    "64\n1\n",
    "64 \n1\n",
    "+64 1\n",
    "64 +1\n",
    "-64 1\n",
    "64 -1\n",
    "-64 -1\n",
    "064 1\n",
    "64 01\n",
    "0064 001\n",
    "0 1\n",
    "64 0\n",
    "00 00\n",
    "x 1\n",
    "64 x\n",
    "S N\n",
    "64x1\n",
    "64a 1\n",
    "64 1a\n",
    "0x40 1\n",
    "40h 1\n",
    "64,1\n",
    "64.0 1\n",
    "6_4 1\n",
    "64 1\0\n",
    "\u{feff}64 1\n",
    "64\u{a0}1\n",
    "６４ 1\n",
    "1 64\n",
    "64 1\u{b}\n",
];

fn lines() -> Vec<Vec<u8>> {
    LINES.iter().map(|line| with_line(line, &[255; 64])).collect()
}

/// Numbers too long for a word, most of them 64 or 1 in the low bits of one.
fn too_long() -> Vec<Vec<u8>> {
    let words = [8, 16, 32, 64, 127];
    let mut list = Vec::new();
    let mut add = |s: String, n: String| list.push(with_line(&format!("{s} {n}\n"), &[255; 64]));
    for word in words {
        add("64".to_string(), ((1u128 << word) + 1).to_string());
        add(((1u128 << word) + 64).to_string(), "1".to_string());
    }
    for times in 2..12u128 {
        add(((times << 64) + 64).to_string(), "1".to_string());
        add("64".to_string(), ((times << 64) + 1).to_string());
    }
    for text in
        ["340282366920938463463374607431768211520", "18446744073709551615", "99999999999999999999"]
    {
        add(text.to_string(), "1".to_string());
        add("64".to_string(), text.to_string());
    }
    for length in [19, 20, 21, 40, 400, 65_536, 65_600, 300_000] {
        add("6".repeat(length), "1".to_string());
        add("64".to_string(), "1".repeat(length));
        add(format!("1{}64", "0".repeat(length)), "1".to_string());
    }
    // Products that are 0 in a word of 64 bits, and so many bytes.
    for line in ["4294967296 4294967296\n", "9223372036854775808 2\n", "64 288230376151711744\n"] {
        list.push(line.as_bytes().to_vec());
    }
    list
}

/// No line feed at all.
fn unended() -> Vec<Vec<u8>> {
    let texts = ["64", "64 ", "64 1", "4096 16", "6", "0", " ", "\r", "x", "\u{ff}"];
    let mut list: Vec<Vec<u8>> = texts.iter().map(|text| text.as_bytes().to_vec()).collect();
    list.extend(texts.iter().map(|text| with_line(text, &[255; 64])));
    list
}

/// Too few bytes behind a good line, or too many: by one, at the program's own
/// limits, and far more than it can keep.
fn wrong_count() -> Vec<Vec<u8>> {
    let mut list = Vec::new();
    for (s, n) in [(64, 1), (64, 4), (100, 3), (4_096, 1), (4_096, 16), (1_024, 64)] {
        let all = s * n;
        for count in
            [0, 1, all / 2, all - s, all - 1, all + 1, all + 2, all + s, 65_537, 70_000, 300_000]
        {
            list.push(input(s, n, &vec![255; count]));
        }
        // All in all as many bytes as a buffer for the longest input may have.
        for total in [65_535, 65_536, 65_543, 65_545, 65_599, 65_600, 65_601, 131_072] {
            let line = format!("{s} {n}\n").len();
            list.push(input(s, n, &vec![255; total - line]));
        }
    }
    list
}

/// Long inputs of one byte's value, which have no first line or an empty one.
fn long() -> Vec<Vec<u8>> {
    let bytes = *b"\n 10x\xff\0\x01";
    bytes.iter().flat_map(|byte| [70_000, 300_000].map(|count| vec![*byte; count])).collect()
}

/// All must be listed.
pub fn good() -> Vec<Group> {
    vec![("the limits", taken()), ("nearly over", nearly_over())]
}

/// All must be refused.
pub fn refused() -> Vec<Group> {
    vec![
        ("no first line", lines()),
        ("too long a number", too_long()),
        ("no line feed", unended()),
        ("outside the limits", outside()),
        ("over 65,536", over()),
        ("wrong count", wrong_count()),
        ("long", long()),
    ]
}
