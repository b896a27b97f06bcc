//! A difference printed in full.

use crate::crate_side::Seen;
use crate::straight::{Call, Outcome};

/// Images above this size are found again by the seed and step that made them.
const PRINTED: usize = 4_096;

/// The image before the call, kept only where it will be printed.
pub fn worth_keeping(image: &[u8]) -> Vec<u8> {
    if image.len() <= PRINTED {
        image.to_vec()
    } else {
        Vec::new()
    }
}

pub fn hex(bytes: &[u8]) -> String {
    bytes.iter().map(|b| format!("{b:02x}")).collect()
}

fn shown(call: Call) -> String {
    match call {
        Call::Append { key, value } => {
            format!("append key {key:#x}, {} bytes: {}", value.len(), hex(value))
        }
        other => format!("{other:?}"),
    }
}

fn first_difference(a: &[u8], b: &[u8]) -> String {
    match a.iter().zip(b).position(|(x, y)| x != y) {
        None => "none".to_string(),
        Some(at) => format!("at {at}: {} / {}", a[at], b[at]),
    }
}

pub fn difference(
    s: usize,
    n: usize,
    before: &[u8],
    call: Call,
    said: &(Outcome, Outcome, Option<Seen>),
    after: [(&Vec<u8>, &Vec<u8>); 3],
) -> String {
    let mut lines = vec![
        format!("S {s}, N {n}, {}", shown(call)),
        format!("  ours     {:?}", said.0),
        format!("  straight {:?}", said.1),
    ];
    let [ours, straight, theirs] = after;
    lines.push(format!("  image, ours/straight: {}", first_difference(ours.0, straight.0)));
    lines.push(format!("  buffer, ours/straight: {}", first_difference(ours.1, straight.1)));
    if let Some(seen) = &said.2 {
        lines.push(format!("  crate    {seen:?}"));
        lines.push(format!("  image, crate/straight: {}", first_difference(theirs.0, straight.0)));
        lines.push(format!("  buffer, crate/straight: {}", first_difference(theirs.1, straight.1)));
    }
    if !before.is_empty() {
        lines.push(format!("  image before: {}", hex(before)));
    }
    lines.join("\n")
}
