//! The written rule of docs/HOST.md, said once more in Rust, so that the two can be held against each other.
use super::NONE;
use stilefray::ffi::Operation;

pub const LAYOUT: u32 = 8;

/// The rule, on the numbers alone, for one that has not ended; and numbers that are not used are 0.
pub fn keeps_rule(op: &Operation) -> bool {
    let shaped = (64..=4096).contains(&op.s) && (1..=64).contains(&op.n);
    let allowed = op.key != 0 && op.key != u64::MAX && (op.lent != 1 || op.len <= 4079);
    let known = op.layout == LAYOUT && op.fresh <= 1 && op.lent <= 2;
    known && shaped && allowed && edit_fits(op) && next_fits(op) && tidy(*op) == *op
}

/// A record of this length, at a place of a region.
fn lies(op: &Operation, region: usize, place: usize, length: usize) -> bool {
    region < op.n && place.checked_add(length).is_some_and(|end| end <= op.s)
}

/// The length of the record that is appended, where one is: what is lent no value appends an empty one.
fn new_length(op: &Operation) -> usize {
    15 + if op.lent == 1 { op.len } else { 0 }
}

fn edit_fits(op: &Operation) -> bool {
    match op.edit {
        0 => true,
        1 => lies(op, op.region, op.at, new_length(op)),
        2 | 3 => (15..=4095).contains(&op.size) && lies(op, op.region, op.at, op.size),
        4 => op.region < op.n,
        5 => op.at <= op.n,
        _ => false,
    }
}

/// Whether there is something to write or to erase.
pub fn edits(op: &Operation) -> bool {
    (1..=4).contains(&op.edit) || (op.edit == 5 && op.region < op.at)
}

/// What is next lies in the chip; an answer is next only where an edit comes before it.
fn next_fits(op: &Operation) -> bool {
    match op.next {
        1 => aim_fits(op) && op.a < op.n && (op.tag == 0 || (op.tag <= 2 && lies(op, op.b, op.c, new_length(op)))),
        2 => op.a < op.n && op.b <= op.a,
        3..=5 => edits(op),
        _ => false,
    }
}

/// What is lent is what the aim wants; initialise's append is lent nothing.
fn aim_fits(op: &Operation) -> bool {
    match op.aim {
        1 => op.lent == 2,
        2 => op.lent <= 1,
        3..=5 => op.lent == 0,
        _ => false,
    }
}

pub fn call_fits(op: &Operation, reply: u32, region: usize, value: usize, buffer: usize) -> bool {
    let lent = (op.lent != 1 || value == op.len) && (op.lent != 2 || buffer == op.len);
    let replied = if op.fresh == 1 { reply == 0 } else { (1..=3).contains(&reply) };
    keeps_rule(op) && region == op.s && lent && replied
}

/// The unused numbers of an operation made 0, as a step hands it out.
pub fn tidy(op: Operation) -> Operation {
    let Operation { layout, fresh, lent, edit, next, s, n, key, .. } = op;
    let len = if lent == 0 { 0 } else { op.len };
    let mut tidy = Operation { layout, fresh, lent, edit, next, s, n, key, len, ..NONE };
    match edit {
        1 | 5 => (tidy.region, tidy.at) = (op.region, op.at),
        2 | 3 => {
            (tidy.region, tidy.at, tidy.size, tidy.found) = (op.region, op.at, op.size, op.found);
            (tidy.version, tidy.flags) = (op.version, op.flags);
        }
        4 => tidy.region = op.region,
        _ => {}
    }
    match next {
        1 if op.tag == 0 => (tidy.aim, tidy.a) = (op.aim, op.a),
        1 => (tidy.aim, tidy.tag, tidy.a, tidy.b, tidy.c) = (op.aim, op.tag, op.a, op.b, op.c),
        2 => (tidy.a, tidy.b) = (op.a, op.b),
        3 | 5 => tidy.a = op.a,
        _ => {}
    }
    tidy
}
