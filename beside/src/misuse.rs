//! Steps that break the stepped form's rules: each is BadCall and leaves the
//! operation and all buffers alone.

use crate::prng::Prng;
use crate::straight::Call;
use stilefray::ffi::{step, Operation};
use stilefray::stepped::{Reply, Request, Running};
use stilefray::Refusal;

const BAD: Request = Request::Answer(Err(Refusal::BadCall));
pub const REPLIES: [Reply; 4] = [Reply::Begin, Reply::Done, Reply::NotReady, Reply::Failed];

/// What a step is lent.
#[derive(Clone)]
pub struct Lent {
    pub region: Vec<u8>,
    pub value: Vec<u8>,
    pub buffer: Vec<u8>,
}

/// A step on copies: its request, and whether it left everything alone.
fn tried(op: Operation, reply: Reply, lent: &Lent) -> (Request, bool) {
    let mut copy = lent.clone();
    let mut after = Running::from_numbers(op);
    let request = after.step(reply, &mut copy.region, &copy.value, &mut copy.buffer);
    let alone = after.numbers() == op && copy.region == lent.region && copy.buffer == lent.buffer;
    (request, alone)
}

fn refused(what: &str, op: Operation, reply: Reply, lent: &Lent) -> Result<u64, String> {
    let (request, alone) = tried(op, reply, lent);
    if request == BAD && alone {
        return Ok(1);
    }
    let whole = if alone { "" } else { ", and something was altered" };
    Err(format!("{what}, {reply:?}: {request:?}{whole} on {op:?}"))
}

fn resized(bytes: &[u8], rng: &mut Prng) -> Vec<u8> {
    let mut other = bytes.to_vec();
    match rng.below(3) {
        0 => other.push(7),
        1 if !other.is_empty() => drop(other.pop()),
        _ => other.resize(if bytes.is_empty() { 5 } else { 0 }, 7),
    }
    other
}

/// Wrong lengths, also where the reply is a failure: BadCall comes first.
fn lengths(
    rng: &mut Prng,
    op: Operation,
    right: Reply,
    lent: &Lent,
    call: Call,
) -> Result<u64, String> {
    let reply = if rng.one_in(2) && right != Reply::Begin { Reply::Failed } else { right };
    let mut wrong = lent.clone();
    wrong.region = resized(&lent.region, rng);
    let mut count = refused("region buffer's length", op, reply, &wrong)?;
    let mut wrong = lent.clone();
    match call {
        Call::Append { .. } => wrong.value = resized(&lent.value, rng),
        Call::Get { .. } => wrong.buffer = resized(&lent.buffer, rng),
        _ => return Ok(count),
    }
    count += refused("lent length", op, reply, &wrong)?;
    Ok(count)
}

fn replies(op: Operation, right: Reply, lent: &Lent) -> Result<u64, String> {
    let first = right == Reply::Begin;
    let mut count = 0;
    for reply in REPLIES.into_iter().filter(|reply| (*reply == Reply::Begin) != first) {
        count += refused("reply out of turn", op, reply, lent)?;
    }
    Ok(count)
}

/// Replies that are none of the four, by the C side's numbers.
fn no_reply(op: Operation, lent: &Lent) -> Result<u64, String> {
    for reply in [4, 255, u32::MAX] {
        let mut copy = lent.clone();
        let got = step(op, reply, &mut copy.region, &copy.value, &mut copy.buffer);
        let alone = got.op == op && copy.region == lent.region && copy.buffer == lent.buffer;
        if got.request.kind != 4 || got.request.answer.refusal != 11 || !alone {
            return Err(format!("reply {reply}: {got:?} on {op:?}"));
        }
    }
    Ok(3)
}

/// Numbers that no start and no step hands out: out of bounds where they are
/// used, and not 0 where they are not.
fn broken(rng: &mut Prng, mut op: Operation) -> Operation {
    const NEXT_FREED: u32 = 5;
    const EDIT_ERASES: u32 = 5;
    match rng.below(15) {
        0 => op.layout = rng.pick(&[0, 1, 3, u32::MAX]),
        1 => op.fresh = rng.pick(&[2, 3, 77, u32::MAX]),
        2 => op.lent = rng.pick(&[3, 4, 77, u32::MAX]),
        3 => op.edit = rng.pick(&[6, 7, 77, u32::MAX]),
        4 => op.next = rng.pick(&[0, 6, 7, u32::MAX]),
        5 => op.aim = rng.pick(&[6, 7, 77, u32::MAX]),
        6 => op.tag = rng.pick(&[3, 4, 77, u32::MAX]),
        7 => op.s = rng.pick(&[0, 63, 4_097, usize::MAX]),
        8 => op.n = rng.pick(&[0, 65, usize::MAX]),
        9 => op.key = rng.pick(&[0, u64::MAX]),
        // A run of erases that begins past its end is an empty one.
        10 if op.edit != EDIT_ERASES => op.region = rng.pick(&[op.n, 64, usize::MAX]),
        10 | 11 => op.at = rng.pick(&[op.s + 1, usize::MAX - 14, usize::MAX]),
        12 => op.size = rng.pick(&[14, 4_096, usize::MAX]),
        // Any number of bytes may have been freed.
        13 if op.next != NEXT_FREED => op.a = rng.pick(&[op.n, 64, usize::MAX]),
        13 => op.b = rng.pick(&[64, usize::MAX]),
        _ => op.c = rng.pick(&[op.s - 14, op.s, usize::MAX]),
    }
    op
}

/// Any number of the operation altered at random.
fn altered(rng: &mut Prng, mut op: Operation) -> Operation {
    let small = rng.below(70);
    match rng.below(20) {
        0 => op.layout = rng.below(4) as u32,
        1 => op.fresh = rng.below(3) as u32,
        2 => op.lent = rng.below(4) as u32,
        3 => op.edit = rng.below(7) as u32,
        4 => op.next = rng.below(8) as u32,
        5 => op.aim = rng.below(7) as u32,
        6 => op.tag = rng.below(4) as u32,
        7 => op.version = rng.below(3) as u8,
        8 => op.flags = rng.below(17) as u8,
        9 => op.s = rng.pick(&[64, 65, 80, 4_096]),
        10 => op.n = 1 + rng.below(64),
        11 => op.key = rng.next(),
        12 => op.len = rng.pick(&[0, small, 4_079, 4_080]),
        13 => op.region = small,
        14 => op.at = rng.pick(&[small, op.s, op.s - 15, op.s - 14]),
        15 => op.size = rng.pick(&[small, op.s, 14, 15, usize::MAX]),
        16 => op.found = rng.next(),
        17 => op.a = small,
        18 => op.b = small,
        _ => op.c = rng.pick(&[small, op.s, op.s - 15, usize::MAX]),
    }
    op
}

fn within(op: &Operation, request: Request) -> bool {
    match request {
        Request::Read { region } | Request::Erase { region } => region < op.n,
        Request::Answer(_) => true,
        Request::Write { from, to, place } => {
            from <= to && to <= op.s && place % op.s == from && place / op.s < op.n
        }
    }
}

/// A forged operation: BadCall and everything left alone, or a request within
/// the chip that its numbers name.
fn forged(rng: &mut Prng, kept: Operation, lent: &Lent) -> Result<u64, String> {
    let reply = rng.pick(&REPLIES);
    let op = broken(rng, kept);
    let mut fitting = lent.clone();
    if op.s <= 5_000 {
        fitting.region.resize(op.s, 3);
    }
    refused("broken operation", op, reply, &fitting)?;
    let op = altered(rng, kept);
    fitting.region.resize(op.s, 3);
    let (request, alone) = tried(op, reply, &fitting);
    if request == BAD && !alone {
        return Err(format!("BadCall altered something on {op:?}, {reply:?}"));
    }
    if !within(&op, request) {
        return Err(format!("{request:?} is outside the chip of {op:?}, {reply:?}"));
    }
    Ok(2)
}

/// All of these where an operation waits for `right` or one of its kind.
pub fn running(
    rng: &mut Prng,
    op: Operation,
    right: Reply,
    lent: &Lent,
    call: Call,
) -> Result<u64, String> {
    let count = lengths(rng, op, right, lent, call)? + replies(op, right, lent)?;
    Ok(count + no_reply(op, lent)? + forged(rng, op, lent)?)
}

/// Steps after the end.
pub fn ended(op: Operation, lent: &Lent) -> Result<u64, String> {
    for reply in REPLIES {
        refused("step after the end", op, reply, lent)?;
    }
    Ok(REPLIES.len() as u64)
}
