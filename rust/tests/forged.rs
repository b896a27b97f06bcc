//! Operations that no start handed out. Each is answered by BadCall, which hands it back bit for bit and alters no buffer, or by a
//! request within the chip that it names; and it is BadCall exactly where the written rule or the call's own rules are broken.
mod common;
use common::rule::{call_fits, edits, keeps_rule, tidy, LAYOUT};
use common::{Numbers, NONE};
use std::collections::BTreeSet;
use stilefray::ffi::{self, AnswerNumbers, Operation, RequestNumbers, SteppedNumbers};

/// What the operation waits for once it has begun: the kind of its request.
fn waits_for(op: &Operation) -> u32 {
    match op.edit {
        1..=3 => 2,
        4 => 3,
        5 if edits(op) => 3,
        _ => 1,
    }
}

/// A request that a host may serve without a look at it.
fn is_within(op: &Operation, request: &RequestNumbers) {
    let none = AnswerNumbers { kind: 0, refusal: 0, value: 0 };
    let RequestNumbers { kind, region, from, to, place, answer } = *request;
    match kind {
        1 | 3 => assert!(region < op.n && (from, to, place, answer) == (0, 0, 0, none), "{op:?} {request:?}"),
        2 => {
            assert!(from < to && to <= op.s && place % op.s == from && place / op.s < op.n, "{op:?} {request:?}");
            assert_eq!((region, answer), (0, none));
        }
        4 => {
            assert_eq!((region, from, to, place), (0, 0, 0, 0));
            let refused = answer.kind == 0 && (1..=12).contains(&answer.refusal);
            assert!(refused || ((1..=3).contains(&answer.kind) && answer.refusal == 0), "{op:?} {request:?}");
        }
        _ => panic!("a request of no kind: {op:?} {request:?}"),
    }
}

/// What follows a reply. After "begin" and "not ready" the same operation waits, now begun; a failed service ends it; and one that was
/// written or erased is followed by what was next.
fn follows(op: &Operation, reply: u32, stepped: &SteppedNumbers) {
    let SteppedNumbers { op: after, request } = *stepped;
    let ended = tidy(Operation { fresh: 0, edit: 0, next: 6, ..*op });
    assert_eq!(request.kind == 4, after.next == 6, "{op:?} {stepped:?}");
    assert!(after.next != 6 || after == ended, "{op:?} {stepped:?}");
    assert!(after.next == 6 || (keeps_rule(&after) && after.fresh == 0 && request.kind == waits_for(&after)), "{op:?} {stepped:?}");
    match reply {
        0 | 2 => assert_eq!(after, Operation { fresh: 0, ..*op }),
        3 => assert_eq!((after, request.answer), (ended, AnswerNumbers { kind: 0, refusal: 12, value: 0 })),
        _ if edits(op) && op.edit == 5 && (op.next <= 2 || op.region + 1 < op.at) => {
            assert_eq!(after, Operation { region: op.region + 1, ..*op });
        }
        _ if edits(op) && op.next <= 2 => assert_eq!(after, tidy(Operation { edit: 0, ..*op })),
        _ if edits(op) => assert_eq!((after, request.answer), (ended, AnswerNumbers { kind: op.next - 2, refusal: 0, value: op.a })),
        _ => {}
    }
}

/// One step of a forged operation on region bytes of any kind; whether it was BadCall.
fn try_step(numbers: &mut Numbers, op: Operation, reply: u32, region_len: usize, value_len: usize, buffer_len: usize) -> bool {
    let fill = [255, 1, 0, numbers.next() as u8][numbers.below(4)];
    let mut region = vec![fill; region_len];
    let header = [1, 0x80, 20, 0, 0, 0, 0, 0, 0, 0, 1 + numbers.below(3) as u8];
    if region_len >= 11 && numbers.below(2) == 0 {
        region[..11].copy_from_slice(&header);
    }
    let (value, mut buffer) = (vec![3; value_len], vec![0xEE; buffer_len]);
    let region_before = region.clone();
    let stepped = ffi::step(op, reply, &mut region, &value, &mut buffer);
    let bad = stepped.request.kind == 4 && stepped.request.answer.refusal == 11;
    assert_eq!(bad, !call_fits(&op, reply, region_len, value_len, buffer_len), "{op:?} {reply} {region_len} {value_len} {buffer_len}");
    if bad {
        assert_eq!(stepped.op, op);
        assert_eq!(stepped.request.answer, AnswerNumbers { kind: 0, refusal: 11, value: 0 });
        assert_eq!((region, buffer), (region_before, vec![0xEE; buffer_len]));
        return true;
    }
    is_within(&op, &stepped.request);
    follows(&op, reply, &stepped);
    let RequestNumbers { kind, from, to, .. } = stepped.request;
    assert_eq!((&region[..from], &region[to..]), (&region_before[..from], &region_before[to..]), "{op:?} {stepped:?}");
    assert!(kind == 4 || buffer.iter().all(|byte| *byte == 0xEE), "{op:?} {stepped:?}");
    if reply >= 2 {
        assert_eq!((region, buffer), (region_before, vec![0xEE; buffer_len]));
    }
    false
}

/// Whether it is fresh, its edit, what is next and its aim.
type Kind = (u32, u32, u32, u32);

fn kind(op: &Operation) -> Kind {
    (op.fresh, op.edit, op.next, op.aim)
}

/// Every kind of operation that may run: one that seeks for an aim or sweeps, or first edits and then does this or answers.
fn running() -> Vec<Kind> {
    let nexts = [(1, 1), (1, 2), (1, 3), (1, 4), (1, 5), (2, 0), (3, 0), (4, 0), (5, 0)];
    let kinds = (0..=1).flat_map(|fresh| (0..=5).flat_map(move |edit| nexts.map(move |(next, aim)| (fresh, edit, next, aim))));
    kinds.filter(|(_, edit, next, _)| *edit != 0 || *next <= 2).collect()
}

/// Every list of one number of each of these ranges, which all begin at 0.
fn every<const COUNT: usize>(ends: [u32; COUNT]) -> impl Iterator<Item = [u32; COUNT]> {
    (0..ends.iter().product()).map(move |mut which| {
        ends.map(|end| {
            let number = which % end;
            which /= end;
            number
        })
    })
}

#[test]
fn every_number_of_a_kind_with_numbers_that_fit_and_that_do_not() {
    let mut numbers = Numbers(3);
    let mut runs = BTreeSet::new();
    // Region, place and length of the edit; and what is next.
    let edits = [(0, 0, 15), (3, 49, 15), (3, 44, 20), (3, 50, 15), (4, 4, 15), (0, 4, 14), (1, usize::MAX, 2)];
    let nexts = [(0, 0, 0), (3, 3, 44), (3, 2, 49), (3, 4, 4), (2, 3, 50), (4, 0, 0)];
    for [fresh, lent, edit, next, aim, tag] in every([3, 4, 7, 8, 7, 4]) {
        for ((region, at, size), (a, b, c)) in edits.iter().flat_map(|edit| nexts.iter().map(move |next| (*edit, *next))) {
            let usual = Operation { layout: LAYOUT, s: 64, n: 4, key: 1, len: 5, found: 1, version: 1, flags: 8, ..NONE };
            let op = Operation { fresh, lent, edit, next, aim, tag, region, at, size, a, b, c, ..usual };
            let tidy = tidy(op);
            let (any, usual_reply) = (numbers.below(5) as u32, if fresh == 1 { 0 } else { 1 + numbers.below(3) as u32 });
            if numbers.below(8) == 0 {
                try_step(&mut numbers, op, any, 64, 5, 5);
            }
            if !try_step(&mut numbers, tidy, usual_reply, 64, 5, 5) {
                runs.insert(kind(&tidy));
            }
        }
    }
    assert_eq!(runs, running().into_iter().collect());
}

/// A number that is mostly below a limit, and often near it.
fn some(numbers: &mut Numbers, limit: usize) -> usize {
    match numbers.below(16) {
        0 => numbers.next() as usize,
        1 => limit,
        2 => limit.wrapping_add(1),
        3 => usize::MAX - numbers.below(70),
        4..=6 => limit.wrapping_sub(1),
        _ => numbers.below(limit.clamp(1, 5000)),
    }
}

/// One of these, but for one time in sixteen, when it is any number.
fn one_of(numbers: &mut Numbers, usual: &[u64]) -> u64 {
    match numbers.below(16) {
        0 => numbers.next(),
        _ => usual[numbers.below(usual.len())],
    }
}

/// One of a small number's kinds: mostly this, else any below a limit, or any number.
fn mostly(numbers: &mut Numbers, usual: u32, limit: usize) -> u32 {
    match numbers.below(64) {
        0 => numbers.next() as u32,
        1 | 2 => numbers.below(limit) as u32,
        _ => usual,
    }
}

fn some_operation(numbers: &mut Numbers, kinds: &[Kind]) -> Operation {
    let s = one_of(numbers, &[64, 64, 65, 100, 128, 4095, 4096, 4096, 63, 4097, 0]) as usize;
    let n = one_of(numbers, &[1, 2, 4, 4, 5, 7, 63, 64, 64, 0, 65]) as usize;
    let (fresh, edit, next, aim) = kinds[numbers.below(kinds.len())];
    let usual_lent = match aim {
        0 => numbers.below(3) as u32,
        1 => 2,
        2 => numbers.below(2) as u32,
        _ => 0,
    };
    let lent = mostly(numbers, usual_lent, 4);
    let len = one_of(numbers, &[0, 1, 5, 20, 49, 50, 4079, 4080]).min(5000) as usize;
    let at = if edit == 5 { some(numbers, n.wrapping_add(1)) } else { some(numbers, s.min(70)) };
    let a = some(numbers, n);
    let b = if next == 2 { some(numbers, a.wrapping_add(1)) } else { some(numbers, n) };
    Operation {
        layout: mostly(numbers, LAYOUT, 5),
        fresh: mostly(numbers, fresh, 3),
        lent,
        edit: mostly(numbers, edit, 7),
        next: mostly(numbers, next, 8),
        aim: mostly(numbers, aim, 7),
        tag: one_of(numbers, &[0, 0, 0, 1, 2, 2]) as u32,
        version: numbers.next() as u8,
        flags: numbers.next() as u8,
        s,
        n,
        key: one_of(numbers, &[1, 2, 5, 1 << 16, u64::MAX - 1, 1 << 63, 0, u64::MAX]),
        len,
        region: some(numbers, n),
        at,
        size: one_of(numbers, &[15, 15, 16, 20, 49, 64, 4095, 14, 0, 4096]) as usize,
        found: numbers.next(),
        a,
        b,
        c: some(numbers, s.min(70)),
    }
}

#[test]
fn numbers_at_random() {
    let mut numbers = Numbers(4);
    let (kinds, mut bad, mut fine, mut runs) = (running(), 0, 0, BTreeSet::new());
    for _ in 0..250_000 {
        let forged = some_operation(&mut numbers, &kinds);
        let op = if numbers.below(8) == 0 { forged } else { tidy(forged) };
        let usual_reply = if op.fresh == 1 { 0 } else { 1 + numbers.below(3) as u64 };
        let reply = one_of(&mut numbers, &[usual_reply, usual_reply, usual_reply, usual_reply, 0, 4]) as u32;
        let region = if numbers.below(20) == 0 { 65 } else { op.s.min(5000) };
        let (value, buffer) = if numbers.below(20) == 0 { (3, 3) } else { (op.len, op.len) };
        if try_step(&mut numbers, op, reply, region, value, buffer) {
            bad += 1;
        } else {
            fine += 1;
            runs.insert(kind(&op));
        }
    }
    assert_eq!(runs, kinds.into_iter().collect());
    assert!(fine > 10_000 && bad > 10_000, "{fine} {bad}");
}

/// Every kind of operation that runs, with each of its numbers made another one. Most are BadCall; `try_step` says which.
#[test]
fn one_number_altered() {
    let mut numbers = Numbers(5);
    for (fresh, edit, next, aim) in running() {
        let lent = [0, 2, 1, 0, 0, 0][aim as usize];
        let usual = Operation { layout: LAYOUT, s: 64, n: 4, key: 1, len: 5, found: 1, version: 1, flags: 8, ..NONE };
        let placed = Operation { region: 2, at: 3, size: 20, a: 2, b: 1, c: 4, tag: 2, ..usual };
        let op = tidy(Operation { fresh, lent, edit, next, aim, ..placed });
        let reply = if fresh == 1 { 0 } else { 1 };
        assert!(!try_step(&mut numbers, op, reply, 64, 5, 5), "{op:?}");
        for number in [0, 1, 2, 3, 4, 5, 6, 7, 8, 14, 15, 44, 45, 61, 62, 63, 64, 65, 4095, 4096, 1 << 31, u32::MAX] {
            let (wide, far) = (number as usize, usize::MAX - number as usize);
            let narrow = [
                Operation { layout: number, ..op },
                Operation { fresh: number, ..op },
                Operation { lent: number, ..op },
                Operation { edit: number, ..op },
                Operation { next: number, ..op },
                Operation { aim: number, ..op },
                Operation { tag: number, ..op },
                Operation { version: number as u8, ..op },
                Operation { flags: number as u8, ..op },
            ];
            let widths = [wide, far].map(|number| {
                [
                    Operation { s: number, ..op },
                    Operation { n: number, ..op },
                    Operation { key: number as u64, ..op },
                    Operation { len: number, ..op },
                    Operation { region: number, ..op },
                    Operation { at: number, ..op },
                    Operation { size: number, ..op },
                    Operation { found: number as u64, ..op },
                    Operation { a: number, ..op },
                    Operation { b: number, ..op },
                    Operation { c: number, ..op },
                ]
            });
            for altered in narrow.into_iter().chain(widths.into_iter().flatten()) {
                let region = if altered.s <= 5000 { altered.s } else { 64 };
                try_step(&mut numbers, altered, reply, region, 5, 5);
            }
        }
    }
}

/// An operation that a host kept over an update of the library: whatever the rest of it is, it is BadCall.
#[test]
fn operations_of_another_layout() {
    let mut numbers = Numbers(6);
    for _ in 0..10_000 {
        let op = tidy(Operation { layout: LAYOUT, ..some_operation(&mut numbers, &running()) });
        for layout in [0, 1, 2, 3, 7, 9, LAYOUT + 256, LAYOUT << 8, u32::MAX, numbers.next() as u32 | 4] {
            let reply = if op.fresh == 1 { 0 } else { 1 + numbers.below(3) as u32 };
            assert!(try_step(&mut numbers, Operation { layout, ..op }, reply, op.s.min(5000), op.len, op.len));
        }
    }
    // Before there was a layout, the first number was the job, 1 to 7.
    for (job, phase) in (0..8).flat_map(|job| (0..9).map(move |phase| (job, phase))) {
        let kept = Operation { layout: job, fresh: phase, lent: 64, edit: 0, next: 4, aim: 0, tag: 1, s: 5, ..NONE };
        for reply in 0..4 {
            assert!(try_step(&mut numbers, kept, reply, 64, 5, 5));
        }
    }
}
