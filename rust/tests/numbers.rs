//! The numbers of a running operation at each step, field by field, so that one that lies elsewhere than the library thinks is seen.
mod common;
use common::{blank, Call, Chip, N, NONE, S};
use stilefray::ffi::Operation;
use stilefray::image::{append_key, invalidate_key};
use stilefray::stepped::{Reply, Request, Running};
use stilefray::{Answer, Refusal, Success};

/// Its eight bytes all differ; its home is region 1, and its probe order 1, 2, 0, 3.
const KEY: u64 = 0x8122_3344_5566_7705;

const LENT_VALUE: u32 = 1;
const LENT_BUFFER: u32 = 2;
const LAY: u32 = 1;
const INVALIDATE: u32 = 2;
const ZEROISE: u32 = 3;
const ERASE: u32 = 4;
const ERASES: u32 = 5;
const SEEK: u32 = 1;
const SWEEP: u32 = 2;
const WRITTEN: u32 = 4;
const FREED: u32 = 5;
const ENDED: u32 = 6;
const AIM_GET: u32 = 1;
const AIM_APPEND: u32 = 2;
const AIM_INVALIDATE: u32 = 3;
const AIM_ZEROISE: u32 = 4;
const AIM_INITIALISE: u32 = 5;

/// Nothing but the chip, the key and what is lent.
fn lent(lent: u32, len: usize) -> Operation {
    Operation { layout: 8, lent, s: S, n: N, key: KEY, len, ..NONE }
}

/// The same, at the a-th region of the probe order with no room gathered.
fn seek(op: Operation, aim: u32, a: usize) -> Operation {
    Operation { next: SEEK, aim, a, ..op }
}

fn fresh(op: Operation) -> Operation {
    Operation { fresh: 1, ..op }
}

fn ended(op: Operation) -> Operation {
    Operation { next: ENDED, ..op }
}

/// Region 1 holds 25 bytes of another key, so that room lies at 25.
fn begun() -> Vec<u8> {
    let mut chip = blank();
    append_key(&mut chip, S, N, 9, &[6; 10]).unwrap();
    chip
}

/// Serves the call, and gives its operation's numbers before the first step and after each; and its answer.
fn numbers(call: Call, image: Vec<u8>) -> (Vec<Operation>, Answer) {
    let (mut chip, mut region, mut buffer) = (Chip::new(S, image), [0; S], call.buffer());
    let mut running = call.start(S, N).unwrap();
    let mut seen = vec![running.numbers()];
    let mut request = running.step(Reply::Begin, &mut region, call.value(), &mut buffer);
    loop {
        seen.push(running.numbers());
        if let Request::Answer(answer) = request {
            return (seen, answer);
        }
        let reply = chip.reply(request, &mut region);
        request = running.step(reply, &mut region, call.value(), &mut buffer);
    }
}

#[test]
fn get_is_fresh_seeks_and_ends() {
    let (got, answer) = numbers(Call::Get(KEY, 77), begun());
    let plain = lent(LENT_BUFFER, 77);
    let at = |a| seek(plain, AIM_GET, a);
    assert_eq!(got, [fresh(at(0)), at(0), at(1), at(2), at(3), ended(plain)]);
    assert_eq!(answer, Err(Refusal::KeyNotFound));
}

#[test]
fn get_that_finds_its_key_ends_without_a_trace_of_it() {
    let mut chip = begun();
    append_key(&mut chip, S, N, KEY, &[7; 49]).unwrap();
    for (len, said) in [(49, Ok(Success::Complete(49))), (48, Err(Refusal::BufferTooSmall(49)))] {
        let (got, answer) = numbers(Call::Get(KEY, len), chip.clone());
        let plain = lent(LENT_BUFFER, len);
        let at = |a| seek(plain, AIM_GET, a);
        assert_eq!((got, answer), (vec![fresh(at(0)), at(0), at(1), ended(plain)], said));
    }
}

#[test]
fn append_seeks_with_no_room_with_blank_room_and_lays() {
    let (got, answer) = numbers(Call::Append(KEY, vec![7; 20]), begun());
    let plain = lent(LENT_VALUE, 20);
    let first = seek(plain, AIM_APPEND, 0);
    let at = |a| Operation { b: 1, c: 25, tag: 2, ..seek(plain, AIM_APPEND, a) };
    let lay = Operation { edit: LAY, region: 1, at: 25, next: WRITTEN, ..plain };
    assert_eq!(got, [fresh(first), first, at(1), at(2), at(3), lay, ended(plain)]);
    assert_eq!(answer, Ok(Success::Written));
}

#[test]
fn append_without_room_at_home_finds_it_further_on() {
    let (got, answer) = numbers(Call::Append(KEY, vec![7; 49]), begun());
    let plain = lent(LENT_VALUE, 49);
    let nowhere = |a| seek(plain, AIM_APPEND, a);
    let at = |a| Operation { b: 2, tag: 2, ..nowhere(a) };
    let lay = Operation { edit: LAY, region: 2, next: WRITTEN, ..plain };
    assert_eq!(got, [fresh(nowhere(0)), nowhere(0), nowhere(1), at(2), at(3), lay, ended(plain)]);
    assert_eq!(answer, Ok(Success::Written));
}

#[test]
fn append_remembers_room_that_is_not_blank() {
    let mut chip = begun();
    chip[64 + 30] = 0;
    let (got, answer) = numbers(Call::Append(KEY, vec![7; 20]), chip);
    let plain = lent(LENT_VALUE, 20);
    let first = seek(plain, AIM_APPEND, 0);
    let at = |a| Operation { b: 1, c: 25, tag: 1, ..seek(plain, AIM_APPEND, a) };
    assert_eq!(got, [fresh(first), first, at(1), at(2), at(3), ended(plain)]);
    assert_eq!(answer, Err(Refusal::CorruptData));
}

#[test]
fn append_of_nothing_is_lent_a_value_all_the_same() {
    let (got, answer) = numbers(Call::Append(KEY, vec![]), begun());
    let plain = lent(LENT_VALUE, 0);
    let lay = Operation { edit: LAY, region: 1, at: 25, next: WRITTEN, ..plain };
    assert_eq!(got[0], fresh(seek(plain, AIM_APPEND, 0)));
    assert_eq!(got[5..], [lay, ended(plain)]);
    assert_eq!(answer, Ok(Success::Written));
}

#[test]
fn removals_name_the_record_by_place_length_key_version_and_flags() {
    let mut chip = begun();
    append_key(&mut chip, S, N, KEY, &[7; 20]).unwrap();
    chip[64 + 26] = 0xB0; // flags 11: live, and two more bits that nothing looks at
    let plain = lent(0, 0);
    for (edit, aim, call) in [(INVALIDATE, AIM_INVALIDATE, Call::Invalidate(KEY)), (ZEROISE, AIM_ZEROISE, Call::Zeroise(KEY))] {
        let (got, answer) = numbers(call, chip.clone());
        let at = seek(plain, aim, 0);
        let kill = Operation { edit, region: 1, at: 25, size: 35, found: KEY, version: 1, flags: 11, next: WRITTEN, ..plain };
        assert_eq!(got, [fresh(at), at, kill, ended(plain)]);
        assert_eq!(answer, Ok(Success::Written));
    }
}

/// Collect: nothing but the chip.
fn collecting() -> Operation {
    Operation { key: 1, ..lent(0, 0) }
}

fn sweep(a: usize, b: usize) -> Operation {
    Operation { next: SWEEP, a, b, ..collecting() }
}

#[test]
fn collect_sweeps_and_erases() {
    let mut chip = begun();
    append_key(&mut chip, S, N, 2, &[]).unwrap();
    for key in [2, 9] {
        invalidate_key(&mut chip, S, N, key).unwrap();
    }
    let (got, answer) = numbers(Call::Collect, chip);
    let erase = |region, a, b| Operation { edit: ERASE, region, ..sweep(a, b) };
    let swept = [sweep(0, 0), sweep(1, 0), erase(1, 2, 1), sweep(2, 1), erase(2, 3, 2), sweep(3, 2)];
    assert_eq!(got[0], fresh(sweep(0, 0)));
    assert_eq!(got[1..7], swept);
    assert_eq!(got[7..], [ended(collecting())]);
    assert_eq!(answer, Ok(Success::Freed(128)));
}

#[test]
fn collect_that_erases_the_last_region_knows_the_bytes_freed() {
    let mut chip = begun();
    append_key(&mut chip, S, N, 3, &[]).unwrap();
    invalidate_key(&mut chip, S, N, 3).unwrap();
    for (dead, freed) in [(None, 64), (Some(9), 128)] {
        if let Some(key) = dead {
            invalidate_key(&mut chip, S, N, key).unwrap();
        }
        let (got, answer) = numbers(Call::Collect, chip.clone());
        let last = Operation { edit: ERASE, region: 3, next: FREED, a: freed, ..collecting() };
        assert_eq!(got[got.len() - 3..], [sweep(3, freed / 64 - 1), last, ended(collecting())]);
        assert_eq!(answer, Ok(Success::Freed(freed)));
    }
}

#[test]
fn initialise_seeks_erases_and_appends() {
    let (got, answer) = numbers(Call::Initialise(KEY), begun());
    let plain = lent(0, 0);
    let at = |a| seek(plain, AIM_INITIALISE, a);
    // The run of erases is empty after the last, and goes when the first region of the append was read.
    let erases = |region| Operation { edit: ERASES, region, at: N, ..seek(plain, AIM_APPEND, 0) };
    let room = |a| Operation { b: 1, tag: 2, ..seek(plain, AIM_APPEND, a) };
    let lay = Operation { edit: LAY, region: 1, next: WRITTEN, ..plain };
    assert_eq!(got[..5], [fresh(at(0)), at(0), at(1), at(2), at(3)]);
    assert_eq!(got[5..10], [erases(0), erases(1), erases(2), erases(3), erases(4)]);
    assert_eq!(got[10..], [room(1), room(2), room(3), lay, ended(plain)]);
    assert_eq!(answer, Ok(Success::Written));
}

#[test]
fn initialise_that_finds_its_key_with_a_value_erases_at_once_and_with_none_ends() {
    let plain = lent(0, 0);
    let at = seek(plain, AIM_INITIALISE, 0);
    let (mut empty, mut full) = (blank(), blank());
    append_key(&mut empty, S, N, KEY, &[]).unwrap();
    append_key(&mut full, S, N, KEY, &[7]).unwrap();
    assert_eq!(numbers(Call::Initialise(KEY), empty), (vec![fresh(at), at, ended(plain)], Ok(Success::Complete(0))));
    let (got, answer) = numbers(Call::Initialise(KEY), full);
    assert_eq!(got[2], Operation { edit: ERASES, at: N, ..seek(plain, AIM_APPEND, 0) });
    assert_eq!((got.len(), answer), (12, Ok(Success::Written)));
}

#[test]
fn a_failed_service_leaves_what_an_end_leaves() {
    let mut chip = begun();
    append_key(&mut chip, S, N, 3, &[]).unwrap();
    invalidate_key(&mut chip, S, N, 3).unwrap();
    let calls = [
        (Call::Get(KEY, 77), lent(LENT_BUFFER, 77)),
        (Call::Append(KEY, vec![7; 20]), lent(LENT_VALUE, 20)),
        (Call::Invalidate(9), Operation { key: 9, ..lent(0, 0) }),
        (Call::Zeroise(9), Operation { key: 9, ..lent(0, 0) }),
        (Call::Collect, collecting()),
        (Call::Initialise(KEY), lent(0, 0)),
    ];
    for (call, plain) in calls {
        let (got, _) = numbers(call.clone(), chip.clone());
        for op in &got[1..got.len() - 1] {
            let mut running = Running::from_numbers(*op);
            let failed = running.step(Reply::Failed, &mut [0; S], call.value(), &mut call.buffer());
            assert_eq!(failed, Request::Answer(Err(Refusal::FlashFailed(()))));
            assert_eq!(running.numbers(), ended(plain), "{call:?} {op:?}");
        }
        assert_eq!(got.last(), Some(&ended(plain)), "{call:?}");
    }
}

#[test]
fn numbers_kept_and_taken_up_again_go_on() {
    let (mut chip, mut region) = (Chip::new(S, begun()), [0; S]);
    let mut running = Running::append_key(S, N, KEY, 2).unwrap();
    assert!(running.is_fresh() && !running.has_ended());
    let mut request = running.step(Reply::Begin, &mut region, &[7; 2], &mut []);
    while !matches!(request, Request::Answer(_)) {
        assert!(!running.is_fresh() && !running.has_ended());
        let (kept, reply) = (running.numbers(), chip.reply(request, &mut region));
        running = Running::from_numbers(kept);
        request = running.step(reply, &mut region, &[7; 2], &mut []);
    }
    assert_eq!(request, Request::Answer(Ok(Success::Written)));
    assert!(running.has_ended());
}

#[test]
fn the_widest_numbers_come_back_whole() {
    let get = Running::get_key(4096, 64, u64::MAX - 1, usize::MAX).unwrap().numbers();
    assert_eq!((get.s, get.n, get.key, get.len), (4096, 64, u64::MAX - 1, usize::MAX));
}

#[test]
fn a_refused_start_hands_out_zeros() {
    for start in [stilefray::ffi::start_get(63, N, KEY, 5), stilefray::ffi::start_collect(63, N)] {
        assert_eq!((start.refusal, start.op), (1, NONE));
    }
    let too_large = stilefray::ffi::start_append(S, N, KEY, 4080);
    assert_eq!((too_large.refusal, too_large.op), (3, NONE));
}
