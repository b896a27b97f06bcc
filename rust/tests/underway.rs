//! An operation under way: one service at a time, given up at every point, and asked after its end.
mod common;
use common::{blank, calls, used, Call, Chip, Numbers, N, S};
use std::collections::BTreeMap;
use std::task::Poll;
use stilefray::{Answer, Refusal, Served, Store, Success, Underway};

#[test]
fn one_service_at_a_time_with_other_work_between() {
    let mut chip = Chip::new(S, blank());
    chip.waits = 1;
    let mut region = [0; S];
    let mut store = Store::new(chip, &mut region, N);
    let mut append = store.start_append_key(1, b"abc").unwrap();
    let mut served = Vec::new();
    while !matches!(served.last(), Some(Served::Answer(_))) {
        assert_eq!(append.flash().waited, served.len().div_ceil(2));
        served.push(append.serve());
    }
    let (waits, more) = (Served::NotReady, Served::More);
    let end = Served::Answer(Ok(Success::Written));
    assert_eq!(served, [waits, more, waits, more, waits, more, waits, more, waits, end]);
    let mut buffer = [0; 3];
    assert_eq!((store.get_key(1, &mut buffer), &buffer), (Ok(3), b"abc"));
}

#[test]
fn polled_it_is_pending_until_it_answers() {
    let mut region = [0; S];
    let mut chip = Chip::new(S, blank());
    chip.waits = 1;
    let mut store = Store::new(chip, &mut region, N);
    let mut collect = store.start_garbage_collect().unwrap();
    let polls: Vec<_> = (0..8).map(|_| collect.poll_service()).collect();
    assert_eq!(polls[..7], [Poll::Pending; 7]);
    assert_eq!(polls[7], Poll::Ready(Ok(Success::Freed(0))));
}

#[test]
fn it_shows_what_it_waits_for_and_none_of_the_bytes() {
    let mut region = [0; S];
    let mut store = Store::new(Chip::new(S, blank()), &mut region, N);
    store.flash_mut().waits = 2;
    store.set_limit(7);
    let mut append = store.start_append_key(1, b"abc").unwrap();
    assert_eq!(append.serve(), Served::NotReady);
    assert_eq!(format!("{append:?}"), "Underway { waits_for: Some(Read { region: 1 }), waited: 1, limit: 7, .. }");
}

/// After its end it waits for nothing, answers BadCall and asks the flash for nothing.
fn has_ended(mut underway: Underway<'_, Chip>) {
    let did = underway.flash().did.clone();
    for _ in 0..3 {
        assert_eq!((underway.waits_for(), underway.has_ended()), (None, true));
        assert_eq!(underway.serve(), Served::Answer(Err(Refusal::BadCall)));
        assert_eq!(underway.poll_service(), Poll::Ready(Err(Refusal::BadCall)));
    }
    assert_eq!(underway.flash_mut().did, did);
    assert_eq!(underway.finish(), Err(Refusal::BadCall));
}

/// Serves the call to its end and beyond it.
fn served_beyond_the_end(call: &Call) {
    let (whole, services) = call.by_steps(&used(), S, N);
    let (mut region, mut buffer) = ([0; S], call.buffer());
    let mut store = Store::new(Chip::new(S, used()), &mut region, N);
    let mut underway = call.underway(&mut store, &mut buffer).unwrap();
    for (index, service) in services.iter().enumerate() {
        assert_eq!((underway.waits_for(), underway.has_ended()), (Some(service.service()), false));
        assert_eq!(underway.flash().did, services[..index]);
        match underway.serve() {
            Served::Answer(answer) => assert_eq!((index + 1, answer.map_err(Refusal::plain)), (services.len(), whole.answer)),
            served => assert_eq!(served, Served::More),
        }
    }
    has_ended(underway);
    assert_eq!((&store.flash().did, &store.flash().image), (&services, &whole.image));
    assert_eq!(buffer, whole.buffer);
}

#[test]
fn it_says_what_it_waits_for_and_after_its_end_answers_bad_call() {
    calls().iter().for_each(served_beyond_the_end);
}

#[test]
fn what_is_refused_at_the_start_is_not_under_way() {
    let mut region = [0; S];
    let mut store = Store::new(Chip::new(S, blank()), &mut region, N);
    assert_eq!(store.start_get_key(0, &mut []).err(), Some(Refusal::BadKey));
    assert_eq!(store.start_append_key(1, &[0; 4080]).err(), Some(Refusal::ObjectTooLarge));
    assert_eq!(store.start_initialise(u64::MAX).err(), Some(Refusal::BadKey));
    assert!(store.start_zeroise_key(1).is_ok());
    assert_eq!(store.flash().did, []);
    let mut narrow = [0; 63];
    assert_eq!(Store::new(Chip::new(S, blank()), &mut narrow, N).start_garbage_collect().err(), Some(Refusal::BadGeometry));
}

/// Given up after so many services, with the next one not begun, or asked for and not ready and then reset: the chip has those done.
fn given_up(call: &Call, count: usize, waits: usize) {
    let (whole, services) = call.by_steps(&used(), S, N);
    let (mut region, mut buffer) = ([0; S], call.buffer());
    let mut store = Store::new(Chip::new(S, used()), &mut region, N);
    call.given_up(&mut store, count, waits);
    store.flash_mut().reset();
    store.forget_begun();
    assert_eq!(store.flash().did, services[..count], "{call:?}");
    match call {
        Call::Collect | Call::Initialise(_) => {}
        _ => assert_eq!(store.flash().image, used(), "{call:?}: its one write comes last"),
    }
    // Done again on the same store, it ends as the first would have; a collect counts only what it frees itself.
    let again = call.underway(&mut store, &mut buffer).unwrap().finish().map_err(Refusal::plain);
    assert!(again == whole.answer || again == Ok(Success::Freed(0)), "{call:?}: {again:?}");
    assert_eq!((&store.flash().image, &buffer), (&whole.image, &whole.buffer), "{call:?}");
}

#[test]
fn given_up_at_every_point_it_leaves_what_it_has_done() {
    for call in calls() {
        let (_, services) = call.by_steps(&used(), S, N);
        let points = (0..services.len()).flat_map(|count| [(count, 0), (count, 1), (count, 3)]);
        points.for_each(|(count, waits)| given_up(&call, count, waits));
    }
}

fn any_call(numbers: &mut Numbers) -> Call {
    let key = 1 + numbers.below(6) as u64;
    match numbers.below(6) {
        0 => Call::Get(key, numbers.below(50)),
        1 | 2 => Call::Append(key, vec![key as u8; numbers.below(50)]),
        3 => Call::Invalidate(key),
        4 => Call::Zeroise(key),
        _ => Call::Collect,
    }
}

/// Serves the call so often, or to its end, and drops it: its answer, if it came to one.
fn served(store: &mut Store<'_, Chip>, call: &Call, turns: usize) -> Option<Answer> {
    let mut buffer = call.buffer();
    let mut underway = call.underway(store, &mut buffer).unwrap();
    let answer = (0..turns).find_map(|_| match underway.serve() {
        Served::Answer(answer) => Some(answer.map_err(Refusal::plain)),
        _ => None,
    });
    drop(underway);
    store.flash_mut().reset();
    store.forget_begun();
    answer
}

/// Each key is found with its value, or not at all.
fn holds(store: &mut Store<'_, Chip>, bound: &BTreeMap<u64, Vec<u8>>) {
    for key in 1..=6 {
        let mut found = [0; 50];
        let length = store.get_key(key, &mut found).ok();
        assert_eq!(length.map(|length| &found[..length]), bound.get(&key).map(Vec::as_slice));
    }
}

#[test]
fn what_is_bound_is_found_after_operations_that_were_given_up() {
    let mut numbers = Numbers(7);
    let (mut region, mut given_up, mut bound) = ([0; S], 0, BTreeMap::new());
    let mut store = Store::new(Chip::new(S, blank()), &mut region, N);
    for _ in 0..8_000 {
        store.flash_mut().waits = numbers.below(2);
        let (call, turns) = (any_call(&mut numbers), numbers.below(14));
        let answer = served(&mut store, &call, turns);
        given_up += usize::from(answer.is_none());
        match call {
            Call::Append(key, value) if answer == Some(Ok(Success::Written)) => drop(bound.insert(key, value)),
            Call::Invalidate(key) | Call::Zeroise(key) if answer == Some(Ok(Success::Written)) => drop(bound.remove(&key)),
            _ => {}
        }
        holds(&mut store, &bound);
    }
    assert!(given_up > 1_000, "{given_up} were given up");
}
