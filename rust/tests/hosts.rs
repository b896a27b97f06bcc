//! Hosts of every kind: one that lies, one that is half through a read, one that breaks an operation off or reports a failed service.
mod common;
use common::{blank, Call, Chip, Numbers, N, S};
use std::collections::BTreeMap;
use stilefray::image;
use stilefray::stepped::{Reply, Request, Running};
use stilefray::{Refusal, Success};

fn any_call(numbers: &mut Numbers) -> Call {
    let key = 1 + numbers.below(6) as u64;
    match numbers.below(6) {
        0 => Call::Get(key, numbers.below(50)),
        1 => Call::Append(key, vec![key as u8; numbers.below(50)]),
        2 => Call::Invalidate(key),
        3 => Call::Zeroise(key),
        4 => Call::Collect,
        _ => Call::Initialise(key),
    }
}

/// How many services a call takes at most.
fn most(call: &Call, n: usize) -> usize {
    match call {
        Call::Get(..) => n,
        Call::Append(..) | Call::Invalidate(_) | Call::Zeroise(_) => n + 1,
        Call::Collect => 2 * n,
        Call::Initialise(_) => 3 * n + 1,
    }
}

/// A request lies in the chip, and is one that the call may make.
fn allowed(call: &Call, request: &Request, n: usize) -> bool {
    match (request, call) {
        (Request::Read { region }, _) => *region < n,
        (Request::Erase { region }, Call::Collect | Call::Initialise(_)) => *region < n,
        (Request::Write { from, to, place }, Call::Append(..) | Call::Invalidate(_) | Call::Zeroise(_) | Call::Initialise(_)) => {
            from < to && *to <= S && place / S < n && place % S == *from
        }
        (Request::Answer(_), _) => true,
        _ => false,
    }
}

#[test]
fn a_host_that_lies_is_asked_for_no_more_and_nothing_outside_the_chip() {
    let mut numbers = Numbers(12);
    let mut answered = 0;
    for _ in 0..20_000 {
        let n = 1 + numbers.below(6);
        let call = any_call(&mut numbers);
        let (value, mut buffer) = (call.value().to_vec(), call.buffer());
        let mut region = vec![0; S];
        let mut running = call.start(S, n).unwrap();
        let mut request = running.step(Reply::Begin, &mut region, &value, &mut buffer);
        let mut dones = 0;
        while !matches!(request, Request::Answer(_)) {
            assert!(allowed(&call, &request, n), "{call:?} {request:?}");
            // Anything may stand in the buffer, a region that was never written, or one that was erased and is not blank.
            match numbers.below(4) {
                0 => region.fill(255),
                1 => region.iter_mut().for_each(|b| *b = numbers.next() as u8),
                2 => region[..16].copy_from_slice(&[1, 0x80, 15, 0, 0, 0, 0, 0, 0, 0, numbers.below(7) as u8, 1, 2, 3, 4, 255]),
                _ => {}
            }
            let (before, held) = (region.clone(), buffer.clone());
            let reply = [Reply::Done, Reply::Done, Reply::NotReady, Reply::Begin][numbers.below(4)];
            let said = running.step(reply, &mut region, &value, &mut buffer);
            if reply == Reply::Begin {
                assert_eq!(said, Request::Answer(Err(Refusal::BadCall)), "and the host puts its mistake right");
                assert_eq!((&region, &buffer), (&before, &held));
                continue;
            }
            dones += usize::from(reply == Reply::Done);
            assert!(dones <= most(&call, n), "{call:?} runs on");
            match said {
                Request::Write { from, to, .. } => assert_eq!((&region[..from], &region[to..]), (&before[..from], &before[to..])),
                _ => assert_eq!(region, before),
            }
            if !matches!(said, Request::Answer(Ok(Success::Complete(_)) | Err(Refusal::BufferTooSmall(_) | Refusal::InvalidCheckSum))) {
                assert_eq!(buffer, held);
            }
            request = said;
        }
        answered += 1;
    }
    assert_eq!(answered, 20_000);
}

/// Serves a running operation until it answers or has done so many services; a read is half through whenever it is not ready.
fn serve(running: &mut Running, chip: &mut Chip, call: &Call, limit: usize, numbers: &mut Numbers) -> Request {
    let (value, mut buffer, mut region) = (call.value().to_vec(), call.buffer(), vec![0xDD; S]);
    let mut request = running.step(Reply::Begin, &mut region, &value, &mut buffer);
    loop {
        if matches!(request, Request::Answer(_)) || chip.did.len() == limit {
            return request;
        }
        if let (Request::Read { .. }, 0) = (&request, numbers.below(3)) {
            region[..S / 2].fill(numbers.next() as u8);
            assert_eq!(running.step(Reply::NotReady, &mut region, &value, &mut buffer), request);
        }
        let reply = chip.reply(request, &mut region);
        assert_eq!(reply, Reply::Done);
        request = running.step(reply, &mut region, &value, &mut buffer);
    }
}

#[test]
fn what_is_bound_is_found_after_operations_that_were_broken_off() {
    let mut numbers = Numbers(2026);
    let mut broken = 0;
    for _ in 0..300 {
        let mut chip = blank();
        assert_eq!(image::initialise(&mut chip, S, N, 1), Ok(Success::Written));
        let mut bound = BTreeMap::from([(1, vec![])]);
        for _ in 0..60 {
            let call = any_call(&mut numbers);
            let whole = call.at_once(&chip, S, N);
            let mut flash = Chip::new(S, chip.clone());
            let limit = numbers.below(most(&call, N) + 1);
            let mut running = call.start(S, N).unwrap();
            let last = serve(&mut running, &mut flash, &call, limit, &mut numbers);
            let ended = matches!(last, Request::Answer(_));
            if ended {
                assert_eq!(last, Request::Answer(whole.answer), "{call:?}");
                assert_eq!(flash.image, whole.image);
            } else {
                broken += 1;
                let (value, mut buffer) = (call.value().to_vec(), call.buffer());
                let failed = running.step(Reply::Failed, &mut [0; S], &value, &mut buffer);
                assert_eq!(failed, Request::Answer(Err(Refusal::FlashFailed(()))));
            }
            let written = flash.image == whole.image && whole.answer == Ok(Success::Written);
            match &call {
                Call::Append(key, value) if written => drop(bound.insert(*key, value.clone())),
                Call::Invalidate(key) | Call::Zeroise(key) if written => drop(bound.remove(key)),
                Call::Initialise(key) if written => bound = BTreeMap::from([(*key, vec![])]),
                // broken off among its erases, it spares what no erase has taken
                Call::Initialise(_) if whole.answer == Ok(Success::Written) => {
                    bound.retain(|key, value| image::get_key(&flash.image, S, N, *key, &mut vec![0; value.len()]).is_ok());
                }
                Call::Collect => {}
                _ => assert!(ended || flash.image == chip, "{call:?}"),
            }
            chip = flash.image;
            for (key, value) in &bound {
                let mut buffer = vec![0; 50];
                assert_eq!(image::get_key(&chip, S, N, *key, &mut buffer), Ok(value.len()), "{call:?}");
                assert_eq!(&buffer[..value.len()], value);
            }
        }
    }
    assert!(broken > 1_000, "{broken} were broken off");
}
