//! A service that fails, or is never ready, ends a store's operation wherever it comes: with its service, its reason and the flash's own
//! error.
mod common;
use common::{blank, Call, Chip, Did, Fault, N, S};
use std::error::Error;
use stilefray::{image, Failure, NotDone, Reason, Refusal, Service, Store, StoreAnswer};

/// Key 1 dead, key 2 live.
fn used() -> Vec<u8> {
    let mut chip = blank();
    image::append_key(&mut chip, S, N, 1, &[7]).unwrap();
    image::append_key(&mut chip, S, N, 2, &[7]).unwrap();
    image::invalidate_key(&mut chip, S, N, 1).unwrap();
    chip
}

/// Each operation with as many services as it can have on that chip.
fn calls() -> [(Call, usize); 6] {
    [
        (Call::Get(2, 4), 1),
        (Call::Append(9, b"nine".to_vec()), 5),
        (Call::Invalidate(2), 2),
        (Call::Zeroise(2), 2),
        (Call::Collect, 5),
        (Call::Initialise(8), 4 + 4 + 5),
    ]
}

/// The call on a store over the chip, to its end, and the chip afterwards.
fn answered(call: &Call, chip: Chip, limit: u32) -> (StoreAnswer<Chip>, Chip) {
    let (mut region, mut buffer) = ([0; S], call.buffer());
    let mut store = Store::new(chip, &mut region, N).with_limit(limit);
    let answer = call.underway(&mut store, &mut buffer).unwrap().finish();
    let failed = matches!(answer, Err(Refusal::FlashFailed(_)));
    assert!(!failed || buffer == call.buffer());
    // The store is none the worse for it.
    (store.flash_mut().fails_at, store.flash_mut().waits) = (None, 0);
    store.flash_mut().reset();
    store.forget_begun();
    let did = store.flash().did.clone();
    assert!(store.get_key(63, &mut []).is_err_and(|refusal| refusal.number() == 4));
    let mut chip = store.into_flash();
    chip.did = did;
    (answer, chip)
}

/// The chip with the first so many of these services done.
fn after(services: &[Did]) -> Vec<u8> {
    let mut image = used();
    for service in services {
        match service {
            Did::Read(_) => {}
            Did::Write(place, bytes) => image[*place..].iter_mut().zip(bytes).for_each(|(old, new)| *old &= new),
            Did::Erase(region) => image[region * S..][..S].fill(255),
        }
    }
    image
}

/// The call with this service failing; one past the last fails nothing.
fn fails(call: &Call, fails_at: usize) {
    let (whole, services) = call.by_steps(&used(), S, N);
    let mut chip = Chip::new(S, used());
    (chip.fails_at, chip.waits) = (Some(fails_at), 1);
    let (answer, chip) = answered(call, chip, u32::MAX);
    assert_eq!(chip.did, services[..fails_at], "{call:?}");
    assert_eq!(chip.image, after(&services[..fails_at]), "{call:?}");
    let expected = match services.get(fails_at) {
        Some(did) => {
            let reason = Reason::Failed(Fault(fails_at));
            Err(Refusal::FlashFailed(Failure { service: did.service(), reason, earlier: false }))
        }
        None => whole.answer.map_err(|refusal| panic!("{refusal}")),
    };
    assert_eq!(answer, expected, "{call:?}");
}

#[test]
fn a_failed_service_ends_the_call_wherever_it_comes() {
    for (call, count) in calls() {
        assert_eq!(call.by_steps(&used(), S, N).1.len(), count, "{call:?}");
        (0..=count).for_each(|fails_at| fails(&call, fails_at));
    }
}

/// A chip each of whose services waits so often, but only from a service on.
struct Late {
    chip: Chip,
    from: usize,
    waits: usize,
}

impl Late {
    fn ready<T>(&mut self, ask: impl FnOnce(&mut Chip) -> T) -> T {
        self.chip.waits = if self.chip.did.len() >= self.from { self.waits } else { 0 };
        ask(&mut self.chip)
    }
}

impl stilefray::Flash for Late {
    type Error = Fault;

    fn read_region(&mut self, region: usize, buffer: &mut [u8]) -> Result<(), NotDone<Fault>> {
        self.ready(|chip| chip.read_region(region, buffer))
    }

    fn write(&mut self, place: usize, bytes: &[u8]) -> Result<(), NotDone<Fault>> {
        self.ready(|chip| chip.write(place, bytes))
    }

    fn erase_region(&mut self, region: usize) -> Result<(), NotDone<Fault>> {
        self.ready(|chip| chip.erase_region(region))
    }
}

/// The call on a flash whose services wait so often from this one on: borne up to the limit, and ended by one more.
fn waits(call: &Call, from: usize, limit: u32, waits: u32) {
    let (whole, services) = call.by_steps(&used(), S, N);
    let (mut region, mut buffer) = ([0; S], call.buffer());
    let flash = Late { chip: Chip::new(S, used()), from, waits: waits as usize };
    let mut store = Store::new(flash, &mut region, N);
    store.set_limit(limit);
    assert_eq!(store.limit(), limit);
    let answer = call.underway(&mut store, &mut buffer).unwrap().finish();
    let chip = &store.flash().chip;
    if waits <= limit {
        assert_eq!((answer.map_err(Refusal::plain), &chip.image), (whole.answer, &whole.image), "{call:?}");
        return;
    }
    let failure = Failure { service: services[from].service(), reason: Reason::NeverReady { limit }, earlier: false };
    assert_eq!(answer, Err(Refusal::FlashFailed(failure)), "{call:?}");
    assert_eq!((chip.did.as_slice(), chip.waited), (&services[..from], limit as usize + 1));
    assert_eq!(chip.image, after(&services[..from]));
}

/// At each service of each operation, whether it reads, writes or erases.
#[test]
fn a_service_that_is_never_ready_ends_the_call_wherever_it_comes() {
    let limits = [(0, 0), (0, 1), (0, 5), (1, 1), (1, 2), (2, 2), (2, 3), (7, 7), (7, 8), (7, 100)];
    for (call, count) in calls() {
        let every = (0..count).flat_map(|from| limits.map(|(limit, so_often)| (from, limit, so_often)));
        every.for_each(|(from, limit, so_often)| waits(&call, from, limit, so_often));
    }
}

#[test]
fn the_waits_of_each_service_are_counted_anew() {
    let mut chip = Chip::new(S, used());
    chip.waits = 3;
    let (answer, chip) = answered(&Call::Initialise(8), chip, 3);
    assert_eq!((answer.is_ok(), chip.waited), (true, 3 * 13));
}

#[test]
fn a_limit_that_nobody_set_is_not_met_in_a_hurry() {
    let mut region = [0; S];
    let mut chip = Chip::new(S, used());
    chip.waits = 300_000;
    let mut store = Store::new(chip, &mut region, N);
    assert_eq!(store.limit(), u32::MAX);
    assert_eq!(store.invalidate_key(2), Ok(()));
    assert_eq!(store.flash().waited, 600_000);
}

#[test]
fn a_failure_says_what_it_was_and_leads_to_the_flash_s_own_error() {
    let mut chip = Chip::new(S, used());
    chip.fails_at = Some(1);
    let refusal = answered(&Call::Invalidate(2), chip, 0).0.unwrap_err();
    assert_eq!(refusal.to_string(), "the write of 1 byte at place 129: the flash failed");
    assert_eq!(refusal.source().unwrap().to_string(), "fault after 1 services");
    let failure = refusal.failure().unwrap();
    assert_eq!((failure.error(), failure.source().unwrap().downcast_ref()), (Some(&Fault(1)), Some(&Fault(1))));
    assert_eq!((refusal.number(), refusal.plain()), (12, Refusal::FlashFailed(())));

    let never: Failure<Fault> = Failure { service: Service::Erase { region: 3 }, reason: Reason::NeverReady { limit: 0 }, earlier: false };
    assert_eq!(never.to_string(), "the erase of region 3: the flash was not ready, more often in a row than the limit of 0");
    assert!(never.source().is_none() && never.error().is_none());
    assert!(Refusal::FlashFailed(never).source().is_none());
}

#[test]
fn what_is_not_done_has_words_and_a_source() {
    let failed = NotDone::from(Fault(3));
    assert_eq!((failed, failed.to_string()), (NotDone::Failed(Fault(3)), "the flash failed".to_string()));
    assert_eq!(failed.source().unwrap().to_string(), "fault after 3 services");
    let waits: NotDone<Fault> = NotDone::NotReady;
    assert_eq!(waits.to_string(), "the flash is not ready");
    assert!(waits.source().is_none());
}

#[test]
fn a_store_s_refusal_goes_where_any_error_goes() {
    fn fails() -> Result<(), Box<dyn Error + Send + Sync>> {
        let mut region = [0; S];
        Store::new(Chip::new(S, blank()), &mut region, N).invalidate_key(5)?;
        Ok(())
    }
    assert_eq!(fails().unwrap_err().to_string(), "no live record of the key");
}
