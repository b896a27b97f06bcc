//! A service that the flash has begun is ended before another is asked for, though its operation was given up: by the limit, or dropped.
mod common;
use common::{blank, calls, used, Call, Chip, Numbers, N, S};
use std::collections::BTreeMap;
use stilefray::{Failure, Flash, NotDone, Reason, Refusal, Served, Service, Store};

/// A flash as many drivers are: the first call begins the service, with a copy of its bytes, and the calls after it only ask whether it is
/// over, whichever service they name. It trusts its host to name the same one.
struct Trusting {
    image: Vec<u8>,
    begun: Option<(Service, Vec<u8>)>,
    /// How many calls the service at hand still takes.
    left: usize,
    /// How many the next ones take.
    takes: usize,
    /// Reads are by mapped memory, at once; else each is a service too.
    mapped: bool,
}

impl Trusting {
    fn new(mapped: bool) -> Trusting {
        Trusting { image: blank(), begun: None, left: 0, takes: 0, mapped }
    }

    /// The service that is over, if one is.
    fn over(&mut self, service: Service, bytes: &[u8]) -> Result<Service, NotDone<()>> {
        if self.begun.is_none() {
            (self.begun, self.left) = (Some((service, bytes.to_vec())), self.takes);
        }
        if self.left > 0 {
            self.left -= 1;
            return Err(NotDone::NotReady);
        }
        let (done, bytes) = self.begun.take().unwrap();
        match done {
            Service::Write { place, length } => {
                self.image[place..place + length].iter_mut().zip(bytes).for_each(|(old, new)| *old &= new);
            }
            Service::Erase { region } => self.image[region * S..(region + 1) * S].fill(255),
            Service::Read { .. } => {}
        }
        Ok(done)
    }
}

impl Flash for Trusting {
    type Error = ();

    fn read_region(&mut self, region: usize, buffer: &mut [u8]) -> Result<(), NotDone<()>> {
        let asked = Service::Read { region };
        let done = if self.mapped { asked } else { self.over(asked, &[])? };
        if let Service::Read { region } = done {
            buffer.copy_from_slice(&self.image[region * S..(region + 1) * S]);
        }
        Ok(())
    }

    fn write(&mut self, place: usize, bytes: &[u8]) -> Result<(), NotDone<()>> {
        self.over(Service::Write { place, length: bytes.len() }, bytes).map(drop)
    }

    fn erase_region(&mut self, region: usize) -> Result<(), NotDone<()>> {
        self.over(Service::Erase { region }, &[]).map(drop)
    }
}

#[test]
fn a_write_given_up_by_the_limit_does_not_swallow_the_next_one() {
    let mut region = [0; S];
    let mut store = Store::new(Trusting::new(true), &mut region, N).with_limit(3);
    let mut append = store.start_append_key(1, b"first").unwrap();
    (0..N).for_each(|_| assert_eq!(append.serve(), Served::More));
    append.flash_mut().takes = 9;
    let (service, reason) = (Service::Write { place: 64, length: 20 }, Reason::NeverReady { limit: 3 });
    assert_eq!(append.finish(), Err(Refusal::FlashFailed(Failure { service, reason, earlier: false })));
    assert_eq!(store.begun(), Some(service));
    // The flash is still at it: the next operation waits for it in turn, and is refused by the same service.
    assert_eq!(store.append_key(2, b"second"), Err(Refusal::FlashFailed(Failure { service, reason, earlier: true })));
    store.flash_mut().takes = 0;
    // Then it is over: the first is stored, since its write is done, and the second is written by a service of its own.
    assert_eq!(store.append_key(2, b"second"), Ok(()));
    assert_eq!(store.begun(), None);
    let mut buffer = [0; 8];
    assert_eq!((store.get_key(1, &mut buffer), &buffer[..5]), (Ok(5), &b"first"[..]));
    assert_eq!((store.get_key(2, &mut buffer), &buffer[..6]), (Ok(6), &b"second"[..]));
}

#[test]
fn one_that_fails_after_all_ends_the_next_operation_and_no_more() {
    let mut region = [0; S];
    let mut chip = Chip::new(S, blank());
    (chip.waits, chip.fails_at) = (1, Some(0));
    let mut store = Store::new(chip, &mut region, N);
    let mut get = store.start_get_key(1, &mut []).unwrap();
    assert_eq!(get.serve(), Served::NotReady);
    let service = Service::Read { region: 1 };
    assert_eq!(store.begun(), Some(service));
    let failure = store.append_key(2, b"two").unwrap_err();
    assert_eq!(failure.failure().map(|failure| (failure.service, failure.earlier)), Some((service, true)));
    store.flash_mut().fails_at = None;
    assert_eq!((store.begun(), store.append_key(2, b"two")), (None, Ok(())));
}

/// Given up while the service after so many is under way: that one is ended first, with the same bytes, and then comes the next operation's
/// own. The chip itself asserts that no other service is asked for meanwhile.
fn ended_first(call: &Call, count: usize, waits: usize) {
    let (_, services) = call.by_steps(&used(), S, N);
    let mut region = [0; S];
    let mut store = Store::new(Chip::new(S, used()), &mut region, N);
    call.given_up(&mut store, count, waits);
    assert_eq!(store.begun(), Some(services[count].service()));
    let next = store.start_get_key(63, &mut []).unwrap();
    assert_eq!(next.waits_for(), Some(services[count].service()));
    assert_eq!(next.finish().map_err(Refusal::plain), Err(Refusal::KeyNotFound));
    assert_eq!(store.begun(), None);
    assert_eq!(store.flash().did[..=count], services[..=count], "{call:?}");
    assert_eq!(store.flash().did.len(), count + 1 + N);
}

#[test]
fn it_is_ended_first_at_every_point_of_every_operation() {
    for call in calls() {
        let (_, services) = call.by_steps(&used(), S, N);
        let points = (0..services.len()).flat_map(|count| [(count, 1), (count, 2)]);
        points.for_each(|(count, waits)| ended_first(&call, count, waits));
    }
}

/// What get says of a key, once the flash is ready for it.
fn found(store: &mut Store<'_, Trusting>, key: u64) -> Option<Vec<u8>> {
    store.flash_mut().takes = 0;
    let mut buffer = [0; 50];
    loop {
        match store.get_key(key, &mut buffer) {
            Ok(length) => return Some(buffer[..length].to_vec()),
            Err(Refusal::FlashFailed(_)) => {}
            refused => {
                assert_eq!(refused, Err(Refusal::KeyNotFound));
                return None;
            }
        }
    }
}

/// Any operation on the key: what it may leave, where it is answered so. One that is given up did its write or did not.
fn operated(store: &mut Store<'_, Trusting>, numbers: &mut Numbers, key: u64, may_be: &mut Vec<Option<Vec<u8>>>) -> bool {
    let value = vec![numbers.next() as u8; numbers.below(30)];
    let (done, left) = match numbers.below(4) {
        0 | 1 => (store.append_key(key, &value), Some(value)),
        2 => (store.invalidate_key(key), None),
        _ => return store.garbage_collect().is_err(),
    };
    match done {
        Ok(()) => *may_be = vec![left],
        Err(Refusal::FlashFailed(_)) => may_be.push(left),
        Err(refusal) => assert!([4, 5, 6].contains(&refusal.number()), "{refusal:?}"),
    }
    matches!(done, Err(Refusal::FlashFailed(_)))
}

/// Operations in bursts, on a flash that is often busy for longer than the limit: each key then has a value that it may have.
fn nothing_is_lost(mapped: bool) {
    let mut numbers = Numbers(3);
    let (mut region, mut given_up) = ([0; S], 0);
    let mut may_be: BTreeMap<u64, Vec<Option<Vec<u8>>>> = (1..=6).map(|key| (key, vec![None])).collect();
    let mut store = Store::new(Trusting::new(mapped), &mut region, N).with_limit(2);
    for _ in 0..4_000 {
        for _ in 0..5 {
            store.flash_mut().takes = numbers.below(5);
            let key = 1 + numbers.below(6) as u64;
            given_up += usize::from(operated(&mut store, &mut numbers, key, may_be.get_mut(&key).unwrap()));
        }
        for (key, values) in &mut may_be {
            let now = found(&mut store, *key);
            assert!(values.contains(&now), "key {key} has {now:?}, and may have {values:?}");
            *values = vec![now];
        }
    }
    assert!(given_up > 1_000, "{given_up} were given up");
}

#[test]
fn nothing_is_lost_on_a_flash_that_trusts_its_host() {
    nothing_is_lost(false);
    nothing_is_lost(true);
}
