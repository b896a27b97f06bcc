//! The futures: how often they are polled and who wakes them, over a flash that wakes at once and one that interrupts.
mod common;
use common::{blank, Call, Chip, Fault, N, S};
use std::cell::RefCell;
use std::future::Future;
use std::pin::{pin, Pin};
use std::rc::Rc;
use std::sync::atomic::{AtomicUsize, Ordering};
use std::sync::Arc;
use std::task::{Context, Poll, Wake, Waker};
use stilefray::{Failure, Flash, NotDone, Reason, Refusal, Service, Store, Success};

/// Counts how often it was woken.
#[derive(Default)]
struct Woken(AtomicUsize);

impl Wake for Woken {
    fn wake(self: Arc<Self>) {
        self.0.fetch_add(1, Ordering::Relaxed);
    }
}

/// What a run to the end took.
#[derive(Debug, PartialEq, Eq)]
struct Took<T> {
    answer: T,
    polls: usize,
    sleeps: usize,
}

/// Polls a future to its end, only when it was woken. Where nothing has woken it, it sleeps, and the interrupt has to wake it.
fn run<T>(future: impl Future<Output = T>, interrupt: impl Fn()) -> Took<T> {
    let woken = Arc::new(Woken::default());
    let waker = Waker::from(Arc::clone(&woken));
    let mut future = pin!(future);
    let (mut polls, mut sleeps) = (0, 0);
    loop {
        polls += 1;
        if let Poll::Ready(answer) = future.as_mut().poll(&mut Context::from_waker(&waker)) {
            return Took { answer, polls, sleeps };
        }
        if woken.0.load(Ordering::Relaxed) == 0 {
            sleeps += 1;
            interrupt();
        }
        assert_eq!(woken.0.swap(0, Ordering::Relaxed), 1, "it is woken once for each poll");
    }
}

fn no_interrupt() {
    panic!("a future sleeps that nobody wakes");
}

/// A chip that keeps the waker, for its interrupt to wake.
struct Interrupting {
    chip: Chip,
    waker: Rc<RefCell<Option<Waker>>>,
}

impl Flash for Interrupting {
    type Error = Fault;

    fn read_region(&mut self, region: usize, buffer: &mut [u8]) -> Result<(), NotDone<Fault>> {
        self.chip.read_region(region, buffer)
    }

    fn write(&mut self, place: usize, bytes: &[u8]) -> Result<(), NotDone<Fault>> {
        self.chip.write(place, bytes)
    }

    fn erase_region(&mut self, region: usize) -> Result<(), NotDone<Fault>> {
        self.chip.erase_region(region)
    }

    fn wake_when_ready(&mut self, waker: &Waker) {
        *self.waker.borrow_mut() = Some(waker.clone());
    }
}

fn slow(image: Vec<u8>, waits: usize) -> Chip {
    let mut chip = Chip::new(S, image);
    chip.waits = waits;
    chip
}

#[test]
fn one_service_a_poll_and_a_flash_that_wakes_at_once() {
    for waits in [0, 1, 5] {
        let mut region = [0; S];
        let mut store = Store::new(slow(blank(), waits), &mut region, N);
        let took = run(store.start_append_key(1, b"abc").unwrap(), no_interrupt);
        assert_eq!(took, Took { answer: Ok(Success::Written), polls: 5 * (waits + 1), sleeps: 0 });
        assert_eq!(&store.flash().image[75..78], b"abc");
    }
}

/// An append on a flash that interrupts, each of whose services waits twice.
fn interrupted<F: Flash>(flash: F, waker: &RefCell<Option<Waker>>) -> Took<bool> {
    let mut region = [0; S];
    let mut store = Store::new(flash, &mut region, N);
    let interrupt = || waker.borrow_mut().take().expect("the flash has the waker").wake();
    let Took { answer, polls, sleeps } = run(store.append_key_async(1, b"abc"), interrupt);
    Took { answer: answer.is_ok(), polls, sleeps }
}

#[test]
fn a_flash_that_interrupts_is_asked_only_when_it_has() {
    let waker = Rc::default();
    let mut flash = Interrupting { chip: slow(blank(), 2), waker: Rc::clone(&waker) };
    let took = Took { answer: true, polls: 15, sleeps: 10 };
    assert_eq!(interrupted(&mut flash, &waker), took, "a flash that is lent hands the waker on");
    flash.chip.image.fill(255);
    assert_eq!(interrupted(flash, &waker), took);
}

#[test]
fn the_calls_answer_as_the_blocking_ones_do() {
    let mut region = [0; S];
    let mut store = Store::new(slow(vec![0; S * N], 1), &mut region, N);
    let mut buffer = [0; 8];
    assert_eq!(run(store.initialise_async(4), no_interrupt).answer, Ok(Success::Written));
    assert_eq!(run(store.initialise_async(4), no_interrupt).answer, Ok(Success::Complete(0)));
    assert_eq!(run(store.append_key_async(5, &[1, 2, 3]), no_interrupt).answer, Ok(()));
    assert_eq!(run(store.append_key_async(5, &[1, 2, 3]), no_interrupt).answer, Err(Refusal::KeyAlreadyExists));
    assert_eq!(run(store.get_key_async(5, &mut buffer), no_interrupt).answer, Ok(3));
    assert_eq!(buffer, [1, 2, 3, 0, 0, 0, 0, 0]);
    assert_eq!(run(store.get_key_async(5, &mut buffer[..2]), no_interrupt).answer, Err(Refusal::BufferTooSmall(3)));
    assert_eq!(run(store.append_key_async(1, &[7; 49]), no_interrupt).answer, Ok(()));
    assert_eq!(run(store.invalidate_key_async(5), no_interrupt).answer, Ok(()));
    assert_eq!(run(store.zeroise_key_async(1), no_interrupt).answer, Ok(()));
    assert_eq!(run(store.zeroise_key_async(1), no_interrupt).answer, Err(Refusal::KeyNotFound));
    assert_eq!(run(store.garbage_collect_async(), no_interrupt).answer, Ok(128));
    assert_eq!(run(store.get_key_async(0, &mut []), no_interrupt), Took { answer: Err(Refusal::BadKey), polls: 1, sleeps: 0 });
}

#[test]
fn a_failure_and_the_limit_end_a_future_too() {
    let mut region = [0; S];
    let mut chip = slow(blank(), 0);
    chip.fails_at = Some(4);
    let mut store = Store::new(chip, &mut region, N).with_limit(3);
    let failure = Failure { service: Service::Write { place: 64, length: 18 }, reason: Reason::Failed(Fault(4)), earlier: false };
    assert_eq!(run(store.append_key_async(1, b"abc"), no_interrupt).answer, Err(Refusal::FlashFailed(failure)));

    store.flash_mut().waits = 9;
    let failure = Failure { service: Service::Read { region: 0 }, reason: Reason::NeverReady { limit: 3 }, earlier: false };
    let took = run(store.garbage_collect_async(), no_interrupt);
    assert_eq!(took, Took { answer: Err(Refusal::FlashFailed(failure)), polls: 4, sleeps: 0 });
}

/// Polls once, with a waker that nobody looks at.
fn poll_once<T>(future: Pin<&mut impl Future<Output = T>>) -> Poll<T> {
    future.poll(&mut Context::from_waker(&Waker::from(Arc::new(Woken::default()))))
}

#[test]
fn polled_after_the_end_it_answers_bad_call() {
    let mut region = [0; S];
    let mut store = Store::new(slow(blank(), 0), &mut region, 1);
    let mut get = store.start_get_key(1, &mut []).unwrap();
    assert_eq!(poll_once(Pin::new(&mut get)), Poll::Ready(Err(Refusal::KeyNotFound)));
    for _ in 0..3 {
        assert_eq!(poll_once(Pin::new(&mut get)), Poll::Ready(Err(Refusal::BadCall)));
    }
    let mut get = store.get_key_async(1, &mut []);
    assert_eq!(poll_once(Pin::new(&mut get)), Poll::Ready(Err(Refusal::KeyNotFound)));
    assert_eq!(poll_once(Pin::new(&mut get)), Poll::Ready(Err(Refusal::BadCall)));
    let mut refused = store.initialise_async(0);
    assert_eq!(poll_once(Pin::new(&mut refused)), Poll::Ready(Err(Refusal::BadKey)));
    assert_eq!(poll_once(Pin::new(&mut refused)), Poll::Ready(Err(Refusal::BadCall)));
    assert_eq!(store.flash().did.len(), 2);
}

#[test]
fn a_call_that_is_dropped_is_given_up() {
    let mut region = [0; S];
    let mut store = Store::new(slow(blank(), 0), &mut region, N);
    drop(store.append_key_async(1, b"abc"));
    assert_eq!(store.flash().did, []);
    for polls in 0..5 {
        let mut append = store.append_key_async(1, b"abc");
        (0..polls).for_each(|_| assert_eq!(poll_once(Pin::new(&mut append)), Poll::Pending));
        drop(append);
        assert_eq!((store.flash().did.len(), &store.flash().image), (polls, &blank()));
        store.flash_mut().did.clear();
    }
    assert_eq!(run(store.append_key_async(1, b"abc"), no_interrupt).answer, Ok(()));
}

/// Two stores at once: between two services of one, the other has its turn.
#[test]
fn two_take_turns() {
    let (mut first_region, mut second_region) = ([0; S], [0; S]);
    let mut first = Store::new(slow(blank(), 0), &mut first_region, N);
    let mut second = Store::new(slow(blank(), 0), &mut second_region, N);
    let (mut one, mut other) = (pin!(first.append_key_async(1, b"one")), pin!(second.append_key_async(1, b"other")));
    for _ in 0..4 {
        assert_eq!(poll_once(one.as_mut()), Poll::Pending);
        assert_eq!(poll_once(other.as_mut()), Poll::Pending);
    }
    assert_eq!(poll_once(one), Poll::Ready(Ok(())));
    assert_eq!(poll_once(other), Poll::Ready(Ok(())));
}

/// An executor of several threads takes them, if the flash may be sent.
#[test]
fn the_futures_may_be_sent() {
    fn sent<T: Send>(_: &T) {}
    let mut region = [0; S];
    let mut store = Store::new(slow(blank(), 0), &mut region, N);
    sent(&store.start_garbage_collect());
    sent(&store.append_key_async(1, b"abc"));
    sent(&store.get_key_async(1, &mut [0; 4]));
}

#[test]
fn served_and_polled_by_turns_it_is_one_operation() {
    let call = Call::Initialise(8);
    let (whole, services) = call.by_steps(&blank(), S, N);
    let mut region = [0; S];
    let mut store = Store::new(slow(blank(), 0), &mut region, N);
    let mut initialise = store.start_initialise(8).unwrap();
    for _ in 0..3 {
        assert_eq!(initialise.poll_service(), Poll::Pending);
        assert_eq!(poll_once(Pin::new(&mut initialise)), Poll::Pending);
        assert_eq!(initialise.serve(), stilefray::Served::More);
    }
    assert_eq!(initialise.finish().map_err(Refusal::plain), whole.answer);
    assert_eq!((&store.flash().did, &store.flash().image), (&services, &whole.image));
}
