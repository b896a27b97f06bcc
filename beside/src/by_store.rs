//! One operation by the store over a host, in each of its ways: the blocking
//! calls, one service a turn, and as a future.

use crate::host::{Fault, Host};
use crate::straight::{Call, Service};
use std::future::Future;
use std::pin::Pin;
use std::sync::Arc;
use std::task::{Context, Poll, Wake};
use stilefray::{Failure, Reason, Served, Store, StoreAnswer, StoreRefusal, Success, Underway};

type Said = StoreAnswer<Host>;

/// The call by the store's blocking calls.
fn by_store(store: &mut Store<Host>, call: Call, buffer: &mut [u8]) -> Said {
    match call {
        Call::Get { key } => store.get_key(key, buffer).map(Success::Complete),
        Call::Append { key, value } => store.append_key(key, value).map(|()| Success::Written),
        Call::Invalidate { key } => store.invalidate_key(key).map(|()| Success::Written),
        Call::Zeroise { key } => store.zeroise_key(key).map(|()| Success::Written),
        Call::Collect => store.garbage_collect().map(Success::Freed),
        Call::Initialise { key } => store.initialise(key),
    }
}

/// The call as an operation under way.
fn under_way<'o>(
    store: &'o mut Store<Host>,
    call: Call<'o>,
    buffer: &'o mut [u8],
) -> Result<Underway<'o, Host>, StoreRefusal<Host>> {
    match call {
        Call::Get { key } => store.start_get_key(key, buffer),
        Call::Append { key, value } => store.start_append_key(key, value),
        Call::Invalidate { key } => store.start_invalidate_key(key),
        Call::Zeroise { key } => store.start_zeroise_key(key),
        Call::Collect => store.start_garbage_collect(),
        Call::Initialise { key } => store.start_initialise(key),
    }
}

/// One service a turn; after the end it must answer BadCall and ask for nothing.
fn by_turns(store: &mut Store<Host>, call: Call, buffer: &mut [u8]) -> Said {
    let mut underway = under_way(store, call, buffer)?;
    let answer = loop {
        if let Served::Answer(answer) = underway.serve() {
            break answer;
        }
    };
    assert_eq!(underway.serve(), Served::Answer(Err(stilefray::Refusal::BadCall)));
    answer
}

/// The same, polled as a future by an executor that asks again and again.
fn by_polls(store: &mut Store<Host>, call: Call, buffer: &mut [u8]) -> Said {
    struct Again;
    impl Wake for Again {
        fn wake(self: Arc<Self>) {}
    }
    let waker = Arc::new(Again).into();
    let mut underway = under_way(store, call, buffer)?;
    loop {
        if let Poll::Ready(answer) = Pin::new(&mut underway).poll(&mut Context::from_waker(&waker))
        {
            return answer;
        }
    }
}

/// The store's ways.
pub type Way = fn(&mut Store<Host>, Call, &mut [u8]) -> Said;
pub const WAYS: [(&str, Way); 3] =
    [("store", by_store), ("under way", by_turns), ("polled", by_polls)];

/// The call by one of the ways, and the host as it then is.
pub fn on_store(way: Way, host: Host, n: usize, call: Call, buffer: &mut [u8]) -> (Said, Host) {
    let mut region = vec![0xa5; host.s];
    let mut store = Store::new(host, &mut region, n);
    let said = way(&mut store, call, buffer);
    (said, store.into_flash())
}

/// Whether a failure comes where one must, names the service that failed and
/// carries the host's own error.
pub fn names_failure(said: &Said, fails: Option<&Service>, done: usize) -> bool {
    let failure = said.as_ref().err().and_then(|refusal| refusal.failure());
    let service = fails.map(|service| match service {
        Service::Read(region) => stilefray::Service::Read { region: *region },
        Service::Write { place, bytes } => {
            stilefray::Service::Write { place: *place, length: bytes.len() }
        }
        Service::Erase(region) => stilefray::Service::Erase { region: *region },
    });
    let reason = Reason::Failed(Fault(done));
    failure.copied() == service.map(|service| Failure { service, reason, earlier: false })
}
