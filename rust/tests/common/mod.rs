//! A flash in memory, and helpers that several tests use.
#![allow(dead_code)]
pub mod package;
pub mod rule;

use std::fmt;
use stilefray::ffi::Operation;
use stilefray::stepped::{Reply, Request, Running};
use stilefray::{image, Answer, Flash, NotDone, Served, Service, Store, StoreRefusal, Underway};

/// The afternoons' chip.
pub const S: usize = 64;
pub const N: usize = 4;

pub fn blank() -> Vec<u8> {
    vec![255; S * N]
}

/// No operation: all zeros, as a refused start hands it out.
pub const NONE: Operation = Operation {
    layout: 0,
    fresh: 0,
    lent: 0,
    edit: 0,
    next: 0,
    aim: 0,
    tag: 0,
    version: 0,
    flags: 0,
    s: 0,
    n: 0,
    key: 0,
    len: 0,
    region: 0,
    at: 0,
    size: 0,
    found: 0,
    a: 0,
    b: 0,
    c: 0,
};

/// A service that was done.
#[derive(Clone, Debug, PartialEq, Eq)]
pub enum Did {
    Read(usize),
    Write(usize, Vec<u8>),
    Erase(usize),
}

impl Did {
    /// The service as a store names it.
    pub fn service(&self) -> Service {
        match self {
            Did::Read(region) => Service::Read { region: *region },
            Did::Write(place, bytes) => Service::Write { place: *place, length: bytes.len() },
            Did::Erase(region) => Service::Erase { region: *region },
        }
    }
}

/// The chip's own error: how many services were done before the one that failed.
#[derive(Clone, Copy, Debug, PartialEq, Eq)]
pub struct Fault(pub usize);

impl fmt::Display for Fault {
    fn fmt(&self, f: &mut fmt::Formatter<'_>) -> fmt::Result {
        write!(f, "fault after {} services", self.0)
    }
}

impl std::error::Error for Fault {}

/// A flash in memory: it lists what was done, makes each service wait, and fails where it is told to.
#[derive(Clone, Debug)]
pub struct Chip {
    pub s: usize,
    pub image: Vec<u8>,
    pub did: Vec<Did>,
    /// How often each service says NotReady before it is done.
    pub waits: usize,
    /// The service, counted from 0, that fails.
    pub fails_at: Option<usize>,
    /// How often NotReady was said in all.
    pub waited: usize,
    pending: Option<(Did, usize)>,
}

impl Chip {
    pub fn new(s: usize, image: Vec<u8>) -> Chip {
        Chip { s, image, did: Vec::new(), waits: 0, fails_at: None, waited: 0, pending: None }
    }

    /// A service is asked for; one that was not ready must be asked for again unchanged.
    fn asked(&mut self, service: Did) -> Result<(), NotDone<Fault>> {
        let (pending, waited) = self.pending.take().unwrap_or((service.clone(), 0));
        assert_eq!(pending, service, "another service was asked for while one was not ready");
        if waited < self.waits {
            self.waited += 1;
            self.pending = Some((service, waited + 1));
            return Err(NotDone::NotReady);
        }
        if self.fails_at == Some(self.did.len()) {
            return Err(NotDone::Failed(Fault(self.did.len())));
        }
        self.did.push(service);
        Ok(())
    }

    /// It is reset: the service that was not ready will not be asked for again.
    pub fn reset(&mut self) {
        self.pending = None;
    }

    /// Does what a step asks for, as a host's own loop would.
    pub fn reply(&mut self, request: Request, region_buffer: &mut [u8]) -> Reply {
        let done = match request {
            Request::Read { region } => self.read_region(region, region_buffer),
            Request::Write { from, to, place } => self.write(place, &region_buffer[from..to]),
            Request::Erase { region } => self.erase_region(region),
            Request::Answer(_) => panic!("an answer asks for nothing"),
        };
        match done {
            Ok(()) => Reply::Done,
            Err(NotDone::NotReady) => Reply::NotReady,
            Err(NotDone::Failed(_)) => Reply::Failed,
        }
    }
}

impl Flash for Chip {
    type Error = Fault;

    fn read_region(&mut self, region: usize, buffer: &mut [u8]) -> Result<(), NotDone<Fault>> {
        self.asked(Did::Read(region))?;
        buffer.copy_from_slice(&self.image[region * self.s..(region + 1) * self.s]);
        Ok(())
    }

    fn write(&mut self, place: usize, bytes: &[u8]) -> Result<(), NotDone<Fault>> {
        self.asked(Did::Write(place, bytes.to_vec()))?;
        assert!(!bytes.is_empty() && place / self.s == (place + bytes.len() - 1) / self.s, "a write within one region");
        for (old, new) in self.image[place..place + bytes.len()].iter_mut().zip(bytes) {
            *old &= new;
        }
        Ok(())
    }

    fn erase_region(&mut self, region: usize) -> Result<(), NotDone<Fault>> {
        self.asked(Did::Erase(region))?;
        self.image[region * self.s..(region + 1) * self.s].fill(255);
        Ok(())
    }
}

/// A call of any of the six operations.
#[derive(Clone, Debug)]
pub enum Call {
    Get(u64, usize),
    Append(u64, Vec<u8>),
    Invalidate(u64),
    Zeroise(u64),
    Collect,
    Initialise(u64),
}

/// What a call leaves.
#[derive(Clone, Debug, PartialEq, Eq)]
pub struct Left {
    pub answer: Answer,
    pub image: Vec<u8>,
    pub buffer: Vec<u8>,
}

impl Call {
    pub fn start(&self, s: usize, n: usize) -> Result<Running, stilefray::Refusal> {
        match self {
            Call::Get(key, buffer_len) => Running::get_key(s, n, *key, *buffer_len),
            Call::Append(key, value) => Running::append_key(s, n, *key, value.len()),
            Call::Invalidate(key) => Running::invalidate_key(s, n, *key),
            Call::Zeroise(key) => Running::zeroise_key(s, n, *key),
            Call::Collect => Running::garbage_collect(s, n),
            Call::Initialise(key) => Running::initialise(s, n, *key),
        }
    }

    /// The call under way on a store.
    pub fn underway<'o, F: Flash>(&'o self, store: &'o mut Store<'_, F>, buffer: &'o mut [u8]) -> Result<Underway<'o, F>, StoreRefusal<F>> {
        match self {
            Call::Get(key, _) => store.start_get_key(*key, buffer),
            Call::Append(key, value) => store.start_append_key(*key, value),
            Call::Invalidate(key) => store.start_invalidate_key(*key),
            Call::Zeroise(key) => store.start_zeroise_key(*key),
            Call::Collect => store.start_garbage_collect(),
            Call::Initialise(key) => store.start_initialise(*key),
        }
    }

    /// The call served so often, then so often not ready, and dropped.
    pub fn given_up(&self, store: &mut Store<'_, Chip>, count: usize, waits: usize) {
        let mut buffer = self.buffer();
        let mut underway = self.underway(store, &mut buffer).unwrap();
        (0..count).for_each(|_| assert_eq!(underway.serve(), Served::More));
        underway.flash_mut().waits = waits;
        (0..waits).for_each(|_| assert_eq!(underway.serve(), Served::NotReady));
    }

    pub fn value(&self) -> &[u8] {
        match self {
            Call::Append(_, value) => value,
            _ => &[],
        }
    }

    /// Get's buffer, of a byte that no test stores.
    pub fn buffer(&self) -> Vec<u8> {
        match self {
            Call::Get(_, buffer_len) => vec![0xEE; *buffer_len],
            _ => Vec::new(),
        }
    }

    /// The call in the one-call form, in its numbers.
    pub fn at_once(&self, image: &[u8], s: usize, n: usize) -> Left {
        use stilefray::Success::{Complete, Freed, Written};
        let (mut image, mut buffer) = (image.to_vec(), self.buffer());
        let answer = match self {
            Call::Get(key, _) => image::get_key(&image, s, n, *key, &mut buffer).map(Complete),
            Call::Append(key, value) => image::append_key(&mut image, s, n, *key, value).map(|()| Written),
            Call::Invalidate(key) => image::invalidate_key(&mut image, s, n, *key).map(|()| Written),
            Call::Zeroise(key) => image::zeroise_key(&mut image, s, n, *key).map(|()| Written),
            Call::Collect => image::garbage_collect(&mut image, s, n).map(Freed),
            Call::Initialise(key) => image::initialise(&mut image, s, n, *key),
        };
        Left { answer, image, buffer }
    }

    /// The call one step at a time, with each service done at once.
    pub fn by_steps(&self, image: &[u8], s: usize, n: usize) -> (Left, Vec<Did>) {
        let mut chip = Chip::new(s, image.to_vec());
        let (mut region, mut buffer) = (vec![0xDD; s], self.buffer());
        let mut running = match self.start(s, n) {
            Ok(running) => running,
            Err(refusal) => return (Left { answer: Err(refusal), image: chip.image, buffer }, chip.did),
        };
        let mut request = running.step(Reply::Begin, &mut region, self.value(), &mut buffer);
        loop {
            if let Request::Answer(answer) = request {
                return (Left { answer, image: chip.image, buffer }, chip.did);
            }
            let reply = chip.reply(request, &mut region);
            request = running.step(reply, &mut region, self.value(), &mut buffer);
        }
    }
}

/// Numbers without end, the same at every run (splitmix64).
pub struct Numbers(pub u64);

impl Numbers {
    pub fn next(&mut self) -> u64 {
        self.0 = self.0.wrapping_add(0x9E37_79B9_7F4A_7C15);
        let a = (self.0 ^ (self.0 >> 30)).wrapping_mul(0xBF58_476D_1CE4_E5B9);
        let b = (a ^ (a >> 27)).wrapping_mul(0x94D0_49BB_1331_11EB);
        b ^ (b >> 31)
    }

    pub fn below(&mut self, limit: usize) -> usize {
        (self.next() % limit as u64) as usize
    }
}

/// A chip on which each call has something to do.
pub fn used() -> Vec<u8> {
    let mut chip = blank();
    image::append_key(&mut chip, S, N, 1, &[7; 49]).unwrap();
    image::append_key(&mut chip, S, N, 5, &[8; 4]).unwrap();
    image::append_key(&mut chip, S, N, 4, &[9; 4]).unwrap();
    image::invalidate_key(&mut chip, S, N, 1).unwrap();
    chip
}

/// A call of each operation, and a get into too little.
pub fn calls() -> [Call; 7] {
    [
        Call::Get(5, 6),
        Call::Get(5, 3),
        Call::Append(9, vec![3; 5]),
        Call::Invalidate(5),
        Call::Zeroise(5),
        Call::Collect,
        Call::Initialise(8),
    ]
}
