//! One operation by the stepped form over a host, looked at after each step.

use crate::host::Host;
use crate::misuse::{self, Lent};
use crate::ours;
use crate::prng::Prng;
use crate::straight::{Call, Outcome};
use stilefray::ffi::Operation;
use stilefray::stepped::{Reply, Request, Running};
use stilefray::{Flash, NotDone, Refusal};

pub fn start(s: usize, n: usize, call: Call, buffer_len: usize) -> Result<Running, Refusal> {
    match call {
        Call::Get { key } => Running::get_key(s, n, key, buffer_len),
        Call::Append { key, value } => Running::append_key(s, n, key, value.len()),
        Call::Invalidate { key } => Running::invalidate_key(s, n, key),
        Call::Zeroise { key } => Running::zeroise_key(s, n, key),
        Call::Collect => Running::garbage_collect(s, n),
        Call::Initialise { key } => Running::initialise(s, n, key),
    }
}

fn serve(host: &mut Host, request: Request, region: &mut [u8]) -> Reply {
    let done = match request {
        Request::Read { region: number } => host.read_region(number, region),
        Request::Write { from, to, place } => host.write(place, &region[from..to]),
        Request::Erase { region: number } => host.erase_region(number),
        Request::Answer(_) => unreachable!("an answer asks for nothing"),
    };
    match done {
        Ok(()) => Reply::Done,
        Err(NotDone::NotReady) => Reply::NotReady,
        Err(NotDone::Failed(_)) => Reply::Failed,
    }
}

/// What the last step left, to compare the next one with.
struct Before {
    request: Request,
    running: Operation,
    region: Vec<u8>,
    buffer: Vec<u8>,
}

/// A step may alter the region buffer only in the bytes that it asks to write,
/// get's buffer only where it answers, and nothing at all on "not ready".
fn lawful(
    before: &Before,
    reply: Reply,
    request: Request,
    running: Operation,
    lent: &Lent,
) -> bool {
    let answered = matches!(request, Request::Answer(_));
    let (from, to) = match request {
        Request::Write { from, to, .. } => (from, to),
        _ => (0, 0),
    };
    let rest =
        lent.region[..from] == before.region[..from] && lent.region[to..] == before.region[to..];
    let repeated =
        request == before.request && running == before.running && lent.region == before.region;
    rest && (answered || lent.buffer == before.buffer) && (reply != Reply::NotReady || repeated)
}

pub struct Drive<'a> {
    pub s: usize,
    pub n: usize,
    pub call: Call<'a>,
    pub rng: &'a mut Prng,
    pub misused: u64,
}

impl Drive<'_> {
    /// The value counts only at the step that asks for the write; elsewhere
    /// other bytes of its length are lent. An operation that has no value or
    /// no buffer is lent some of any length.
    fn lend_value(&mut self, asks_write: bool) -> Vec<u8> {
        match self.call {
            Call::Append { value, .. } if asks_write => value.to_vec(),
            Call::Append { value, .. } => vec![0x33; value.len()],
            _ => vec![0x44; self.rng.below(9)],
        }
    }

    pub fn run(&mut self, host: &mut Host, buffer: &mut Vec<u8>) -> Result<Outcome, String> {
        let mut running = match start(self.s, self.n, self.call, buffer.len()) {
            Ok(running) => running,
            Err(why) => return Ok(Err(ours::refusal(why))),
        };
        let mut lent =
            Lent { region: vec![0xa5; self.s], value: Vec::new(), buffer: buffer.clone() };
        let mut reply = Reply::Begin;
        let mut request = Request::Answer(Err(Refusal::BadCall));
        loop {
            lent.value = self.lend_value(reply == Reply::Done && host.done.len() == self.n);
            if self.rng.one_in(6) {
                self.misused +=
                    misuse::running(self.rng, running.numbers(), reply, &lent, self.call)?;
            }
            let before = Before {
                request,
                running: running.numbers(),
                region: lent.region.clone(),
                buffer: lent.buffer.clone(),
            };
            request = running.step(reply, &mut lent.region, &lent.value, &mut lent.buffer);
            if !lawful(&before, reply, request, running.numbers(), &lent) {
                return Err(format!("{reply:?}, {request:?}: the step altered what it may not"));
            }
            if let Request::Answer(answer) = request {
                self.misused += misuse::ended(running.numbers(), &lent)?;
                *buffer = lent.buffer;
                return Ok(ours::outcome(answer));
            }
            reply = serve(host, request, &mut lent.region);
        }
    }
}
