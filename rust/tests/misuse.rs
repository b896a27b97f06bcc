//! Every mistake that a host can make with a step is BadCall, which alters neither the operation nor a buffer; and not ready, which is
//! no mistake, alters nothing either.
mod common;
use common::{blank, Call, N, S};
use stilefray::ffi::{self, Operation};
use stilefray::image::{append_key, invalidate_key};
use stilefray::stepped::{Reply, Request, Running};
use stilefray::{Answer, Refusal, Success};

const BAD_CALL: Request = Request::Answer(Err(Refusal::BadCall));
const REPLIES: [Reply; 4] = [Reply::Begin, Reply::Done, Reply::NotReady, Reply::Failed];

/// What a host keeps while an operation runs.
struct Host {
    call: Call,
    running: Running,
    region: Vec<u8>,
    buffer: Vec<u8>,
}

impl Host {
    /// Another operation of the same numbers, for mistakes to be tried on.
    fn twin(&self) -> Running {
        Running::from_numbers(self.running.numbers())
    }

    /// A step with parts of these lengths, on copies; whatever it is, the copies must be as they were.
    fn mistake(&self, reply: Reply, region: usize, value: usize, buffer: usize) {
        let mut running = self.twin();
        let parts = |bytes: &[u8], length: usize| bytes.iter().copied().chain(0..).take(length).collect::<Vec<u8>>();
        let (mut lent, lent_value) = (parts(&self.region, region), parts(self.call.value(), value));
        let mut lent_buffer = parts(&self.buffer, buffer);
        let before = (self.twin(), lent.clone(), lent_buffer.clone());
        let request = running.step(reply, &mut lent, &lent_value, &mut lent_buffer);
        assert_eq!(request, BAD_CALL, "{:?} {reply:?} {region} {value} {buffer} {:?}", self.call, self.running);
        assert_eq!((running, lent, lent_buffer), before);
    }

    /// Every mistake at this point of the run. `fresh` and `ended` say which replies are mistakes.
    fn mistakes(&mut self) {
        let (value, buffer) = (self.call.value().len(), self.buffer.len());
        let (fresh, ended) = (self.running.is_fresh(), self.running.has_ended());
        for reply in REPLIES {
            if ended || fresh != (reply == Reply::Begin) {
                self.mistake(reply, S, value, buffer);
            }
            for length in [0, 1, S - 1, S + 1, 2 * S] {
                self.mistake(reply, length, value, buffer);
            }
            if let Call::Append(..) = self.call {
                for length in [0, value - 1, value + 1] {
                    self.mistake(reply, S, length, buffer);
                }
            }
            if let Call::Get(..) = self.call {
                for length in [0, buffer - 1, buffer + 1] {
                    self.mistake(reply, S, value, length);
                }
            }
        }
        let op = self.running.numbers();
        for number in [4, 5, 255, 256, 1 << 31, u32::MAX] {
            self.mistaken(op, number);
        }
        for layout in [0, 1, 3, 4, 256, 1 << 31, u32::MAX] {
            (0..5).for_each(|reply| self.mistaken(Operation { layout, ..op }, reply));
        }
    }

    /// A step of an operation and a reply that are mistakes in themselves.
    fn mistaken(&mut self, op: Operation, reply: u32) {
        let (region, buffer) = (self.region.clone(), self.buffer.clone());
        let stepped = ffi::step(op, reply, &mut self.region, self.call.value(), &mut self.buffer);
        assert_eq!((stepped.op, stepped.request.kind, stepped.request.answer.refusal), (op, 4, 11));
        assert_eq!((&self.region, &self.buffer), (&region, &buffer));
    }

    /// Not ready repeats the request and alters nothing; lending what is not looked at makes no difference.
    fn waits(&mut self, request: Request) {
        let before = (self.twin(), self.region.clone(), self.buffer.clone());
        for _ in 0..2 {
            assert_eq!(self.step(Reply::NotReady), request);
        }
        let (mut other, mut spare) = (self.twin(), [9; 5]);
        let repeated = match self.call {
            Call::Get(..) => other.step(Reply::NotReady, &mut self.region, &[1, 2], &mut self.buffer),
            Call::Append(..) => other.step(Reply::NotReady, &mut self.region, self.call.value(), &mut spare),
            _ => other.step(Reply::NotReady, &mut self.region, &[1, 2], &mut spare),
        };
        assert_eq!((repeated, &other, spare), (request, &self.running, [9; 5]));
        assert_eq!((&self.running, &self.region, &self.buffer), (&before.0, &before.1, &before.2));
    }

    /// A failed service ends the operation, and alters no buffer.
    fn fails(&self) {
        let (mut running, mut region, mut buffer) = (self.twin(), self.region.clone(), self.buffer.clone());
        let request = running.step(Reply::Failed, &mut region, self.call.value(), &mut buffer);
        assert_eq!(request, Request::Answer(Err(Refusal::FlashFailed(()))));
        assert!(running.has_ended());
        assert_eq!((&region, &buffer), (&self.region, &self.buffer));
    }

    fn step(&mut self, reply: Reply) -> Request {
        self.running.step(reply, &mut self.region, self.call.value(), &mut self.buffer)
    }
}

/// Runs a call with every mistake at every point of it.
fn with_mistakes(call: Call, image: &[u8]) -> (Answer, Vec<u8>, Vec<u8>) {
    let mut chip = image.to_vec();
    let mut host = Host { running: call.start(S, N).unwrap(), region: vec![0xDD; S], buffer: call.buffer(), call };
    host.mistakes();
    let mut request = host.step(Reply::Begin);
    loop {
        host.mistakes();
        if let Request::Answer(answer) = request {
            return (answer, chip, host.buffer);
        }
        host.waits(request);
        host.fails();
        match request {
            Request::Read { region } => host.region.copy_from_slice(&chip[region * S..][..S]),
            Request::Write { from, to, place } => {
                chip[place..].iter_mut().zip(&host.region[from..to]).for_each(|(old, new)| *old &= new);
            }
            Request::Erase { region } => chip[region * S..][..S].fill(255),
            Request::Answer(_) => unreachable!(),
        }
        request = host.step(Reply::Done);
    }
}

#[test]
fn mistakes_at_every_point_of_every_operation_change_nothing() {
    let mut chip = blank();
    append_key(&mut chip, S, N, 1, &[7; 49]).unwrap();
    append_key(&mut chip, S, N, 5, &[8; 4]).unwrap();
    append_key(&mut chip, S, N, 2, &[9; 4]).unwrap();
    append_key(&mut chip, S, N, 3, &[9; 4]).unwrap();
    invalidate_key(&mut chip, S, N, 3).unwrap();
    let calls = [
        (Call::Get(5, 6), Ok(Success::Complete(4))),
        (Call::Get(1, 6), Err(Refusal::BufferTooSmall(49))),
        (Call::Append(9, vec![3; 5]), Ok(Success::Written)),
        (Call::Invalidate(5), Ok(Success::Written)),
        (Call::Zeroise(5), Ok(Success::Written)),
        (Call::Collect, Ok(Success::Freed(64))),
        (Call::Initialise(8), Ok(Success::Written)),
    ];
    for (call, answer) in calls {
        let whole = call.at_once(&chip, S, N);
        assert_eq!(whole.answer, answer, "{call:?}");
        assert_eq!(with_mistakes(call, &chip), (whole.answer, whole.image, whole.buffer));
    }
}

#[test]
fn the_value_lent_at_the_step_that_asks_for_the_write_is_the_one_written() {
    let mut running = Running::append_key(S, N, 1, 2).unwrap();
    let mut region = [0; S];
    let mut request = running.step(Reply::Begin, &mut region, &[1, 1], &mut []);
    for value in [[2, 2], [3, 3], [4, 4], [5, 6]] {
        assert!(matches!(request, Request::Read { .. }));
        region.fill(255); // each read finds a blank region
        request = running.step(Reply::Done, &mut region, &value, &mut []);
    }
    assert_eq!(request, Request::Write { from: 0, to: 17, place: 64 });
    assert_eq!(region[11..13], [5, 6]);
    let laid = region;
    assert_eq!(running.step(Reply::NotReady, &mut region, &[7, 7], &mut []), request);
    assert_eq!(region, laid);
}
