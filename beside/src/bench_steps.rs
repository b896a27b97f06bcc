//! What one step of the stepped form takes, by the size of a region: the step
//! that only repeats its request, and the longest ones that there are.

use std::hint::black_box;
use std::time::Instant;
use stilefray::ffi::{self, Operation};
use stilefray::image;

const SIZES: [usize; 4] = [64, 256, 1_024, 4_096];
const ROUNDS: usize = 15;
/// Steps in a row, each on a region buffer of its own that is put back outside the timing.
const STEPS: usize = 256;
const DONE: u32 = 1;
const NOT_READY: u32 = 2;
const KEY: u64 = 2;

/// A step to be timed: the operation that waits, the reply, and what is lent.
struct Step {
    op: Operation,
    reply: u32,
    region: Vec<u8>,
    value: Vec<u8>,
    buffer: Vec<u8>,
    /// The kind of request that it ends in, so that the right step is timed.
    asks: u32,
}

/// As long as a value can be in a region of this size.
fn longest(s: usize) -> usize {
    (s - 15).min(4_079)
}

/// A region full of the smallest records, none of them the key's.
fn crowded(s: usize) -> Vec<u8> {
    let mut region = vec![255; s];
    for key in 0..s as u64 / 15 {
        image::append_key(&mut region, s, 1, KEY + 1 + key, &[]).expect("there is room");
    }
    region
}

/// The operation after its first step, which is waiting for its first region.
fn begun(start: ffi::StartNumbers, s: usize, value: &[u8], buffer: &mut [u8]) -> Operation {
    assert_eq!(start.refusal, 0);
    ffi::step(start.op, 0, &mut vec![0; s], value, buffer).op
}

fn get(s: usize, reply: u32, region: Vec<u8>, asks: u32) -> Step {
    let mut buffer = vec![0; longest(s)];
    let op = begun(ffi::start_get(s, 2, KEY, buffer.len()), s, &[], &mut buffer);
    Step { op, reply, region, value: Vec::new(), buffer, asks }
}

fn repeats(s: usize) -> Step {
    get(s, NOT_READY, crowded(s), 1)
}

fn walks(s: usize) -> Step {
    get(s, DONE, crowded(s), 1)
}

fn gives(s: usize) -> Step {
    let mut region = vec![255; s];
    image::append_key(&mut region, s, 1, KEY, &vec![7; longest(s)]).expect("it fits");
    get(s, DONE, region, 4)
}

/// Append's last read: the first region had the room, this one is crowded.
fn lays(s: usize) -> Step {
    let value = vec![7; longest(s)];
    let op = begun(ffi::start_append(s, 2, KEY, value.len()), s, &value, &mut []);
    let op = ffi::step(op, DONE, &mut vec![255; s], &value, &mut []).op;
    Step { op, reply: DONE, region: crowded(s), value, buffer: Vec::new(), asks: 2 }
}

/// Nanoseconds a step.
fn timed(step: &mut Step) -> f64 {
    let mut regions = vec![step.region.clone(); STEPS];
    let start = Instant::now();
    for region in &mut regions {
        let op = black_box(step.op);
        let asked = ffi::step(op, step.reply, region, &step.value, &mut step.buffer).request.kind;
        assert_eq!(asked, step.asks);
    }
    start.elapsed().as_nanos() as f64 / STEPS as f64
}

fn median(mut numbers: Vec<f64>) -> f64 {
    numbers.sort_by(f64::total_cmp);
    numbers[numbers.len() / 2]
}

fn row(name: &str, make: fn(usize) -> Step) {
    let mut steps = SIZES.map(make);
    let rounds: Vec<Vec<f64>> =
        (0..ROUNDS).map(|_| steps.iter_mut().map(timed).collect()).collect();
    print!("| {name} |");
    for size in 0..SIZES.len() {
        let time = median(rounds.iter().map(|round| round[size]).collect());
        let ratio = median(rounds.iter().map(|round| round[size] / round[0]).collect());
        print!(" {time:.0} ns, {ratio:.1} |");
    }
    println!();
}

pub fn run() {
    println!("\n| One step | S 64 | S 256 | S 1,024 | S 4,096 |");
    println!("|---|---|---|---|---|");
    row("repeats its request (not ready)", repeats);
    row("walks a region full of the smallest records", walks);
    row("answers a get with the longest value: copied and summed", gives);
    row("the same walk, and the longest record is laid out: summed", lays);
    println!("Medians of {ROUNDS} rounds; the second number is the time over that of S 64 in the same round.");
}
