//! Our store timed against the crate and against the straight version, on the
//! same inputs in one run. A ratio is our time over theirs.

use crate::bench_chip::{chip, Chip};
use crate::bench_look;
use crate::crate_side::Memory;
use crate::prng::Prng;
use crate::straight::{self, checksum};
use std::cell::RefCell;
use std::hint::black_box;
use std::time::{Duration, Instant};
use stilefray::{Flash, NotDone, Store};
use tickv::crc32::Crc32;
use tickv::TicKV;

const ROUNDS: usize = 15;
const AT_LEAST: Duration = Duration::from_millis(8);

/// One pass over a row's inputs: the time it took and the calls it made.
pub type Pass<'a> = &'a mut dyn FnMut() -> (Duration, usize);

/// Nanoseconds a call, over passes of at least the time wanted.
fn timed(passes: usize, pass: Pass) -> f64 {
    let (mut time, mut calls) = (Duration::ZERO, 0);
    for _ in 0..passes {
        let (spent, made) = pass();
        time += spent;
        calls += made;
    }
    time.as_nanos() as f64 / calls as f64
}

fn enough(pass: Pass) -> usize {
    pass();
    let spent = pass().0.max(Duration::from_nanos(1));
    1 + (AT_LEAST.as_nanos() / spent.as_nanos()) as usize
}

fn median(numbers: &mut [f64]) -> f64 {
    numbers.sort_by(f64::total_cmp);
    numbers[numbers.len() / 2]
}

pub fn row(name: &str, ours: Pass, theirs: Pass) {
    let passes = (enough(ours), enough(theirs));
    let (mut a, mut b, mut ratios) = (Vec::new(), Vec::new(), Vec::new());
    for round in 0..ROUNDS {
        // Each goes first in turn, so that neither always meets the colder cache.
        let (x, y) = if round % 2 == 0 {
            let x = timed(passes.0, ours);
            (x, timed(passes.1, theirs))
        } else {
            let y = timed(passes.1, theirs);
            (timed(passes.0, ours), y)
        };
        a.push(x);
        b.push(y);
        ratios.push(x / y);
    }
    let middle = median(&mut ratios);
    let (low, high) = (ratios[0], ratios[ROUNDS - 1]);
    println!(
        "| {name} | {:.1} | {:.1} | {middle:.2} | {low:.2} .. {high:.2} |",
        median(&mut a),
        median(&mut b)
    );
}

/// Keeps an answer that nobody reads from being left out.
pub fn sink<T>(answer: T) {
    black_box(answer);
}

/// Times one call for each key.
pub fn each(keys: &[u64], mut call: impl FnMut(u64)) -> (Duration, usize) {
    let start = Instant::now();
    keys.iter().for_each(|key| call(black_box(*key)));
    (start.elapsed(), keys.len())
}

/// A flash in memory: it reads as the crate's does, by copying the region, and
/// writes by AND.
struct Copying {
    image: Vec<u8>,
    s: usize,
}

impl Flash for Copying {
    type Error = ();

    fn read_region(&mut self, region: usize, buffer: &mut [u8]) -> Result<(), NotDone<()>> {
        buffer.copy_from_slice(&self.image[region * self.s..][..self.s]);
        Ok(())
    }

    fn write(&mut self, place: usize, bytes: &[u8]) -> Result<(), NotDone<()>> {
        self.image[place..].iter_mut().zip(bytes).for_each(|(old, new)| *old &= new);
        Ok(())
    }

    fn erase_region(&mut self, region: usize) -> Result<(), NotDone<()>> {
        self.image[region * self.s..][..self.s].fill(255);
        Ok(())
    }
}

/// The two forms of ours that are timed.
#[derive(Clone, Copy)]
enum Form {
    Store,
    OneCall,
}

/// Gets against the crate: by the store over a flash, or in the one-call form,
/// then also against the straight version.
fn gets<const S: usize>(form: Form, chip: &Chip, keys: &[u64], what: &str) {
    let (s, n, length) = (chip.s, chip.n, chip.length);
    let mut copy = chip.image.clone();
    let mut read_buffer = [0; S];
    let crate_store = TicKV::<_, S>::new(Memory(RefCell::new(&mut copy)), &mut read_buffer, s * n);
    let mut region = vec![0; s];
    let mut store = Store::new(Copying { image: chip.image.clone(), s }, &mut region, n);
    let (mut mine, mut other, mut third) = (vec![0; length], vec![0; length], vec![0; length]);
    for key in keys {
        let ours = store.get_key(*key, &mut mine).is_ok();
        assert_eq!(ours, crate_store.get_key(*key, &mut other).is_ok(), "both find it or neither");
        assert_eq!(mine, other);
    }
    let mut theirs = || each(keys, |key| sink(crate_store.get_key(key, &mut other)));
    let name = format!("get, {what}, S {s} N {n}, {length} bytes");
    if let Form::Store = form {
        let mut by_store = || each(keys, |key| sink(store.get_key(key, &mut mine)));
        return row(&format!("{name}: `Store` / crate"), &mut by_store, &mut theirs);
    }
    let mut by_image =
        || each(keys, |key| sink(stilefray::image::get_key(&chip.image, s, n, key, &mut mine)));
    row(&format!("{name}: one call / crate"), &mut by_image, &mut theirs);
    let mut straight = || each(keys, |key| sink(straight::get(&chip.image, s, n, key, &mut third)));
    row(&format!("{name}: one call / straight"), &mut by_image, &mut straight);
}

/// Keys to append to a chip three quarters full: one or two more in each
/// region keep it so.
fn newcomers(chip: &Chip) -> &[u64] {
    let room = chip.s - chip.s * 3 / 4;
    let count = chip.n * (room / 2 / (chip.length + 15)).clamp(1, 4);
    &chip.absent[..count.min(chip.absent.len())]
}

/// Appends, on a chip which is put back before each pass, outside the timing:
/// by the store, or in one call, against the straight version.
fn appends(form: Form, chip: &Chip) {
    let (s, n, keys, value) = (chip.s, chip.n, newcomers(chip), vec![7; chip.length]);
    let (mut a, mut b) = (chip.image.clone(), chip.image.clone());
    let mut region = vec![0; s];
    let mut store = Store::new(Copying { image: a.clone(), s }, &mut region, n);
    let mut straight = || {
        b.copy_from_slice(&chip.image);
        each(keys, |key| sink(straight::append(&mut b, s, n, key, &value)))
    };
    let name = format!("append, S {s} N {n}, {} bytes", chip.length);
    if let Form::Store = form {
        let mut ours = || {
            store.flash_mut().image.copy_from_slice(&chip.image);
            each(keys, |key| sink(store.append_key(key, &value)))
        };
        row(&format!("{name}: `Store` / straight"), &mut ours, &mut straight);
        a.copy_from_slice(&store.flash().image);
    } else {
        let mut ours = || {
            a.copy_from_slice(&chip.image);
            each(keys, |key| sink(stilefray::image::append_key(&mut a, s, n, key, &value)))
        };
        row(&format!("{name}: one call / straight"), &mut ours, &mut straight);
    }
    assert_eq!(a, b, "both wrote the same");
    assert_ne!(a, chip.image, "and they did write");
}

fn checksums() {
    let bytes = Prng::new(4).bytes(4_090);
    for length in [15, 64, 1_000, 4_090] {
        let part = &bytes[..length];
        let turns = [0; 256];
        let mut ours = || each(&turns, |_| sink(stilefray::checksum(black_box(part))));
        let mut theirs = || {
            each(&turns, |_| {
                let sum = Crc32::new();
                sum.update(black_box(part));
                black_box(sum.finalise());
            })
        };
        assert_eq!(stilefray::checksum(part), checksum::of(part));
        row(&format!("checksum, {length} bytes: ours / crate"), &mut ours, &mut theirs);
    }
}

const NOTES: &str = "
Chips are three quarters full, every record in its home region, none full or
empty: so the crate finds each present key, and looks for an absent one in all
N regions, as we do (elsewhere it would stop early). `Store` is the Rust
crate's, over a flash that copies each region into its buffer, as the crate's
flash does; `one call` works on the image itself, as `straight` does. Appends
start from the same chip, put back outside the timing. A ratio is our time over
theirs, round by round: below 1 we are faster.";

fn all(form: Form, chips: &[Chip; 4]) {
    gets::<4_096>(form, &chips[0], &chips[0].present, "present");
    gets::<1_024>(form, &chips[1], &chips[1].present, "present");
    gets::<256>(form, &chips[2], &chips[2].present, "present");
    gets::<4_096>(form, &chips[3], &chips[3].present, "present");
    gets::<4_096>(form, &chips[0], &chips[0].absent[..64], "absent, all regions read");
    gets::<1_024>(form, &chips[1], &chips[1].absent, "absent, all regions read");
    gets::<256>(form, &chips[2], &chips[2].absent, "absent, all regions read");
    chips.iter().for_each(|chip| appends(form, chip));
}

pub fn run() {
    println!("| Row | ours, ns | theirs, ns | ratio, median of {ROUNDS} | spread |");
    println!("|---|---|---|---|---|");
    let chips =
        [chip(4_096, 64, 19), chip(1_024, 16, 19), chip(256, 4, 19), chip(4_096, 64, 1_000)];
    all(Form::Store, &chips);
    all(Form::OneCall, &chips);
    checksums();
    chips.iter().for_each(bench_look::values);
    chips.iter().for_each(bench_look::passes);
    println!("{NOTES}");
    crate::bench_steps::run();
}
