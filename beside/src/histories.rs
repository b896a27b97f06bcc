//! Long histories from blank chips: our store, the straight version and, on
//! every call that no line of docs/DIFFERENCES.md touches, the crate. Three images are
//! kept in step and compared whole after each call.

use crate::choose::{Habit, STRETCH};
use crate::crate_side::{self, Seen, SIZES};
use crate::domain::touches;
use crate::prng::Prng;
use crate::straight::{self, records, well_formed, Call, Outcome, HEADER};
use crate::tally::Tally;
use crate::{ours, report};

pub const COUNTS: [usize; 11] = [1, 2, 3, 4, 5, 7, 8, 16, 33, 63, 64];

struct Chips {
    s: usize,
    n: usize,
    ours: Vec<u8>,
    straight: Vec<u8>,
    theirs: Vec<u8>,
}

#[derive(Default)]
struct Buffers {
    ours: Vec<u8>,
    straight: Vec<u8>,
    theirs: Vec<u8>,
}

impl Buffers {
    fn fill(&mut self, bytes: &[u8]) {
        for buffer in [&mut self.ours, &mut self.straight, &mut self.theirs] {
            buffer.clear();
            buffer.extend_from_slice(bytes);
        }
    }
}

/// Most chips are small so that much happens on them; a few are the largest.
fn geometry(rng: &mut Prng) -> (usize, usize) {
    match rng.below(100) {
        0..=84 => (rng.pick(&SIZES[..10]), rng.pick(&COUNTS[..7])),
        85..=93 => (rng.pick(&SIZES), rng.pick(&COUNTS[..5])),
        94..=97 => (rng.pick(&SIZES[..6]), rng.pick(&COUNTS)),
        98 => (rng.pick(&SIZES), rng.pick(&COUNTS)),
        _ => (rng.pick(&SIZES[13..]), rng.pick(&COUNTS[9..])),
    }
}

fn agree(chips: &Chips, buffers: &Buffers, said: &(Outcome, Outcome, Option<Seen>)) -> bool {
    let (ours, straight, theirs) = said;
    ours == straight
        && chips.ours == chips.straight
        && buffers.ours == buffers.straight
        && theirs.as_ref().is_none_or(|seen| {
            *seen == Seen::Answered(*straight)
                && chips.theirs == chips.straight
                && buffers.theirs == buffers.straight
        })
}

/// The largest chip on which touched calls are tried too.
const TRIED: usize = 2_048;

/// A touched call on a copy of the chip: does the crate answer otherwise?
fn answers_otherwise(chips: &Chips, b: &Buffers, call: Call) -> bool {
    let (mut image, mut buffer) = (chips.theirs.clone(), b.theirs.clone());
    let seen = crate_side::run(&mut image, chips.s, call, &mut buffer);
    let (mut right, mut filled) = (chips.theirs.clone(), b.theirs.clone());
    let said = straight::run(&mut right, chips.s, chips.n, call, &mut filled);
    seen != Seen::Answered(said) || image != right || buffer != filled
}

/// One call, three ways; an error says what to print.
fn call(chips: &mut Chips, b: &mut Buffers, call: Call, tally: &mut Tally) -> Result<(), String> {
    let (s, n) = (chips.s, chips.n);
    let line = touches(&chips.straight, s, n, call);
    let before = report::worth_keeping(&chips.straight);
    let mine = ours::run(&mut chips.ours, s, n, call, &mut b.ours);
    let straight = straight::run(&mut chips.straight, s, n, call, &mut b.straight);
    let theirs = line.is_none().then(|| crate_side::run(&mut chips.theirs, s, call, &mut b.theirs));
    tally.answer(&call, &straight);
    tally.beside_crate(&call, line);
    let said = (mine, straight, theirs);
    if !agree(chips, b, &said) {
        let after =
            [(&chips.ours, &b.ours), (&chips.straight, &b.straight), (&chips.theirs, &b.theirs)];
        return Err(report::difference(s, n, &before, call, &said, after));
    }
    if let Some(line) = line {
        if s * n <= TRIED {
            tally.tried(&call, line, answers_otherwise(chips, b, call));
        }
        chips.theirs.copy_from_slice(&chips.straight);
    }
    Ok(())
}

/// Alters a bit in a live record's value or checksum, on all three chips.
fn spoil(rng: &mut Prng, chips: &mut Chips) {
    let (s, r) = (chips.s, rng.below(chips.n));
    let live: Vec<_> =
        records(&chips.straight[r * s..][..s]).records.into_iter().filter(|x| x.live).collect();
    if live.is_empty() {
        return;
    }
    let record = rng.pick(&live);
    let at = r * s + record.o + HEADER + rng.below(record.length - HEADER);
    let bit = 1 << rng.below(8);
    for image in [&mut chips.ours, &mut chips.straight, &mut chips.theirs] {
        image[at] ^= bit;
    }
}

fn history(
    seed: u64,
    stretch: &[u8],
    limit: u64,
    spoilt: bool,
    tally: &mut Tally,
) -> Result<(), String> {
    let mut rng = Prng::new(seed);
    let (s, n) = geometry(&mut rng);
    let blank = vec![255; s * n];
    let mut chips = Chips { s, n, ours: blank.clone(), straight: blank.clone(), theirs: blank };
    let mut buffers = Buffers::default();
    // Large chips cost more a call and are given fewer of them.
    let steps = if s * n > 65_536 { 300 } else { 400 + rng.below(800) };
    let mut habit = Habit::new(&mut rng, s, n);
    for step in 0..steps {
        if tally.compared() >= limit {
            break;
        }
        if rng.one_in(200) {
            habit = Habit::new(&mut rng, s, n);
        }
        if spoilt && rng.one_in(8) {
            spoil(&mut rng, &mut chips);
        }
        let (next, buffer_len) = habit.next(&mut rng, stretch, &chips.straight, s, n);
        let from = rng.below(STRETCH - buffer_len);
        buffers.fill(&stretch[from..from + buffer_len]);
        call(&mut chips, &mut buffers, next, tally)
            .map_err(|what| format!("history {seed}, step {step}\n{what}"))?;
        if !spoilt && step % 97 == 0 && !well_formed(&chips.straight, s, n) {
            return Err(format!("history {seed}, step {step}: the image is not well-formed"));
        }
    }
    Ok(())
}

/// Histories until so many calls were compared with the crate. Spoilt ones
/// have wrong checksums on the way: such images are not well-formed and so
/// outside the domain of R14.1, but no line of R14.2's speaks of them, and
/// InvalidCheckSum is met on no others.
pub fn run(seed: u64, limit: u64, spoilt: bool) -> Result<(), String> {
    let mut rng = Prng::new(seed);
    let stretch = rng.bytes(STRETCH);
    let mut tally = Tally::default();
    let mut histories = 0;
    while tally.compared() < limit {
        history(rng.next(), &stretch, limit, spoilt, &mut tally)?;
        histories += 1;
    }
    let kind = if spoilt { " with spoilt checksums" } else { "" };
    println!("histories{kind}: {histories} from blank chips, {} calls,", tally.total());
    println!(
        "  {} of them compared with the crate, all with the straight version",
        tally.compared()
    );
    tally.print_lines();
    tally.print_tried();
    tally.print_answers();
    match tally.idle() {
        Some(name) => Err(format!("nothing was compared with the crate for {name}")),
        None => Ok(()),
    }
}
