//! Our store against the straight version on every kind of image and on wrong
//! geometries: answer, image and buffer.

use crate::domain;
use crate::images::{key, make, Kind, KINDS};
use crate::prng::Prng;
use crate::straight::{self, well_formed, Call};
use crate::tally::Tally;
use crate::{ours, report};

const CALLS_AN_IMAGE: usize = 12;

fn call<'a>(rng: &mut Prng, s: usize, stretch: &'a [u8]) -> Call<'a> {
    let key = key(rng);
    match rng.below(12) {
        0..=3 => Call::Get { key },
        4..=6 => {
            let length = match rng.below(8) {
                0 => 0,
                1 => rng.pick(&[4_078, 4_079, 4_080, 4_081, 4_095, 6_000]),
                2 => s.saturating_sub(15 + rng.below(6)),
                3 => rng.below(s + 1),
                _ => rng.below(40),
            };
            Call::Append { key, value: &stretch[..length.min(stretch.len())] }
        }
        7 => Call::Invalidate { key },
        8 => Call::Zeroise { key },
        9 | 10 => Call::Collect,
        _ => Call::Initialise { key },
    }
}

fn buffer_len(rng: &mut Prng, s: usize) -> usize {
    match rng.below(6) {
        0 => 0,
        1 => rng.below(4),
        2 => 4_096,
        _ => rng.below(s.clamp(1, 4_096)),
    }
}

struct Pair {
    s: usize,
    n: usize,
    ours: Vec<u8>,
    straight: Vec<u8>,
}

fn compare(pair: &mut Pair, call: Call, fill: &[u8], tally: &mut Tally) -> Result<(), String> {
    let before = report::worth_keeping(&pair.straight);
    let (mut mine, mut other) = (fill.to_vec(), fill.to_vec());
    let a = ours::run(&mut pair.ours, pair.s, pair.n, call, &mut mine);
    let b = straight::run(&mut pair.straight, pair.s, pair.n, call, &mut other);
    tally.answer(&call, &b);
    if a == b && pair.ours == pair.straight && mine == other {
        return Ok(());
    }
    let said = (a, b, None);
    let after = [(&pair.ours, &mine), (&pair.straight, &other), (&pair.straight, &other)];
    Err(report::difference(pair.s, pair.n, &before, call, &said, after))
}

/// Any geometry that the rules allow, small ones most.
fn geometry(rng: &mut Prng) -> (usize, usize) {
    match rng.below(40) {
        0 => (64 + rng.below(4_033), 1 + rng.below(64)),
        1 => (rng.pick(&[64, 4_096]), rng.pick(&[1, 64])),
        2..=5 => (4_080 + rng.below(17), 1 + rng.below(3)),
        _ => (64 + rng.below(200), 1 + rng.below(6)),
    }
}

fn image(rng: &mut Prng, kind: Kind, stretch: &[u8], tally: &mut Tally) -> Result<(), String> {
    let (s, n) = geometry(rng);
    let bytes = make(rng, kind, s, n);
    if !well_formed(&bytes, s, n) {
        let line = domain::damage(&bytes, s).map_or(8, |line| line as usize);
        tally.damaged[line] += CALLS_AN_IMAGE as u64;
    }
    let mut pair = Pair { s, n, ours: bytes.clone(), straight: bytes };
    for _ in 0..CALLS_AN_IMAGE {
        let next = call(rng, s, stretch);
        let buffer_len = buffer_len(rng, s);
        compare(&mut pair, next, &stretch[..buffer_len], tally)?;
    }
    Ok(())
}

fn wrong_geometry(rng: &mut Prng, stretch: &[u8], tally: &mut Tally) -> Result<(), String> {
    let s = rng.pick(&[0, 1, 63, 64, 65, 4_096, 4_097, usize::MAX / 2 + 1, usize::MAX]);
    let n = rng.pick(&[0, 1, 2, 64, 65, usize::MAX / 64 + 1, usize::MAX]);
    let right = s.wrapping_mul(n).min(300_000);
    let length = match rng.below(4) {
        0 => right.saturating_sub(1),
        1 => right + 1,
        2 => 0,
        _ => right,
    };
    let bytes = vec![rng.pick(&[255, 1]); length];
    let mut pair = Pair { s, n, ours: bytes.clone(), straight: bytes };
    for _ in 0..3 {
        let next = call(rng, 64, stretch);
        let buffer_len = buffer_len(rng, 64);
        compare(&mut pair, next, &stretch[..buffer_len], tally)?;
    }
    Ok(())
}

fn print_damage(damaged: &[u64; 9]) {
    print!("  calls begun on images that are not well-formed, by the first damage:");
    for (index, count) in damaged.iter().enumerate().filter(|(_, count)| **count > 0) {
        match domain::LINES.get(index) {
            Some(line) => print!(" {line:?} {count},"),
            None => print!(" none of these {count}"),
        }
    }
    println!();
}

/// `rounds` images of each kind.
pub fn run(seed: u64, rounds: usize) -> Result<u64, String> {
    let mut rng = Prng::new(seed);
    let stretch = rng.bytes(8_192);
    let mut tally = Tally::default();
    let mut damaged = [0; 9];
    println!("every image: {rounds} of each kind, ours against the straight version");
    for kind in KINDS {
        let mut of_kind = Tally::default();
        for round in 0..rounds {
            let start = rng.next();
            image(&mut Prng::new(start), kind, &stretch, &mut of_kind)
                .map_err(|what| format!("{kind:?}, image {round}, seed {start}\n{what}"))?;
        }
        println!("  {kind:?}: {} calls", of_kind.total());
        tally.add(&of_kind);
        (0..9).for_each(|line| damaged[line] += of_kind.damaged[line]);
    }
    let before = tally.total();
    for _ in 0..rounds / 20 {
        wrong_geometry(&mut rng, &stretch, &mut tally)?;
    }
    println!("  wrong geometries: {} calls", tally.total() - before);
    print_damage(&damaged);
    tally.print_answers();
    Ok(tally.total())
}
