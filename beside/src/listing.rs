//! The program `list` beside a listing made from the rules alone: what it writes,
//! byte for byte, for chips good and damaged and for every kind of input that is
//! refused. It needs no source of tickv.

#[allow(dead_code)]
mod images;
mod list_calls;
mod list_fixed;
mod list_inputs;
mod list_run;
mod list_text;
#[allow(dead_code)]
mod prng;
#[allow(dead_code, unused_imports)]
mod straight;

use list_inputs::SORTS;
use list_run::Pieces;
use list_text::REFUSED;
use prng::Prng;
use std::io::Write;
use std::time::Instant;

/// Inputs by chance, in a short run and in a long one.
const SHORT: usize = 3_000;
const LONG: usize = 40 * SHORT;

/// An input on which the two differ is left here.
const LEFT: &str = "target/beside/listing.input";

/// What was compared.
#[derive(Default)]
struct Counts {
    inputs: usize,
    listed: usize,
    bad: usize,
    refused: usize,
    records: usize,
    dead: usize,
    longest: usize,
    pieces: usize,
    calls: usize,
}

impl Counts {
    fn take(&mut self, text: &str, pieces: Pieces) {
        self.inputs += 1;
        self.longest = self.longest.max(text.len());
        self.pieces += usize::from(pieces != Pieces::Whole);
        if text == REFUSED {
            self.refused += 1;
            return;
        }
        let bad = text.lines().last().is_some_and(|line| line.starts_with("bad "));
        self.bad += usize::from(bad);
        self.listed += usize::from(!bad);
        self.records += text.lines().count() - 1 - usize::from(bad);
        self.dead += text.lines().filter(|line| line.contains(" dead ")).count();
    }

    fn print(&self) {
        println!(
            "  {} inputs: {} listed to the end, {} up to a bad place, {} refused; {} of them in small pieces",
            self.inputs, self.listed, self.bad, self.refused, self.pieces
        );
        println!(
            "  {} records, {} of them dead; the longest text has {} bytes; the same lines by record_at for {} images",
            self.records, self.dead, self.longest, self.calls
        );
    }
}

/// One input in eight comes in pieces of one to seven bytes, if it is short, or
/// else of 4,095.
fn pieces(number: usize, input: &[u8]) -> Pieces {
    match number % 8 {
        0 if input.len() <= 4_000 || number % 400 == 0 => Pieces::Small(number as u64),
        0 => Pieces::Of(4_095),
        _ => Pieces::Whole,
    }
}

/// The first line that differs, and the input, kept for a second look.
fn difference(input: &[u8], pieces: Pieces, said: &[u8], text: &str) -> String {
    let kept = match std::fs::write(LEFT, input) {
        Ok(()) => format!("the input is in {LEFT}"),
        Err(why) => format!("the input could not be kept: {why}"),
    };
    let said = String::from_utf8_lossy(said);
    let mut pairs = said.split_inclusive('\n').zip(text.split_inclusive('\n')).enumerate();
    let first = match pairs.find(|(_, (ours, straight))| ours != straight) {
        Some((at, (ours, straight))) => {
            format!("line {}: ours {ours:?}, straight {straight:?}", at + 1)
        }
        None => format!("ours has {} bytes, straight {}", said.len(), text.len()),
    };
    let start = String::from_utf8_lossy(&input[..input.len().min(24)]).into_owned();
    format!("{first}\n{} bytes, from {start:?} on, written {pieces:?}; {kept}", input.len())
}

/// The program against the text, and the archive's call for the same image.
fn compare(counts: &mut Counts, input: &[u8], text: &str) -> Result<(), String> {
    let pieces = pieces(counts.inputs, input);
    let said = list_run::run(input, pieces)?;
    if said != text.as_bytes() {
        return Err(difference(input, pieces, &said, text));
    }
    counts.take(text, pieces);
    if let Some((s, n, image)) = list_text::chip(input) {
        counts.calls += 1;
        let called = list_calls::text(image, s, n)?;
        if called != text {
            return Err(format!(
                "record_at, where list is right:\n{}",
                difference(input, pieces, called.as_bytes(), text)
            ));
        }
    }
    Ok(())
}

/// The texts worked out by hand, which the straight listing must give too.
fn by_hand(counts: &mut Counts) -> Result<String, String> {
    let list = list_fixed::by_hand();
    for (number, (input, text)) in list.iter().enumerate() {
        let said = list_text::of_input(input);
        if said != *text {
            return Err(format!(
                "by hand, number {number}: straight says {said:?}, and not {text:?}"
            ));
        }
        compare(counts, input, text).map_err(|what| format!("by hand, number {number}\n{what}"))?;
    }
    Ok(format!("by hand {}", list.len()))
}

/// The lists that are the same in every run. `refused` says what each of them must be.
fn fixed(
    counts: &mut Counts,
    groups: &[list_fixed::Group],
    refused: bool,
) -> Result<Vec<String>, String> {
    for (name, inputs) in groups {
        for (number, input) in inputs.iter().enumerate() {
            let text = list_text::of_input(input);
            if (text == REFUSED) != refused {
                return Err(format!("{name}, number {number}: straight says {text:?}"));
            }
            compare(counts, input, &text)
                .map_err(|what| format!("{name}, number {number}\n{what}"))?;
        }
    }
    Ok(groups.iter().map(|(name, inputs)| format!("{name} {}", inputs.len())).collect())
}

fn by_chance(counts: &mut Counts, seed: u64, all: usize) -> Result<Vec<String>, String> {
    let mut rng = Prng::new(seed);
    let mut names = Vec::new();
    for sort in SORTS {
        let rounds = all * sort.share / 1_000;
        for _ in 0..rounds {
            let start = rng.next();
            let input = (sort.make)(&mut Prng::new(start));
            let text = list_text::of_input(&input);
            compare(counts, &input, &text)
                .map_err(|what| format!("{}, seed {start}\n{what}", sort.name))?;
        }
        names.push(format!("{} {rounds}", sort.name));
    }
    Ok(names)
}

/// The archive's call takes chips that the program does not, and refuses by S, N and
/// the image's length alone: a byte less and a byte more are no chip.
fn calls_alone(counts: &mut Counts) -> Result<(), String> {
    let taken = [(64, 1), (4_096, 17), (1_025, 64), (4_096, 64)];
    let outside = [(63, 1), (64, 65), (4_097, 1), (0, 1), (64, 0)];
    for (s, n) in taken.into_iter().chain(outside) {
        let mut image = list_inputs::full(s.max(1), n.max(1));
        image.push(255);
        let text = match list_text::limits(s, n) {
            true => list_text::of_image(&image[..s * n], s),
            false => REFUSED.to_string(),
        };
        for length in [s * n, s * n + 1, (s * n).saturating_sub(1)] {
            let right = if length == s * n { &text } else { REFUSED };
            if list_calls::text(&image[..length], s, n)? != right {
                return Err(format!("record_at on {length} bytes, S {s}, N {n}"));
            }
            counts.calls += 1;
        }
    }
    Ok(())
}

fn time() -> Result<(), String> {
    let input = list_inputs::input(4_096, 16, &list_inputs::full(4_096, 16));
    let records = list_text::of_input(&input).lines().count() - 1;
    let best = list_run::best_of(20, &input)?;
    println!("  a full chip of 65,536 bytes, {records} records: listed in {best:.1} ms, the best of 20 runs");
    Ok(())
}

fn listing(seed: u64, all: usize) -> Result<(), String> {
    let start = Instant::now();
    println!("listing: {} against a straight listing, seed {seed}", list_run::PROGRAM);
    let mut counts = Counts::default();
    let mut names = vec![by_hand(&mut counts)?];
    names.extend(fixed(&mut counts, &list_fixed::good(), false)?);
    names.extend(fixed(&mut counts, &list_fixed::refused(), true)?);
    names.extend(by_chance(&mut counts, seed, all)?);
    calls_alone(&mut counts)?;
    println!("  {}", names.join(", "));
    counts.print();
    time()?;
    println!("  all equal, {:.1} s", start.elapsed().as_secs_f64());
    Ok(())
}

/// The arguments are those of scripts/listings: `--long`, `--seed N`. `chip` alone
/// writes the bytes of docs/chip.img.
fn main() {
    let arguments: Vec<String> = std::env::args().skip(1).collect();
    if arguments.first().is_some_and(|word| word == "chip") {
        std::io::stdout().write_all(&list_inputs::shown_chip()).expect("standard output");
        return;
    }
    let all = if arguments.iter().any(|word| word == "--long") { LONG } else { SHORT };
    let named = arguments.iter().position(|word| word == "--seed");
    let seed = named.and_then(|at| arguments.get(at + 1)?.parse().ok()).unwrap_or(1);
    if let Err(what) = listing(seed, all) {
        println!("{what}");
        std::process::exit(1);
    }
}
