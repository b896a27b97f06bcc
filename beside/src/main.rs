//! The store run beside the crate and beside a straight version of its requirements.

mod afternoons;
mod bench;
mod bench_chip;
mod bench_look;
mod bench_steps;
mod by_store;
mod choose;
mod crate_side;
mod domain;
mod driver;
mod every_image;
mod failing;
mod fault_list;
mod faults;
mod histories;
mod host;
mod images;
mod misuse;
mod ours;
mod prng;
mod record;
mod report;
mod stepping;
mod straight;
mod tally;

use std::time::Instant;

/// How much a run does.
struct Size {
    compared: u64,
    images: usize,
    driven: usize,
}

const SHORT: Size = Size { compared: 5_000_000, images: 100_000, driven: 40_000 };
const LONG: Size = Size { compared: 200_000_000, images: 1_000_000, driven: 600_000 };

struct Wish {
    size: Size,
    seed: u64,
    only_faults: bool,
}

fn wish(arguments: &[String]) -> Result<Wish, String> {
    let mut wish = Wish { size: SHORT, seed: 1, only_faults: false };
    let mut rest = arguments.iter();
    while let Some(word) = rest.next() {
        match word.as_str() {
            "--long" => wish.size = LONG,
            "--faults" => wish.only_faults = true,
            "--seed" => {
                let number = rest.next().and_then(|text| text.parse().ok());
                wish.seed = number.ok_or("--seed wants a number")?;
            }
            other => return Err(format!("not understood: {other}")),
        }
    }
    Ok(wish)
}

fn timed<T>(run: impl FnOnce() -> Result<T, String>) -> Result<T, String> {
    let start = Instant::now();
    let result = run();
    println!("  {:.1} s", start.elapsed().as_secs_f64());
    result
}

fn beside(arguments: &[String]) -> Result<(), String> {
    let wish = wish(arguments).unwrap_or_else(|what| {
        println!("{what}");
        std::process::exit(2);
    });
    let start = Instant::now();
    afternoons::run()?;
    if !wish.only_faults {
        println!("seed {}", wish.seed);
        timed(|| histories::run(wish.seed, wish.size.compared, false))?;
        timed(|| histories::run(wish.seed, wish.size.compared / 5, true))?;
        timed(|| every_image::run(wish.seed, wish.size.images))?;
        timed(|| driver::run(wish.seed, wish.size.driven))?;
    }
    timed(faults::run)?;
    println!("all equal, {:.1} s", start.elapsed().as_secs_f64());
    Ok(())
}

/// The crate's asserts are caught and counted, not printed; others are.
fn quiet_crate() {
    let loud = std::panic::take_hook();
    std::panic::set_hook(Box::new(move |what| {
        if !crate_side::is_running() {
            loud(what);
        }
    }));
}

fn main() {
    quiet_crate();
    let arguments: Vec<String> = std::env::args().skip(1).collect();
    let done = std::panic::catch_unwind(|| match arguments.first().map(String::as_str) {
        Some("record") => Ok(record::run()),
        Some("bench") => Ok(bench::run()),
        Some("child") => Ok(faults::child(arguments[1].parse().expect("an index"))),
        _ => beside(&arguments),
    });
    if let Ok(Err(what)) = &done {
        println!("{what}");
    }
    if !matches!(done, Ok(Ok(()))) {
        std::process::exit(1);
    }
}
