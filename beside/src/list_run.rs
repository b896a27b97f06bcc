//! The program `list`, run on an input that comes through a pipe.

use crate::prng::Prng;
use std::io::{ErrorKind, Read, Write};
use std::process::{ChildStdin, Command, Stdio};
use std::time::{Duration, Instant};

pub const PROGRAM: &str = "target/bin/list";

/// How the input is written to the pipe.
#[derive(Clone, Copy, PartialEq, Eq, Debug)]
pub enum Pieces {
    Whole,
    /// So many bytes each time.
    Of(usize),
    /// One to seven bytes, by this seed.
    Small(u64),
}

/// The first line ends before this place. Up to there the writer pauses, so that
/// the program does get the line in pieces.
const FIRST_LINE: usize = 8;

/// A program that has enough may close the pipe: what is left is then not written.
fn write(mut pipe: ChildStdin, input: &[u8], pieces: Pieces) -> Result<(), String> {
    let mut rng = Prng::new(if let Pieces::Small(seed) = pieces { seed } else { 0 });
    let mut at = 0;
    while at < input.len() {
        let size = match pieces {
            Pieces::Whole => input.len(),
            Pieces::Of(size) => size,
            Pieces::Small(_) => 1 + rng.below(7),
        };
        let end = input.len().min(at + size);
        match pipe.write_all(&input[at..end]).and_then(|()| pipe.flush()) {
            Err(why) if why.kind() == ErrorKind::BrokenPipe => return Ok(()),
            other => other.map_err(|why| format!("the pipe to {PROGRAM}: {why}"))?,
        }
        at = end;
        if pieces == Pieces::Whole {
            continue;
        }
        match at {
            0..=FIRST_LINE => std::thread::sleep(Duration::from_micros(200)),
            _ => std::thread::yield_now(),
        }
    }
    Ok(())
}

/// What the program writes. It must end with status 0.
pub fn run(input: &[u8], pieces: Pieces) -> Result<Vec<u8>, String> {
    let cannot = |why| format!("{PROGRAM}: {why}");
    let mut command = Command::new(PROGRAM);
    command.stdin(Stdio::piped()).stdout(Stdio::piped());
    let mut child = command.spawn().map_err(cannot)?;
    let pipe = child.stdin.take().expect("the pipe asked for");
    let mut answers = child.stdout.take().expect("the pipe asked for");
    let mut said = Vec::new();
    // A thread writes, so that neither side waits for the other for ever.
    let (written, read) = std::thread::scope(|scope| {
        let writer = scope.spawn(|| write(pipe, input, pieces));
        let read = answers.read_to_end(&mut said).map_err(cannot);
        (writer.join().expect("the writer returns"), read)
    });
    let status = child.wait().map_err(cannot)?;
    written?;
    read?;
    if !status.success() {
        return Err(format!("{PROGRAM} ended with {status}"));
    }
    Ok(said)
}

/// The shortest of so many runs, from start to end, in milliseconds.
pub fn best_of(times: usize, input: &[u8]) -> Result<f64, String> {
    let mut best = f64::INFINITY;
    for _ in 0..times {
        let start = Instant::now();
        run(input, Pieces::Whole)?;
        best = best.min(start.elapsed().as_secs_f64() * 1_000.0);
    }
    Ok(best)
}
