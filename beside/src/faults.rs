//! Each line of docs/DIFFERENCES.md, D1 to D8, shown live on a small
//! input. The crate runs in a child process with a time limit, since some of
//! its answers are asserts and loops without end.

use crate::fault_list::{faults, Fault};
use crate::straight::{self, Outcome};
use crate::{crate_side, failing, ours};
use std::io::{Read, Write};
use std::process::{Command, Stdio};
use std::time::{Duration, Instant};

const LIMIT: Duration = Duration::from_secs(1);
pub const FOR_EVER: &str = "still running after 1 s";

/// The child's whole work: the crate's answers to one fault, a line each.
pub fn child(index: usize) {
    let mut fault = faults().swap_remove(index);
    crate_side::in_turn(&mut fault.image, fault.s, &fault.calls, |seen| {
        println!("{}", crate_side::shown(&seen));
        std::io::stdout().flush().expect("the parent reads");
    });
}

fn wait(child: &mut std::process::Child) -> bool {
    let start = Instant::now();
    while start.elapsed() < LIMIT {
        if child.try_wait().expect("the child is ours").is_some() {
            return true;
        }
        std::thread::sleep(Duration::from_millis(2));
    }
    child.kill().expect("the child is ours");
    child.wait().expect("the child is ours");
    false
}

/// What the crate said, and last whether it did not come back.
fn theirs(index: usize) -> Vec<String> {
    let me = std::env::current_exe().expect("the harness knows its own file");
    let mut child = Command::new(me)
        .args(["child", &index.to_string()])
        .stdout(Stdio::piped())
        .spawn()
        .expect("the harness starts itself again");
    let ended = wait(&mut child);
    let mut text = String::new();
    let mut out = child.stdout.take().expect("piped above");
    out.read_to_string(&mut text).expect("plain text");
    let mut lines: Vec<String> = text.lines().map(str::to_string).collect();
    if !ended {
        lines.push(FOR_EVER.to_string());
    }
    lines
}

/// Our answers to the calls in turn, and the image they leave.
fn in_turn(
    fault: &Fault,
    run: fn(&mut [u8], usize, usize, straight::Call, &mut [u8]) -> Outcome,
) -> (Vec<Outcome>, Vec<u8>) {
    let mut image = fault.image.clone();
    let said = fault
        .calls
        .iter()
        .map(|call| run(&mut image, fault.s, fault.n, *call, &mut [0; crate_side::FAULT_BUFFER]));
    (said.collect(), image)
}

fn show(index: usize, fault: &Fault) -> bool {
    let crate_said = theirs(index);
    let ours = in_turn(fault, ours::run);
    let straight = in_turn(fault, straight::run);
    println!("  {:?} {}", fault.line, fault.input);
    println!("     the rules: {}", fault.says);
    println!("     the Rust: {}", crate_said.join("; then "));
    let mine: Vec<String> = ours.0.iter().map(|o| format!("{o:?}")).collect();
    println!("     ours:     {}", mine.join("; then "));
    let faulty = crate_said == fault.theirs;
    let right = ours.0 == fault.ours && ours == straight;
    if !faulty {
        println!("     the crate does not show the fault: {:?} expected", fault.theirs);
    }
    if !right {
        println!("     ours is not what the rules say: {:?} expected", fault.ours);
    }
    faulty && right
}

pub fn run() -> Result<(), String> {
    let list = faults();
    println!("faults: {} inputs", list.len());
    let failed = list.iter().enumerate().filter(|(index, fault)| !show(*index, fault)).count();
    if failed > 0 || !failing::show() {
        Err(format!("{failed} faults are not as listed, or a failed read at initialise is not"))
    } else {
        Ok(())
    }
}
