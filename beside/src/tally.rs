//! How many calls were made, compared with the crate, and kept from it.

use crate::domain::{Line, LINES};
use crate::straight::services::NAMES;
use crate::straight::{Answer, Call, Outcome};

#[derive(Clone, Default)]
pub struct Tally {
    calls: [u64; 6],
    compared: [u64; 6],
    touched: [[u64; 8]; 6],
    /// By the refusal's number; 0 Complete, 13 Written, 14 Freed.
    answers: [[u64; 15]; 6],
    /// Touched calls that were tried on the crate all the same, and how many
    /// of them it answered otherwise than the rules.
    tried: [[(u64, u64); 8]; 6],
    /// By the damage's line; 8 for damage without a line.
    pub damaged: [u64; 9],
}

const HEADS: [&str; 15] =
    ["Complete", "1", "2", "3", "4", "5", "6", "7", "8", "9", "10", "11", "12", "Written", "Freed"];

fn column(outcome: &Outcome) -> usize {
    match outcome {
        Ok(Answer::Complete(_)) => 0,
        Ok(Answer::Written) => 13,
        Ok(Answer::Freed(_)) => 14,
        Err(why) => why.number() as usize,
    }
}

impl Tally {
    pub fn answer(&mut self, call: &Call, outcome: &Outcome) {
        self.calls[call.number()] += 1;
        self.answers[call.number()][column(outcome)] += 1;
    }

    pub fn beside_crate(&mut self, call: &Call, line: Option<Line>) {
        match line {
            None => self.compared[call.number()] += 1,
            Some(line) => self.touched[call.number()][line as usize] += 1,
        }
    }

    pub fn tried(&mut self, call: &Call, line: Line, otherwise: bool) {
        let (tried, differ) = &mut self.tried[call.number()][line as usize];
        *tried += 1;
        *differ += u64::from(otherwise);
    }

    /// Takes in the calls and answers of another.
    pub fn add(&mut self, other: &Tally) {
        for op in 0..6 {
            self.calls[op] += other.calls[op];
            (0..15).for_each(|c| self.answers[op][c] += other.answers[op][c]);
        }
    }

    pub fn total(&self) -> u64 {
        self.calls.iter().sum()
    }

    pub fn compared(&self) -> u64 {
        self.compared.iter().sum()
    }

    /// An operation of which nothing was compared with the crate.
    pub fn idle(&self) -> Option<&'static str> {
        (0..6).find(|op| self.compared[*op] == 0).map(|op| NAMES[op])
    }

    pub fn print_lines(&self) {
        print!("  {:<11}{:>11}{:>11}", "", "calls", "compared");
        LINES.iter().for_each(|line| print!("{:>9}", format!("{line:?}")));
        println!();
        for op in 0..6 {
            print!("  {:<11}{:>11}{:>11}", NAMES[op], self.calls[op], self.compared[op]);
            self.touched[op].iter().for_each(|count| print!("{count:>9}"));
            println!();
        }
    }

    /// How narrow the lines are: a touched call that the crate answers as the
    /// rules do need not have been kept from it.
    pub fn print_tried(&self) {
        println!("  touched calls tried on small chips, and how many the crate answers otherwise:");
        for op in 0..6 {
            let cells = LINES.iter().zip(self.tried[op]).filter(|(_, (tried, _))| *tried > 0);
            let shown: Vec<String> = cells
                .map(|(line, (tried, differ))| format!("{line:?} {differ} of {tried}"))
                .collect();
            if !shown.is_empty() {
                println!("  {:<11} {}", NAMES[op], shown.join(", "));
            }
        }
    }

    pub fn print_answers(&self) {
        let used: Vec<usize> = (0..15).filter(|c| self.answers.iter().any(|a| a[*c] > 0)).collect();
        print!("  {:<11}", "answers");
        used.iter().for_each(|c| print!("{:>9}", HEADS[*c]));
        println!();
        for op in 0..6 {
            print!("  {:<11}", NAMES[op]);
            used.iter().for_each(|c| print!("{:>9}", self.answers[op][*c]));
            println!();
        }
    }
}
