//! The table where the two sides are asked the same and their outcomes held against each other, with the tally.

use std::fmt::Write;

use crate::call::{difference, Call, Outcome, CALLS};
use crate::face;
use crate::model::{lend, ANSWERS};
use crate::rng::Rng;

/// Why a round ends early: the two sides differ, or the history says that an answer is not true.
#[derive(Debug)]
pub struct Disagreement(pub String);

pub struct Table {
    /// The call of the round that is under way, counted from 1.
    pub call: u64,
    patterns: Rng,
    /// How often each call gave each answer.
    tally: [[u64; 21]; CALLS.len()],
}

impl Table {
    pub fn new() -> Table {
        Table { call: 0, patterns: Rng::new(0), tally: [[0; 21]; CALLS.len()] }
    }

    /// Opens a round: what lent numbers hold before a call depends on the seed and the call alone.
    pub fn open(&mut self, seed: u64) {
        self.call = 0;
        self.patterns = Rng::new(!seed);
    }

    /// Asks both sides; gives the archive's outcome, which is the model's too.
    pub fn ask(&mut self, call: &Call) -> Result<Outcome, Disagreement> {
        self.call += 1;
        let pattern = self.patterns.next();
        let by_model = lend::answer(call, pattern);
        let by_archive = face::answer(call, pattern);
        if let Some(lines) = difference(&by_model, &by_archive) {
            return Err(Disagreement(format!("{}: {}\n{lines}", call.name(), call.describe())));
        }
        self.tally[call.index()][by_archive.number as usize] += 1;
        Ok(by_archive)
    }

    /// Asks for something that must be done by the history's own reasons.
    pub fn ask_done(&mut self, call: &Call, why: &str) -> Result<Outcome, Disagreement> {
        let outcome = self.ask(call)?;
        hold(outcome.number == 0, || {
            format!("{}: {}\nboth refuse with {}, but {why}", call.name(), call.describe(), outcome.number)
        })?;
        Ok(outcome)
    }

    pub fn calls(&self) -> u64 {
        self.tally.iter().flatten().sum()
    }

    /// The answers of 01 that were never reached, each with its call.
    pub fn unreached(&self) -> Vec<String> {
        let mut names = Vec::new();
        for ((call, answers), counts) in CALLS.iter().zip(&self.tally) {
            for answer in answers.iter().filter(|answer| counts[**answer as usize] == 0) {
                names.push(format!("{call} {answer} {}", ANSWERS[*answer as usize]));
            }
        }
        names
    }

    /// The tally: a row for each call, then a row for each answer.
    pub fn report(&self) -> String {
        let mut lines = String::new();
        for ((call, _), counts) in CALLS.iter().zip(&self.tally) {
            let seen = (0..counts.len()).filter(|answer| counts[*answer] > 0);
            let seen: Vec<String> = seen.map(|answer| format!("{answer}: {}", counts[answer])).collect();
            let total: u64 = counts.iter().sum();
            let _ = writeln!(lines, "  {call:<13} {total:>9} calls  {}", seen.join(", "));
        }
        for (answer, name) in ANSWERS.iter().enumerate() {
            let total: u64 = self.tally.iter().map(|counts| counts[answer]).sum();
            let _ = writeln!(lines, "  {answer:>2} {name:<10} {total:>9} times");
        }
        lines
    }
}

/// A disagreement where the condition does not hold.
pub fn hold(condition: bool, message: impl FnOnce() -> String) -> Result<(), Disagreement> {
    if condition {
        Ok(())
    } else {
        Err(Disagreement(message()))
    }
}
