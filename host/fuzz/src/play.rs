//! Rounds: a case from its seed, lent between guard pages, called, judged; and once more with every buffer at its other end.

use std::io;

use crate::board::Board;
use crate::cases::{self, Case};
use crate::desk::{self, Lending};
use crate::guarded::{Lent, Side, Yard};
use crate::judge::{judge, Outcome};
use crate::made::Size;
use crate::random::Random;
use crate::system;

/// Every so many seeds one is of full size, and one of medium size.
const FULL_EVERY: u64 = 20_000;
const MEDIUM_EVERY: u64 = 64;

/// A call that has not answered within so many seconds never will.
const PATIENCE: u32 = 60;

pub fn size_of_seed(seed: u64) -> Size {
    match seed {
        _ if seed % FULL_EVERY == FULL_EVERY / 2 => Size::Full,
        _ if seed % MEDIUM_EVERY == 3 => Size::Medium,
        _ => Size::Small,
    }
}

/// Plays the seeds in turn; what is wrong ends it.
pub fn play(board: &Board, from: u64, rounds: u64) -> Result<(), String> {
    let mut yard = Yard::default();
    for round in 0..rounds {
        if round % 1_000 == 0 {
            system::end_after(PATIENCE);
        }
        play_seed(board, &mut yard, from.wrapping_add(round))?;
    }
    Ok(())
}

fn play_seed(board: &Board, yard: &mut Yard, seed: u64) -> Result<(), String> {
    board.begin(seed);
    let mut random = Random::new(seed);
    let size = size_of_seed(seed);
    let case = cases::make(&mut random, size);
    board.enter(case.call);
    let sides = random.next();
    let outcome = call_with(yard, &case, sides)?;
    judge(&case, &outcome)?;
    if call_with(yard, &case, !sides)? != outcome {
        return Err("the outcome depends on where the memory stands".to_string());
    }
    board.count(&case, size, &outcome);
    Ok(())
}

/// Makes the call with buffer i at the end of its region where bit i of `sides` is set.
pub fn call_with(yard: &mut Yard, case: &Case, sides: u64) -> Result<Outcome, String> {
    let lending = lend(yard, case, sides).map_err(own)?;
    // SAFETY: a case holds what its call's parameters ask for, and each buffer has a region of its own.
    let answer = unsafe { desk::enter(case.call, &lending) };
    let outcome = Outcome {
        answer,
        written: lending.written.iter().map(Lent::bytes).collect(),
    };
    let lent = || lending.read.iter().chain(&lending.written);
    if !lent().all(Lent::margin_stands) {
        return Err("bytes beside a buffer changed".to_string());
    }
    for lent in lending.read.into_iter().chain(lending.written) {
        yard.take_back(lent).map_err(own)?;
    }
    Ok(outcome)
}

fn lend(yard: &mut Yard, case: &Case, mut sides: u64) -> io::Result<Lending> {
    let mut side = || {
        sides = sides.rotate_right(1);
        match sides >> 63 {
            0 => Side::Start,
            _ => Side::End,
        }
    };
    let mut read = vec![];
    for bytes in &case.read {
        let lent = yard.lend(bytes, side())?;
        lent.lock()?;
        read.push(lent);
    }
    let mut written = vec![];
    for bytes in &case.written {
        written.push(yard.lend(bytes, side())?);
    }
    Ok(Lending {
        read,
        written,
        numbers: case.numbers.clone(),
    })
}

fn own(error: io::Error) -> String {
    format!("the driver cannot map its memory: {error}")
}
