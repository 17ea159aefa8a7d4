//! A model of every rule of 01, written from the paper in the most direct way.

pub mod lend;
pub mod pairing;
pub mod plan;
pub mod record;
pub mod volume;

#[cfg(test)]
mod rows;

/// "When the desk says no": the refusals and their numbers.
#[derive(Clone, Copy, Debug, PartialEq, Eq)]
pub enum Refusal {
    CutOff = 1,
    BadMark = 2,
    BadHead = 3,
    TooMany = 4,
    BadOrder = 5,
    Tail = 6,
    BadState = 7,
    BadImage = 8,
    Outside = 9,
    BadStart = 10,
    Behind = 11,
    Gap = 12,
    Short = 13,
    NotExact = 14,
    Compared = 15,
    Apart = 16,
    NoRoom = 17,
    ShelfFull = 18,
    NoChain = 19,
    BadGid = 20,
}

/// The names of all answers by number; 0 is done.
pub const ANSWERS: [&str; 21] = [
    "done",
    "CutOff",
    "BadMark",
    "BadHead",
    "TooMany",
    "BadOrder",
    "Tail",
    "BadState",
    "BadImage",
    "Outside",
    "BadStart",
    "Behind",
    "Gap",
    "Short",
    "NotExact",
    "Compared",
    "Apart",
    "NoRoom",
    "ShelfFull",
    "NoChain",
    "BadGid",
];

/// Refuses where the condition holds.
pub fn refuse(refusal: Refusal, holds: bool) -> Result<(), Refusal> {
    if holds {
        Err(refusal)
    } else {
        Ok(())
    }
}
