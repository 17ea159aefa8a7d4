//! What the playing child tells its parent, in memory that both share: where it is, and the counts so far. It outlives a fault.

use std::io;
use std::mem::size_of;
use std::sync::atomic::{AtomicU64, AtomicUsize, Ordering};

use minnow::Refusal;

use crate::cases::{Case, Family};
use crate::desk::Call;
use crate::judge::Outcome;
use crate::made::Size;
use crate::system;

const CALLS: usize = Call::ALL.len();
const ANSWERS: usize = 1 + Refusal::ALL.len();

/// Counters only, so that zeroed memory is a fresh board.
#[repr(C)]
pub struct Board {
    seed: AtomicU64,
    call: AtomicUsize,
    rounds: AtomicU64,
    full: AtomicU64,
    digest: AtomicU64,
    families: [AtomicU64; Family::ALL.len()],
    answers: [[AtomicU64; ANSWERS]; CALLS],
}

impl Board {
    pub fn shared() -> io::Result<&'static Board> {
        let memory = system::map_shared(size_of::<Board>())?;
        // SAFETY: the pages are zeroed, aligned, large enough and never unmapped, and a board is made of atomics alone.
        Ok(unsafe { &*memory.cast::<Board>() })
    }

    /// Notes the seed that is about to be played.
    pub fn begin(&self, seed: u64) {
        self.seed.store(seed, Ordering::Relaxed);
    }

    /// Notes the call that is about to be made.
    pub fn enter(&self, call: Call) {
        self.call.store(call as usize, Ordering::Relaxed);
    }

    /// Counts a round that went well.
    pub fn count(&self, case: &Case, size: Size, outcome: &Outcome) {
        let one = |counter: &AtomicU64| counter.fetch_add(1, Ordering::Relaxed);
        one(&self.rounds);
        one(&self.families[case.family as usize]);
        one(&self.answers[case.call as usize][outcome.answer as usize]);
        if size == Size::Full {
            one(&self.full);
        }
        let digest = outcome.digest(self.digest());
        self.digest.store(digest, Ordering::Relaxed);
    }

    /// A digest of all outcomes so far: the same seeds give the same one on every machine.
    pub fn digest(&self) -> u64 {
        self.digest.load(Ordering::Relaxed)
    }

    pub fn rounds(&self) -> u64 {
        self.rounds.load(Ordering::Relaxed)
    }

    /// Seed and call of the round that was last entered.
    pub fn place(&self) -> (u64, Call) {
        let call = self.call.load(Ordering::Relaxed);
        (self.seed.load(Ordering::Relaxed), Call::ALL[call])
    }

    /// The counts, a line for each call.
    pub fn print(&self) {
        for call in Call::ALL {
            let counts = self.answers(call);
            let reached = counts.iter().enumerate().filter(|&(_, &times)| times > 0);
            let words: Vec<String> = reached
                .map(|(answer, times)| format!("{answer}: {times}"))
                .collect();
            let rounds: u64 = counts.iter().sum();
            println!(
                "{:<13}{rounds:>8} rounds   {}",
                call.name(),
                words.join("  ")
            );
        }
        let load = |counter: &AtomicU64| counter.load(Ordering::Relaxed);
        for family in Family::ALL {
            let rounds = load(&self.families[family as usize]);
            println!("{:<13}{rounds:>8} rounds", family.name());
        }
        println!("{:<13}{:>8} rounds", "full size", load(&self.full));
    }

    fn answers(&self, call: Call) -> [u64; ANSWERS] {
        let counters = &self.answers[call as usize];
        std::array::from_fn(|answer| counters[answer].load(Ordering::Relaxed))
    }

    /// Answers that the header lists and no round got, as words.
    pub fn unreached(&self) -> Vec<String> {
        let mut unreached = vec![];
        for call in Call::ALL {
            let counts = self.answers(call);
            for &answer in [0].iter().chain(call.refusals()) {
                if counts[answer as usize] == 0 {
                    unreached.push(format!("{} {answer}", call.name()));
                }
            }
        }
        unreached
    }
}
