//! What happened in all rounds, so that a reader sees which moments were hit.

use crate::judge::Place;
use std::time::Duration;

#[derive(Default)]
pub struct Tally {
    pub rounds: u64,
    pub to_the_end: u64,
    pub too_late: u64,
    before_while: u64,
    during: u64,
    /// Of these, with some blocks moved and some not.
    pub in_the_middle: u64,
    between_diffs: u64,
    after_done: u64,
    pub mixes: u64,
    pub mixed_blocks: u64,
    pub old_records: u64,
    pub drafts: u64,
    pub same_again: u64,
    pub other_apply: u64,
    pub by_merge: u64,
    pub by_restore: u64,
}

impl Tally {
    pub fn killed(&mut self, place: Place, legs: usize) {
        match place {
            Place::Between(0) => self.before_while += 1,
            Place::Between(done) if done == legs => self.after_done += 1,
            Place::Between(_) => self.between_diffs += 1,
            Place::During(_) => self.during += 1,
        }
    }

    pub fn kills(&self) -> u64 {
        self.before_while + self.during + self.between_diffs + self.after_done
    }

    pub fn print(&self, from: u64, time: Duration) {
        let Tally { rounds, .. } = self;
        let seconds = time.as_secs_f64();
        println!("seeds from {from}, {rounds} volumes, {seconds:.1} s");
        println!("runs killed (SIGKILL): {}", self.kills());
        println!("  before While was saved          {:5}", self.before_while);
        println!("  between While and Done          {:5}", self.during);
        println!("    some blocks moved, some not   {:5}", self.in_the_middle);
        println!("  between two diffs of a restore  {:5}", self.between_diffs);
        println!("  after Done was saved            {:5}", self.after_done);
        println!("runs that ended before the kill   {:5}", self.too_late);
        println!("runs let to their end             {:5}", self.to_the_end);
        println!(
            "power cuts: {} volumes with {} blocks mixed, {} records as before, {} drafts left",
            self.mixes, self.mixed_blocks, self.old_records, self.drafts
        );
        println!(
            "cut volumes gone on with: same command {}, another apply {}, a merge {}, a restore {}",
            self.same_again, self.other_apply, self.by_merge, self.by_restore
        );
    }
}
