//! A round: a volume goes to the last gid of its history through applies and restores, many of them killed, some by a power
//! cut. After each run its state and bytes are held to the history.

use crate::history::{block, block_mut, History};
use crate::judge::{self, Leg, Place};
use crate::power;
use crate::random::Random;
use crate::rules::{State, SETTLED};
use crate::stage::{Ended, Moment, Stage, DRAFT, STATE, VOLUME};
use crate::tally::Tally;
use crate::trouble::Trouble;
use crate::work::{self, Work};
use std::time::Duration;

/// Kills of a round; what comes after them is let to its end.
const KILLS: u64 = 12;

pub struct Voyage<'a> {
    random: Random,
    history: History,
    stage: &'a Stage,
    tally: &'a mut Tally,
    only_applies: bool,
    state: State,
    image: Vec<u8>,
    /// The image when it was last flushed, and the blocks that were named since.
    durable: Vec<u8>,
    unsettled: Vec<bool>,
    /// About how long a run takes.
    whole: Duration,
    kills: u64,
    /// What the last run was asked to do, if it was killed.
    cut: Option<Work>,
}

pub fn play(
    seed: u64,
    stage: &Stage,
    only_applies: bool,
    tally: &mut Tally,
) -> Result<(), Trouble> {
    let mut random = Random::new(seed);
    let blocks = match random.below(3) {
        0 => random.within(1, 64),
        1 => random.within(4096, 16_384),
        _ => random.within(16_384, 32_768),
    };
    let last = random.within(4, 9);
    let history = History::new(&mut random, blocks as usize, last);
    let (state, image) = departure(&mut random, &history);
    stage.write(VOLUME, &image)?;
    stage.write(STATE, &state.record())?;
    let voyage = Voyage {
        random,
        stage,
        tally,
        only_applies,
        state,
        durable: image.clone(),
        unsettled: vec![false; history.blocks()],
        whole: Duration::from_micros(3000 + blocks),
        history,
        image,
        kills: 0,
        cut: None,
    };
    voyage.sail()
}

/// A clean volume, or a dirty one whose blocks are of different gids.
fn departure(random: &mut Random, history: &History) -> (State, Vec<u8>) {
    let b = random.within(0, 2);
    let mut image = history.image(b).to_vec();
    if !random.once_in(3) {
        return (State::settled(b, b), image);
    }
    let e = random.within(b + 1, history.last());
    for a in 0..history.blocks() {
        let of = history.image(random.within(b, e));
        block_mut(&mut image, a).copy_from_slice(block(of, a));
    }
    (State::settled(b, e), image)
}

impl Voyage<'_> {
    fn sail(mut self) -> Result<(), Trouble> {
        let last = self.history.last();
        let mut ended_by_itself = false;
        while !self.state.is_clean_at(last) {
            let work = self.next_work();
            ended_by_itself = self.perform(work)?;
        }
        if self.image != self.history.image(last) {
            return Err(Trouble::Wrong(format!("clean {last} is not the history")));
        }
        if ended_by_itself && self.stage.has(DRAFT) {
            return Err(Trouble::Wrong(format!("{DRAFT} was left behind")));
        }
        Ok(())
    }

    /// After a cut, half of the time the same again.
    fn next_work(&mut self) -> Work {
        let same = self.cut.take().filter(|work| {
            let legs = work.legs(self.state).unwrap_or_default();
            !legs.is_empty()
        });
        let work = match same {
            Some(work) if self.random.once_in(2) => {
                if self.state.kind != SETTLED {
                    self.tally.same_again += 1;
                }
                return work;
            }
            _ => work::choose(
                &mut self.random,
                self.state,
                self.history.last(),
                self.only_applies,
            ),
        };
        if self.state.kind != SETTLED {
            match work {
                Work::Apply(_) => self.tally.other_apply += 1,
                Work::Merged(..) => self.tally.by_merge += 1,
                Work::Restore(..) => self.tally.by_restore += 1,
            }
        }
        work
    }

    /// Has the tool do some work, killed or not, and judges what is left. Says whether it ended by itself.
    fn perform(&mut self, work: Work) -> Result<bool, Trouble> {
        let legs = work.legs(self.state).unwrap_or_default();
        let words = work.words(self.stage, &self.history)?;
        let moment = self.moment(&legs);
        let ended = self.stage.run(&words, moment)?;
        let about = |wrong| format!("{} ({moment:?}): {wrong}", words.join(" "));
        let (state, image) = self.look().map_err(|trouble| match trouble {
            Trouble::Wrong(wrong) => Trouble::Wrong(about(wrong)),
            other => other,
        })?;
        let before = (self.state, self.image.as_slice());
        let place = judge::place(before, &legs, (state, &image), &self.history).map_err(about)?;
        if !ended.killed && place != Place::Between(legs.len()) {
            let wrong = format!("it ended with 0 and left {state:?}");
            return Err(Trouble::Wrong(about(wrong)));
        }
        self.count(&ended, moment, place, legs.len());
        let start = (self.state, std::mem::replace(&mut self.image, image));
        self.state = state;
        self.settle(&start.1, place, &legs);
        if ended.killed {
            self.cut = Some(work);
            self.after_kill(start, place, &legs)?;
        }
        Ok(!ended.killed)
    }

    /// Some kills come at any time, some after a change of the state, some when a certain block has moved.
    fn moment(&mut self, legs: &[Leg]) -> Moment {
        if self.kills == KILLS || self.random.once_in(8) {
            return Moment::Never;
        }
        let most = self.whole.as_micros() as u64;
        match self.random.below(4) {
            0 => {
                let time = self.random.within(0, most);
                Moment::After(Duration::from_micros(time))
            }
            1 => {
                // An odd change is a While; after an even one little time is left before the next.
                let changes = 1 + self.random.below(2 * legs.len() - 1);
                let time = self
                    .random
                    .within(0, most / if changes % 2 == 1 { 2 } else { 32 });
                Moment::Changes(changes, Duration::from_micros(time))
            }
            _ => {
                let leg = legs[self.random.below(legs.len())];
                let names = self.history.names(&leg.head);
                match names.len() {
                    0 => Moment::After(self.whole / 2),
                    some => Moment::Moved(names[self.random.below(some)]),
                }
            }
        }
    }

    /// The state and the bytes as they are; the one must be whole and true of the other.
    fn look(&self) -> Result<(State, Vec<u8>), Trouble> {
        let (record, image) = (self.stage.read(STATE)?, self.stage.read(VOLUME)?);
        let state = State::read(&record)
            .ok_or_else(|| format!("the state record is not whole: {record:02x?}"))?;
        judge::is_true(state, &image, &self.history)?;
        Ok((state, image))
    }

    fn count(&mut self, ended: &Ended, moment: Moment, place: Place, legs: usize) {
        match (ended.killed, moment) {
            (true, _) => {
                self.kills += 1;
                self.tally.killed(place, legs);
            }
            (false, Moment::Never) => self.tally.to_the_end += 1,
            (false, _) => self.tally.too_late += 1,
        }
        if !ended.killed {
            self.whole = ended.took;
        }
    }

    /// Keeps up what is durable and which blocks are not.
    fn settle(&mut self, before: &[u8], place: Place, legs: &[Leg]) {
        let done = match place {
            Place::Between(0) => return,
            Place::Between(done) | Place::During(done) => done,
        };
        let mut base = before.to_vec();
        for leg in &legs[..done] {
            for a in self.history.names(&leg.head) {
                let new = block(self.history.image(leg.head.q), a);
                block_mut(&mut base, a).copy_from_slice(new);
            }
        }
        if done > 0 {
            self.unsettled.fill(false);
            self.durable.copy_from_slice(&base);
        }
        if let Place::During(under_way) = place {
            self.mark(&base, &legs[under_way]);
        }
    }

    /// The blocks of the diff under way are not durable from here on.
    fn mark(&mut self, base: &[u8], leg: &Leg) {
        let new = self.history.image(leg.head.q);
        let (mut moved, mut to_move) = (false, false);
        for a in self.history.names(&leg.head) {
            self.unsettled[a] = true;
            moved |= block(&self.image, a) != block(base, a);
            to_move |= block(&self.image, a) != block(new, a);
        }
        if moved && to_move {
            self.tally.in_the_middle += 1;
        }
    }

    /// A kill may have been a power cut; whatever it leaves, the state is true of it.
    fn after_kill(
        &mut self,
        (start, before): (State, Vec<u8>),
        place: Place,
        legs: &[Leg],
    ) -> Result<(), Trouble> {
        if self.random.once_in(3) {
            self.tally.drafts += 1;
            let draft = power::draft(&mut self.random);
            self.stage.write(DRAFT, &draft)?;
        }
        let rename_lost = self.random.once_in(4);
        match place {
            Place::Between(done) if done > 0 && rename_lost => {
                self.old_record(legs[done - 1].during)?;
            }
            Place::During(0) if self.image == before && rename_lost => self.old_record(start)?,
            Place::During(under_way) if self.random.once_in(2) => {
                self.mix(legs[under_way].head.q)?;
            }
            _ => {}
        }
        self.look().map(|_| ())
    }

    fn old_record(&mut self, state: State) -> Result<(), Trouble> {
        self.tally.old_records += 1;
        self.state = state;
        self.stage.write(STATE, &state.record())
    }

    /// Blocks that were not flushed get mixes of what they held, what they hold and what they were to hold.
    fn mix(&mut self, q: u64) -> Result<(), Trouble> {
        let others = [self.durable.as_slice(), self.history.image(q)];
        for a in (0..self.unsettled.len()).filter(|a| self.unsettled[*a]) {
            power::mix(&mut self.random, &mut self.image, a, others);
            self.tally.mixed_blocks += 1;
        }
        self.tally.mixes += 1;
        self.stage.write(VOLUME, &self.image)
    }
}
