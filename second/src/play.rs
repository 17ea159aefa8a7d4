//! A round: a random history, and a volume with a saved state that is moved, cut, resumed and restored. After each move
//! the history itself says whether the volume is true.

use crate::call::Call;
use crate::damage;
use crate::history::History;
use crate::model::plan::PLACES;
use crate::model::record::{block_of, write_head, write_state, Kind, State, StateKind, BLOCK, STATE};
use crate::model::volume::clean;
use crate::rng::Rng;
use crate::table::{hold, Disagreement, Table};

type Played = Result<(), Disagreement>;

struct Round<'a> {
    table: &'a mut Table,
    rng: Rng,
    history: History,
    state: State,
    /// The saved record of `state`.
    saved: Vec<u8>,
    image: Vec<u8>,
}

/// A diff of the history, by its bytes.
struct Carried {
    kind: Kind,
    p: u64,
    q: u64,
    bytes: Vec<u8>,
}

/// The two records of an accepted apply.
struct Decided {
    during: Vec<u8>,
    done: Vec<u8>,
}

/// Plays the round of one seed.
pub fn round(seed: u64, table: &mut Table) -> Played {
    let mut rng = Rng::new(seed);
    let history = History::random(&mut rng);
    let (state, image) = history.any_volume(&mut rng);
    let saved = write_state(&state);
    let moves = rng.within(4, 16);
    let mut round = Round { table, rng, history, state, saved, image };
    for _ in 0..moves {
        round.one_move()?;
    }
    let damaged = round.rng.within(20, 60);
    for _ in 0..damaged {
        damage::one_call(round.table, &mut round.rng, &round.history)?;
    }
    Ok(())
}

impl Round<'_> {
    fn one_move(&mut self) -> Played {
        if self.state.b == self.history.last() || self.rng.once_in(8) {
            self.another_volume();
        }
        self.stay_true("before a move")?;
        match self.rng.below(10) {
            0..=1 => self.whole(),
            2..=4 => self.cut(),
            5..=6 => self.in_runs(),
            7 => self.restore(),
            8 => self.look_through(),
            _ => self.look_at_state(),
        }
    }

    fn another_volume(&mut self) {
        (self.state, self.image) = self.history.any_volume(&mut self.rng);
        self.saved = write_state(&self.state);
    }

    /// Truth by the history: of each byte, and at a clean state of the whole image.
    fn stay_true(&self, when: &str) -> Played {
        let State { kind, b, t, e } = self.state;
        let untrue = self.history.untrue_byte(&self.state, &self.image);
        hold(untrue.is_none(), || {
            format!("{when}: state {kind:?} {b}, {t}, {e} is untrue at byte {untrue:?}")
        })?;
        let exact = !clean(&self.state) || self.image == self.history.image(b);
        hold(exact, || format!("{when}: clean at {b}, and the image is not the history's"))
    }

    /// Takes a record that the archive wrote as the saved state, and reads it back.
    fn save(&mut self, record: &[u8]) -> Played {
        self.saved = record[..STATE].to_vec();
        let read =
            self.table.ask_done(&Call::ReadState { state: &self.saved }, "the archive wrote this state")?;
        let kind = match read.numbers[0] {
            0 => StateKind::Settled,
            1 => StateKind::Span,
            _ => StateKind::Pair,
        };
        let [b, t, e] = [read.numbers[1], read.numbers[2], read.numbers[3]];
        self.state = State { kind, b, t, e };
        Ok(())
    }

    /// A diff for the next move: mostly one with a chance to be accepted.
    fn choose(&mut self) -> Result<Carried, Disagreement> {
        let State { b, t, .. } = self.state;
        let (first, last) = (self.history.first(), self.history.last());
        let compared = self.rng.once_in(4);
        let (p, q) = match self.rng.below(8) {
            0..=1 => self.history.any_span(&mut self.rng),
            2 if t > b => (b, t),
            3..=4 => (b, self.rng.within(b + 1, last)),
            _ => (self.rng.within(first, b), self.rng.within(t.max(b + 1), last)),
        };
        self.bring(if compared { Kind::Compared } else { Kind::Log }, p, q)
    }

    /// The true diff from p to q, made by the model or by the archive's own calls.
    fn bring(&mut self, kind: Kind, p: u64, q: u64) -> Result<Carried, Disagreement> {
        let made = self.history.diff(kind, p, q);
        if self.rng.once_in(3) {
            let by_archive = match kind {
                Kind::Log => self.merged(p, q)?,
                Kind::Compared => self.compared(p, q)?,
            };
            hold(by_archive == made, || {
                format!("the archive's {kind:?} diff from {p} to {q} is not the true one")
            })?;
        }
        Ok(Carried { kind, p, q, bytes: made })
    }

    /// A log diff by merging pieces, touching pairs in random order.
    fn merged(&mut self, p: u64, q: u64) -> Result<Vec<u8>, Disagreement> {
        let inner = (p + 1..q).filter(|_| self.rng.once_in(2)).collect::<Vec<u64>>();
        let bounds = [vec![p], inner, vec![q]].concat();
        let piece = |ends: &[u64]| self.history.diff(Kind::Log, ends[0], ends[1]);
        let mut pieces: Vec<Vec<u8>> = bounds.windows(2).map(piece).collect();
        while pieces.len() > 1 {
            let place = self.rng.place(pieces.len() - 1);
            let second = pieces.remove(place + 1);
            let first = &pieces[place];
            let room = first.len() + second.len() + self.rng.place(40);
            let out = self.rng.bytes(room);
            let call = Call::Merge { first, second: &second, out: &out };
            let merge = self.table.ask_done(&call, "these log diffs touch")?;
            pieces[place] = merge.buffers[0][..merge.numbers[0] as usize].to_vec();
        }
        Ok(pieces.remove(0))
    }

    fn compared(&mut self, p: u64, q: u64) -> Result<Vec<u8>, Disagreement> {
        let room = 24 + 518 * self.history.blocks() + self.rng.place(40);
        let out = self.rng.bytes(room);
        let (old, new) = (self.history.image(p), self.history.image(q));
        let call = Call::Compare { old, new, p, q, out: &out };
        let compare = self.table.ask_done(&call, "these images and gids are sound")?;
        Ok(compare.buffers[0][..compare.numbers[0] as usize].to_vec())
    }

    /// Decides; gives the While and the Done record where the diff is accepted.
    fn decide(&mut self, diff: &Carried) -> Result<Option<Decided>, Disagreement> {
        let rooms = [STATE + self.rng.place(9), STATE + self.rng.place(9)];
        let (during, done) = (self.rng.bytes(rooms[0]), self.rng.bytes(rooms[1]));
        let call = Call::Decide {
            diff: &diff.bytes,
            state: &self.saved,
            image: &self.image,
            during: &during,
            done: &done,
        };
        let mut outcome = self.table.ask(&call)?;
        if outcome.number != 0 {
            return Ok(None);
        }
        let done = outcome.buffers.remove(1);
        let during = outcome.buffers.remove(0);
        Ok(Some(Decided { during, done }))
    }

    /// Applies the diff, which is taken over whole or refused.
    fn apply(&mut self, diff: &Carried) -> Result<bool, Disagreement> {
        let before = self.image.clone();
        let room = STATE + self.rng.place(9);
        let done = self.rng.bytes(room);
        let call = Call::Apply { diff: &diff.bytes, state: &self.saved, image: &self.image, done: &done };
        let mut outcome = self.table.ask(&call)?;
        if outcome.number != 0 {
            return Ok(false);
        }
        let record = outcome.buffers.remove(1);
        self.image = outcome.buffers.remove(0);
        self.save(&record)?;
        self.unnamed_stay(diff, &before)?;
        self.stay_true("after an apply")?;
        Ok(true)
    }

    fn whole(&mut self) -> Played {
        let diff = self.choose()?;
        let decided = self.decide(&diff)?;
        let applied = self.apply(&diff)?;
        hold(applied == decided.is_some(), || "deciding and doing do not accept the same".to_string())?;
        match decided {
            Some(Decided { done, .. }) => {
                hold(self.saved == done[..STATE], || "two Done records of one apply".to_string())
            }
            None => Ok(()),
        }
    }

    /// Blocks that the diff does not name hold what they held.
    fn unnamed_stay(&self, diff: &Carried, before: &[u8]) -> Played {
        let names = self.history.names(diff.kind, diff.p, diff.q);
        let changed = |address: &u32| {
            let start = BLOCK * *address as usize;
            !names.contains(address) && before[start..start + BLOCK] != self.image[start..start + BLOCK]
        };
        let stray = (0..self.history.blocks() as u32).find(changed);
        hold(stray.is_none(), || format!("block {stray:?} changed, and the diff does not name it"))
    }

    /// A cut in the middle of an apply: each named block is any mix of its old and new bytes.
    fn cut(&mut self) -> Played {
        let diff = self.choose()?;
        let during = match self.decide(&diff)? {
            Some(decided) => decided.during,
            None => return Ok(()),
        };
        let new = self.history.image(diff.q).to_vec();
        for address in self.history.names(diff.kind, diff.p, diff.q) {
            let style = self.rng.below(4);
            let tear = self.rng.place(BLOCK);
            let start = BLOCK * address as usize;
            for at in 0..BLOCK {
                let written = match style {
                    0 => true,
                    1 => at < tear,
                    2 => at >= tear,
                    _ => self.rng.once_in(2),
                };
                if written {
                    self.image[start + at] = new[start + at];
                }
            }
        }
        self.save(&during)?;
        self.stay_true("after a cut")?;
        self.resumable(&diff)
    }

    /// Right after a cut, the diff that was cut and any merge that contains it are accepted.
    fn resumable(&mut self, diff: &Carried) -> Played {
        let again = self.decide(diff)?;
        hold(again.is_some(), || "the diff that was cut is not accepted again".to_string())?;
        if diff.kind == Kind::Log {
            let p = self.rng.within(self.history.first(), diff.p);
            let q = self.rng.within(diff.q, self.history.last());
            let wider = self.bring(Kind::Log, p, q)?;
            let accepted = self.decide(&wider)?.is_some();
            hold(accepted, || {
                format!("the merge from {p} to {q} that contains the cut diff is not accepted")
            })?;
        }
        Ok(())
    }

    /// An apply in runs that cover all records in random order, or a cut between two of them.
    fn in_runs(&mut self) -> Played {
        let diff = self.choose()?;
        let Decided { during, done } = match self.decide(&diff)? {
            Some(decided) => decided,
            None => return Ok(()),
        };
        let before = self.image.clone();
        let names = self.history.names(diff.kind, diff.p, diff.q);
        let runs = self.cover(names.len());
        self.save(&during)?;
        let cut_after = if self.rng.once_in(3) { self.rng.place(runs.len()) } else { runs.len() };
        for (i, k) in &runs[..cut_after] {
            self.run(&diff, *i, *k)?;
        }
        self.unnamed_stay(&diff, &before)?;
        if cut_after < runs.len() {
            return self.resumable(&diff);
        }
        let new = self.history.image(diff.q);
        for address in names {
            let start = BLOCK * address as usize;
            let written = self.image[start..start + BLOCK] == new[start..start + BLOCK];
            hold(written, || format!("runs that cover all records left block {address} unwritten"))?;
        }
        self.save(&done)?;
        self.stay_true("after all runs")
    }

    /// Runs that cover records 0 to n in random order, some of them overlapping, empty or reaching past the end.
    fn cover(&mut self, n: usize) -> Vec<(usize, usize)> {
        let mut runs = Vec::new();
        let mut start = 0;
        while start < n {
            let k = 1 + self.rng.place(n - start);
            runs.push((start, k));
            start += k;
        }
        for _ in 0..=self.rng.below(2) {
            let k = self.rng.pick(&[0, 1, n, usize::MAX]);
            runs.push((self.rng.place(n + 1), k));
        }
        self.rng.shuffle(&mut runs);
        runs
    }

    /// One run, exact in what it writes and true to While.
    fn run(&mut self, diff: &Carried, i: usize, k: usize) -> Played {
        let before = self.image.clone();
        let call = Call::Run { diff: &diff.bytes, image: &self.image, i, k };
        let mut outcome = self.table.ask_done(&call, "the diff fits and the run starts within it")?;
        self.image = outcome.buffers.remove(0);
        let next = outcome.numbers[0] as usize;
        for (record, address) in self.history.names(diff.kind, diff.p, diff.q).into_iter().enumerate() {
            let start = BLOCK * address as usize;
            let block = start..start + BLOCK;
            let source = if i <= record && record < next { self.history.image(diff.q) } else { &before };
            let exact = self.image[block.clone()] == source[block];
            hold(exact, || format!("run {i}, {k} to {next}: record {record} is not as it should be"))?;
        }
        self.stay_true("after a run")
    }

    /// A plan over true heads, and where there is one, its applies one after the other.
    fn restore(&mut self) -> Played {
        let entries = if self.rng.once_in(12) { PLACES } else { self.rng.place(14) };
        let shelf: Vec<(Kind, u64, u64)> = (0..entries).map(|_| self.shelf_entry()).collect();
        let head = |entry: &(Kind, u64, u64)| write_head(&self.history.head(entry.0, entry.1, entry.2));
        let mut heads = shelf.iter().flat_map(head).collect::<Vec<u8>>();
        let rest = self.rng.place(50);
        heads.extend(self.rng.bytes(rest));
        let target = self.history.any_gid(&mut self.rng);
        let room = PLACES + self.rng.place(4);
        let places: Vec<usize> = (0..room).map(|_| self.rng.next() as usize).collect();
        let call = Call::Plan { heads: &heads, count: entries, state: &self.saved, target, places: &places };
        let outcome = self.table.ask(&call)?;
        if outcome.number != 0 {
            return Ok(());
        }
        let length = outcome.numbers[room] as usize;
        for place in &outcome.numbers[..length] {
            let (kind, p, q) = shelf[*place as usize];
            let diff = self.bring(kind, p, q)?;
            let applied = self.apply(&diff)?;
            hold(applied, || format!("place {place} of a plan is refused"))?;
        }
        let there = clean(&self.state) && self.state.b == target;
        hold(there, || format!("the plan to {target} ends at {:?}", self.state))
    }

    fn shelf_entry(&mut self) -> (Kind, u64, u64) {
        let (p, q) = self.history.any_span(&mut self.rng);
        let short = if self.rng.once_in(2) { p + 1 } else { q };
        let kind = if self.rng.once_in(4) { Kind::Compared } else { Kind::Log };
        (kind, p, short)
    }

    /// Every block through a diff, and some that the image hasn't.
    fn look_through(&mut self) -> Played {
        let diff = self.choose()?;
        let accepted = self.decide(&diff)?.is_some();
        let blocks = self.history.blocks();
        let names = self.history.names(diff.kind, diff.p, diff.q);
        for a in 0..blocks {
            let call = Call::ReadThrough { diff: &diff.bytes, image: &self.image, a };
            let outcome = self.table.ask_done(&call, "the image has this block")?;
            let slice = if outcome.numbers[0] == 0 { &diff.bytes } else { &self.image };
            let shown = block_of(&slice[outcome.numbers[1] as usize..]);
            let at_q = block_of(&self.history.image(diff.q)[BLOCK * a..]);
            let now = block_of(&self.image[BLOCK * a..]);
            let after = if names.contains(&(a as u32)) { at_q } else { now };
            hold(shown == after, || format!("block {a} through the diff is not as after the apply"))?;
            let at_gid = !(accepted && clean(&self.state)) || shown == at_q;
            hold(at_gid, || format!("block {a} through an accepted diff is not that at its q"))?;
        }
        for a in [blocks, blocks + 1, 65_535, 65_536, usize::MAX] {
            self.table.ask(&Call::ReadThrough { diff: &diff.bytes, image: &self.image, a })?;
        }
        Ok(())
    }

    /// The saved state read and written again, and its lag.
    fn look_at_state(&mut self) -> Played {
        let State { kind, b, t, e } = self.state;
        let room = STATE + self.rng.place(9);
        let out = self.rng.bytes(room);
        let call = Call::WriteState { kind: kind as u8, b, t, e, out: &out };
        let outcome = self.table.ask_done(&call, "it is the saved state")?;
        let record = outcome.buffers[0].clone();
        hold(record[..STATE] == self.saved, || "the saved state is written in other bytes".to_string())?;
        self.save(&record)?;
        let target = self.history.any_gid(&mut self.rng);
        let lag = self.table.ask_done(&Call::Lag { state: &self.saved, target }, "both gids are sound")?;
        let sum = i128::from(target) + i128::from(lag.numbers[0] as i64);
        hold(sum == i128::from(b), || format!("target {target} plus the lag is {sum}, not {b}"))
    }
}
