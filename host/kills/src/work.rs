//! What the tool is asked to do next: an apply, an apply of a merge, or a restore; always something that the rules accept.

use crate::history::History;
use crate::judge::Leg;
use crate::random::Random;
use crate::rules::{plan, Head, State, PAIR, SETTLED};
use crate::stage::{Moment, Stage, VOLUME};
use crate::trouble::Trouble;

#[derive(Clone, Debug)]
pub enum Work {
    Apply(Head),
    /// Two log diffs that touch at this gid are merged by the tool first.
    Merged(Head, u64),
    Restore(u64, Vec<Head>),
}

/// Something that is accepted in this state, which is not clean at the last gid.
pub fn choose(random: &mut Random, state: State, last: u64, only_applies: bool) -> Work {
    match random.below(if only_applies { 2 } else { 4 }) {
        0 => Work::Apply(some_log(random, state, last)),
        1 => Work::Apply(some_compared(random, state, last)),
        2 => merged(random, state, last),
        _ => restore(random, state, last),
    }
}

/// A log diff that the state accepts; where an apply was cut it contains the blocks of that one.
fn some_log(random: &mut Random, state: State, last: u64) -> Head {
    let least = state.t.max(state.b + 1);
    let q = random.within(least, last.min(least + 2));
    Head::log(random.within(0, state.b), q)
}

/// A compared diff if the state accepts any.
fn some_compared(random: &mut Random, state: State, last: u64) -> Head {
    let q = match state.kind {
        PAIR => state.t,
        _ => random.within(state.b + 1, last.min(state.b + 3)),
    };
    let head = Head::compared(state.b, q);
    match state.accepts(&head) {
        true => head,
        false => some_log(random, state, last),
    }
}

fn merged(random: &mut Random, state: State, last: u64) -> Work {
    let head = some_log(random, state, last);
    match head.q - head.p {
        1 => Work::Apply(head),
        _ => Work::Merged(head, random.within(head.p + 1, head.q - 1)),
    }
}

/// A shelf with a way to the target, and with others that may or may not lead there.
fn restore(random: &mut Random, state: State, last: u64) -> Work {
    let target = random.within(state.e.max(state.b + 1), last);
    let mut shelf = Vec::new();
    for _ in 0..random.below(6) {
        let p = random.within(0, last - 1);
        let q = random.within(p + 1, last);
        let head = match random.once_in(3) {
            true => Head::compared(p, q),
            false => Head::log(p, q),
        };
        shelf.push(head);
    }
    if state.kind == SETTLED && target > state.b + 1 {
        let middle = random.within(state.b + 1, target - 1);
        shelf.extend([Head::log(state.b, middle), Head::log(middle, target)]);
    }
    if plan(&shelf, state, target).is_none() {
        shelf.push(Head::log(random.within(0, state.b), target));
    }
    Work::Restore(target, shelf)
}

impl Work {
    /// The diffs that are applied from this state, with their states; none if the work is not accepted there.
    pub fn legs(&self, start: State) -> Option<Vec<Leg>> {
        let heads = match self {
            Work::Apply(head) | Work::Merged(head, _) => vec![*head],
            Work::Restore(target, shelf) => {
                let places = plan(shelf, start, *target)?;
                places.iter().map(|place| shelf[*place]).collect()
            }
        };
        let mut state = start;
        let mut legs = Vec::new();
        for head in heads.into_iter() {
            if !state.accepts(&head) {
                return None;
            }
            let (during, done) = (state.during(&head), state.done(&head));
            legs.push(Leg { head, during, done });
            state = done;
        }
        Some(legs)
    }

    /// The tool's words, with the diffs that they name in their files.
    pub fn words(&self, stage: &Stage, history: &History) -> Result<Vec<String>, Trouble> {
        match self {
            Work::Apply(head) => {
                let diff = stage.diff(head, history)?;
                Ok(line(&["apply", VOLUME], vec![diff]))
            }
            Work::Merged(head, middle) => {
                let diff = merge(stage, history, head, *middle)?;
                Ok(line(&["apply", VOLUME], vec![diff]))
            }
            Work::Restore(target, shelf) => {
                let diffs: Result<Vec<String>, Trouble> =
                    shelf.iter().map(|head| stage.diff(head, history)).collect();
                Ok(line(&["restore", VOLUME, &target.to_string()], diffs?))
            }
        }
    }
}

fn line(front: &[&str], rest: Vec<String>) -> Vec<String> {
    let front = front.iter().map(|word| word.to_string());
    front.chain(rest).collect()
}

/// Has the tool merge two diffs; the merge must be the true log diff, byte for byte.
fn merge(stage: &Stage, history: &History, head: &Head, middle: u64) -> Result<String, Trouble> {
    let first = stage.diff(&Head::log(head.p, middle), history)?;
    let second = stage.diff(&Head::log(middle, head.q), history)?;
    let name = format!("merged-{}-{middle}-{}", head.p, head.q);
    let words = ["merge", &first, &second, "-o", &name, "--force"];
    stage.run(&line(&words, Vec::new()), Moment::Never)?;
    if stage.read(&name)? != history.diff(head) {
        let wrong = format!("{name} is not the true log diff");
        return Err(Trouble::Wrong(wrong));
    }
    Ok(name)
}
