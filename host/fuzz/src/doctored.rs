//! Outcomes of real calls, changed by hand into what a faulty library would leave: the judge must object to each.

use minnow::{BLOCK, HEAD, MAX_BLOCKS, RECORD};

use crate::cases::{self, Case};
use crate::desk::Call;
use crate::guarded::Yard;
use crate::judge::{judge, Outcome};
use crate::made::Size;
use crate::play;
use crate::random::Random;

/// A change to an outcome: of which call, whether of an accepted case, where the change has something to bite on, and itself.
struct Change {
    name: &'static str,
    call: Call,
    accepted: bool,
    bites: fn(&Case, &Outcome) -> bool,
    make: fn(&Case, &mut Outcome),
}

fn always(_: &Case, _: &Outcome) -> bool {
    true
}

fn first_not_empty(case: &Case, _: &Outcome) -> bool {
    !case.written[0].is_empty()
}

/// Whether bytes stand behind the length that the second number says.
fn longer_than_result(_: &Case, outcome: &Outcome) -> bool {
    let length = outcome.written[1].iter().rev();
    let length = length.fold(0, |number, &byte| number << 8 | usize::from(byte));
    length < outcome.written[0].len()
}

fn list_not_empty(_: &Case, outcome: &Outcome) -> bool {
    outcome.written[1][0] > 0
}

/// Whether a read-through found its block in an image of two blocks or more, so that the next block is inside.
fn in_image(case: &Case, outcome: &Outcome) -> bool {
    outcome.written[0][0] == 1 && case.numbers[0] ^ 1 < (case.read[1].len() / BLOCK) as u64
}

fn flip_first(_: &Case, outcome: &mut Outcome) {
    outcome.written[0][0] ^= 1;
}

fn flip_last(_: &Case, outcome: &mut Outcome) {
    if let Some(byte) = outcome.written[0].last_mut() {
        *byte ^= 1;
    }
}

fn flip_number(_: &Case, outcome: &mut Outcome) {
    outcome.written[1][0] ^= 1;
}

/// Says a length of a diff that no output holds.
fn lengthen(_: &Case, outcome: &mut Outcome) {
    let length = HEAD + RECORD * (MAX_BLOCKS + 1);
    outcome.written[1] = length.to_le_bytes().to_vec();
}

/// Turns an accepted run into one that was refused and did nothing.
fn call_it_bad(case: &Case, outcome: &mut Outcome) {
    outcome.answer = 10;
    outcome.written = case.written.clone();
}

const REFUSED: bool = false;
const ACCEPTED: bool = true;

fn change(
    name: &'static str,
    call: Call,
    accepted: bool,
    bites: fn(&Case, &Outcome) -> bool,
    make: fn(&Case, &mut Outcome),
) -> Change {
    Change {
        name,
        call,
        accepted,
        bites,
        make,
    }
}

#[rustfmt::skip]
fn changes() -> [Change; 18] {
    [
        change("an answer above 20", Call::Check, REFUSED, always, |_, o| o.answer = 21),
        change("the refusal of another call", Call::Check, REFUSED, always, |_, o| o.answer = 10),
        change("a refusal that changed its output", Call::Merge, REFUSED, first_not_empty, flip_first),
        change("a refusal that changed a number", Call::Merge, REFUSED, always, flip_number),
        change("a refusal that changed the image", Call::Apply, REFUSED, first_not_empty, flip_last),
        change("a byte beyond a merge", Call::Merge, ACCEPTED, longer_than_result, flip_last),
        change("a byte beyond a comparison", Call::Compare, ACCEPTED, longer_than_result, flip_last),
        change("a byte beyond a state record", Call::WriteState, ACCEPTED, longer_than_result, flip_last),
        change("a length beyond the output", Call::Merge, ACCEPTED, always, lengthen),
        change("an apply that leaves another image", Call::Apply, ACCEPTED, always, flip_first),
        change("a run that leaves another image", Call::Run, ACCEPTED, always, flip_last),
        change("a run that says another record", Call::Run, ACCEPTED, always, flip_number),
        change("a head that breaks the rules", Call::Check, ACCEPTED, always, |_, o| o.written[0][0] = 2),
        change("a view outside", Call::ReadThrough, ACCEPTED, always, |_, o| o.written[1][6] = 1),
        change("a view of another block", Call::ReadThrough, ACCEPTED, in_image, |_, o| o.written[1][1] ^= 2),
        change("a start called bad", Call::Run, ACCEPTED, always, call_it_bad),
        change("a place past the count", Call::Plan, ACCEPTED, list_not_empty, |_, o| o.written[0][0] = 97),
        change("another lag", Call::Lag, ACCEPTED, always, flip_first),
    ]
}

/// For each change its name, whether the judge passed the outcome before and objected after, and what it said.
pub fn judged() -> Result<Vec<(&'static str, bool, String)>, String> {
    changes().iter().map(judge_change).collect()
}

fn judge_change(change: &Change) -> Result<(&'static str, bool, String), String> {
    let (case, mut outcome) = find(change)?;
    let before = judge(&case, &outcome);
    (change.make)(&case, &mut outcome);
    let after = judge(&case, &outcome);
    let right = before.is_ok() && after.is_err();
    let said = match (before, after) {
        (Err(said), _) => format!("without the change already: {said}"),
        (_, Err(said)) => said,
        _ => "no objection".to_string(),
    };
    Ok((change.name, right, said))
}

/// The first case, by seed, that the change is for.
fn find(change: &Change) -> Result<(Case, Outcome), String> {
    let mut yard = Yard::default();
    for seed in 0..100_000 {
        let case = cases::make(&mut Random::new(seed), Size::Small);
        if case.call != change.call {
            continue;
        }
        let outcome = play::call_with(&mut yard, &case, seed)?;
        let accepted = outcome.answer == 0;
        if accepted == change.accepted && (change.bites)(&case, &outcome) {
            return Ok((case, outcome));
        }
    }
    Err(format!("no case for: {}", change.name))
}
