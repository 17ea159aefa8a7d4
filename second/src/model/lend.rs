//! The face's own rules, from include/minnow.h: what each lent number and buffer holds after a call, by the model.

use super::pairing::{compare, merge};
use super::plan::{plan, PLACES};
use super::record::{check, read_state, state_of, write_state, State, STATE};
use super::volume::{decide, lag, put_all, read_through, run, Accepted, Found};
use super::{refuse, Refusal};
use crate::bends::{bent, Bend};
use crate::call::{Call, Outcome};

/// The model's outcome of a call whose lent numbers hold the pattern.
pub fn answer(call: &Call, pattern: u64) -> Outcome {
    let mut outcome = Outcome::untouched(call, pattern);
    outcome.number = match give(call, &mut outcome) {
        Ok(()) => 0,
        Err(refusal) => refusal as u32,
    };
    outcome
}

fn give(call: &Call, outcome: &mut Outcome) -> Result<(), Refusal> {
    match *call {
        Call::Check { diff } => {
            let head = check(diff)?.head;
            outcome.numbers = vec![head.kind as u64, head.p, head.q, head.n.into()];
        }
        Call::ReadState { state } => {
            let State { kind, b, t, e } = read_state(state)?;
            outcome.numbers = vec![kind as u64, b, t, e];
        }
        Call::WriteState { kind, b, t, e, .. } => give_state_record(kind, b, t, e, outcome)?,
        Call::Decide { diff, state, image, .. } => {
            give_decision(&decide(diff, state, image.len())?, outcome)?
        }
        Call::Apply { diff, state, image, .. } => give_doing(&decide(diff, state, image.len())?, outcome)?,
        Call::Run { diff, i, k, .. } => {
            let next = run(diff, &mut outcome.buffers[0], i as u64, k as u64)?;
            outcome.numbers = vec![next];
        }
        Call::Merge { first, second, .. } => give_diff(merge(first, second)?, outcome)?,
        Call::Compare { old, new, p, q, .. } => give_diff(compare(old, new, p, q)?, outcome)?,
        Call::ReadThrough { diff, image, a } => {
            outcome.numbers = match read_through(diff, image.len(), a as u64)? {
                Found::InDiff(at) => vec![0, at],
                Found::InImage(at) => vec![1, at],
            };
        }
        Call::Plan { heads, count, state, target, .. } => {
            give_places(&plan(heads, count, state, target)?, outcome)?;
        }
        Call::Lag { state, target } => outcome.numbers = vec![lag(state, target)? as u64],
    }
    Ok(())
}

/// NoRoom where a result does not fit.
fn room(out: &[u8], needed: usize) -> Result<(), Refusal> {
    let short = if bent(Bend::RoomEqual) { out.len() <= needed } else { out.len() < needed };
    refuse(Refusal::NoRoom, short)
}

/// Puts a result to the front of `out`, as far as there is room.
fn put_first(out: &mut [u8], result: &[u8]) {
    let fits = result.len().min(out.len());
    out[..fits].copy_from_slice(&result[..fits]);
}

fn give_state_record(kind: u8, b: u64, t: u64, e: u64, outcome: &mut Outcome) -> Result<(), Refusal> {
    if bent(Bend::RoomBeforeState) {
        room(&outcome.buffers[0], STATE)?;
    }
    let state = state_of(kind, b, t, e)?;
    room(&outcome.buffers[0], STATE)?;
    put_first(&mut outcome.buffers[0], &write_state(&state));
    outcome.numbers = vec![STATE as u64];
    Ok(())
}

/// Deciding: both states cross as records, and NoRoom comes last.
fn give_decision(accepted: &Accepted, outcome: &mut Outcome) -> Result<(), Refusal> {
    room(&outcome.buffers[0], STATE)?;
    if !bent(Bend::RoomForWhileAlone) {
        room(&outcome.buffers[1], STATE)?;
    }
    put_first(&mut outcome.buffers[0], &write_state(&accepted.during));
    put_first(&mut outcome.buffers[1], &write_state(&accepted.done));
    Ok(())
}

/// Doing: no block is written where the Done record has no room.
fn give_doing(accepted: &Accepted, outcome: &mut Outcome) -> Result<(), Refusal> {
    if bent(Bend::WritesBeforeRoom) {
        put_all(&mut outcome.buffers[0], &accepted.diff);
    }
    room(&outcome.buffers[1], STATE)?;
    put_all(&mut outcome.buffers[0], &accepted.diff);
    put_first(&mut outcome.buffers[1], &write_state(&accepted.done));
    Ok(())
}

/// A diff as output: NoRoom last, output beyond the result stays.
fn give_diff(result: Vec<u8>, outcome: &mut Outcome) -> Result<(), Refusal> {
    let out = &mut outcome.buffers[0];
    room(out, result.len())?;
    put_first(out, &result);
    if bent(Bend::OutputRestZero) {
        out[result.len()..].fill(0);
    }
    outcome.numbers = vec![result.len() as u64];
    Ok(())
}

/// The first 96 places: the list, then zeros. The lent numbers are the places and then the length.
fn give_places(list: &[usize], outcome: &mut Outcome) -> Result<(), Refusal> {
    let lent = outcome.numbers.len() - 1;
    let needed = if bent(Bend::PlacesForList) { list.len() } else { PLACES };
    refuse(Refusal::NoRoom, lent < needed)?;
    for (place, number) in outcome.numbers[..lent].iter_mut().take(PLACES).enumerate() {
        match list.get(place) {
            Some(entry) => *number = *entry as u64,
            None if bent(Bend::PlacesRestStays) => {}
            None => *number = 0,
        }
    }
    outcome.numbers[lent] = list.len() as u64;
    Ok(())
}
