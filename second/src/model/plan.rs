//! The plan of a restore: the first list of places in dictionary order, by a depth-first search that tries places in
//! rising order and remembers the states it has tried.

use std::collections::BTreeSet;

use super::record::{read_head, read_state, too_large, Head, State, StateKind, HEAD};
use super::volume::{accept, clean, done};
use super::{refuse, Refusal};
use crate::bends::{bent, Bend};

pub const PLACES: usize = 96;

/// 18, then each entry in shelf order, then 7, 20, 19. Room for the places is the caller's matter.
pub fn plan(heads: &[u8], count: usize, state: &[u8], target: u64) -> Result<Vec<usize>, Refusal> {
    let limit = if bent(Bend::ShelfLimit) { PLACES - 1 } else { PLACES };
    refuse(Refusal::ShelfFull, count > limit)?;
    let shelf = read_shelf(heads, count)?;
    if bent(Bend::PlanGidFirst) {
        refuse(Refusal::BadGid, too_large(target))?;
    }
    let state = read_state(state)?;
    refuse(Refusal::BadGid, too_large(target))?;
    first_list(&shelf, &state, target).ok_or(Refusal::NoChain)
}

fn read_shelf(heads: &[u8], count: usize) -> Result<Vec<Head>, Refusal> {
    let mut entries = heads.chunks(HEAD);
    let mut shelf = Vec::new();
    for _ in 0..count {
        shelf.push(read_head(entries.next().unwrap_or(&[]))?);
    }
    Ok(shelf)
}

pub fn first_list(shelf: &[Head], state: &State, target: u64) -> Option<Vec<usize>> {
    search(shelf, state, target, &mut BTreeSet::new())
}

/// Each accepted diff raises b, so a state met again was tried before, and in vain. The empty list comes before every
/// other.
fn search(shelf: &[Head], state: &State, target: u64, tried: &mut BTreeSet<State>) -> Option<Vec<usize>> {
    if at_target(state, target) {
        return Some(Vec::new());
    }
    if !tried.insert(*state) {
        return None;
    }
    for step in 0..shelf.len() {
        let place = if bent(Bend::PlanLast) { shelf.len() - 1 - step } else { step };
        if accept(&shelf[place], state).is_err() {
            continue;
        }
        let next = done(&shelf[place], state);
        if let Some(rest) = search(shelf, &next, target, tried) {
            return Some([vec![place], rest].concat());
        }
    }
    None
}

fn at_target(state: &State, target: u64) -> bool {
    let there = clean(state) || bent(Bend::PlanDirtyEnd) && state.kind == StateKind::Settled;
    there && state.b == target
}
