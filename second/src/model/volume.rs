//! "Moves of a volume": accepting, While and Done, runs, read-through and lag.

use super::record::{check, image_blocks, read_state, too_large};
use super::record::{Block, Diff, Head, Kind, State, StateKind, BLOCK, HEAD, RECORD};
use super::{refuse, Refusal};
use crate::bends::{bent, Bend};

/// An accepted apply: the diff's meaning and the two further states.
pub struct Accepted {
    pub diff: Diff,
    pub during: State,
    pub done: State,
}

pub fn clean(state: &State) -> bool {
    state.kind == StateKind::Settled && state.b == state.e
}

/// Rules 11 to 14, on the head alone.
pub fn accept(head: &Head, state: &State) -> Result<(), Refusal> {
    let behind = if bent(Bend::BehindBelow) { head.q < state.b } else { head.q <= state.b };
    let gap = if bent(Bend::GapEqual) { head.p >= state.b } else { head.p > state.b };
    let least = if bent(Bend::ShortOfE) { state.e } else { state.t };
    let short = if bent(Bend::ShortEqual) { head.q <= least } else { head.q < least };
    let not_exact = head.kind == Kind::Compared && !exact(head, state);
    if bent(Bend::NotExactFirst) {
        refuse(Refusal::NotExact, not_exact)?;
    }
    refuse(Refusal::Behind, behind)?;
    if bent(Bend::ShortFirst) {
        refuse(Refusal::Short, short)?;
    }
    refuse(Refusal::Gap, gap)?;
    refuse(Refusal::Short, short)?;
    refuse(Refusal::NotExact, not_exact)
}

/// p = b and (the state is clean, or kind 2 with q = t).
fn exact(head: &Head, state: &State) -> bool {
    let from_b = head.p == state.b || bent(Bend::ExactFromBelow) && head.p < state.b;
    let settled = if bent(Bend::ExactDirty) { state.kind == StateKind::Settled } else { clean(state) };
    let to_t = head.q == state.t || bent(Bend::ExactLonger);
    let pair = state.kind == StateKind::Pair || bent(Bend::ExactSpan) && state.kind == StateKind::Span;
    from_b && (settled || pair && to_t)
}

fn later_e(head: &Head, state: &State) -> u64 {
    head.q.max(state.e)
}

pub fn during(head: &Head, state: &State) -> State {
    let compared = head.kind == Kind::Compared && !bent(Bend::WhileByCleanAlone);
    let was_clean = clean(state) || bent(Bend::WhileByPair) && state.kind == StateKind::Pair;
    let pair = compared || was_clean || bent(Bend::WhilePair);
    State {
        kind: if pair { StateKind::Pair } else { StateKind::Span },
        b: state.b,
        t: head.q,
        e: if bent(Bend::WhileEnd) { head.q } else { later_e(head, state) },
    }
}

pub fn done(head: &Head, state: &State) -> State {
    let e = if bent(Bend::DoneClean) { head.q } else { later_e(head, state) };
    State { kind: StateKind::Settled, b: head.q, t: head.q, e }
}

/// Outside where the diff names any block that the image hasn't.
fn inside(diff: &Diff, blocks: u64) -> Result<(), Refusal> {
    let outside = |address: &u32| u64::from(*address) >= blocks;
    refuse(Refusal::Outside, diff.blocks.keys().any(outside))
}

/// The checks of an apply: diff, state, image, Outside, then 11 to 14.
pub fn decide(diff: &[u8], state: &[u8], image_length: usize) -> Result<Accepted, Refusal> {
    let diff = check(diff)?;
    if bent(Bend::ImageFirst) {
        image_blocks(image_length)?;
    }
    let state = read_state(state)?;
    let blocks = image_blocks(image_length)?;
    if bent(Bend::OutsideLast) {
        accept(&diff.head, &state)?;
    }
    inside(&diff, blocks)?;
    accept(&diff.head, &state)?;
    let (during, done) = (during(&diff.head, &state), done(&diff.head, &state));
    Ok(Accepted { diff, during, done })
}

pub fn put(image: &mut [u8], address: u32, content: &Block) {
    let start = BLOCK * address as usize;
    image[start..start + BLOCK].copy_from_slice(content);
}

/// Writes every named block.
pub fn put_all(image: &mut [u8], diff: &Diff) {
    for (address, content) in &diff.blocks {
        put(image, *address, content);
    }
}

/// Writes records i up to the smaller of i + k and n, and answers that smaller number.
pub fn run(diff: &[u8], image: &mut [u8], i: u64, k: u64) -> Result<u64, Refusal> {
    let diff = check(diff)?;
    let blocks = image_blocks(image.len())?;
    let n = u64::from(diff.head.n);
    let next = (u128::from(i) + u128::from(k)).min(u128::from(n)) as u64;
    if bent(Bend::StartFirst) {
        start(i, n)?;
    }
    if bent(Bend::WritesUntilOutside) {
        put_until_outside(image, &diff, blocks, i, next);
    }
    if !bent(Bend::OutsideByRun) {
        inside(&diff, blocks)?;
    } else if let Some(last) = next.checked_sub(1).filter(|last| i <= *last) {
        let address = diff.blocks.keys().nth(last as usize);
        refuse(Refusal::Outside, address.map_or(false, |a| u64::from(*a) >= blocks))?;
    }
    start(i, n)?;
    for (address, content) in records(&diff, i, next) {
        put(image, *address, content);
    }
    Ok(if bent(Bend::RunUncapped) { i.saturating_add(k) } else { next })
}

fn start(i: u64, n: u64) -> Result<(), Refusal> {
    let beyond = if bent(Bend::StartEqual) { i >= n } else { i > n };
    refuse(Refusal::BadStart, beyond)
}

/// Records i up to `end`, the end left out, counted from 0.
fn records(diff: &Diff, i: u64, end: u64) -> impl Iterator<Item = (&u32, &Block)> {
    let wanted = move |index: &usize| i <= *index as u64 && (*index as u64) < end;
    diff.blocks.iter().enumerate().filter(move |(index, _)| wanted(index)).map(|(_, record)| record)
}

/// The bent rule of `WritesUntilOutside`.
fn put_until_outside(image: &mut [u8], diff: &Diff, blocks: u64, i: u64, end: u64) {
    for (address, content) in records(diff, i, end) {
        if u64::from(*address) < blocks {
            put(image, *address, content);
        }
    }
}

/// Where a read-through finds its block: the slice and the byte it starts at.
#[derive(Debug, PartialEq, Eq)]
pub enum Found {
    InDiff(u64),
    InImage(u64),
}

pub fn read_through(diff: &[u8], image_length: usize, a: u64) -> Result<Found, Refusal> {
    let diff = check(diff)?;
    let blocks = image_blocks(image_length)?;
    if !bent(Bend::ThroughAskedAlone) {
        inside(&diff, blocks)?;
    }
    let asked_outside = if bent(Bend::ThroughEnd) { a > blocks } else { a >= blocks };
    refuse(Refusal::Outside, asked_outside)?;
    let earlier = diff.blocks.keys().filter(|address| u64::from(**address) < a).count();
    let named = u32::try_from(a).map_or(false, |a| diff.blocks.contains_key(&a));
    if named {
        return Ok(Found::InDiff((HEAD + RECORD * earlier + RECORD - BLOCK) as u64));
    }
    Ok(Found::InImage(BLOCK as u64 * a))
}

/// b minus the target gid.
pub fn lag(state: &[u8], target: u64) -> Result<i64, Refusal> {
    if bent(Bend::LagGidFirst) {
        refuse(Refusal::BadGid, too_large(target))?;
    }
    let state = read_state(state)?;
    refuse(Refusal::BadGid, too_large(target))?;
    let from = if bent(Bend::LagFromEnd) { state.e } else { state.b };
    let difference = i128::from(from) - i128::from(target);
    Ok(difference as i64)
}
