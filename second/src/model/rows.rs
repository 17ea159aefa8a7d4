//! The model held to the paper: the night book's rows, the merge and shelf examples, the lag, and the empty diff of 01.

use super::pairing::merge;
use super::plan::{first_list, plan};
use super::record::{check, write_diff, write_head, write_state};
use super::record::{Blocks, Head, Kind, State, StateKind, BLOCK, MAX_GID};
use super::volume::{accept, clean, decide, done, during, lag};
use super::Refusal;
use crate::call::Call;
use crate::model::lend;
use crate::rng::Rng;

fn state(kind: StateKind, b: u64, t: u64, e: u64) -> State {
    State { kind, b, t, e }
}

fn clean_at(g: u64) -> State {
    state(StateKind::Settled, g, g, g)
}

fn dirty(b: u64, e: u64) -> State {
    state(StateKind::Settled, b, b, e)
}

fn pair(b: u64, t: u64) -> State {
    state(StateKind::Pair, b, t, t)
}

fn span(b: u64, t: u64, e: u64) -> State {
    state(StateKind::Span, b, t, e)
}

fn log(p: u64, q: u64) -> Head {
    Head { kind: Kind::Log, p, q, n: 0 }
}

fn compared(p: u64, q: u64) -> Head {
    Head { kind: Kind::Compared, p, q, n: 0 }
}

/// While and Done of an apply of an empty diff to an image of one block, by the whole decision.
fn decision(from: State, head: Head) -> Result<(State, State), Refusal> {
    let accepted = decide(&write_head(&head), &write_state(&from), BLOCK)?;
    Ok((accepted.during, accepted.done))
}

#[test]
fn night_book() {
    let rows = [
        ("P1", clean_at(7), log(5, 9), Ok((pair(7, 9), clean_at(9)))),
        ("P2", clean_at(7), log(8, 9), Err(Refusal::Gap)),
        ("P3", clean_at(7), log(3, 7), Err(Refusal::Behind)),
        ("P4", clean_at(7), compared(7, 9), Ok((pair(7, 9), clean_at(9)))),
        ("P5", clean_at(7), compared(5, 9), Err(Refusal::NotExact)),
        ("P6", clean_at(7), compared(5, 7), Err(Refusal::Behind)),
        ("P7", dirty(4, 10), log(4, 8), Ok((span(4, 8, 10), dirty(8, 10)))),
        ("P8", dirty(4, 10), log(2, 10), Ok((span(4, 10, 10), clean_at(10)))),
        ("P9", pair(7, 9), log(5, 8), Err(Refusal::Short)),
        ("P10", pair(7, 12), log(8, 10), Err(Refusal::Gap)),
        ("P11", pair(7, 9), compared(7, 10), Err(Refusal::NotExact)),
        ("P12", pair(7, 9), log(7, 9), Ok((span(7, 9, 9), clean_at(9)))),
    ];
    for (name, from, head, answer) in rows {
        assert_eq!(decision(from, head), answer, "{name}");
    }
}

#[test]
fn while_and_done_stand_on_heads_alone() {
    assert_eq!(accept(&log(5, 9), &clean_at(7)), Ok(()));
    assert_eq!(during(&log(5, 9), &clean_at(7)), pair(7, 9));
    assert!(clean(&done(&log(5, 9), &clean_at(7))));
}

#[test]
fn empty_log_diff_from_5_to_9() {
    let paper = [0x57, 0x44, 0, 0, 5, 0, 0, 0, 0, 0, 0, 0, 9, 0, 0, 0, 0, 0, 0, 0, 0, 0, 0, 0];
    assert_eq!(write_head(&log(5, 9)), paper);
    let read = check(&paper).expect("the paper's own diff");
    assert_eq!((read.head, read.blocks.len()), (log(5, 9), 0));
}

fn blocks(entries: &[(u32, u8)]) -> Blocks {
    entries.iter().map(|(address, letter)| (*address, [*letter; BLOCK])).collect()
}

#[test]
fn merge_example() {
    let first = write_diff(Kind::Log, 0, 1, &blocks(&[(1, b'A'), (3, b'B')]));
    let second = write_diff(Kind::Log, 1, 2, &blocks(&[(3, b'C'), (6, b'D')]));
    let merged = merge(&first, &second).expect("log diffs that touch");
    assert_eq!(merged.len(), 1_578);
    assert_eq!(check(&merged).map(|diff| diff.blocks), Ok(blocks(&[(1, b'A'), (3, b'C'), (6, b'D')])));
    for (room, number) in [(1_577, 17), (1_578, 0)] {
        let out = vec![0; room];
        let outcome = lend::answer(&Call::Merge { first: &first, second: &second, out: &out }, 5);
        assert_eq!(outcome.number, number);
    }
}

#[test]
fn shelf_rows() {
    let shelf = [log(0, 4), compared(4, 9), log(4, 6), log(6, 9)];
    let heads: Vec<u8> = shelf.iter().flat_map(write_head).collect();
    let rows = [
        (clean_at(0), 9, Ok(vec![0, 1])),
        (clean_at(5), 9, Ok(vec![2, 3])),
        (dirty(0, 5), 9, Ok(vec![0, 2, 3])),
        (clean_at(0), 5, Err(Refusal::NoChain)),
        (clean_at(9), 9, Ok(vec![])),
    ];
    for (from, target, answer) in rows {
        assert_eq!(plan(&heads, 4, &write_state(&from), target), answer);
    }
}

#[test]
fn lag_row() {
    assert_eq!(lag(&write_state(&clean_at(7)), 9), Ok(-2));
    assert_eq!(lag(&write_state(&clean_at(7)), MAX_GID + 1), Err(Refusal::BadGid));
}

/// All lists up to a length that lead to the target, by trying every list of places there is.
fn lists(shelf: &[Head], from: &State, target: u64, so_far: &[usize], found: &mut Vec<Vec<usize>>) {
    if clean(from) && from.b == target {
        found.push(so_far.to_vec());
    }
    for (place, head) in shelf.iter().enumerate() {
        if accept(head, from).is_ok() {
            lists(shelf, &done(head, from), target, &[so_far, &[place]].concat(), found);
        }
    }
}

#[test]
fn the_list_is_the_least_of_all_lists() {
    let mut rng = Rng::new(8);
    let mut with_a_list = 0;
    for _ in 0..2_000 {
        let shelf: Vec<Head> = (0..rng.within(0, 7))
            .map(|_| {
                let p = rng.below(5);
                let q = rng.within(p + 1, 6);
                if rng.once_in(3) {
                    compared(p, q)
                } else {
                    log(p, q)
                }
            })
            .collect();
        let (b, more, target) = (rng.below(4), rng.below(3), rng.below(7));
        let from = if more > 0 && rng.once_in(3) { pair(b, b + more) } else { dirty(b, b + more) };
        let mut found = Vec::new();
        lists(&shelf, &from, target, &[], &mut found);
        with_a_list += usize::from(!found.is_empty());
        assert_eq!(first_list(&shelf, &from, target), found.into_iter().min());
    }
    assert!(with_a_list > 200, "only {with_a_list} of the shelves had a list");
}
