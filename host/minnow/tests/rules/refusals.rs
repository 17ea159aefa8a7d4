//! Every refusal reached through the safe calls, what it is called, and that it leaves what it was lent as it was.

use crate::made::{clean, diff, head, image, state, COMPARED, LOG, PAIR, SETTLED, SPAN};
use minnow::{Refusal, State, StateKind, MAX_GID};

/// Each number with one input at least that gets it, and what the library says to that input.
fn reached() -> Vec<(u32, Refusal)> {
    let all = [
        diff_rows(),
        state_rows(),
        volume_rows(),
        made_rows(),
        shelf_rows(),
    ];
    all.into_iter().flatten().collect()
}

fn no<T: std::fmt::Debug>(answer: Result<T, Refusal>) -> Refusal {
    answer.expect_err("a refusal")
}

fn changed(mut bytes: Vec<u8>, at: usize, to: u8) -> Vec<u8> {
    bytes[at] = to;
    bytes
}

fn diff_rows() -> Vec<(u32, Refusal)> {
    let sound = || diff(LOG, 5, 9, &[(3, 1), (6, 2)]);
    let refused = |bytes: &[u8]| no(minnow::check(bytes));
    vec![
        (1, refused(&[])),
        (1, refused(&sound()[..23])),
        (1, refused(&sound()[..sound().len() - 1])),
        (2, refused(&changed(sound(), 0, 0x58))),
        (2, refused(&changed(sound(), 24 + 518 + 1, 0x43))),
        (3, refused(&head(2, 5, 9, 0))),
        (3, refused(&changed(sound(), 3, 1))),
        (3, refused(&head(LOG, 9, 9, 0))),
        (3, refused(&head(LOG, 5, MAX_GID + 1, 0))),
        (4, refused(&head(LOG, 5, 9, 65_537))),
        (5, refused(&diff(LOG, 5, 9, &[(3, 1), (3, 2)]))),
        (5, refused(&diff(LOG, 5, 9, &[(65_536, 1)]))),
        (6, refused(&[sound(), vec![0]].concat())),
    ]
}

fn state_rows() -> Vec<(u32, Refusal)> {
    let read = |bytes: &[u8]| no(minnow::read_state(bytes));
    let against_kind = State {
        kind: StateKind::Pair,
        b: 7,
        t: 9,
        e: 10,
    };
    vec![
        (7, read(&[])),
        (7, read(&clean(7)[..27])),
        (7, read(&[clean(7), vec![0]].concat())),
        (7, read(&changed(clean(7), 1, 0x44))),
        (7, read(&changed(clean(7), 3, 1))),
        (7, read(&state(3, 7, 7, 7))),
        (7, read(&state(SETTLED, 7, 8, 9))),
        (7, read(&state(SPAN, 7, 7, 9))),
        (7, read(&state(PAIR, 7, 9, 10))),
        (7, read(&state(SETTLED, 7, 7, MAX_GID + 1))),
        (7, no(minnow::write_state(against_kind))),
        (7, no(minnow::lag(&clean(7)[..27], 9))),
        (20, no(minnow::lag(&clean(7), MAX_GID + 1))),
    ]
}

fn volume_rows() -> Vec<(u32, Refusal)> {
    let diff = |kind, p, q| diff(kind, p, q, &[(1, 1)]);
    let two = || image(&[0, 0]);
    let decide = |kind, p, q, state: &[u8]| no(minnow::decide(&diff(kind, p, q), state, &two()));
    let run = |image: &mut [u8], i| no(minnow::run(&diff(LOG, 5, 9), image, i, 0));
    let through = |image: &[u8], a| no(minnow::read_through(&diff(LOG, 5, 9), image, a));
    let too_long = vec![0; 512 * 65_537];
    vec![
        (8, through(&[], 0)),
        (8, run(&mut [0; 513], 0)),
        (8, through(&too_long, 0)),
        (
            8,
            no(minnow::compare(&[0; 512], &[0; 1_024], 5, 9, &mut [])),
        ),
        (9, run(&mut [0; 512], 0)),
        (9, through(&two(), 2)),
        (
            9,
            no(minnow::decide(&diff(LOG, 5, 9), &clean(7), &[0; 512])),
        ),
        (10, run(&mut [0; 1_024], 2)),
        (11, decide(LOG, 3, 7, &clean(7))),
        (12, decide(LOG, 8, 9, &clean(7))),
        (13, decide(LOG, 5, 8, &state(PAIR, 7, 9, 9))),
        (14, decide(COMPARED, 5, 9, &clean(7))),
        (14, decide(COMPARED, 7, 10, &state(PAIR, 7, 9, 9))),
    ]
}

fn made_rows() -> Vec<(u32, Refusal)> {
    let diff = |kind, p, q| diff(kind, p, q, &[(1, 1)]);
    let merge = |first: &[u8], second: &[u8]| no(minnow::merge(first, second, &mut []));
    let compare = |p, q| no(minnow::compare(&[0; 512], &[1; 512], p, q, &mut [0; 541]));
    vec![
        (3, compare(9, 9)),
        (3, compare(9, MAX_GID + 1)),
        (15, merge(&diff(COMPARED, 2, 5), &diff(LOG, 5, 6))),
        (15, merge(&diff(LOG, 2, 5), &diff(COMPARED, 5, 6))),
        (16, merge(&diff(LOG, 2, 5), &diff(LOG, 4, 6))),
        (17, merge(&diff(LOG, 2, 5), &diff(LOG, 5, 6))),
        (17, compare(5, 9)),
    ]
}

fn shelf_rows() -> Vec<(u32, Refusal)> {
    let shelf = || [head(LOG, 0, 4, 1), head(LOG, 4, 9, 2)].concat();
    let plan =
        |heads: &[u8], count, state: &[u8], target| no(minnow::plan(heads, count, state, target));
    let full = head(LOG, 0, 4, 1).repeat(97);
    vec![
        (1, plan(&shelf(), 3, &clean(0), 9)),
        (2, plan(&changed(shelf(), 25, 0), 2, &clean(0), 9)),
        (3, plan(&changed(shelf(), 26, 2), 2, &clean(0), 9)),
        (4, plan(&head(LOG, 0, 4, 65_537), 1, &clean(0), 9)),
        (7, plan(&shelf(), 2, &[], 9)),
        (18, plan(&full, 97, &clean(0), 4)),
        (18, plan(&[], usize::MAX, &clean(0), 4)),
        (19, plan(&shelf(), 2, &clean(0), 5)),
        (20, plan(&shelf(), 2, &clean(0), MAX_GID + 1)),
    ]
}

#[test]
fn each_input_gets_its_number() {
    for (place, (number, refusal)) in reached().into_iter().enumerate() {
        assert_eq!(refusal.number(), number, "input {place}");
    }
}

#[test]
fn every_number_is_reached() {
    let reached = reached();
    for refusal in Refusal::ALL {
        assert!(
            reached.iter().any(|&(_, got)| got == refusal),
            "{refusal} is not"
        );
    }
}

/// Inputs that are refused only after the blocks, the room or the state were looked at: what was lent still stands.
#[test]
fn a_refusal_leaves_what_it_was_lent() {
    let outside = diff(LOG, 5, 9, &[(0, 1), (1, 1), (2, 1)]);
    let mut two = image(&[8, 9]);
    assert_eq!(
        minnow::apply(&outside, &clean(7), &mut two),
        Err(Refusal::Outside)
    );
    assert_eq!(minnow::run(&outside, &mut two, 0, 1), Err(Refusal::Outside));
    let inside = diff(LOG, 5, 9, &[(0, 1), (1, 1)]);
    assert_eq!(
        minnow::apply(&inside, &clean(9), &mut two),
        Err(Refusal::Behind)
    );
    assert_eq!(minnow::run(&inside, &mut two, 3, 1), Err(Refusal::BadStart));
    assert_eq!(two, image(&[8, 9]));

    let mut out = [0xEE; 24 + 518 + 517];
    let later = diff(LOG, 9, 10, &[(1, 2)]);
    assert_eq!(
        minnow::merge(&inside, &later, &mut out),
        Err(Refusal::NoRoom)
    );
    let compared = minnow::compare(&two, &image(&[1, 2]), 5, 9, &mut out);
    assert_eq!(compared, Err(Refusal::NoRoom));
    assert_eq!(out, [0xEE; 24 + 518 + 517]);
}

#[test]
fn numbers_names_and_words() {
    for (place, refusal) in Refusal::ALL.into_iter().enumerate() {
        assert_eq!(refusal.number() as usize, place + 1);
        assert_eq!(Refusal::of(refusal.number()), Some(refusal));
        assert_eq!(refusal.name(), format!("{refusal:?}"));
    }
    for number in [0, 21, u32::MAX] {
        assert_eq!(Refusal::of(number), None);
    }
    assert_eq!(Refusal::Gap.to_string(), "12 Gap: p > b");
    assert_eq!(
        Refusal::BadGid.to_string(),
        "20 BadGid: target gid too large"
    );
}
