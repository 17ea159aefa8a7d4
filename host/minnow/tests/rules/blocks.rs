//! What the calls do with blocks: views, runs, comparisons, and state records there and back.

use crate::made::{self, clean, diff, image, COMPARED, LOG};
use minnow::{DiffKind, Head, Refusal, Slice, State, MAX_GID};

#[test]
fn a_view_is_a_part_of_what_was_lent() {
    let diff = diff(LOG, 5, 9, &[(0, 7), (2, 9)]);
    let image = image(&[1, 2, 3, 4]);
    let view = |a| minnow::read_through(&diff, &image, a).expect("sound");

    let named = view(2);
    assert_eq!((named.slice, named.at), (Slice::Diff, 24 + 518 + 6));
    assert_eq!(named.bytes.as_ptr(), diff[24 + 518 + 6..].as_ptr());
    assert_eq!(named.bytes, made::filled(9));

    let old = view(3);
    assert_eq!((old.slice, old.at), (Slice::Image, 3 * 512));
    assert_eq!(old.bytes.as_ptr(), image[3 * 512..].as_ptr());
    assert_eq!(old.bytes, made::filled(4));
}

#[test]
fn every_view_is_the_block_after_the_apply() {
    let diff = diff(LOG, 5, 9, &[(0, 7), (2, 9)]);
    let before = image(&[1, 2, 3, 4]);
    let mut after = before.clone();
    minnow::apply(&diff, &clean(5), &mut after).expect("accepted");
    assert_eq!(after, image(&[7, 2, 9, 4]));
    for (a, block) in after.chunks(minnow::BLOCK).enumerate() {
        let view = minnow::read_through(&diff, &before, a).expect("sound");
        assert_eq!(view.bytes, block, "block {a}");
    }
}

#[test]
fn a_run_writes_its_records_and_no_other() {
    let diff = diff(LOG, 5, 9, &[(0, 7), (2, 9), (3, 8)]);
    let ran = |i, k| {
        let mut blocks = image(&[1, 2, 3, 4]);
        let next = minnow::run(&diff, &mut blocks, i, k);
        (next, blocks)
    };
    assert_eq!(ran(0, 0), (Ok(0), image(&[1, 2, 3, 4])));
    assert_eq!(ran(0, 1), (Ok(1), image(&[7, 2, 3, 4])));
    assert_eq!(ran(1, 1), (Ok(2), image(&[1, 2, 9, 4])));
    assert_eq!(ran(1, usize::MAX), (Ok(3), image(&[1, 2, 9, 8])));
    assert_eq!(ran(3, 5), (Ok(3), image(&[1, 2, 3, 4])));
    assert_eq!(ran(4, 0), (Err(Refusal::BadStart), image(&[1, 2, 3, 4])));
}

#[test]
fn a_comparison_names_what_differs() {
    let (old, new) = (image(&[1, 2, 3]), image(&[1, 5, 4]));
    let wanted = diff(COMPARED, 5, 9, &[(1, 5), (2, 4)]);
    let mut out = vec![0xEE; minnow::compared_room(old.len())];
    assert_eq!(out.len(), 24 + 518 * 3);
    let length = minnow::compare(&old, &new, 5, 9, &mut out).expect("room");
    assert_eq!(out[..length], wanted);
    assert!(out[length..].iter().all(|&byte| byte == 0xEE));
}

#[test]
fn rooms_stop_at_the_most_blocks() {
    let full = Head {
        kind: DiffKind::Log,
        p: 0,
        q: 1,
        n: 65_536,
    };
    assert_eq!(minnow::merged_room(&full, &full), 24 + 518 * 65_536);
    assert_eq!(minnow::compared_room(usize::MAX), 24 + 518 * 65_536);
}

#[test]
fn states_there_and_back() {
    let states = [
        (State::clean(7), made::state(0, 7, 7, 7), "clean 7"),
        (
            State::settled(4, 10),
            made::state(0, 4, 4, 10),
            "dirty 4,4,10",
        ),
        (
            State::span(4, 8, 10),
            made::state(1, 4, 8, 10),
            "span 4,8,10",
        ),
        (State::pair(7, 9), made::state(2, 7, 9, 9), "pair 7,9,9"),
        (
            State::clean(MAX_GID),
            made::clean(MAX_GID),
            "clean 9223372036854775807",
        ),
    ];
    for (state, bytes, words) in states {
        let record = minnow::write_state(state).expect("a state");
        assert_eq!(record[..], bytes, "{words}");
        assert_eq!(minnow::read_state(&record), Ok(state));
        assert_eq!(state.to_string(), words);
        assert_eq!(state.is_clean(), words.starts_with("clean"));
    }
}
