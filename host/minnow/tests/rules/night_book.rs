//! The rows from the night book, through the safe calls: P1 to P12, the merge, the shelf and the lag.

use crate::made::{self, clean, diff, head, state, COMPARED, LOG, PAIR, SETTLED};
use minnow::{DiffKind, Head, Refusal};

/// A row of the table: the state, the diff, and its answer as the words of While and Done.
type Row = (
    &'static str,
    Vec<u8>,
    (u8, u64, u64),
    Result<(&'static str, &'static str), Refusal>,
);

fn rows() -> Vec<Row> {
    let dirty = || state(SETTLED, 4, 4, 10);
    let pair = |t| state(PAIR, 7, t, t);
    vec![
        ("P1", clean(7), (LOG, 5, 9), Ok(("pair 7,9,9", "clean 9"))),
        ("P2", clean(7), (LOG, 8, 9), Err(Refusal::Gap)),
        ("P3", clean(7), (LOG, 3, 7), Err(Refusal::Behind)),
        (
            "P4",
            clean(7),
            (COMPARED, 7, 9),
            Ok(("pair 7,9,9", "clean 9")),
        ),
        ("P5", clean(7), (COMPARED, 5, 9), Err(Refusal::NotExact)),
        ("P6", clean(7), (COMPARED, 5, 7), Err(Refusal::Behind)),
        (
            "P7",
            dirty(),
            (LOG, 4, 8),
            Ok(("span 4,8,10", "dirty 8,8,10")),
        ),
        // The paper gives Done alone; While follows from its rule.
        (
            "P8",
            dirty(),
            (LOG, 2, 10),
            Ok(("span 4,10,10", "clean 10")),
        ),
        ("P9", pair(9), (LOG, 5, 8), Err(Refusal::Short)),
        ("P10", pair(12), (LOG, 8, 10), Err(Refusal::Gap)),
        ("P11", pair(9), (COMPARED, 7, 10), Err(Refusal::NotExact)),
        ("P12", pair(9), (LOG, 7, 9), Ok(("span 7,9,9", "clean 9"))),
    ]
}

fn said(record: &[u8]) -> String {
    minnow::read_state(record)
        .expect("a further state is sound")
        .to_string()
}

#[test]
fn decisions() {
    let image = made::image(&[1, 2]);
    for (name, state, (kind, p, q), answer) in rows() {
        let diff = diff(kind, p, q, &[(1, 7)]);
        let got = minnow::decide(&diff, &state, &image);
        let words = got.map(|further| (said(&further.during), said(&further.done)));
        let wanted = answer.map(|(during, done)| (during.to_string(), done.to_string()));
        assert_eq!(words, wanted, "{name}");
    }
}

#[test]
fn applies() {
    for (name, state, (kind, p, q), answer) in rows() {
        let diff = diff(kind, p, q, &[(1, 7)]);
        let mut image = made::image(&[1, 2]);
        let done = minnow::apply(&diff, &state, &mut image).map(|done| said(&done));
        assert_eq!(done, answer.map(|(_, done)| done.to_string()), "{name}");
        let second = if answer.is_ok() { 7 } else { 2 };
        assert_eq!(image, made::image(&[1, second]), "{name}");
    }
}

#[test]
fn merge_of_1_3_with_3_6() {
    let first = diff(LOG, 2, 5, &[(1, b'A'), (3, b'B')]);
    let second = diff(LOG, 5, 6, &[(3, b'C'), (6, b'D')]);
    let wanted = diff(LOG, 2, 6, &[(1, b'A'), (3, b'C'), (6, b'D')]);
    assert_eq!(wanted.len(), 1_578);

    let heads = [&first, &second].map(|d| minnow::check(d).expect("sound"));
    let room = minnow::merged_room(&heads[0], &heads[1]);
    assert_eq!(room, 24 + 518 * 4);
    let mut out = vec![0xEE; room];
    assert_eq!(minnow::merge(&first, &second, &mut out), Ok(1_578));
    assert_eq!(out[..1_578], wanted);
    assert!(out[1_578..].iter().all(|&byte| byte == 0xEE));

    let mut exact = [0; 1_578];
    assert_eq!(minnow::merge(&first, &second, &mut exact), Ok(1_578));
    assert_eq!(exact[..], wanted);

    let mut short = [0xEE; 1_577];
    assert_eq!(
        minnow::merge(&first, &second, &mut short),
        Err(Refusal::NoRoom)
    );
    assert_eq!(short, [0xEE; 1_577]);
}

fn shelf() -> Vec<u8> {
    [
        head(LOG, 0, 4, 1),
        head(COMPARED, 4, 9, 2),
        head(LOG, 4, 6, 3),
        head(LOG, 6, 9, 4),
    ]
    .concat()
}

#[test]
fn plans() {
    let shelf = shelf();
    let places = |state: &[u8], target| {
        minnow::plan(&shelf, 4, state, target).map(|plan| plan.places().to_vec())
    };
    assert_eq!(places(&clean(0), 9), Ok(vec![0, 1]));
    assert_eq!(places(&clean(5), 9), Ok(vec![2, 3]));
    assert_eq!(places(&state(SETTLED, 0, 0, 5), 9), Ok(vec![0, 2, 3]));
    assert_eq!(places(&clean(0), 5), Err(Refusal::NoChain));
    assert_eq!(places(&clean(9), 9), Ok(vec![]), "already there");
}

#[test]
fn heads_past_the_count_have_no_part() {
    let mut shelf = shelf();
    let two = minnow::plan(&shelf, 2, &clean(5), 9);
    assert_eq!(two, Err(Refusal::NoChain), "places 2 and 3 are past it");
    shelf.truncate(2 * minnow::HEAD);
    shelf.extend([0xFF; 30]);
    let places = minnow::plan(&shelf, 2, &clean(0), 9).map(|plan| plan.places().to_vec());
    assert_eq!(places, Ok(vec![0, 1]));
}

#[test]
fn lags() {
    let max = minnow::MAX_GID;
    assert_eq!(minnow::lag(&clean(7), 9), Ok(-2));
    assert_eq!(minnow::lag(&clean(0), max), Ok(-i64::MAX));
    assert_eq!(minnow::lag(&clean(max), 0), Ok(i64::MAX));
}

#[test]
fn the_empty_log_diff_from_5_to_9() {
    let bytes = [
        0x57, 0x44, 0, 0, 5, 0, 0, 0, 0, 0, 0, 0, 9, 0, 0, 0, 0, 0, 0, 0, 0, 0, 0, 0,
    ];
    let wanted = Head {
        kind: DiffKind::Log,
        p: 5,
        q: 9,
        n: 0,
    };
    assert_eq!(minnow::check(&bytes), Ok(wanted));
}
