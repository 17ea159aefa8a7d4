//! Heads and states as answers show them, for a person and for a machine.

use crate::json::{Fields, Json};
use minnow::{DiffKind, Head, State, StateKind};

pub fn kind(head: &Head) -> &'static str {
    match head.kind {
        DiffKind::Log => "log",
        DiffKind::Compared => "compared",
    }
}

/// As in `1 block` and `2 blocks`.
pub fn count(n: u64, what: &str) -> String {
    match n {
        1 => format!("1 {what}"),
        _ => format!("{n} {what}s"),
    }
}

/// As in `log 5 to 9, 2 blocks`.
pub fn head(head: &Head) -> String {
    let (kind, p, q) = (kind(head), head.p, head.q);
    let blocks = count(u64::from(head.n), "block");
    format!("{kind} {p} to {q}, {blocks}")
}

pub fn head_fields(head: &Head) -> Fields {
    vec![
        ("kind", Json::from(kind(head))),
        ("p", Json::from(head.p)),
        ("q", Json::from(head.q)),
        ("n", Json::from(u64::from(head.n))),
    ]
}

pub fn state_json(state: State) -> Json {
    let kind = match state.kind {
        StateKind::Settled => "settled",
        StateKind::Span => "span",
        StateKind::Pair => "pair",
    };
    Json::Object(vec![
        ("kind", Json::from(kind)),
        ("b", Json::from(state.b)),
        ("t", Json::from(state.t)),
        ("e", Json::from(state.e)),
        ("clean", Json::Flag(state.is_clean())),
        ("text", Json::from(state.to_string().as_str())),
    ])
}
