//! Damage to sound inputs: bits, lengths, parts moved about, and fields set to the edges of their rules.

use minnow::{HEAD, MAX_GID, RECORD};

use crate::random::Random;

/// What an input is meant as, which says where its fields are.
#[derive(Clone, Copy, PartialEq, Eq, Debug)]
pub enum Meant {
    Diff,
    State,
    Image,
    Heads,
}

/// A field: from which byte on, how many bytes.
type Field = (usize, usize);

const HEAD_FIELDS: [Field; 6] = [(0, 2), (2, 1), (3, 1), (4, 8), (12, 8), (20, 4)];
const BLOCK_FIELDS: [Field; 2] = [(0, 2), (2, 4)];
const STATE_FIELDS: [Field; 6] = [(0, 2), (2, 1), (3, 1), (4, 8), (12, 8), (20, 8)];

/// Values that the rules turn on.
const EDGES: [u64; 16] = [
    0,
    1,
    2,
    3,
    255,
    0x4257,
    0x4457,
    0x5357,
    65_535,
    65_536,
    65_537,
    u32::MAX as u64,
    MAX_GID - 1,
    MAX_GID,
    MAX_GID + 1,
    u64::MAX,
];

/// Damages the bytes in one to three ways.
pub fn spoil(random: &mut Random, bytes: &mut Vec<u8>, meant: Meant) {
    for _ in 0..1 + random.below(6) / 3 {
        match random.below(8) {
            0 => flip(random, bytes),
            1 => cut(random, bytes),
            2 => lengthen(random, bytes),
            3 => splice(random, bytes),
            _ => set_field(random, bytes, meant),
        }
    }
}

fn flip(random: &mut Random, bytes: &mut [u8]) {
    if bytes.is_empty() {
        return;
    }
    for _ in 0..1 + random.below(4) {
        let at = random.below(bytes.len());
        bytes[at] ^= 1 << random.below(8);
    }
}

fn cut(random: &mut Random, bytes: &mut Vec<u8>) {
    let len = bytes.len();
    let less = random.pick(&[1, 1, 24, 512, 518, len]).min(len);
    let to = match random.below(3) {
        0 => random.below(len + 1),
        _ => len - less,
    };
    bytes.truncate(to);
}

fn lengthen(random: &mut Random, bytes: &mut Vec<u8>) {
    let more = match random.below(2) {
        0 => random.pick(&[1, 24, 512, 518]),
        _ => 1 + random.below(600),
    };
    let tail = random.bytes(more);
    bytes.extend(tail);
}

/// Copies a part over another place, puts it in there, or takes it out.
fn splice(random: &mut Random, bytes: &mut Vec<u8>) {
    let from = random.below(bytes.len() + 1);
    let to = from + random.below((bytes.len() - from).min(RECORD) + 1);
    let at = random.below(bytes.len() + 1);
    match random.below(3) {
        0 => {
            let at = at.min(bytes.len() - (to - from));
            bytes.copy_within(from..to, at);
        }
        1 => {
            let part = bytes[from..to].to_vec();
            bytes.splice(at..at, part);
        }
        _ => drop(bytes.drain(from..to)),
    }
}

/// Sets a field to an edge, or a step away from what it is.
fn set_field(random: &mut Random, bytes: &mut Vec<u8>, meant: Meant) {
    let (at, width) = match meant {
        Meant::Image if random.once_in(2) => return cut(random, bytes),
        Meant::Image => return flip(random, bytes),
        Meant::State => random.pick(&STATE_FIELDS),
        Meant::Heads => {
            let entry = random.below(bytes.len() / HEAD + 1);
            moved(random.pick(&HEAD_FIELDS), entry * HEAD)
        }
        Meant::Diff => diff_field(random, bytes.len()),
    };
    let field = match bytes.get_mut(at..at + width) {
        Some(field) => field,
        None => return,
    };
    let mut value = [0; 8];
    value[..width].copy_from_slice(field);
    let old = u64::from_le_bytes(value);
    let new = match random.below(4) {
        0 => old.wrapping_add(1),
        1 => old.wrapping_sub(1),
        _ => random.pick(&EDGES),
    };
    field.copy_from_slice(&new.to_le_bytes()[..width]);
}

/// A field of the head, of any record, or of the last one.
fn diff_field(random: &mut Random, len: usize) -> Field {
    let n = len.saturating_sub(HEAD) / RECORD;
    if n == 0 || random.once_in(2) {
        return random.pick(&HEAD_FIELDS);
    }
    let i = if random.once_in(3) {
        n - 1
    } else {
        random.below(n)
    };
    moved(random.pick(&BLOCK_FIELDS), HEAD + i * RECORD)
}

fn moved((at, width): Field, by: usize) -> Field {
    (at + by, width)
}
