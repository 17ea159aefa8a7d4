//! Check, apply, merge, compare and plan in plain Rust, with every check of the paper in its order: what the proved library is
//! measured against. Of the crate `minnow` it uses names, sizes and value types, and none of its calls.

mod plan;
mod records;

pub use plan::plan;

use minnow::{DiffKind, Head, Refusal, State, StateKind, StateRecord, BLOCK, HEAD};
use records::{address, Record};

pub fn check(diff: &[u8]) -> Result<Head, Refusal> {
    let head = records::read_head(diff)?;
    let size = records::diff_size(head.n as usize);
    if diff.len() < size {
        return Err(Refusal::CutOff);
    }
    if diff.len() > size {
        return Err(Refusal::Tail);
    }
    records::check_records(records::records(diff))?;
    Ok(head)
}

/// Rules 11 to 14, and Done of an accepted apply.
fn after(head: &Head, state: &State) -> Result<State, Refusal> {
    if head.q <= state.b {
        return Err(Refusal::Behind);
    }
    if head.p > state.b {
        return Err(Refusal::Gap);
    }
    if head.q < state.t {
        return Err(Refusal::Short);
    }
    if head.kind == DiffKind::Compared && !is_exact(head, state) {
        return Err(Refusal::NotExact);
    }
    Ok(State::settled(head.q, head.q.max(state.e)))
}

fn is_exact(head: &Head, state: &State) -> bool {
    let same_pair = state.kind == StateKind::Pair && head.q == state.t;
    head.p == state.b && (state.is_clean() || same_pair)
}

pub fn apply(diff: &[u8], state: &[u8], image: &mut [u8]) -> Result<StateRecord, Refusal> {
    let head = check(diff)?;
    let state = records::read_state(state)?;
    let blocks = records::check_image(image)?;
    let named = records::records(diff);
    // Addresses rise: the last one decides.
    if named
        .last()
        .map_or(false, |last| address(last) as usize >= blocks)
    {
        return Err(Refusal::Outside);
    }
    let done = after(&head, &state)?;
    let blocks = records::chunks_mut::<BLOCK>(image);
    for record in named {
        blocks[address(record) as usize].copy_from_slice(records::content(record));
    }
    Ok(records::write_state(&done))
}

/// The records of two diffs in the order of addresses, the second's where both name a block.
struct Union<'a> {
    first: &'a [Record],
    second: &'a [Record],
}

impl<'a> Iterator for Union<'a> {
    type Item = &'a Record;

    fn next(&mut self) -> Option<&'a Record> {
        let (a, first) = match self.first.split_first() {
            Some(split) => split,
            None => {
                let (b, second) = self.second.split_first()?;
                self.second = second;
                return Some(b);
            }
        };
        let (b, second) = match self.second.split_first() {
            Some(split) => split,
            None => {
                self.first = first;
                return Some(a);
            }
        };
        if address(a) < address(b) {
            self.first = first;
            return Some(a);
        }
        if address(a) == address(b) {
            self.first = first;
        }
        self.second = second;
        Some(b)
    }
}

pub fn merge(first: &[u8], second: &[u8], out: &mut [u8]) -> Result<usize, Refusal> {
    let (head, next) = (check(first)?, check(second)?);
    if head.kind == DiffKind::Compared || next.kind == DiffKind::Compared {
        return Err(Refusal::Compared);
    }
    if head.q != next.p {
        return Err(Refusal::Apart);
    }
    let union = || Union {
        first: records::records(first),
        second: records::records(second),
    };
    let n = union().count();
    let size = records::diff_size(n);
    let result = out.get_mut(..size).ok_or(Refusal::NoRoom)?;
    let merged = Head {
        q: next.q,
        n: n as u32,
        ..head
    };
    records::write_head(&merged, result);
    let places = records::chunks_mut(&mut result[HEAD..]);
    for (place, record) in places.iter_mut().zip(union()) {
        *place = *record;
    }
    Ok(size)
}

pub fn compare(old: &[u8], new: &[u8], p: u64, q: u64, out: &mut [u8]) -> Result<usize, Refusal> {
    records::check_image(old)?;
    records::check_image(new)?;
    if old.len() != new.len() {
        return Err(Refusal::BadImage);
    }
    records::check_gids(p, q)?;
    let (old, new) = (records::chunks::<BLOCK>(old), records::chunks::<BLOCK>(new));
    let differing: Vec<u32> = (0..)
        .zip(old.iter().zip(new))
        .filter(|(_, (before, now))| before != now)
        .map(|(a, _)| a)
        .collect();
    let size = records::diff_size(differing.len());
    let result = out.get_mut(..size).ok_or(Refusal::NoRoom)?;
    let head = Head {
        kind: DiffKind::Compared,
        p,
        q,
        n: differing.len() as u32,
    };
    records::write_head(&head, result);
    let places = records::chunks_mut(&mut result[HEAD..]);
    for (place, &a) in places.iter_mut().zip(&differing) {
        records::write_record(place, a, &new[a as usize]);
    }
    Ok(size)
}
