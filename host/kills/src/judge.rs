//! What must hold of a volume after a cut: its state is true of its bytes, and nothing moved that no diff of the run names.

use crate::history::{block, block_mut, History, BLOCK};
use crate::rules::{Head, State, PAIR};

/// One diff of a run: the states around it.
#[derive(Clone, Copy, Debug)]
pub struct Leg {
    pub head: Head,
    pub during: State,
    pub done: State,
}

/// How far a run came.
#[derive(Clone, Copy, PartialEq, Eq, Debug)]
pub enum Place {
    /// So many legs are done, and no further one has begun.
    Between(usize),
    /// So many legs are done, and the next is under way.
    During(usize),
}

/// Truth as the paper defines it: of which gids each byte may be.
pub fn is_true(state: State, image: &[u8], history: &History) -> Result<(), String> {
    let gids: Vec<u64> = match state.kind {
        PAIR => vec![state.b, state.t],
        _ => (state.b..=state.e).collect(),
    };
    if image.len() != BLOCK * history.blocks() {
        return Err(format!("the volume has {} bytes", image.len()));
    }
    for a in 0..history.blocks() {
        let found = block(image, a);
        let of = |gid: &u64| block(history.image(*gid), a);
        if gids.iter().any(|gid| of(gid) == found) {
            continue;
        }
        let may = |i: usize| gids.iter().any(|gid| of(gid)[i] == found[i]);
        if let Some(i) = (0..BLOCK).find(|i| !may(*i)) {
            return Err(format!("{state:?} is not true: byte {i} of block {a}"));
        }
    }
    Ok(())
}

/// Finds how far a run came that began with `image` at `start`: the state must be one of the run's, and the volume must be
/// as the run leaves it there.
pub fn place(
    (start, before): (State, &[u8]),
    legs: &[Leg],
    (state, image): (State, &[u8]),
    history: &History,
) -> Result<Place, String> {
    let mut base = before.to_vec();
    let mut wrong = format!("{state:?} is no state of this run");
    if state == start && image == base {
        return Ok(Place::Between(0));
    }
    if state == start {
        wrong = format!("{state:?} stands, but blocks have moved");
    }
    for (done, leg) in legs.iter().enumerate() {
        let names = history.names(&leg.head);
        let new = history.image(leg.head.q);
        if state == leg.during {
            return match stray(&base, &names, new, image) {
                None => Ok(Place::During(done)),
                Some(a) => Err(format!("{state:?}: block {a} is neither as it was nor new")),
            };
        }
        for a in &names {
            block_mut(&mut base, *a).copy_from_slice(block(new, *a));
        }
        if state == leg.done {
            return match (0..history.blocks()).find(|a| block(&base, *a) != block(image, *a)) {
                None => Ok(Place::Between(done + 1)),
                Some(a) => Err(format!("{state:?} is saved, but block {a} is not as then")),
            };
        }
    }
    Err(wrong)
}

/// A block with a byte that is neither the old one nor, where the diff names the block, the new one.
fn stray(old: &[u8], names: &[usize], new: &[u8], image: &[u8]) -> Option<usize> {
    let mut named = vec![false; old.len() / BLOCK];
    names.iter().for_each(|a| named[*a] = true);
    (0..named.len()).find(|a| {
        let (old, new, found) = (block(old, *a), block(new, *a), block(image, *a));
        let byte = |i: usize| found[i] == old[i] || named[*a] && found[i] == new[i];
        found != old && !(0..BLOCK).all(byte)
    })
}
