//! A plan in plain Rust: a search in the order of the places that never enters a place twice.

use super::{after, records};
use minnow::{Head, Refusal, State, HEAD, MAX_GID, PLACES};

/// The first list of places, in dictionary order, that leads from the state to clean at the target.
pub fn plan(heads: &[u8], count: usize, state: &[u8], target: u64) -> Result<Vec<usize>, Refusal> {
    if count > PLACES {
        return Err(Refusal::ShelfFull);
    }
    let mut shelf = Vec::with_capacity(count);
    for place in 0..count {
        let entry = heads.get(HEAD * place..).unwrap_or_default();
        shelf.push(records::read_head(entry)?);
    }
    let state = records::read_state(state)?;
    if target > MAX_GID {
        return Err(Refusal::BadGid);
    }
    let mut search = Search {
        shelf: &shelf,
        target,
        dead: [false; PLACES],
        list: Vec::with_capacity(count),
    };
    if search.reaches(&state) {
        return Ok(search.list);
    }
    Err(Refusal::NoChain)
}

struct Search<'a> {
    shelf: &'a [Head],
    target: u64,
    /// Places whose diff leads nowhere: gids only rise along a list, so the state after a place is the same on every way to it.
    dead: [bool; PLACES],
    list: Vec<usize>,
}

impl Search<'_> {
    fn reaches(&mut self, state: &State) -> bool {
        if state.is_clean() && state.b == self.target {
            return true;
        }
        for place in 0..self.shelf.len() {
            if self.dead[place] {
                continue;
            }
            let done = match after(&self.shelf[place], state) {
                Ok(done) => done,
                Err(_) => continue,
            };
            self.list.push(place);
            if self.reaches(&done) {
                return true;
            }
            self.list.pop();
            self.dead[place] = true;
        }
        false
    }
}
