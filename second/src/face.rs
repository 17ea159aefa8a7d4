//! The archive behind its C interface: declarations from include/minnow.h, and a layer that makes a call over copies of
//! what is lent, with guards around each copy.

use crate::call::{Call, Outcome};

extern "C" {
    fn minnow_check(
        diff: *const u8,
        diff_len: usize,
        kind: *mut u8,
        p: *mut u64,
        q: *mut u64,
        n: *mut u32,
    ) -> u32;

    fn minnow_read_state(
        state: *const u8,
        state_len: usize,
        kind: *mut u8,
        b: *mut u64,
        t: *mut u64,
        e: *mut u64,
    ) -> u32;

    fn minnow_write_state(
        kind: u8,
        b: u64,
        t: u64,
        e: u64,
        out: *mut u8,
        out_len: usize,
        size: *mut usize,
    ) -> u32;

    fn minnow_decide(
        diff: *const u8,
        diff_len: usize,
        state: *const u8,
        state_len: usize,
        image: *const u8,
        image_len: usize,
        during: *mut u8,
        during_len: usize,
        done: *mut u8,
        done_len: usize,
    ) -> u32;

    fn minnow_apply(
        diff: *const u8,
        diff_len: usize,
        state: *const u8,
        state_len: usize,
        image: *mut u8,
        image_len: usize,
        done: *mut u8,
        done_len: usize,
    ) -> u32;

    fn minnow_run(
        diff: *const u8,
        diff_len: usize,
        image: *mut u8,
        image_len: usize,
        i: usize,
        k: usize,
        next: *mut usize,
    ) -> u32;

    fn minnow_merge(
        first: *const u8,
        first_len: usize,
        second: *const u8,
        second_len: usize,
        out: *mut u8,
        out_len: usize,
        size: *mut usize,
    ) -> u32;

    fn minnow_compare(
        old_image: *const u8,
        old_len: usize,
        new_image: *const u8,
        new_len: usize,
        p: u64,
        q: u64,
        out: *mut u8,
        out_len: usize,
        size: *mut usize,
    ) -> u32;

    fn minnow_read_through(
        diff: *const u8,
        diff_len: usize,
        image: *const u8,
        image_len: usize,
        a: usize,
        slice: *mut u32,
        at: *mut usize,
    ) -> u32;

    fn minnow_plan(
        heads: *const u8,
        heads_len: usize,
        count: usize,
        state: *const u8,
        state_len: usize,
        target: u64,
        places: *mut usize,
        places_len: usize,
        size: *mut usize,
    ) -> u32;

    fn minnow_lag(state: *const u8, state_len: usize, target: u64, gids: *mut i64) -> u32;
}

/// Places of guard before and after each lent copy.
const GUARD: usize = 40;

/// A copy of what is lent, between two guards.
struct Lent<'a, T> {
    name: &'static str,
    before: &'a [T],
    copy: Vec<T>,
    start: usize,
    guard: T,
}

/// Byte copies start at changing alignments.
fn bytes<'a>(name: &'static str, before: &'a [u8], pattern: u64) -> Lent<'a, u8> {
    Lent::new(name, before, GUARD + (pattern >> 32) as usize % 8, pattern as u8)
}

impl<'a, T: Copy + PartialEq> Lent<'a, T> {
    fn new(name: &'static str, before: &'a [T], start: usize, guard: T) -> Lent<'a, T> {
        let mut copy = Vec::with_capacity(start + before.len() + GUARD);
        copy.resize(start, guard);
        copy.extend_from_slice(before);
        copy.resize(start + before.len() + GUARD, guard);
        Lent { name, before, copy, start, guard }
    }

    fn at(&mut self) -> *mut T {
        self.copy[self.start..].as_mut_ptr()
    }

    fn len(&self) -> usize {
        self.before.len()
    }

    fn after(&self) -> &[T] {
        &self.copy[self.start..self.start + self.before.len()]
    }

    fn guards_hold(&self) -> bool {
        let (front, rest) = self.copy.split_at(self.start);
        let back = &rest[self.before.len()..];
        front.iter().chain(back).all(|place| *place == self.guard)
    }
}

/// Gathers what stands after a call. Guards must hold, and what is lent to read must be as it was.
fn gather(number: u32, numbers: Vec<u64>, read: &[Lent<u8>], written: &[Lent<u8>]) -> Outcome {
    let changed = read.iter().filter(|lent| !lent.guards_hold() || lent.after() != lent.before);
    let overrun = written.iter().filter(|lent| !lent.guards_hold());
    Outcome {
        number,
        numbers,
        buffers: written.iter().map(|lent| lent.after().to_vec()).collect(),
        strayed: changed.chain(overrun).map(|lent| lent.name).collect(),
    }
}

/// The archive's outcome of a call whose lent numbers hold the pattern.
///
/// Every pointer handed over below comes from a `Lent` or from a number on the stack; it is valid and aligned for its
/// length, and no two overlap. That is all that the header asks for.
pub fn answer(call: &Call, pattern: u64) -> Outcome {
    match *call {
        Call::Check { diff } => check(diff, pattern),
        Call::ReadState { state } => read_state(state, pattern),
        Call::WriteState { kind, b, t, e, out } => write_state(kind, [b, t, e], out, pattern),
        Call::Decide { diff, state, image, during, done } => {
            decide([diff, state, image], [during, done], pattern)
        }
        Call::Apply { diff, state, image, done } => apply([diff, state], [image, done], pattern),
        Call::Run { diff, image, i, k } => run(diff, image, i, k, pattern),
        Call::Merge { first, second, out } => merge(first, second, out, pattern),
        Call::Compare { old, new, p, q, out } => compare([old, new], p, q, out, pattern),
        Call::ReadThrough { diff, image, a } => read_through(diff, image, a, pattern),
        Call::Plan { heads, count, state, target, places } => {
            plan([heads, state], count, target, places, pattern)
        }
        Call::Lag { state, target } => lag(state, target, pattern),
    }
}

fn check(diff: &[u8], pattern: u64) -> Outcome {
    let mut diff = bytes("diff", diff, pattern);
    let (mut kind, mut p, mut q, mut n) = (pattern as u8, pattern, pattern, pattern as u32);
    let number = unsafe { minnow_check(diff.at(), diff.len(), &mut kind, &mut p, &mut q, &mut n) };
    gather(number, vec![kind.into(), p, q, n.into()], &[diff], &[])
}

fn read_state(state: &[u8], pattern: u64) -> Outcome {
    let mut state = bytes("state", state, pattern);
    let (mut kind, mut b, mut t, mut e) = (pattern as u8, pattern, pattern, pattern);
    let number = unsafe { minnow_read_state(state.at(), state.len(), &mut kind, &mut b, &mut t, &mut e) };
    gather(number, vec![kind.into(), b, t, e], &[state], &[])
}

fn write_state(kind: u8, [b, t, e]: [u64; 3], out: &[u8], pattern: u64) -> Outcome {
    let mut out = bytes("out", out, pattern);
    let mut length = pattern as usize;
    let number = unsafe { minnow_write_state(kind, b, t, e, out.at(), out.len(), &mut length) };
    gather(number, vec![length as u64], &[], &[out])
}

fn decide([diff, state, image]: [&[u8]; 3], [during, done]: [&[u8]; 2], pattern: u64) -> Outcome {
    let mut diff = bytes("diff", diff, pattern);
    let mut state = bytes("state", state, pattern);
    let mut image = bytes("image", image, pattern);
    let mut during = bytes("during", during, pattern);
    let mut done = bytes("done", done, pattern);
    let number = unsafe {
        minnow_decide(
            diff.at(),
            diff.len(),
            state.at(),
            state.len(),
            image.at(),
            image.len(),
            during.at(),
            during.len(),
            done.at(),
            done.len(),
        )
    };
    gather(number, vec![], &[diff, state, image], &[during, done])
}

fn apply([diff, state]: [&[u8]; 2], [image, done]: [&[u8]; 2], pattern: u64) -> Outcome {
    let mut diff = bytes("diff", diff, pattern);
    let mut state = bytes("state", state, pattern);
    let mut image = bytes("image", image, pattern);
    let mut done = bytes("done", done, pattern);
    let number = unsafe {
        minnow_apply(
            diff.at(),
            diff.len(),
            state.at(),
            state.len(),
            image.at(),
            image.len(),
            done.at(),
            done.len(),
        )
    };
    gather(number, vec![], &[diff, state], &[image, done])
}

fn run(diff: &[u8], image: &[u8], i: usize, k: usize, pattern: u64) -> Outcome {
    let mut diff = bytes("diff", diff, pattern);
    let mut image = bytes("image", image, pattern);
    let mut next = pattern as usize;
    let number = unsafe { minnow_run(diff.at(), diff.len(), image.at(), image.len(), i, k, &mut next) };
    gather(number, vec![next as u64], &[diff], &[image])
}

fn merge(first: &[u8], second: &[u8], out: &[u8], pattern: u64) -> Outcome {
    let mut first = bytes("first", first, pattern);
    let mut second = bytes("second", second, pattern);
    let mut out = bytes("out", out, pattern);
    let mut length = pattern as usize;
    let number = unsafe {
        minnow_merge(first.at(), first.len(), second.at(), second.len(), out.at(), out.len(), &mut length)
    };
    gather(number, vec![length as u64], &[first, second], &[out])
}

fn compare([old, new]: [&[u8]; 2], p: u64, q: u64, out: &[u8], pattern: u64) -> Outcome {
    let mut old = bytes("old image", old, pattern);
    let mut new = bytes("new image", new, pattern);
    let mut out = bytes("out", out, pattern);
    let mut length = pattern as usize;
    let number = unsafe {
        minnow_compare(old.at(), old.len(), new.at(), new.len(), p, q, out.at(), out.len(), &mut length)
    };
    gather(number, vec![length as u64], &[old, new], &[out])
}

fn read_through(diff: &[u8], image: &[u8], a: usize, pattern: u64) -> Outcome {
    let mut diff = bytes("diff", diff, pattern);
    let mut image = bytes("image", image, pattern);
    let (mut slice, mut at) = (pattern as u32, pattern as usize);
    let number = unsafe {
        minnow_read_through(diff.at(), diff.len(), image.at(), image.len(), a, &mut slice, &mut at)
    };
    gather(number, vec![slice.into(), at as u64], &[diff, image], &[])
}

fn plan([heads, state]: [&[u8]; 2], count: usize, target: u64, places: &[usize], pattern: u64) -> Outcome {
    let mut heads = bytes("heads", heads, pattern);
    let mut state = bytes("state", state, pattern);
    let mut places = Lent::new("places", places, GUARD, pattern as usize);
    let mut length = pattern as usize;
    let number = unsafe {
        minnow_plan(
            heads.at(),
            heads.len(),
            count,
            state.at(),
            state.len(),
            target,
            places.at(),
            places.len(),
            &mut length,
        )
    };
    let numbers = places.after().iter().chain([&length]).map(|place| *place as u64).collect();
    let mut outcome = gather(number, numbers, &[heads, state], &[]);
    if !places.guards_hold() {
        outcome.strayed.push(places.name);
    }
    outcome
}

fn lag(state: &[u8], target: u64, pattern: u64) -> Outcome {
    let mut state = bytes("state", state, pattern);
    let mut gids = pattern as i64;
    let number = unsafe { minnow_lag(state.at(), state.len(), target, &mut gids) };
    gather(number, vec![gids as u64], &[state], &[])
}

#[cfg(test)]
mod tests {
    use super::*;

    /// A stray write just before, just past or into what is lent to read is seen.
    #[test]
    fn stray_writes_are_seen() {
        let before = [1, 2, 3];
        for place in [GUARD - 1, GUARD, GUARD + 2, GUARD + 3] {
            let mut lent = bytes("diff", &before, 9);
            lent.copy[place] ^= 1;
            assert_eq!(gather(0, vec![], &[lent], &[]).strayed, ["diff"]);
        }
        let mut out = bytes("out", &before, 9);
        out.copy[GUARD] ^= 1;
        let outcome = gather(0, vec![], &[], &[out]);
        assert!(outcome.strayed.is_empty());
        assert_eq!(outcome.buffers, [[0, 2, 3]]);
    }
}
