//! The eleven calls, safe: each lends its slices to the C interface and turns the number that comes back into a `Result`.
//! Overlap of what is written with anything else is ruled out by `&mut`.

use crate::face;
use crate::records::{
    DiffKind, Further, Head, Plan, Slice, State, StateKind, StateRecord, View, BLOCK, HEAD,
    MAX_BLOCKS, PLACES, RECORD, STATE,
};
use crate::refusal::Refusal;

/// The library is proved to answer 0 to 20; another number would mean that something else was linked.
fn said(number: u32) -> Result<(), Refusal> {
    if number == 0 {
        return Ok(());
    }
    match Refusal::of(number) {
        Some(refusal) => Err(refusal),
        None => panic!("the library answered {number}, which is no refusal"),
    }
}

fn diff_kind(number: u8) -> DiffKind {
    match number {
        0 => DiffKind::Log,
        1 => DiffKind::Compared,
        _ => panic!("the library answered {number}, which is no kind of a diff"),
    }
}

fn state_kind(number: u8) -> StateKind {
    match number {
        0 => StateKind::Settled,
        1 => StateKind::Span,
        2 => StateKind::Pair,
        _ => panic!("the library answered {number}, which is no kind of a state"),
    }
}

fn state_kind_number(kind: StateKind) -> u8 {
    match kind {
        StateKind::Settled => 0,
        StateKind::Span => 1,
        StateKind::Pair => 2,
    }
}

/// Checks a diff and gives its head. Refusals 1 to 6.
pub fn check(diff: &[u8]) -> Result<Head, Refusal> {
    let (mut kind, mut p, mut q, mut n) = (0, 0, 0, 0);
    // SAFETY: the slice and the four numbers live through the call and are apart.
    said(unsafe {
        face::minnow_check(diff.as_ptr(), diff.len(), &mut kind, &mut p, &mut q, &mut n)
    })?;
    Ok(Head {
        kind: diff_kind(kind),
        p,
        q,
        n,
    })
}

/// Reads a state record of any bytes. Refusal 7.
pub fn read_state(record: &[u8]) -> Result<State, Refusal> {
    let (mut kind, mut b, mut t, mut e) = (0, 0, 0, 0);
    // SAFETY: the slice and the four numbers live through the call and are apart.
    said(unsafe {
        face::minnow_read_state(
            record.as_ptr(),
            record.len(),
            &mut kind,
            &mut b,
            &mut t,
            &mut e,
        )
    })?;
    Ok(State {
        kind: state_kind(kind),
        b,
        t,
        e,
    })
}

/// Writes a state as its record. Refusal 7.
pub fn write_state(state: State) -> Result<StateRecord, Refusal> {
    let mut record = [0; STATE];
    let mut length = 0;
    // SAFETY: the record and the length live through the call and are apart.
    said(unsafe {
        face::minnow_write_state(
            state_kind_number(state.kind),
            state.b,
            state.t,
            state.e,
            record.as_mut_ptr(),
            record.len(),
            &mut length,
        )
    })?;
    Ok(record)
}

/// Decides an apply and writes nothing: While and Done. Refusals 1 to 9 and 11 to 14.
pub fn decide(diff: &[u8], state: &[u8], image: &[u8]) -> Result<Further, Refusal> {
    let mut further = Further {
        during: [0; STATE],
        done: [0; STATE],
    };
    // SAFETY: the three slices are only read; the two records live through the call and are apart from them and each other.
    said(unsafe {
        face::minnow_decide(
            diff.as_ptr(),
            diff.len(),
            state.as_ptr(),
            state.len(),
            image.as_ptr(),
            image.len(),
            further.during.as_mut_ptr(),
            further.during.len(),
            further.done.as_mut_ptr(),
            further.done.len(),
        )
    })?;
    Ok(further)
}

/// Does an apply: writes every named block and gives Done. Refusals 1 to 9 and 11 to 14; a refusal leaves the image as it is.
///
/// Save While, from [`decide`], before the call: a cut in its middle leaves a mix of old and new bytes.
pub fn apply(diff: &[u8], state: &[u8], image: &mut [u8]) -> Result<StateRecord, Refusal> {
    let mut done = [0; STATE];
    // SAFETY: `image` is borrowed for this call alone, so it is apart from the other slices; the record is our own.
    said(unsafe {
        face::minnow_apply(
            diff.as_ptr(),
            diff.len(),
            state.as_ptr(),
            state.len(),
            image.as_mut_ptr(),
            image.len(),
            done.as_mut_ptr(),
            done.len(),
        )
    })?;
    Ok(done)
}

/// Writes records i up to the smaller of i + k and n into the image and gives that smaller number. It looks at no state.
/// Refusals 1 to 6, 8, 9, 10; a refusal leaves the image as it is.
pub fn run(diff: &[u8], image: &mut [u8], i: usize, k: usize) -> Result<usize, Refusal> {
    let mut next = 0;
    // SAFETY: `image` is borrowed for this call alone, so it is apart from the diff; the number is our own.
    said(unsafe {
        face::minnow_run(
            diff.as_ptr(),
            diff.len(),
            image.as_mut_ptr(),
            image.len(),
            i,
            k,
            &mut next,
        )
    })?;
    Ok(next)
}

/// Merges two log diffs that touch: the result goes to the front of `out`, its length comes back, bytes beyond it stay.
/// Refusals 1 to 6, 15, 16, 17; a refusal leaves `out` as it is.
///
/// 24 + 518 · min(65,536, n1 + n2) bytes always suffice: [`merged_room`].
pub fn merge(first: &[u8], second: &[u8], out: &mut [u8]) -> Result<usize, Refusal> {
    let mut length = 0;
    // SAFETY: `out` is borrowed for this call alone, so it is apart from both diffs; the number is our own.
    said(unsafe {
        face::minnow_merge(
            first.as_ptr(),
            first.len(),
            second.as_ptr(),
            second.len(),
            out.as_mut_ptr(),
            out.len(),
            &mut length,
        )
    })?;
    Ok(length)
}

/// Bytes that always suffice for the merge of two diffs with these heads.
pub fn merged_room(first: &Head, second: &Head) -> usize {
    let most = u64::from(first.n) + u64::from(second.n);
    let blocks = usize::try_from(most).map_or(MAX_BLOCKS, |n| n.min(MAX_BLOCKS));
    HEAD + RECORD * blocks
}

/// Writes the compared diff from p to q of two images to the front of `out`; its length comes back, bytes beyond it stay.
/// Refusals 8, 3, 17; a refusal leaves `out` as it is.
///
/// 24 + 518 · (blocks of an image) bytes always suffice: [`compared_room`].
pub fn compare(old: &[u8], new: &[u8], p: u64, q: u64, out: &mut [u8]) -> Result<usize, Refusal> {
    let mut length = 0;
    // SAFETY: `out` is borrowed for this call alone, so it is apart from both images; the number is our own.
    said(unsafe {
        face::minnow_compare(
            old.as_ptr(),
            old.len(),
            new.as_ptr(),
            new.len(),
            p,
            q,
            out.as_mut_ptr(),
            out.len(),
            &mut length,
        )
    })?;
    Ok(length)
}

/// Bytes that always suffice for the comparison of two images of this length.
pub fn compared_room(image_len: usize) -> usize {
    let blocks = (image_len / BLOCK).min(MAX_BLOCKS);
    HEAD + RECORD * blocks
}

/// Shows block a as it would stand after the apply of the diff. It takes no state. Refusals 1 to 6, 8, 9.
pub fn read_through<'a>(diff: &'a [u8], image: &'a [u8], a: usize) -> Result<View<'a>, Refusal> {
    let (mut number, mut at) = (0, 0);
    // SAFETY: both slices are only read; the two numbers live through the call and are apart.
    said(unsafe {
        face::minnow_read_through(
            diff.as_ptr(),
            diff.len(),
            image.as_ptr(),
            image.len(),
            a,
            &mut number,
            &mut at,
        )
    })?;
    let (slice, lent) = match number {
        0 => (Slice::Diff, diff),
        1 => (Slice::Image, image),
        _ => panic!("the library answered {number}, which is no slice"),
    };
    Ok(View {
        slice,
        at,
        bytes: &lent[at..at + BLOCK],
    })
}

/// Plans a restore to the target gid over a shelf: `count` heads of 24 bytes, back to back; bytes past them have no part in
/// the answer. Refusals 18; for each entry 1 (its bytes are not there), 2, 3, 4; then 7, 20, 19.
pub fn plan(heads: &[u8], count: usize, state: &[u8], target: u64) -> Result<Plan, Refusal> {
    let mut laid_out = [0; PLACES];
    let mut length = 0;
    // SAFETY: both slices are only read; the places and the length live through the call and are apart.
    said(unsafe {
        face::minnow_plan(
            heads.as_ptr(),
            heads.len(),
            count,
            state.as_ptr(),
            state.len(),
            target,
            laid_out.as_mut_ptr(),
            laid_out.len(),
            &mut length,
        )
    })?;
    Ok(Plan::new(laid_out, length))
}

/// The lag: b minus the target gid; below zero, the volume is behind. Refusals 7, 20.
pub fn lag(state: &[u8], target: u64) -> Result<i64, Refusal> {
    let mut gids = 0;
    // SAFETY: the slice is only read; the number is our own.
    said(unsafe { face::minnow_lag(state.as_ptr(), state.len(), target, &mut gids) })?;
    Ok(gids)
}
