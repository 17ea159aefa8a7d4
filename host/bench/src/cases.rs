//! What is measured. Before a case is timed, both sides run once and every answer and every lent byte is compared.

use crate::baseline;
use crate::made;
use crate::timing::{alternate, black_box, Effort, Measured};
use minnow::{Refusal, MAX_BLOCKS, PLACES};
use std::fmt::Debug;

/// Above the plain Rust's time by at most this factor: what is aimed at.
const CHECK_AIM: f64 = 1.2;
const APPLY_AIM: f64 = 1.2;
const MERGE_AIM: f64 = 1.5;
const COMPARE_AIM: f64 = 1.2;

pub struct Row {
    pub call: &'static str,
    pub size: usize,
    pub input: &'static str,
    pub aim: Option<f64>,
    pub measured: Measured,
}

/// The answer, if both sides gave the same.
pub fn agreed<T: PartialEq + Debug>(what: &str, library: T, plain: T) -> Result<T, String> {
    if library == plain {
        return Ok(library);
    }
    Err(format!(
        "{what}: the library says {library:?}, plain Rust {plain:?}"
    ))
}

/// Fails where what was lent to the two sides does not hold the same bytes.
pub fn same_bytes(what: &str, library: &[u8], plain: &[u8]) -> Result<(), String> {
    if library == plain {
        return Ok(());
    }
    let at = library.iter().zip(plain).position(|(a, b)| a != b);
    Err(format!("{what}: the two sides differ at byte {at:?}"))
}

/// Fails where a case that is to be timed is refused.
fn accepted<T>(what: &str, answer: Result<T, Refusal>) -> Result<(), String> {
    answer
        .map(|_| ())
        .map_err(|refusal| format!("{what}: refused, {refusal}"))
}

pub fn check(size: usize, effort: Effort) -> Result<Row, String> {
    let mut diff = made::diff(0, 5, 9, &made::spread(size, MAX_BLOCKS.min(2 * size), 0));
    let answer = agreed("check", minnow::check(&diff), baseline::check(&diff))?;
    accepted("check", answer)?;
    let measured = alternate(
        &mut diff,
        |diff| _ = black_box(minnow::check(black_box(diff))),
        |diff| _ = black_box(baseline::check(black_box(diff))),
        effort,
    );
    Ok(row("check", size, "", Some(CHECK_AIM), measured))
}

pub fn apply(size: usize, effort: Effort) -> Result<Row, String> {
    let blocks = MAX_BLOCKS.min(2 * size);
    let diff = made::diff(0, 5, 9, &made::spread(size, blocks, 0));
    let state = made::state(0, 7, 7, 7);
    let mut image = made::image(blocks, |_| false);
    let mut plain = image.clone();
    let library_said = minnow::apply(&diff, &state, &mut image);
    let plain_said = baseline::apply(&diff, &state, &mut plain);
    accepted("apply", agreed("apply", library_said, plain_said)?)?;
    same_bytes("apply", &image, &plain)?;
    let measured = alternate(
        &mut image,
        |image| _ = black_box(minnow::apply(black_box(&diff), &state, image)),
        |image| _ = black_box(baseline::apply(black_box(&diff), &state, image)),
        effort,
    );
    Ok(row("apply", size, "", Some(APPLY_AIM), measured))
}

/// The bytes of an output before the call: those beyond the result have to stay.
const UNTOUCHED: u8 = 0xA5;
/// Bytes of an output beyond any result.
const BEYOND: usize = 64;

pub fn merge(
    size: usize,
    input: &'static str,
    addresses: [Vec<u32>; 2],
    effort: Effort,
) -> Result<Row, String> {
    let first = made::diff(0, 5, 7, &addresses[0]);
    let second = made::diff(0, 7, 9, &addresses[1]);
    let mut out = vec![UNTOUCHED; first.len() + second.len() + BEYOND];
    let mut plain = out.clone();
    let library_said = minnow::merge(&first, &second, &mut out);
    let plain_said = baseline::merge(&first, &second, &mut plain);
    accepted("merge", agreed("merge", library_said, plain_said)?)?;
    same_bytes("merge", &out, &plain)?;
    let measured = alternate(
        &mut out,
        |out| _ = black_box(minnow::merge(black_box(&first), &second, out)),
        |out| _ = black_box(baseline::merge(black_box(&first), &second, out)),
        effort,
    );
    Ok(row("merge", size, input, Some(MERGE_AIM), measured))
}

pub fn compare(
    size: usize,
    input: &'static str,
    differs: fn(usize) -> bool,
    effort: Effort,
) -> Result<Row, String> {
    let old = made::image(size, |_| false);
    let new = made::image(size, differs);
    let mut out = vec![UNTOUCHED; minnow::compared_room(new.len()) + BEYOND];
    let mut plain = out.clone();
    let library_said = minnow::compare(&old, &new, 5, 9, &mut out);
    let plain_said = baseline::compare(&old, &new, 5, 9, &mut plain);
    accepted("compare", agreed("compare", library_said, plain_said)?)?;
    same_bytes("compare", &out, &plain)?;
    let measured = alternate(
        &mut out,
        |out| _ = black_box(minnow::compare(black_box(&old), &new, 5, 9, out)),
        |out| _ = black_box(baseline::compare(black_box(&old), &new, 5, 9, out)),
        effort,
    );
    Ok(row("compare", size, input, Some(COMPARE_AIM), measured))
}

/// The list or the refusal of either side.
pub fn plans(
    heads: &[u8],
    count: usize,
    state: &[u8],
    target: u64,
) -> [Result<Vec<usize>, Refusal>; 2] {
    let library = minnow::plan(heads, count, state, target);
    let plain = baseline::plan(heads, count, state, target);
    [library.map(|plan| plan.places().to_vec()), plain]
}

/// A shelf of log diffs with these ends, for a volume that is clean at 0; `places` says how long a list there is, if any.
pub fn plan(
    input: &'static str,
    ends: impl Iterator<Item = (u64, u64)>,
    target: u64,
    places: Option<usize>,
    effort: Effort,
) -> Result<Row, String> {
    let mut heads: Vec<u8> = ends.flat_map(|(p, q)| made::head(0, p, q, 1)).collect();
    let state = made::state(0, 0, 0, 0);
    let [library, plain] = plans(&heads, PLACES, &state, target);
    let answer = agreed("plan", library, plain)?;
    if answer.as_ref().ok().map(Vec::len) != places {
        return Err(format!(
            "plan, {input}: {answer:?} is no plan for this case"
        ));
    }
    let measured = alternate(
        &mut heads,
        |heads| _ = black_box(minnow::plan(black_box(heads), PLACES, &state, target)),
        |heads| _ = black_box(baseline::plan(black_box(heads), PLACES, &state, target)),
        effort,
    );
    Ok(row("plan", PLACES, input, None, measured))
}

fn row(
    call: &'static str,
    size: usize,
    input: &'static str,
    aim: Option<f64>,
    measured: Measured,
) -> Row {
    Row {
        call,
        size,
        input,
        aim,
        measured,
    }
}
