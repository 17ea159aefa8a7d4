//! What every call owes whatever it is given: an answer that the header lists; after a refusal nothing changed; after 0 what
//! it wrote lies where it says and nothing else changed. Whether the result is the right one, others judge.

use std::ops::Range;

use minnow::{BLOCK, HEAD, MAX_BLOCKS, MAX_GID, PLACES, RECORD, STATE};

use crate::cases::Case;
use crate::desk::Call;

/// What a call answered, and what then stands in the memory that it could write.
#[derive(Clone, PartialEq, Eq)]
pub struct Outcome {
    pub answer: u32,
    pub written: Vec<Vec<u8>>,
}

impl Outcome {
    /// Carries a digest on over this outcome (FNV-1a, by eight bytes at a time).
    pub fn digest(&self, before: u64) -> u64 {
        let on = |digest: u64, word: u64| (digest ^ word).wrapping_mul(0x0100_0000_01B3);
        let mut digest = on(before, u64::from(self.answer));
        for bytes in &self.written {
            let words = bytes.chunks(8).map(number);
            digest = words
                .fold(on(digest, bytes.len() as u64), on)
                .rotate_left(29);
        }
        digest
    }
}

/// Says what is wrong, if anything is.
pub fn judge(case: &Case, outcome: &Outcome) -> Result<(), String> {
    match outcome.answer {
        0 => accepted(case, &outcome.written),
        answer if !case.call.refusals().contains(&answer) => {
            Err(format!("the header does not list the answer {answer}"))
        }
        answer if outcome.written != case.written => {
            Err(format!("the refusal {answer} changed lent memory"))
        }
        answer if !deserved(case, answer) => {
            Err(format!("the refusal {answer} is not true of the numbers"))
        }
        _ => Ok(()),
    }
}

/// Refusals that speak of a number given by value: it must be so.
fn deserved(case: &Case, answer: u32) -> bool {
    match (case.call, answer) {
        (Call::Run, 10) => case.numbers[0] > count(&case.read[0]) as u64,
        (Call::Plan, 18) => case.numbers[0] > PLACES as u64,
        (Call::Plan, 20) => case.numbers[1] > MAX_GID,
        (Call::Lag, 20) => case.numbers[0] > MAX_GID,
        _ => true,
    }
}

fn accepted(case: &Case, after: &[Vec<u8>]) -> Result<(), String> {
    let before = &case.written;
    match case.call {
        Call::Check => head_given(case, after),
        Call::ReadState => state_given(after),
        Call::WriteState => {
            holds(number(&after[1]) == STATE as u64, "the length is not 28")?;
            stays(&before[0], &after[0], STATE)
        }
        Call::Decide => {
            stays(&before[0], &after[0], STATE)?;
            stays(&before[1], &after[1], STATE)
        }
        Call::Apply => {
            stays(&before[1], &after[1], STATE)?;
            blocks_written(case, after, 0..count(&case.read[0]))
        }
        Call::Run => ran(case, after),
        Call::Merge | Call::Compare => {
            let length = number(&after[1]) as usize;
            let whole = length >= HEAD && (length - HEAD) % RECORD == 0;
            holds(whole, "the length is not that of a diff")?;
            stays(&before[0], &after[0], length)
        }
        Call::ReadThrough => view_given(case, after),
        Call::Plan => plan_given(case, after),
        Call::Lag => {
            let b = field(&case.read[0], 4, 8) as i64;
            let lag = b.checked_sub(case.numbers[0] as i64);
            holds(lag == Some(number(&after[0]) as i64), "the lag is another")
        }
    }
}

fn holds(fact: bool, otherwise: &str) -> Result<(), String> {
    if fact {
        return Ok(());
    }
    Err(format!("answer 0, but {otherwise}"))
}

/// The result fits, and bytes beyond it stand.
fn stays(before: &[u8], after: &[u8], result: usize) -> Result<(), String> {
    holds(result <= before.len(), "there is no room for the result")?;
    holds(
        before[result..] == after[result..],
        "bytes beyond the result changed",
    )
}

/// A little-endian field; bytes that are not there count as zero.
fn field(bytes: &[u8], at: usize, width: usize) -> u64 {
    let mut value = [0; 8];
    if let Some(field) = bytes.get(at..at + width) {
        value[..width].copy_from_slice(field);
    }
    u64::from_le_bytes(value)
}

/// A number that was lent, of any width; both machines are little-endian.
fn number(bytes: &[u8]) -> u64 {
    field(bytes, 0, bytes.len())
}

/// The number of blocks that a diff's head says.
fn count(diff: &[u8]) -> usize {
    field(diff, 20, 4) as usize
}

fn head_given(case: &Case, after: &[Vec<u8>]) -> Result<(), String> {
    let [kind, p, q, n] = [0, 1, 2, 3].map(|place| number(&after[place]));
    let within = kind <= 1 && p < q && q <= MAX_GID && n <= MAX_BLOCKS as u64;
    holds(within, "the head breaks the head rules")?;
    let whole = case.read[0].len() == HEAD + RECORD * n as usize;
    holds(whole, "the diff has another length than its head says")
}

fn state_given(after: &[Vec<u8>]) -> Result<(), String> {
    let [kind, b, t, e] = [0, 1, 2, 3].map(|place| number(&after[place]));
    let fits = match kind {
        0 => t == b && b <= e,
        1 => b < t && t <= e,
        2 => b < t && t == e,
        _ => false,
    };
    holds(fits && e <= MAX_GID, "the state is none")
}

fn ran(case: &Case, after: &[Vec<u8>]) -> Result<(), String> {
    let n = count(&case.read[0]);
    let (i, k) = (case.numbers[0] as usize, case.numbers[1] as usize);
    let next = i.saturating_add(k).min(n);
    holds(
        number(&after[1]) == next as u64,
        "the next record is another",
    )?;
    holds(i <= n, "the run starts beyond record n")?;
    blocks_written(case, after, i..next)
}

/// The image holds the contents of these records, and elsewhere what it held.
fn blocks_written(case: &Case, after: &[Vec<u8>], records: Range<usize>) -> Result<(), String> {
    let diff = &case.read[0];
    let mut image = case.written[0].clone();
    for i in records {
        let at = HEAD + RECORD * i;
        let block = BLOCK * field(diff, at + 2, 4) as usize;
        let content = diff.get(at + 6..at + RECORD);
        match (image.get_mut(block..block + BLOCK), content) {
            (Some(block), Some(content)) => block.copy_from_slice(content),
            _ => return holds(false, "a record is missing or names a block outside"),
        }
    }
    holds(image == after[0], "the image is another")
}

/// The view is inside of its slice, at block a.
fn view_given(case: &Case, after: &[Vec<u8>]) -> Result<(), String> {
    let (slice, at) = (number(&after[0]), number(&after[1]));
    holds(slice <= 1, "the slice is neither the diff nor the image")?;
    let len = case.read[slice as usize].len() as u64;
    let end = at.checked_add(BLOCK as u64);
    holds(
        end.map_or(false, |end| end <= len),
        "the view is not inside",
    )?;
    let shown = match slice {
        0 => field(&case.read[0], (at as usize).saturating_sub(4), 4),
        _ => at / BLOCK as u64,
    };
    holds(shown == case.numbers[0], "the view is of another block")
}

fn plan_given(case: &Case, after: &[Vec<u8>]) -> Result<(), String> {
    stays(&case.written[0], &after[0], 8 * PLACES)?;
    let length = number(&after[1]) as usize;
    holds(length <= PLACES, "the list is longer than a plan")?;
    let places: Vec<u64> = after[0].chunks_exact(8).take(PLACES).map(number).collect();
    let (list, rest) = places.split_at(length);
    let on_shelf = list.iter().all(|&place| place < case.numbers[0]);
    holds(on_shelf, "a place is past the count")?;
    holds(
        rest.iter().all(|&place| place == 0),
        "a place behind the list is not 0",
    )
}
