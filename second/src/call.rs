//! A call of the face with all that is lent to it, and its outcome: the answer and every lent number and byte after it.

use crate::model::record::{number32, number64, HEAD, STATE};
use crate::model::ANSWERS;

/// Buffers that the call may write are given as they stand before it.
#[derive(Clone, Copy)]
pub enum Call<'a> {
    Check { diff: &'a [u8] },
    ReadState { state: &'a [u8] },
    WriteState { kind: u8, b: u64, t: u64, e: u64, out: &'a [u8] },
    Decide { diff: &'a [u8], state: &'a [u8], image: &'a [u8], during: &'a [u8], done: &'a [u8] },
    Apply { diff: &'a [u8], state: &'a [u8], image: &'a [u8], done: &'a [u8] },
    Run { diff: &'a [u8], image: &'a [u8], i: usize, k: usize },
    Merge { first: &'a [u8], second: &'a [u8], out: &'a [u8] },
    Compare { old: &'a [u8], new: &'a [u8], p: u64, q: u64, out: &'a [u8] },
    ReadThrough { diff: &'a [u8], image: &'a [u8], a: usize },
    Plan { heads: &'a [u8], count: usize, state: &'a [u8], target: u64, places: &'a [usize] },
    Lag { state: &'a [u8], target: u64 },
}

/// The calls' names with every answer that 01 and the header let each of them give.
pub const CALLS: [(&str, &[u32]); 11] = [
    ("check", &[0, 1, 2, 3, 4, 5, 6]),
    ("read state", &[0, 7]),
    ("write state", &[0, 7, 17]),
    ("decide", &[0, 1, 2, 3, 4, 5, 6, 7, 8, 9, 11, 12, 13, 14, 17]),
    ("apply", &[0, 1, 2, 3, 4, 5, 6, 7, 8, 9, 11, 12, 13, 14, 17]),
    ("run", &[0, 1, 2, 3, 4, 5, 6, 8, 9, 10]),
    ("merge", &[0, 1, 2, 3, 4, 5, 6, 15, 16, 17]),
    ("compare", &[0, 3, 8, 17]),
    ("read through", &[0, 1, 2, 3, 4, 5, 6, 8, 9]),
    ("plan", &[0, 1, 2, 3, 4, 7, 17, 18, 19, 20]),
    ("lag", &[0, 7, 20]),
];

impl Call<'_> {
    /// The call's place in `CALLS`.
    pub fn index(&self) -> usize {
        match self {
            Call::Check { .. } => 0,
            Call::ReadState { .. } => 1,
            Call::WriteState { .. } => 2,
            Call::Decide { .. } => 3,
            Call::Apply { .. } => 4,
            Call::Run { .. } => 5,
            Call::Merge { .. } => 6,
            Call::Compare { .. } => 7,
            Call::ReadThrough { .. } => 8,
            Call::Plan { .. } => 9,
            Call::Lag { .. } => 10,
        }
    }

    pub fn name(&self) -> &'static str {
        CALLS[self.index()].0
    }

    /// The inputs in short: lengths, heads, states, numbers.
    pub fn describe(&self) -> String {
        let parts = match *self {
            Call::Check { diff } => vec![show_diff(diff)],
            Call::ReadState { state } => vec![show_state(state)],
            Call::WriteState { kind, b, t, e, out } => {
                vec![format!("kind {kind}, {b}, {t}, {e}"), lent("out", out)]
            }
            Call::Decide { diff, state, image, during, done } => {
                let rooms = [lent("during", during), lent("done", done)];
                vec![show_diff(diff), show_state(state), lent("image", image), rooms.join("; ")]
            }
            Call::Apply { diff, state, image, done } => {
                vec![show_diff(diff), show_state(state), lent("image", image), lent("done", done)]
            }
            Call::Run { diff, image, i, k } => {
                vec![show_diff(diff), lent("image", image), format!("i {i}, k {k}")]
            }
            Call::Merge { first, second, out } => {
                vec![show_diff(first), show_diff(second), lent("out", out)]
            }
            Call::Compare { old, new, p, q, out } => {
                vec![lent("old", old), lent("new", new), format!("{p} to {q}"), lent("out", out)]
            }
            Call::ReadThrough { diff, image, a } => {
                vec![show_diff(diff), lent("image", image), format!("block {a}")]
            }
            Call::Plan { heads, count, state, target, places } => {
                let numbers = format!("target {target}; {} places", places.len());
                vec![show_heads(heads, count), show_state(state), numbers]
            }
            Call::Lag { state, target } => vec![show_state(state), format!("target {target}")],
        };
        parts.join("; ")
    }
}

fn lent(name: &str, bytes: &[u8]) -> String {
    format!("{name} of {} bytes", bytes.len())
}

fn show_diff(bytes: &[u8]) -> String {
    if bytes.len() < HEAD {
        return lent("diff", bytes);
    }
    format!("{} ({})", lent("diff", bytes), show_head(bytes))
}

fn show_head(bytes: &[u8]) -> String {
    let [m0, m1, kind, spare] = [bytes[0], bytes[1], bytes[2], bytes[3]];
    let (p, q, n) = (number64(&bytes[4..]), number64(&bytes[12..]), number32(&bytes[20..]));
    format!("mark {m0:02x} {m1:02x}, kind {kind}, spare {spare}, {p} to {q}, n {n}")
}

fn show_heads(heads: &[u8], count: usize) -> String {
    let entries: Vec<String> = heads.chunks_exact(HEAD).take(count).map(show_head).collect();
    format!("{count} entries in {} ({})", lent("heads", heads), entries.join(" | "))
}

fn show_state(bytes: &[u8]) -> String {
    if bytes.len() != STATE {
        return lent("state", bytes);
    }
    let [m0, m1, kind, spare] = [bytes[0], bytes[1], bytes[2], bytes[3]];
    let (b, t, e) = (number64(&bytes[4..]), number64(&bytes[12..]), number64(&bytes[20..]));
    format!("state (mark {m0:02x} {m1:02x}, kind {kind}, spare {spare}, {b}, {t}, {e})")
}

/// What stands after a call.
#[derive(Clone, PartialEq, Eq)]
pub struct Outcome {
    pub number: u32,
    /// The lent numbers in the header's order.
    pub numbers: Vec<u64>,
    /// The buffers that the call may write, in the header's order.
    pub buffers: Vec<Vec<u8>>,
    /// What was written to although it was not lent for writing.
    pub strayed: Vec<&'static str>,
}

impl Outcome {
    /// Nothing written: each number still holds the pattern (as far as its width goes), each buffer its bytes.
    pub fn untouched(call: &Call, pattern: u64) -> Outcome {
        let byte = u64::from(pattern as u8);
        let half = u64::from(pattern as u32);
        let size = pattern as usize as u64;
        let (numbers, buffers): (Vec<u64>, Vec<&[u8]>) = match *call {
            Call::Check { .. } => (vec![byte, pattern, pattern, half], vec![]),
            Call::ReadState { .. } => (vec![byte, pattern, pattern, pattern], vec![]),
            Call::WriteState { out, .. } => (vec![size], vec![out]),
            Call::Decide { during, done, .. } => (vec![], vec![during, done]),
            Call::Apply { image, done, .. } => (vec![], vec![image, done]),
            Call::Run { image, .. } => (vec![size], vec![image]),
            Call::Merge { out, .. } | Call::Compare { out, .. } => (vec![size], vec![out]),
            Call::ReadThrough { .. } => (vec![half, size], vec![]),
            Call::Plan { places, .. } => (places.iter().map(|p| *p as u64).chain([size]).collect(), vec![]),
            Call::Lag { .. } => (vec![pattern], vec![]),
        };
        let buffers = buffers.into_iter().map(<[u8]>::to_vec).collect();
        Outcome { number: 0, numbers, buffers, strayed: Vec::new() }
    }

    fn show(&self) -> String {
        let numbers: Vec<String> = self.numbers.iter().take(12).map(u64::to_string).collect();
        let more = if self.numbers.len() > 12 { ", ..." } else { "" };
        let name = ANSWERS.get(self.number as usize).unwrap_or(&"no number of 01");
        format!("{} {name}, lent numbers [{}{more}]", self.number, numbers.join(", "))
    }
}

/// How the archive's outcome differs from the model's, if it does.
pub fn difference(model: &Outcome, archive: &Outcome) -> Option<String> {
    if model == archive {
        return None;
    }
    let mut lines = format!("model:   {}\narchive: {}", model.show(), archive.show());
    for (buffer, (by_model, by_archive)) in model.buffers.iter().zip(&archive.buffers).enumerate() {
        let pairs = by_model.iter().zip(by_archive).enumerate();
        if let Some((at, (m, a))) = pairs.into_iter().find(|(_, (m, a))| m != a) {
            lines += &format!("\nbuffer {buffer} differs from byte {at} on: model {m:02x}, archive {a:02x}");
        }
    }
    for name in &archive.strayed {
        lines += &format!("\nthe archive wrote where it was not lent to write: {name}");
    }
    Some(lines)
}

#[cfg(test)]
mod tests {
    use super::*;

    /// A difference that went unseen would let a wrong archive pass.
    #[test]
    fn every_part_of_an_outcome_counts() {
        let call = Call::Merge { first: &[], second: &[], out: &[1, 2, 3] };
        let model = Outcome::untouched(&call, 77);
        assert_eq!(difference(&model, &model.clone()), None);
        let mut others = vec![model.clone(); 4];
        others[0].number = 1;
        others[1].numbers[0] = 78;
        others[2].buffers[0][2] = 4;
        others[3].strayed.push("first");
        for other in &others {
            assert!(difference(&model, other).is_some());
        }
        let lines = difference(&model, &others[2]).unwrap_or_default();
        assert!(lines.contains("buffer 0 differs from byte 2 on: model 03, archive 04"), "{lines}");
    }
}
