//! What each of the twenty refusals means here, with the actual numbers. The verdict is the library's; these sentences only
//! look at the inputs afterwards, in the order of the paper's checks.

use crate::failure::Failure;
use crate::files::{Content, IMAGE_LIMIT};
use crate::volume::{StateFile, Volume};
use crate::words;
use minnow::{
    DiffKind, Head, Refusal, State, StateKind, BLOCK, HEAD, MAX_BLOCKS, MAX_GID, PLACES, RECORD,
    STATE,
};

const DIFF_MARK: [u8; 2] = [0x57, 0x44];
const BLOCK_MARK: [u8; 2] = [0x57, 0x42];
const STATE_MARK: [u8; 2] = [0x57, 0x53];

/// A sentence, or the paper's words where the inputs show no reason (they changed, or the rules did).
fn or_paper(refusal: Refusal, sentence: Option<String>) -> String {
    sentence.unwrap_or_else(|| refusal.given_when().to_string())
}

/// The number of `N` bytes from `at` on; 0 stands for bytes that are not there.
fn number<const N: usize>(bytes: &[u8], at: usize) -> u64 {
    let mut wide = [0; 8];
    if let Some(part) = bytes.get(at..at + N) {
        wide[..N].copy_from_slice(part);
    }
    u64::from_le_bytes(wide)
}

fn byte(bytes: &[u8], at: usize) -> u8 {
    bytes.get(at).copied().unwrap_or(0)
}

/// The mark at `at` where it is not the one that belongs there.
fn other_mark(bytes: &[u8], at: usize, mark: [u8; 2]) -> Option<String> {
    let found = bytes.get(at..at + 2)?;
    (found != mark).then(|| {
        format!(
            "{:02x} {:02x} instead of {:02x} {:02x}",
            found[0], found[1], mark[0], mark[1]
        )
    })
}

/// Refusals 1 to 6 of a diff.
pub fn diff(refusal: Refusal, diff: &Content) -> Failure {
    let (bytes, size) = (diff.bytes.as_slice(), diff.size);
    let n = number::<4>(bytes, 20);
    let sentence = match refusal {
        Refusal::CutOff => Some(cut_off(size, n)),
        Refusal::BadMark => bad_mark(bytes),
        Refusal::BadHead => bad_head(byte(bytes, 2), byte(bytes, 3), gids(bytes)),
        Refusal::TooMany => Some(format!(
            "the head counts {n} blocks, at most {MAX_BLOCKS} are allowed"
        )),
        Refusal::BadOrder => bad_order(bytes),
        Refusal::Tail => Some(tail(size, n)),
        _ => None,
    };
    Failure::refused(refusal, &diff.name, or_paper(refusal, sentence))
}

fn gids(bytes: &[u8]) -> (u64, u64) {
    (number::<8>(bytes, 4), number::<8>(bytes, 12))
}

fn whole(n: u64) -> u64 {
    HEAD as u64 + RECORD as u64 * n
}

fn cut_off(size: u64, n: u64) -> String {
    if size < HEAD as u64 {
        return format!("{size} bytes, a head alone has {HEAD}");
    }
    format!(
        "{size} bytes, under the {HEAD} + {RECORD} * {n} = {} of the diff",
        whole(n)
    )
}

fn tail(size: u64, n: u64) -> String {
    let beyond = size.saturating_sub(whole(n));
    let bytes = words::count(beyond, "byte");
    format!("{bytes} beyond the {HEAD} + {RECORD} * {n} of the diff")
}

fn bad_mark(bytes: &[u8]) -> Option<String> {
    if let Some(marks) = other_mark(bytes, 0, DIFF_MARK) {
        return Some(format!("the file opens with {marks}: it is no diff"));
    }
    (HEAD..bytes.len()).step_by(RECORD).find_map(|at| {
        let marks = other_mark(bytes, at, BLOCK_MARK)?;
        let record = (at - HEAD) / RECORD;
        Some(format!("record {record}, at byte {at}, opens with {marks}"))
    })
}

fn bad_head(kind: u8, spare: u8, (p, q): (u64, u64)) -> Option<String> {
    if kind > 1 {
        return Some(format!("kind {kind}, only 0 (log) and 1 (compared) exist"));
    }
    if spare != 0 {
        return Some(format!("the spare byte is {spare}, not zero"));
    }
    if let Some(gid) = [p, q].into_iter().find(|gid| *gid > MAX_GID) {
        return Some(format!("gid {gid} is above {MAX_GID}"));
    }
    (p >= q).then(|| format!("it would lead from gid {p} to {q}, not forward"))
}

/// Where each record of a diff stands, and the block that it names.
pub fn addresses(bytes: &[u8]) -> impl Iterator<Item = (usize, u64)> + '_ {
    let starts = (HEAD..bytes.len()).step_by(RECORD);
    starts.map(|at| (at, number::<4>(bytes, at + 2)))
}

fn bad_order(bytes: &[u8]) -> Option<String> {
    let mut before = None;
    for (i, (at, address)) in addresses(bytes).enumerate() {
        if address >= MAX_BLOCKS as u64 {
            let last = MAX_BLOCKS - 1;
            return Some(format!(
                "record {i}, at byte {at}, names block {address}, above {last}"
            ));
        }
        if let Some(before) = before.filter(|before| *before >= address) {
            return Some(format!(
                "record {i}, at byte {at}, names block {address} after block {before}"
            ));
        }
        before = Some(address);
    }
    None
}

/// Refusal 7 of a state file.
pub fn state(refusal: Refusal, state: &Content) -> Failure {
    let sentence = bad_record(&state.bytes, state.size);
    Failure::refused(refusal, &state.name, or_paper(refusal, sentence))
}

fn bad_record(bytes: &[u8], size: u64) -> Option<String> {
    if size != STATE as u64 {
        return Some(format!("{size} bytes, a state record has {STATE}"));
    }
    if let Some(marks) = other_mark(bytes, 0, STATE_MARK) {
        return Some(format!("the file opens with {marks}: it is no state"));
    }
    let (kind, spare) = (byte(bytes, 2), byte(bytes, 3));
    if spare != 0 {
        return Some(format!("the spare byte is {spare}, not zero"));
    }
    let kind = match kind {
        0 => StateKind::Settled,
        1 => StateKind::Span,
        2 => StateKind::Pair,
        _ => return Some(format!("kind {kind}, only 0, 1 and 2 exist")),
    };
    let (b, t, e) = (
        number::<8>(bytes, 4),
        number::<8>(bytes, 12),
        number::<8>(bytes, 20),
    );
    bad_values(State { kind, b, t, e })
}

/// Refusal 7 of the values that a new state is made of.
pub fn state_values(refusal: Refusal, file: &str, state: State) -> Failure {
    Failure::refused(refusal, file, or_paper(refusal, bad_values(state)))
}

fn bad_values(state: State) -> Option<String> {
    let State { kind, b, t, e } = state;
    if let Some(gid) = [b, t, e].into_iter().find(|gid| *gid > MAX_GID) {
        return Some(format!("gid {gid} is above {MAX_GID}"));
    }
    let (name, rule, holds) = match kind {
        StateKind::Settled => ("settled", "t = b ≤ e", t == b && b <= e),
        StateKind::Span => ("span", "b < t ≤ e", b < t && t <= e),
        StateKind::Pair => ("pair", "b < t = e", b < t && t == e),
    };
    (!holds).then(|| format!("a {name} state has {rule}; here b = {b}, t = {t}, e = {e}"))
}

/// Refusal 8 of one image.
fn image(refusal: Refusal, name: &str, size: u64) -> Failure {
    Failure::refused(refusal, name, or_paper(refusal, bad_image(size)))
}

fn bad_image(size: u64) -> Option<String> {
    if size == 0 {
        return Some("the image has no bytes".to_string());
    }
    if size > IMAGE_LIMIT as u64 {
        return Some(format!(
            "{size} bytes, an image has at most {MAX_BLOCKS} blocks, {IMAGE_LIMIT} bytes"
        ));
    }
    let beyond = size % BLOCK as u64;
    (beyond != 0).then(|| {
        let blocks = words::count(size / BLOCK as u64, "block");
        let beyond = words::count(beyond, "byte");
        format!("{size} bytes are {blocks} of {BLOCK} and {beyond}")
    })
}

/// Refusal 9 of a diff: the first block that it names and the image has not.
fn outside(refusal: Refusal, diff: &Content, blocks: u64) -> Failure {
    Failure::refused(
        refusal,
        &diff.name,
        or_paper(refusal, names_outside(diff, blocks)),
    )
}

fn names_outside(diff: &Content, blocks: u64) -> Option<String> {
    let (_, named) = addresses(&diff.bytes).find(|(_, address)| *address >= blocks)?;
    Some(format!(
        "the diff names block {named}, the volume has {blocks}"
    ))
}

/// A refusal of a decision or an apply.
pub fn apply(refusal: Refusal, diff: &Content, state: &StateFile, volume: &Volume) -> Failure {
    match refusal {
        Refusal::BadState => self::state(refusal, state.content()),
        Refusal::BadImage => image(refusal, volume.name(), volume.size()),
        Refusal::Outside => outside(refusal, diff, volume.blocks()),
        _ => match (
            minnow::check(&diff.bytes),
            minnow::read_state(state.record()),
        ) {
            (Ok(head), Ok(at)) => {
                let sentence = unacceptable(refusal, &head, at);
                Failure::refused(refusal, &diff.name, or_paper(refusal, sentence))
            }
            _ => self::diff(refusal, diff),
        },
    }
}

/// Refusals 11 to 14.
fn unacceptable(refusal: Refusal, head: &Head, state: State) -> Option<String> {
    let (p, q, b, t) = (head.p, head.q, state.b, state.t);
    match refusal {
        Refusal::Behind => Some(format!(
            "the diff ends at gid {q}, the volume stands at {b} already"
        )),
        Refusal::Gap => Some(format!(
            "the diff starts at gid {p}, the volume stands at {b}"
        )),
        Refusal::Short => Some(format!(
            "the diff ends at gid {q}, an apply to {t} was cut: {state}"
        )),
        Refusal::NotExact => Some(format!(
            "a compared diff from {p} to {q} goes onto clean {p} or pair {p},{q},{q} alone, the volume is {state}"
        )),
        _ => None,
    }
}

/// A refusal of a run that starts at record `i`.
pub fn run(refusal: Refusal, diff: &Content, volume: &Volume, i: usize) -> Failure {
    match refusal {
        Refusal::BadImage => image(refusal, volume.name(), volume.size()),
        Refusal::Outside => outside(refusal, diff, volume.blocks()),
        Refusal::BadStart => Failure::refused(refusal, &diff.name, bad_start(i, &diff.bytes)),
        _ => self::diff(refusal, diff),
    }
}

fn bad_start(i: usize, diff: &[u8]) -> String {
    let n = number::<4>(diff, 20);
    format!("the run starts at record {i}, the diff has {n}")
}

/// A refusal of a read-through of one block.
pub fn read_through(refusal: Refusal, diff: &Content, volume: &Volume, block: usize) -> Failure {
    let blocks = volume.blocks();
    match refusal {
        Refusal::BadImage => image(refusal, volume.name(), volume.size()),
        Refusal::Outside if block as u64 >= blocks => {
            let sentence = format!("block {block} is asked for, the volume has {blocks}");
            Failure::refused(refusal, volume.name(), sentence)
        }
        Refusal::Outside => outside(refusal, diff, blocks),
        _ => self::diff(refusal, diff),
    }
}

/// A refusal of a merge into a buffer of `room` bytes.
pub fn merge(refusal: Refusal, first: &Content, second: &Content, room: usize) -> Failure {
    let heads = (minnow::check(&first.bytes), minnow::check(&second.bytes));
    match heads {
        (Err(_), _) => diff(refusal, first),
        (_, Err(_)) => diff(refusal, second),
        (Ok(one), Ok(two)) => {
            let (name, sentence) = unmergeable(refusal, (first, &one), (second, &two), room);
            Failure::refused(refusal, name, or_paper(refusal, sentence))
        }
    }
}

/// Refusals 15 to 17: the file that is meant, and why.
fn unmergeable<'a>(
    refusal: Refusal,
    (first, one): (&'a Content, &Head),
    (second, two): (&'a Content, &Head),
    room: usize,
) -> (&'a str, Option<String>) {
    let compared = |head: &Head| {
        let (p, q) = (head.p, head.q);
        Some(format!(
            "a compared diff ({p} to {q}); only log diffs are merged"
        ))
    };
    match refusal {
        Refusal::Compared if one.kind == DiffKind::Compared => (&first.name, compared(one)),
        Refusal::Compared => (&second.name, compared(two)),
        Refusal::Apart => {
            let (q, p) = (one.q, two.p);
            let sentence = format!("the first diff ends at gid {q}, this one starts at {p}");
            (&second.name, Some(sentence))
        }
        Refusal::NoRoom => (&first.name, Some(no_room(room))),
        _ => (&first.name, None),
    }
}

fn no_room(room: usize) -> String {
    format!("the result is longer than the {room} bytes set aside for it")
}

/// A refusal of a comparison of two images into a buffer of `room` bytes.
pub fn compare(
    refusal: Refusal,
    (old, new): (&Content, &Content),
    (p, q): (u64, u64),
    room: usize,
) -> Failure {
    match refusal {
        Refusal::BadImage => unequal(refusal, old, new),
        Refusal::NoRoom => Failure::refused(refusal, &new.name, no_room(room)),
        _ => {
            let sentence = bad_head(1, 0, (p, q));
            Failure::refused(refusal, &new.name, or_paper(refusal, sentence))
        }
    }
}

fn unequal(refusal: Refusal, old: &Content, new: &Content) -> Failure {
    if let Some(bad) = [old, new]
        .into_iter()
        .find(|one| bad_image(one.size).is_some())
    {
        return image(refusal, &bad.name, bad.size);
    }
    let sentence = format!("{} bytes, {} has {}", new.size, old.name, old.size);
    Failure::refused(refusal, &new.name, sentence)
}

/// A refusal of a plan over the shelf.
pub fn plan(
    refusal: Refusal,
    heads: &[Head],
    count: usize,
    state: &StateFile,
    target: u64,
) -> Failure {
    let sentence = match refusal {
        Refusal::ShelfFull => {
            let sentence = format!("{count} diffs, a shelf holds {PLACES}");
            return Failure::refused_at_all(refusal, sentence);
        }
        Refusal::BadState => return self::state(refusal, state.content()),
        Refusal::BadGid => return Failure::refused_at_all(refusal, bad_gid(target)),
        Refusal::NoChain => minnow::read_state(state.record())
            .ok()
            .map(|at| no_chain(heads, at, target)),
        _ => None,
    };
    Failure::refused(refusal, state.name(), or_paper(refusal, sentence))
}

fn bad_gid(target: u64) -> String {
    format!("the target gid {target} is above {MAX_GID}")
}

fn no_chain(heads: &[Head], state: State, target: u64) -> String {
    let diffs = words::count(heads.len() as u64, "diff");
    let lead = format!("no list of the {diffs} leads from {state} to clean {target}");
    if state.e > target {
        let e = state.e;
        return format!("{lead}; the volume has bytes up to gid {e}, and no diff leads back");
    }
    if heads.iter().all(|head| head.q != target) {
        return format!("{lead}; none of them ends at {target}");
    }
    if heads
        .iter()
        .all(|head| head.p > state.b || head.q <= state.b)
    {
        let b = state.b;
        return format!("{lead}; none of them takes the volume on from gid {b}");
    }
    lead
}

/// A refusal of the lag.
pub fn lag(refusal: Refusal, state: &StateFile, target: u64) -> Failure {
    match refusal {
        Refusal::BadGid => Failure::refused_at_all(refusal, bad_gid(target)),
        _ => self::state(refusal, state.content()),
    }
}

#[cfg(test)]
mod tests {
    use super::*;

    /// Refusals that no command gets: a run of ours starts within the diff, and a result has all the room it can need.
    #[test]
    fn sentences_that_no_command_line_reaches() {
        let mut head = vec![0; HEAD];
        head[20] = 2;
        let said = bad_start(3, &head);
        assert_eq!(said, "the run starts at record 3, the diff has 2");
        let said = no_room(1577);
        let expected = "the result is longer than the 1577 bytes set aside for it";
        assert_eq!(said, expected);
    }

    #[test]
    fn bytes_that_are_not_there_are_no_panic() {
        assert_eq!(number::<8>(&[1, 2], 0), 0);
        assert_eq!(other_mark(&[1], 0, DIFF_MARK), None);
        assert_eq!(bad_mark(&DIFF_MARK), None);
        assert_eq!(bad_order(&[]), None);
        assert_eq!(or_paper(Refusal::Gap, None), "p > b");
    }
}
