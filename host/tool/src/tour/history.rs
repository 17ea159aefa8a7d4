//! The history that the tour's files are made from, and that every outcome is held to: a queue's volume from gid 5 to gid 12.
//! Blocks hold text, so that `minnow show` on kept files shows when a block was written.

use minnow::{BLOCK, HEAD, RECORD};

pub const BLOCKS: usize = 32_768;
pub const FIRST: u64 = 5;
pub const LAST: u64 = 12;

const LOG: u8 = 0;
const COMPARED: u8 = 1;

/// Scatters the writes of a step over the volume (the finalizer of splitmix64).
fn scattered(step: u64, block: usize) -> u64 {
    let z = (step << 32 | block as u64).wrapping_mul(0x9E37_79B9_7F4A_7C15);
    let z = (z ^ (z >> 30)).wrapping_mul(0xBF58_476D_1CE4_E5B9);
    let z = (z ^ (z >> 27)).wrapping_mul(0x94D0_49BB_1331_11EB);
    z ^ (z >> 31)
}

/// Step g leads from gid g to gid g + 1 and writes one block in three.
fn writes(step: u64, block: usize) -> bool {
    scattered(step, block) % 3 == 1
}

/// One write in four brings back what the block held at the first gid.
fn brings_back(step: u64, block: usize) -> bool {
    (scattered(step, block) >> 32) % 4 == 1
}

/// The step whose content a block has at a gid, or none if it is still, or again, that of the first gid.
fn written_by(block: usize, gid: u64) -> Option<u64> {
    let last = (FIRST..gid).rev().find(|step| writes(*step, block))?;
    (!brings_back(last, block)).then_some(last)
}

/// A block at a gid.
pub fn block(block: usize, gid: u64) -> [u8; BLOCK] {
    let text = match written_by(block, gid) {
        Some(step) => format!("block {block}, written in step {step}\n"),
        None => format!("block {block}, as it was at gid {FIRST}\n"),
    };
    let mut bytes = text.bytes().cycle();
    std::array::from_fn(|_| bytes.next().unwrap_or(b'\n'))
}

pub fn image(gid: u64) -> Vec<u8> {
    (0..BLOCKS).flat_map(|a| block(a, gid)).collect()
}

/// Blocks whose contents at two gids differ.
pub fn changed(p: u64, q: u64) -> Vec<usize> {
    let differs = |a: &usize| written_by(*a, p) != written_by(*a, q);
    (0..BLOCKS).filter(differs).collect()
}

/// Blocks that the steps from p on to q - 1 write.
fn logged(p: u64, q: u64) -> Vec<usize> {
    let written = |a: &usize| (p..q).any(|step| writes(step, *a));
    (0..BLOCKS).filter(written).collect()
}

pub fn log(p: u64, q: u64) -> Vec<u8> {
    diff(LOG, p, q, &logged(p, q))
}

pub fn compared(p: u64, q: u64) -> Vec<u8> {
    diff(COMPARED, p, q, &changed(p, q))
}

fn diff(kind: u8, p: u64, q: u64, blocks: &[usize]) -> Vec<u8> {
    let mut bytes = Vec::with_capacity(HEAD + RECORD * blocks.len());
    bytes.extend([0x57, 0x44, kind, 0]);
    bytes.extend(p.to_le_bytes());
    bytes.extend(q.to_le_bytes());
    bytes.extend((blocks.len() as u32).to_le_bytes());
    for a in blocks {
        bytes.extend([0x57, 0x42]);
        bytes.extend((*a as u32).to_le_bytes());
        bytes.extend(block(*a, q));
    }
    bytes
}

#[cfg(test)]
mod tests {
    use super::*;

    /// The tour shows something only if contents come back: then a compared diff is shorter than the log.
    #[test]
    fn contents_come_back() {
        assert!(changed(9, 12).len() < logged(9, 12).len());
        assert!(!changed(7, 9).is_empty());
    }

    #[test]
    fn what_is_written_is_sound() {
        for diff in [log(5, 9), compared(9, 12)] {
            assert!(minnow::check(&diff).is_ok());
        }
        assert_eq!(image(FIRST).len(), BLOCKS * BLOCK);
    }

    /// A log diff leads from any image between its ends to the last one.
    #[test]
    fn a_log_leads_to_its_end() {
        let mut image_7 = image(7);
        let state = minnow::write_state(minnow::State::clean(7)).expect("a state");
        minnow::apply(&log(5, 9), &state, &mut image_7).expect("an apply");
        assert!(image_7 == image(9));
    }
}
