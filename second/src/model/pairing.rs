//! Two diffs into one, and two images into a compared diff.

use super::record::{bad_gids, block_of, check, image_blocks, write_diff, Blocks, Kind, BLOCK};
use super::{refuse, Refusal};
use crate::bends::{bent, Bend};

/// The bytes of the merged diff: first diff, second diff, 15, 16. Room is the caller's matter.
pub fn merge(first: &[u8], second: &[u8]) -> Result<Vec<u8>, Refusal> {
    if bent(Bend::SecondDiffFirst) {
        check(second)?;
    }
    let first = check(first)?;
    let second = check(second)?;
    let apart =
        if bent(Bend::ApartOnlyGap) { first.head.q < second.head.p } else { first.head.q != second.head.p };
    if bent(Bend::ApartFirst) {
        refuse(Refusal::Apart, apart)?;
    }
    let of_first = first.head.kind == Kind::Compared && !bent(Bend::MergeBySecond);
    refuse(Refusal::Compared, of_first || second.head.kind == Kind::Compared)?;
    refuse(Refusal::Apart, apart)?;
    let blocks = merged(&first.blocks, &second.blocks);
    Ok(write_diff(Kind::Log, first.head.p, second.head.q, &blocks))
}

/// The second diff's block where it names one, else the first's.
fn merged(first: &Blocks, second: &Blocks) -> Blocks {
    let mut blocks = first.clone();
    for (address, content) in second {
        if bent(Bend::MergeDropsEqual) && first.get(address) == Some(content) {
            blocks.remove(address);
        } else if !bent(Bend::MergeFirstWins) || !first.contains_key(address) {
            blocks.insert(*address, *content);
        }
    }
    blocks
}

/// The bytes of the compared diff: 8, then 3 for its gids. Room is the caller's matter.
pub fn compare(old: &[u8], new: &[u8], p: u64, q: u64) -> Result<Vec<u8>, Refusal> {
    if bent(Bend::GidsBeforeImages) {
        refuse(Refusal::BadHead, bad_gids(p, q))?;
    }
    image_blocks(old.len())?;
    image_blocks(new.len())?;
    refuse(Refusal::BadImage, old.len() != new.len())?;
    refuse(Refusal::BadHead, bad_gids(p, q))?;
    let mut blocks = Blocks::new();
    for (address, (was, is)) in old.chunks(BLOCK).zip(new.chunks(BLOCK)).enumerate() {
        let looked_at = if bent(Bend::CompareShort) { BLOCK - 1 } else { BLOCK };
        if was[..looked_at] != is[..looked_at] {
            let content = if bent(Bend::CompareOld) { was } else { is };
            blocks.insert(address as u32, block_of(content));
        }
    }
    Ok(write_diff(Kind::Compared, p, q, &blocks))
}
