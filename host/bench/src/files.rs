//! Two 60,000-block merges as files, for `host/bench/rbd`: as diffs, and the same blocks as rbd diffs ("rbd diff v1").

use crate::made;
use minnow::{BLOCK, HEAD, MAX_BLOCKS, RECORD};
use std::fs;
use std::io;
use std::path::Path;

const SIZE: usize = 60_000;

/// Writes NAME-1 and NAME-2 for "few" and "nearly", each as .minnow, as .rbd with a record for each block, and as .runs.rbd
/// with a record for each run of neighbouring blocks.
pub fn write(folder: &Path) -> io::Result<()> {
    fs::create_dir_all(folder)?;
    let inputs = [
        ("few", made::fewest_common(SIZE)),
        ("nearly", made::nearly_all_common(SIZE)),
    ];
    for (name, addresses) in inputs {
        for (i, gids) in [(0, (5, 7)), (1, (7, 9))] {
            let diff = made::diff(0, gids.0, gids.1, &addresses[i]);
            let path = |kind: &str| folder.join(format!("{name}-{}.{kind}", i + 1));
            fs::write(path("minnow"), &diff)?;
            fs::write(path("rbd"), as_rbd(&diff, gids, |_, _| false))?;
            fs::write(path("runs.rbd"), as_rbd(&diff, gids, |a, b| b == a + 1))?;
        }
    }
    Ok(())
}

/// The blocks of a diff as an rbd diff between the snapshots named after its gids; `joins` says which blocks share a record.
fn as_rbd(diff: &[u8], gids: (u64, u64), joins: fn(u32, u32) -> bool) -> Vec<u8> {
    let mut bytes = b"rbd diff v1\n".to_vec();
    for (tag, gid) in [(b'f', gids.0), (b't', gids.1)] {
        let name = format!("g{gid}");
        bytes.push(tag);
        bytes.extend((name.len() as u32).to_le_bytes());
        bytes.extend(name.bytes());
    }
    bytes.push(b's');
    bytes.extend(((BLOCK * MAX_BLOCKS) as u64).to_le_bytes());
    let blocks: Vec<(u32, &[u8])> = diff[HEAD..].chunks_exact(RECORD).map(block).collect();
    let mut rest = blocks.as_slice();
    while !rest.is_empty() {
        let joined = rest
            .windows(2)
            .take_while(|pair| joins(pair[0].0, pair[1].0));
        let (run, further) = rest.split_at(1 + joined.count());
        rest = further;
        bytes.push(b'w');
        bytes.extend((BLOCK as u64 * u64::from(run[0].0)).to_le_bytes());
        bytes.extend(((BLOCK * run.len()) as u64).to_le_bytes());
        run.iter().for_each(|(_, content)| bytes.extend(*content));
    }
    bytes.push(b'e');
    bytes
}

/// Address and content of a record.
fn block(record: &[u8]) -> (u32, &[u8]) {
    let address = u32::from_le_bytes([record[2], record[3], record[4], record[5]]);
    (address, &record[6..])
}
