//! Full-size cases: images and diffs of 65,536 blocks, large merges and comparisons, shelves of 96 and 97 entries, and gids
//! at the limit.

use crate::call::Call;
use crate::model::plan::PLACES;
use crate::model::record::{
    write_diff, write_head, write_state, Block, Blocks, Head, Kind, State, StateKind,
};
use crate::model::record::{BLOCK, BLOCKS, HEAD, MAX_GID, RECORD, STATE};
use crate::rng::Rng;
use crate::table::{hold, Disagreement, Table};

type Asked = Result<(), Disagreement>;

/// The whole image's length in bytes.
const MOST: usize = BLOCK * BLOCKS as usize;

/// Plays all full-size cases.
pub fn cases(seed: u64, table: &mut Table) -> Asked {
    let mut rng = Rng::new(seed);
    whole_volume(table, &mut rng)?;
    whole_diff(table)?;
    merges(table, &mut rng)?;
    comparisons(table, &mut rng)?;
    chains(table)?;
    many_ways(table)?;
    diffs_at_the_last_gid(table)?;
    states_at_the_last_gid(table)
}

fn clean_at(gid: u64) -> Vec<u8> {
    settled(gid, gid)
}

fn settled(b: u64, e: u64) -> Vec<u8> {
    write_state(&State { kind: StateKind::Settled, b, t: b, e })
}

/// A block whose content depends on the address and the version.
fn block(address: u32, version: u64) -> Block {
    let mut content = [0; BLOCK];
    Rng::new(version << 32 | u64::from(address)).fill(&mut content);
    content
}

fn log(p: u64, q: u64, addresses: impl Iterator<Item = u32>) -> Vec<u8> {
    let blocks: Blocks = addresses.map(|address| (address, block(address, q))).collect();
    write_diff(Kind::Log, p, q, &blocks)
}

/// Asks a call whose answer follows from 01 by hand.
fn expect(table: &mut Table, call: &Call, number: u32, what: &str) -> Asked {
    let outcome = table.ask(call)?;
    hold(outcome.number == number, || format!("{what}: both answer {}, not {number}", outcome.number))
}

/// An image and a diff of 65,536 blocks, and the same diff on images that are a block too short and too long.
fn whole_volume(table: &mut Table, rng: &mut Rng) -> Asked {
    let diff = log(5, 9, 0..65_536);
    let longer = rng.bytes(MOST + BLOCK);
    let state = clean_at(7);
    let (during, done) = (rng.bytes(STATE), rng.bytes(STATE));
    for (length, number) in [(MOST, 0), (MOST - BLOCK, 9), (MOST + BLOCK, 8)] {
        let (diff, state, image) = (&diff[..], &state[..], &longer[..length]);
        let call = Call::Decide { diff, state, image, during: &during, done: &done };
        expect(table, &call, number, "deciding on a full-size image")?;
        let call = Call::Apply { diff, state, image, done: &done };
        expect(table, &call, number, "doing on a full-size image")?;
    }
    let (diff, image) = (&diff[..], &longer[..MOST]);
    for (i, k) in [(0, 1), (65_535, 1), (65_536, 5), (30_000, usize::MAX)] {
        expect(table, &Call::Run { diff, image, i, k }, 0, "a run of a full-size diff")?;
    }
    let call = Call::Run { diff, image, i: 65_537, k: 0 };
    expect(table, &call, 10, "a run that starts beyond a full-size diff")?;
    for (a, number) in [(0, 0), (65_535, 0), (65_536, 9), (usize::MAX, 9)] {
        let call = Call::ReadThrough { diff, image, a };
        expect(table, &call, number, "a full-size read-through")?;
    }
    Ok(())
}

/// A diff of 65,536 blocks, sound, with a record too many, and with its last record out of order.
fn whole_diff(table: &mut Table) -> Asked {
    let mut diff = log(5, 9, 0..65_536);
    expect(table, &Call::Check { diff: &diff }, 0, "a diff of 65,536 blocks")?;
    let mut longer = [&diff[..], &diff[HEAD..HEAD + RECORD]].concat();
    expect(table, &Call::Check { diff: &longer }, 6, "65,537 records under n 65,536")?;
    longer[20..24].copy_from_slice(&65_537u32.to_le_bytes());
    expect(table, &Call::Check { diff: &longer }, 4, "65,537 blocks")?;
    let last = diff.len() - RECORD;
    diff[last + 2..last + 6].copy_from_slice(&65_534u32.to_le_bytes());
    expect(table, &Call::Check { diff: &diff }, 5, "the last of 65,536 records out of order")
}

/// Merges of large diffs: two of 60,000 blocks with as few common ones as can be (54,464) and with nearly all, then two of
/// half the image with none and with ten, and one with an empty diff.
fn merges(table: &mut Table, rng: &mut Rng) -> Asked {
    let low = log(3, 6, 0..60_000);
    let high = log(6, 8, 5_536..65_536);
    let shifted = log(6, 8, 7..60_007);
    let even = log(3, 6, (0..32_768).map(|half| 2 * half));
    let odd = log(6, 8, (0..32_768).map(|half| 2 * half + 1));
    let few = log(6, 8, (0..65_536).filter(|address| address % 2 == 1 || *address < 20));
    let empty = log(6, 8, 0..0);
    let rows = [
        (&low, &high, 65_536),
        (&low, &shifted, 60_007),
        (&even, &odd, 65_536),
        (&even, &few, 65_536),
        (&low, &empty, 60_000),
    ];
    for (first, second, blocks) in rows {
        let needed = HEAD + RECORD * blocks;
        for (room, number) in [(needed - 1, 17), (needed, 0), (needed + 1_000, 0)] {
            let out = rng.bytes(room);
            let call = Call::Merge { first, second, out: &out };
            expect(table, &call, number, "a large merge")?;
        }
    }
    Ok(())
}

/// Comparisons of 32 MiB images that are equal, differ in a byte, in some blocks, in all.
fn comparisons(table: &mut Table, rng: &mut Rng) -> Asked {
    let old = rng.bytes(MOST);
    let mut last_byte = old.clone();
    last_byte[MOST - 1] ^= 1;
    let all: Vec<u8> = old.iter().map(|byte| !byte).collect();
    let mut some = old.clone();
    let mut changed = 0;
    for block in some.chunks_mut(BLOCK).filter(|_| rng.once_in(50)) {
        block[changed % BLOCK] ^= 0x80;
        changed += 1;
    }
    for (new, blocks) in [(&old, 0), (&last_byte, 1), (&some, changed), (&all, 65_536)] {
        let needed = HEAD + RECORD * blocks;
        for (room, number) in [(needed - 1, 17), (needed, 0), (needed + 77, 0)] {
            let out = rng.bytes(room);
            let call = Call::Compare { old: &old, new, p: 1, q: 2, out: &out };
            expect(table, &call, number, "a large comparison")?;
        }
    }
    let call = Call::Compare { old: &old, new: &old[BLOCK..], p: 2, q: 1, out: &[] };
    expect(table, &call, 8, "two images of unequal length, gids that fall, and no room")
}

fn expect_plan(table: &mut Table, shelf: &[Head], state: &[u8], target: u64, number: u32) -> Asked {
    let heads: Vec<u8> = shelf.iter().flat_map(write_head).collect();
    let (count, places) = (shelf.len(), &[7; PLACES][..]);
    let call = Call::Plan { heads: &heads, count, state, target, places };
    expect(table, &call, number, &format!("a plan to {target} over {count} entries"))
}

fn step(kind: Kind, p: u64, q: u64) -> Head {
    Head { kind, p, q, n: 1 }
}

/// Chains of 96 in and against shelf order; 97 entries.
fn chains(table: &mut Table) -> Asked {
    let chain: Vec<Head> = (0..96).map(|p| step(Kind::Log, p, p + 1)).collect();
    let against: Vec<Head> = chain.iter().rev().copied().collect();
    for shelf in [&chain, &against] {
        expect_plan(table, shelf, &clean_at(0), 96, 0)?;
        expect_plan(table, shelf, &settled(0, 60), 96, 0)?;
        expect_plan(table, shelf, &settled(0, 96), 95, 19)?;
        expect_plan(table, shelf, &clean_at(0), 97, 19)?;
        expect_plan(table, shelf, &clean_at(96), 96, 0)?;
    }
    let mut longer = [chain, vec![step(Kind::Log, 96, 97)]].concat();
    expect_plan(table, &longer, &clean_at(0), 97, 18)?;
    longer[0].q = 0;
    expect_plan(table, &longer, &[], u64::MAX, 18)
}

/// Shelves with many ways, which a search must not walk one by one, and an empty one.
fn many_ways(table: &mut Table) -> Asked {
    let two = |p| [step(Kind::Log, p, p + 1), step(Kind::Compared, p, p + 1)];
    let doubled: Vec<Head> = (0..48).flat_map(two).collect();
    expect_plan(table, &doubled, &clean_at(0), 48, 0)?;
    expect_plan(table, &doubled, &clean_at(0), 49, 19)?;
    let fan: Vec<Head> = (0..96).map(|q| step(Kind::Log, 0, q + 1)).collect();
    expect_plan(table, &fan, &clean_at(0), 96, 0)?;
    expect_plan(table, &fan, &clean_at(0), 200, 19)?;
    let same = [step(Kind::Log, 0, 5); 96];
    expect_plan(table, &same, &clean_at(0), 5, 0)?;
    expect_plan(table, &same, &clean_at(0), 6, 19)?;
    expect_plan(table, &[], &clean_at(0), 5, 19)
}

/// Diffs up to the gid 2^63 - 1, and those to 2^63 refused.
fn diffs_at_the_last_gid(table: &mut Table) -> Asked {
    let diff = log(MAX_GID - 3, MAX_GID, 0..2);
    let beyond = log(MAX_GID - 3, MAX_GID + 1, 0..2);
    let (image, state, out) = (vec![3; 2 * BLOCK], clean_at(MAX_GID - 1), vec![9; 2_000]);
    for (diff, number) in [(&diff, 0), (&beyond, 3)] {
        let call = Call::Apply { diff, state: &state, image: &image, done: &out };
        expect(table, &call, number, "an apply at the last gid")?;
        let first = log(MAX_GID - 4, MAX_GID - 3, 0..1);
        let call = Call::Merge { first: &first, second: diff, out: &out };
        expect(table, &call, number, "a merge at the last gid")?;
    }
    for (q, number) in [(MAX_GID, 0), (MAX_GID + 1, 3)] {
        let call = Call::Compare { old: &image, new: &image, p: MAX_GID - 1, q, out: &out };
        expect(table, &call, number, "a comparison at the last gid")?;
    }
    Ok(())
}

/// States, lags and plans at the gid 2^63 - 1, and those at 2^63 refused.
fn states_at_the_last_gid(table: &mut Table) -> Asked {
    let (last, beyond) = (MAX_GID, MAX_GID + 1);
    let rows = [(0, last, 0), (last, 0, 0), (last, last, 0), (0, beyond, 20), (beyond, 0, 7)];
    for (b, target, number) in rows {
        let call = Call::Lag { state: &clean_at(b), target };
        expect(table, &call, number, "a lag at the last gid")?;
    }
    for (e, number) in [(last, 0), (beyond, 7)] {
        let call = Call::WriteState { kind: 0, b: 4, t: 4, e, out: &[9; STATE] };
        expect(table, &call, number, "a state at the last gid")?;
    }
    let shelf = [step(Kind::Log, last - 1, last)];
    expect_plan(table, &shelf, &clean_at(last - 1), last, 0)?;
    expect_plan(table, &shelf, &clean_at(last - 1), beyond, 20)
}
