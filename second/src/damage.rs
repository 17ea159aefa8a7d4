//! Records that belong to no history, sound and damaged: every kind of record at the edges of its rules, and calls made of
//! them in which more than one input may be bad, so that the order of checks shows.

use crate::call::Call;
use crate::history::History;
use crate::model::pairing;
use crate::model::plan::PLACES;
use crate::model::record::{
    write_diff, write_head, write_state, Block, Blocks, Head, Kind, State, StateKind,
};
use crate::model::record::{
    BLOCK, BLOCKS, BLOCK_MARK, DIFF_MARK, HEAD, MAX_ADDRESS, MAX_GID, RECORD, STATE, STATE_MARK,
};
use crate::rng::Rng;
use crate::table::{Disagreement, Table};

type Asked = Result<(), Disagreement>;

/// One call over made-up records whose gids and blocks lie around those of the history.
pub fn one_call(table: &mut Table, rng: &mut Rng, history: &History) -> Asked {
    let around = history.first().min(MAX_GID - 10);
    let blocks = history.blocks();
    match rng.below(24) {
        0..=3 => check(table, rng, around, blocks),
        4..=5 => states(table, rng, around),
        6..=8 => decide(table, rng, around, blocks),
        9..=11 => apply(table, rng, around, blocks),
        12..=14 => run(table, rng, around, blocks),
        15..=16 => merge(table, rng, around, blocks),
        17..=18 => compare(table, rng, around, blocks),
        19..=20 => read_through(table, rng, around, blocks),
        21..=22 => plan(table, rng, around),
        _ => lag(table, rng, around),
    }
}

fn check(table: &mut Table, rng: &mut Rng, around: u64, blocks: usize) -> Asked {
    let mut diff = sound_diff(rng, around, blocks);
    for _ in 0..rng.below(4) {
        damage_diff(rng, &mut diff);
    }
    table.ask(&Call::Check { diff: &diff }).map(drop)
}

fn states(table: &mut Table, rng: &mut Rng, around: u64) -> Asked {
    let state = any_state(rng, around);
    table.ask(&Call::ReadState { state: &state })?;
    let kind = if rng.once_in(4) { rng.next() as u8 } else { rng.below(4) as u8 };
    let [b, t, e] = [gid(rng, around), gid(rng, around), gid(rng, around)];
    let t = rng.pick(&[b, t, e]);
    let out = room(rng, STATE);
    table.ask(&Call::WriteState { kind, b, t, e, out: &out }).map(drop)
}

fn decide(table: &mut Table, rng: &mut Rng, around: u64, blocks: usize) -> Asked {
    let diff = any_diff(rng, around, blocks);
    let state = any_state(rng, around);
    let image = any_image(rng, blocks);
    let (during, done) = (room(rng, STATE), room(rng, STATE));
    let call = Call::Decide { diff: &diff, state: &state, image: &image, during: &during, done: &done };
    table.ask(&call).map(drop)
}

fn apply(table: &mut Table, rng: &mut Rng, around: u64, blocks: usize) -> Asked {
    let diff = any_diff(rng, around, blocks);
    let state = any_state(rng, around);
    let image = any_image(rng, blocks);
    let done = room(rng, STATE);
    table.ask(&Call::Apply { diff: &diff, state: &state, image: &image, done: &done }).map(drop)
}

fn run(table: &mut Table, rng: &mut Rng, around: u64, blocks: usize) -> Asked {
    let diff = any_diff(rng, around, blocks);
    let image = any_image(rng, blocks);
    let n = diff.len().saturating_sub(HEAD) / RECORD;
    let some = rng.place(n + 2);
    let i = rng.pick(&[0, n.saturating_sub(1), n, n + 1, usize::MAX, some]);
    let long = rng.next() as usize;
    let k = rng.pick(&[0, 1, 2, n, usize::MAX, usize::MAX - i, long]);
    table.ask(&Call::Run { diff: &diff, image: &image, i, k }).map(drop)
}

fn merge(table: &mut Table, rng: &mut Rng, around: u64, blocks: usize) -> Asked {
    let p = around + rng.below(4);
    let middle = p + 1 + rng.below(3);
    let start = if rng.once_in(4) { around + rng.below(8) } else { middle };
    let end = start + 1 + rng.below(2);
    let mut records = any_blocks(rng, blocks);
    let first_kind = if rng.once_in(8) { Kind::Compared } else { Kind::Log };
    let mut first = write_diff(first_kind, p, middle, &records);
    let again = any_blocks(rng, blocks);
    records.retain(|_, _| rng.once_in(3));
    records.extend(again.into_iter().filter(|_| rng.once_in(2)));
    let second_kind = if rng.once_in(8) { Kind::Compared } else { Kind::Log };
    let mut second = write_diff(second_kind, start, end, &records);
    for diff in [&mut first, &mut second] {
        if rng.once_in(4) {
            damage_diff(rng, diff);
        }
    }
    let needed = pairing::merge(&first, &second).map_or(first.len() + second.len(), |merged| merged.len());
    let out = room(rng, needed);
    table.ask(&Call::Merge { first: &first, second: &second, out: &out }).map(drop)
}

fn compare(table: &mut Table, rng: &mut Rng, around: u64, blocks: usize) -> Asked {
    let old = any_image(rng, blocks);
    let mut new = if rng.once_in(8) { any_image(rng, blocks) } else { old.clone() };
    for block in new.chunks_mut(BLOCK) {
        if rng.once_in(3) {
            let byte = rng.pick(&[0, block.len() / 2, block.len() - 1]);
            block[byte] ^= 1 << rng.below(8);
        }
    }
    let (p, q) = (gid(rng, around), gid(rng, around));
    let (p, q) = if rng.once_in(3) { (p, q) } else { (p.min(q), p.max(q).saturating_add(1)) };
    let needed = pairing::compare(&old, &new, p, q).map_or(HEAD, |compared| compared.len());
    let out = room(rng, needed);
    table.ask(&Call::Compare { old: &old, new: &new, p, q, out: &out }).map(drop)
}

fn read_through(table: &mut Table, rng: &mut Rng, around: u64, blocks: usize) -> Asked {
    let diff = any_diff(rng, around, blocks);
    let image = any_image(rng, blocks);
    let some = rng.place(blocks + 1);
    let has = image.len() / BLOCK;
    let a = rng.pick(&[0, some, has.saturating_sub(1), has, 65_535, 65_536, usize::MAX]);
    table.ask(&Call::ReadThrough { diff: &diff, image: &image, a }).map(drop)
}

/// A plan over a small shelf, or now and then over a full one whose gids spread wider.
fn plan(table: &mut Table, rng: &mut Rng, around: u64) -> Asked {
    let (mut count, around, width) = if rng.once_in(12) {
        let full = rng.pick(&[PLACES - 1, PLACES, PLACES, PLACES + 1, PLACES + 2]);
        (full, around.min(MAX_GID - 100), rng.pick(&[5, 20, 60]))
    } else {
        (rng.place(13), around, 5)
    };
    let mut heads: Vec<u8> = (0..count).flat_map(|_| write_head(&any_head(rng, around, width))).collect();
    if count > 0 && rng.once_in(3) {
        for _ in 0..=rng.below(2) {
            let entry = HEAD * rng.place(count);
            damage_head(rng, &mut heads[entry..entry + HEAD]);
        }
    }
    match rng.below(12) {
        0 => count = rng.pick(&[count + 1, PLACES, PLACES + 1, usize::MAX / HEAD, usize::MAX]),
        1 => heads.truncate(rng.place(heads.len() + 1)),
        2 => heads.truncate(heads.len().saturating_sub(1)),
        3 => heads.extend(rng.bytes(29)),
        _ => {}
    }
    let state = any_state(rng, around);
    let target = if rng.once_in(8) { rng.pick(&EDGE_GIDS) } else { around + rng.below(width + 3) };
    let places = if rng.once_in(6) { rng.pick(&[0, 1, PLACES - 1, PLACES + 1, PLACES + 7]) } else { PLACES };
    let places: Vec<usize> = (0..places).map(|_| rng.next() as usize).collect();
    table.ask(&Call::Plan { heads: &heads, count, state: &state, target, places: &places }).map(drop)
}

fn lag(table: &mut Table, rng: &mut Rng, around: u64) -> Asked {
    let state = any_state(rng, around);
    let target = if rng.once_in(4) { rng.pick(&EDGE_GIDS) } else { gid(rng, around) };
    table.ask(&Call::Lag { state: &state, target }).map(drop)
}

const EDGE_GIDS: [u64; 9] = [0, 1, 255, 256, 1 << 32, MAX_GID - 1, MAX_GID, MAX_GID + 1, u64::MAX];

/// One of a few gids close together, so that equal ones are frequent; now and then one at an edge.
fn gid(rng: &mut Rng, around: u64) -> u64 {
    if rng.once_in(20) {
        return rng.pick(&EDGE_GIDS);
    }
    around + rng.below(6)
}

/// A sound head whose p is one of `width` gids.
fn any_head(rng: &mut Rng, around: u64, width: u64) -> Head {
    let kind = if rng.once_in(4) { Kind::Compared } else { Kind::Log };
    let p = around + rng.below(width);
    let q = p + 1 + rng.below(3);
    let n = rng.pick(&[0, 1, 7, 65_535, 65_536]);
    Head { kind, p, q, n }
}

/// Blocks at addresses that the image has, and now and then at some that it hasn't.
fn any_blocks(rng: &mut Rng, blocks: usize) -> Blocks {
    let beyond = if rng.once_in(8) { rng.pick(&[1, 2, 65_536 - blocks as u64]) } else { 0 };
    let limit = blocks as u64 + beyond;
    let few = rng.below(6);
    (0..few).map(|_| (rng.below(limit) as u32, any_block(rng))).collect()
}

/// Few different contents, so that equal ones are frequent, or a random one.
fn any_block(rng: &mut Rng) -> Block {
    let mut block = [rng.below(3) as u8; BLOCK];
    if rng.once_in(2) {
        rng.fill(&mut block);
    }
    block
}

fn sound_diff(rng: &mut Rng, around: u64, blocks: usize) -> Vec<u8> {
    let Head { kind, p, q, .. } = any_head(rng, around, 5);
    write_diff(kind, p, q, &any_blocks(rng, blocks))
}

/// A diff, damaged one time in three.
fn any_diff(rng: &mut Rng, around: u64, blocks: usize) -> Vec<u8> {
    let mut diff = sound_diff(rng, around, blocks);
    if rng.once_in(3) {
        damage_diff(rng, &mut diff);
    }
    diff
}

fn damage_diff(rng: &mut Rng, diff: &mut Vec<u8>) {
    match rng.below(4) {
        0 if diff.len() >= HEAD => damage_head(rng, &mut diff[..HEAD]),
        1 if diff.len() >= HEAD + RECORD => damage_records(rng, &mut diff[HEAD..]),
        2 => add_record(rng, diff),
        _ => damage_bytes(rng, diff),
    }
}

/// A bit flipped, cut off, lengthened, emptied.
fn damage_bytes(rng: &mut Rng, bytes: &mut Vec<u8>) {
    let len = bytes.len();
    match rng.below(8) {
        0..=1 if len > 0 => bytes[rng.place(len)] ^= 1 << rng.below(8),
        2 => bytes.truncate(rng.place(len + 1)),
        3 => bytes.truncate(len.saturating_sub(1)),
        4 => bytes.truncate(rng.pick(&[0, 1, HEAD - 1, HEAD, HEAD + 1, STATE - 1])),
        5 => bytes.truncate(len.saturating_sub(RECORD)),
        6 => bytes.push(rng.next() as u8),
        _ => {
            let more = rng.within(1, 600) as usize;
            bytes.extend(rng.bytes(more));
        }
    }
}

/// One field of a head set to an edge.
fn damage_head(rng: &mut Rng, head: &mut [u8]) {
    let p: [u8; 8] = head[4..12].try_into().expect("eight bytes");
    let n = u32::from_le_bytes(head[20..24].try_into().expect("four bytes"));
    let counts = [0, n.wrapping_sub(1), n.wrapping_add(1), 65_535, 65_536, 65_537, u32::MAX];
    match rng.below(8) {
        0 => head[..2].copy_from_slice(&rng.pick(&[
            [0x44, 0x57],
            BLOCK_MARK,
            STATE_MARK,
            [0, 0],
            [0x57, 0x45],
        ])),
        1 => head[2] = rng.pick(&[0, 1, 2, 3, 128, 255]),
        2 => head[3] = rng.pick(&[1, 128, 255]),
        3 => head[4..12].copy_from_slice(&rng.pick(&EDGE_GIDS).to_le_bytes()),
        4 => head[12..20].copy_from_slice(&rng.pick(&EDGE_GIDS).to_le_bytes()),
        5 => head[12..20].copy_from_slice(&p),
        6 => head[4..20].rotate_left(8),
        _ => head[20..24].copy_from_slice(&rng.pick(&counts).to_le_bytes()),
    }
}

/// One or two fields of block records set to an edge; `records` holds at least one.
fn damage_records(rng: &mut Rng, records: &mut [u8]) {
    let count = records.len() / RECORD;
    for _ in 0..=rng.below(2) {
        let place = rng.place(count);
        let before = RECORD * place.saturating_sub(1);
        let address = u32::from_le_bytes(records[before + 2..before + 6].try_into().expect("four bytes"));
        let near = [address, address.wrapping_sub(1), address.wrapping_add(1)];
        let edges = [0, MAX_ADDRESS, MAX_ADDRESS + 1, u32::MAX, 1 << 24];
        let record = &mut records[RECORD * place..RECORD * (place + 1)];
        match rng.below(4) {
            0 => record[..2].copy_from_slice(&rng.pick(&[[0x42, 0x57], DIFF_MARK, STATE_MARK, [0x57, 0x43]])),
            1 => record[2..6].copy_from_slice(&rng.pick(&near).to_le_bytes()),
            2 => record[2..6].copy_from_slice(&rng.pick(&edges).to_le_bytes()),
            _ => record[..6].rotate_left(1),
        }
    }
}

/// A record more, in order or not, with the head's n raised too or not.
fn add_record(rng: &mut Rng, diff: &mut Vec<u8>) {
    let address = rng.pick(&[0, 1, 11, MAX_ADDRESS - 1, MAX_ADDRESS, MAX_ADDRESS + 1]);
    let mark = if rng.once_in(4) { DIFF_MARK } else { BLOCK_MARK };
    if diff.len() >= HEAD && !rng.once_in(4) {
        let n = u32::from_le_bytes(diff[20..24].try_into().expect("four bytes"));
        diff[20..24].copy_from_slice(&n.wrapping_add(1).to_le_bytes());
    }
    diff.extend(mark);
    diff.extend(address.to_le_bytes());
    diff.extend(any_block(rng));
}

fn any_state(rng: &mut Rng, around: u64) -> Vec<u8> {
    let b = around + rng.below(5);
    let later = b + rng.below(4);
    let (t, e) = (b + 1 + rng.below(3), later + 1);
    let state = match rng.below(5) {
        0..=1 => State { kind: StateKind::Settled, b, t: b, e: b },
        2 => State { kind: StateKind::Settled, b, t: b, e },
        3 => State { kind: StateKind::Span, b, t: t.min(e), e },
        _ => State { kind: StateKind::Pair, b, t: e, e },
    };
    let mut record = write_state(&state);
    if rng.once_in(4) {
        damage_state(rng, &mut record, around);
    }
    record
}

fn damage_state(rng: &mut Rng, record: &mut Vec<u8>, around: u64) {
    let field = 4 + 8 * rng.place(3);
    match rng.below(6) {
        0 => record[..2].copy_from_slice(&rng.pick(&[[0x53, 0x57], DIFF_MARK, BLOCK_MARK, [0x57, 0x52]])),
        1 => record[2] = rng.pick(&[0, 1, 2, 3, 255]),
        2 => record[3] = rng.pick(&[1, 255]),
        3 => record[field..field + 8].copy_from_slice(&rng.pick(&EDGE_GIDS).to_le_bytes()),
        4 => record[field..field + 8].copy_from_slice(&gid(rng, around).to_le_bytes()),
        _ => damage_bytes(rng, record),
    }
}

/// An image of these blocks, and now and then one of another length, also at the limit.
fn any_image(rng: &mut Rng, blocks: usize) -> Vec<u8> {
    let sound = BLOCK * blocks;
    if rng.once_in(5_000) {
        let most = BLOCK * BLOCKS as usize;
        return vec![rng.next() as u8; rng.pick(&[most - BLOCK, most, most + 1, most + BLOCK])];
    }
    let odd = [0, 1, BLOCK - 1, BLOCK, BLOCK + 1, sound - 1, sound + 1, sound + BLOCK, sound - BLOCK];
    let len = if rng.once_in(5) { rng.pick(&odd) } else { sound };
    rng.bytes(len)
}

/// Output of random bytes: mostly with room, else too short by one, or just enough, or empty.
fn room(rng: &mut Rng, needed: usize) -> Vec<u8> {
    let some = rng.place(needed + 1);
    let more = needed + 1 + rng.place(600);
    let len = rng.pick(&[needed, needed, needed, needed + 1, more, more, needed - 1, 0, some]);
    rng.bytes(len)
}
