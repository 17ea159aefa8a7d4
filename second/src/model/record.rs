//! "Records": heads, diffs and states, from their bytes to their meaning and back.

use std::collections::BTreeMap;

use super::{refuse, Refusal};
use crate::bends::{bent, Bend};

pub const BLOCK: usize = 512;
pub const HEAD: usize = 24;
pub const RECORD: usize = 518;
pub const STATE: usize = 28;
/// Most blocks of an image, and of a diff.
pub const BLOCKS: u64 = 65_536;
pub const MAX_ADDRESS: u32 = 65_535;
pub const MAX_GID: u64 = 9_223_372_036_854_775_807;

pub const DIFF_MARK: [u8; 2] = [0x57, 0x44];
pub const BLOCK_MARK: [u8; 2] = [0x57, 0x42];
pub const STATE_MARK: [u8; 2] = [0x57, 0x53];

pub type Block = [u8; BLOCK];
pub type Blocks = BTreeMap<u32, Block>;

#[derive(Clone, Copy, Debug, PartialEq, Eq)]
pub enum Kind {
    Log = 0,
    Compared = 1,
}

#[derive(Clone, Copy, Debug, PartialEq, Eq)]
pub struct Head {
    pub kind: Kind,
    pub p: u64,
    pub q: u64,
    pub n: u32,
}

#[derive(Clone, Debug, PartialEq, Eq)]
pub struct Diff {
    pub head: Head,
    pub blocks: Blocks,
}

#[derive(Clone, Copy, Debug, PartialEq, Eq, PartialOrd, Ord)]
pub enum StateKind {
    Settled = 0,
    Span = 1,
    Pair = 2,
}

#[derive(Clone, Copy, Debug, PartialEq, Eq, PartialOrd, Ord)]
pub struct State {
    pub kind: StateKind,
    pub b: u64,
    pub t: u64,
    pub e: u64,
}

pub fn number32(bytes: &[u8]) -> u32 {
    u32::from_le_bytes([bytes[0], bytes[1], bytes[2], bytes[3]])
}

pub fn number64(bytes: &[u8]) -> u64 {
    u64::from(number32(bytes)) | u64::from(number32(&bytes[4..])) << 32
}

pub fn too_large(gid: u64) -> bool {
    if bent(Bend::GidLimit) {
        return gid > MAX_GID + 1;
    }
    gid > MAX_GID
}

/// Whether two gids may stand in a head as p and q.
pub fn bad_gids(p: u64, q: u64) -> bool {
    let against = if bent(Bend::HeadEqual) { p > q } else { p >= q };
    too_large(p) || too_large(q) || against
}

fn under_a_head(bytes: &[u8]) -> Result<(), Refusal> {
    refuse(Refusal::CutOff, bytes.len() < HEAD)
}

fn head_mark(bytes: &[u8]) -> Result<(), Refusal> {
    refuse(Refusal::BadMark, bytes[..2] != DIFF_MARK)
}

fn bad_head(bytes: &[u8]) -> Result<(), Refusal> {
    let (p, q) = (number64(&bytes[4..]), number64(&bytes[12..]));
    let spare = bytes[3] != 0 && !bent(Bend::SpareFree);
    refuse(Refusal::BadHead, bytes[2] > 1 || spare || bad_gids(p, q))
}

fn too_many(bytes: &[u8]) -> Result<(), Refusal> {
    let n = u64::from(number32(&bytes[20..]));
    let limit = if bent(Bend::CountLimit) { BLOCKS - 1 } else { BLOCKS };
    refuse(Refusal::TooMany, n > limit)
}

/// A head's fields, after its checks.
fn head_of(bytes: &[u8]) -> Head {
    Head {
        kind: if bytes[2] == 0 { Kind::Log } else { Kind::Compared },
        p: number64(&bytes[4..]),
        q: number64(&bytes[12..]),
        n: number32(&bytes[20..]),
    }
}

/// An entry of a shelf: 1 where its 24 bytes are not there, then 2, 3, 4.
pub fn read_head(bytes: &[u8]) -> Result<Head, Refusal> {
    under_a_head(bytes)?;
    head_mark(bytes)?;
    if bent(Bend::TooManyFirst) {
        too_many(bytes)?;
    }
    bad_head(bytes)?;
    too_many(bytes)?;
    Ok(head_of(bytes))
}

fn under_its_records(bytes: &[u8]) -> Result<(), Refusal> {
    refuse(Refusal::CutOff, (bytes.len() as u64) < whole_length(bytes))
}

/// 24 + 518n by the head's n.
fn whole_length(bytes: &[u8]) -> u64 {
    HEAD as u64 + RECORD as u64 * u64::from(number32(&bytes[20..]))
}

fn tail(bytes: &[u8]) -> Result<(), Refusal> {
    refuse(Refusal::Tail, bytes.len() as u64 > whole_length(bytes))
}

/// Checks a diff: under 24 bytes, mark, BadHead, TooMany, CutOff, Tail, then record after record.
pub fn check(bytes: &[u8]) -> Result<Diff, Refusal> {
    under_a_head(bytes)?;
    if bent(Bend::BadHeadFirst) {
        bad_head(bytes)?;
    }
    head_mark(bytes)?;
    if bent(Bend::TooManyFirst) {
        too_many(bytes)?;
    }
    bad_head(bytes)?;
    if bent(Bend::CutOffFirst) {
        under_its_records(bytes)?;
    }
    too_many(bytes)?;
    under_its_records(bytes)?;
    if !bent(Bend::TailLast) {
        tail(bytes)?;
    }
    let head = head_of(bytes);
    let records = &bytes[HEAD..HEAD + RECORD * head.n as usize];
    let blocks = read_records(records)?;
    tail(bytes)?;
    Ok(Diff { head, blocks })
}

fn read_records(records: &[u8]) -> Result<Blocks, Refusal> {
    let mut blocks = Blocks::new();
    let mut before = None;
    if bent(Bend::MarksFirst) {
        for record in records.chunks(RECORD) {
            block_mark(record)?;
        }
    }
    for record in records.chunks(RECORD) {
        let address = number32(&record[2..]);
        if bent(Bend::AddressFirst) {
            bad_order(before, address)?;
        }
        block_mark(record)?;
        bad_order(before, address)?;
        blocks.insert(address, block_of(&record[6..]));
        before = Some(address);
    }
    Ok(blocks)
}

fn block_mark(record: &[u8]) -> Result<(), Refusal> {
    refuse(Refusal::BadMark, record[..2] != BLOCK_MARK)
}

fn bad_order(before: Option<u32>, address: u32) -> Result<(), Refusal> {
    let limit = if bent(Bend::AddressLimit) { MAX_ADDRESS + 1 } else { MAX_ADDRESS };
    let not_above = match before {
        None => false,
        Some(before) if bent(Bend::OrderEqual) => address < before,
        Some(before) => address <= before,
    };
    refuse(Refusal::BadOrder, address > limit || not_above)
}

/// The first 512 of some bytes.
pub fn block_of(bytes: &[u8]) -> Block {
    let mut block = [0; BLOCK];
    block.copy_from_slice(&bytes[..BLOCK]);
    block
}

pub fn write_head(head: &Head) -> Vec<u8> {
    let mut bytes = DIFF_MARK.to_vec();
    bytes.extend([head.kind as u8, 0]);
    bytes.extend(head.p.to_le_bytes());
    bytes.extend(head.q.to_le_bytes());
    bytes.extend(head.n.to_le_bytes());
    bytes
}

/// The one diff with this kind, these gids and these blocks.
pub fn write_diff(kind: Kind, p: u64, q: u64, blocks: &Blocks) -> Vec<u8> {
    let n = blocks.len() as u32;
    let mut bytes = Vec::with_capacity(HEAD + RECORD * blocks.len());
    bytes.extend(write_head(&Head { kind, p, q, n }));
    for (address, content) in blocks {
        bytes.extend(BLOCK_MARK);
        bytes.extend(address.to_le_bytes());
        bytes.extend(content);
    }
    bytes
}

/// The state of these four numbers, if they make one.
pub fn state_of(kind: u8, b: u64, t: u64, e: u64) -> Result<State, Refusal> {
    let (kind, fits) = match kind {
        0 => (StateKind::Settled, t == b && b <= e),
        1 if bent(Bend::SpanShort) => (StateKind::Span, b < t && t < e),
        1 => (StateKind::Span, b < t && t <= e),
        2 if bent(Bend::PairLoose) => (StateKind::Pair, b < t && t <= e),
        2 => (StateKind::Pair, b < t && t == e),
        _ => return Err(Refusal::BadState),
    };
    let large = too_large(b) || too_large(t) || too_large(e);
    refuse(Refusal::BadState, large || !fits)?;
    Ok(State { kind, b, t, e })
}

pub fn read_state(bytes: &[u8]) -> Result<State, Refusal> {
    refuse(Refusal::BadState, bytes.len() != STATE)?;
    let spare = bytes[3] != 0 && !bent(Bend::SpareFree);
    refuse(Refusal::BadState, bytes[..2] != STATE_MARK || spare)?;
    state_of(bytes[2], number64(&bytes[4..]), number64(&bytes[12..]), number64(&bytes[20..]))
}

pub fn write_state(state: &State) -> Vec<u8> {
    let mut bytes = STATE_MARK.to_vec();
    bytes.extend([state.kind as u8, 0]);
    bytes.extend(state.b.to_le_bytes());
    bytes.extend(state.t.to_le_bytes());
    bytes.extend(state.e.to_le_bytes());
    bytes
}

/// The number of blocks of an image of this length.
pub fn image_blocks(length: usize) -> Result<u64, Refusal> {
    let blocks = (length / BLOCK) as u64;
    let limit = if bent(Bend::ImageLimit) { BLOCKS + 1 } else { BLOCKS };
    let whole = length % BLOCK == 0;
    refuse(Refusal::BadImage, length == 0 || !whole || blocks > limit)?;
    Ok(blocks)
}
