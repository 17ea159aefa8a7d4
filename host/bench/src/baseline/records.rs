//! Heads, states, images and block records in plain Rust: the paper's "Records", with the refusals of "When the desk says no".

use minnow::{
    DiffKind, Head, Refusal, State, StateKind, StateRecord, BLOCK, HEAD, MAX_BLOCKS, MAX_GID,
    RECORD, STATE,
};
use std::slice::{from_raw_parts, from_raw_parts_mut};

const DIFF_MARK: [u8; 2] = [0x57, 0x44];
const BLOCK_MARK: [u8; 2] = [0x57, 0x42];
const STATE_MARK: [u8; 2] = [0x57, 0x53];
/// Where a record's content starts.
const CONTENT: usize = 6;

pub type Record = [u8; RECORD];

fn u64_at(record: &[u8], at: usize) -> u64 {
    let mut field = [0; 8];
    field.copy_from_slice(&record[at..at + 8]);
    u64::from_le_bytes(field)
}

/// Reads a head by the head rules; what follows it is not looked at.
pub fn read_head(bytes: &[u8]) -> Result<Head, Refusal> {
    let head = bytes.get(..HEAD).ok_or(Refusal::CutOff)?;
    if head[..2] != DIFF_MARK {
        return Err(Refusal::BadMark);
    }
    let kind = match head[2] {
        0 => DiffKind::Log,
        1 => DiffKind::Compared,
        _ => return Err(Refusal::BadHead),
    };
    let (p, q) = (u64_at(head, 4), u64_at(head, 12));
    if head[3] != 0 {
        return Err(Refusal::BadHead);
    }
    check_gids(p, q)?;
    let n = u32::from_le_bytes([head[20], head[21], head[22], head[23]]);
    if n as usize > MAX_BLOCKS {
        return Err(Refusal::TooMany);
    }
    Ok(Head { kind, p, q, n })
}

pub fn check_gids(p: u64, q: u64) -> Result<(), Refusal> {
    if p > MAX_GID || q > MAX_GID || p >= q {
        return Err(Refusal::BadHead);
    }
    Ok(())
}

pub fn write_head(head: &Head, out: &mut [u8]) {
    out[..2].copy_from_slice(&DIFF_MARK);
    out[2] = match head.kind {
        DiffKind::Log => 0,
        DiffKind::Compared => 1,
    };
    out[3] = 0;
    out[4..12].copy_from_slice(&head.p.to_le_bytes());
    out[12..20].copy_from_slice(&head.q.to_le_bytes());
    out[20..24].copy_from_slice(&head.n.to_le_bytes());
}

/// Bytes of a diff with n blocks.
pub fn diff_size(n: usize) -> usize {
    HEAD + RECORD * n
}

/// Bytes as arrays of N; a rest that fills none is left out.
pub fn chunks<const N: usize>(bytes: &[u8]) -> &[[u8; N]] {
    // SAFETY: arrays of bytes may stand anywhere, and as many are taken as fit.
    unsafe { from_raw_parts(bytes.as_ptr().cast(), bytes.len() / N) }
}

pub fn chunks_mut<const N: usize>(bytes: &mut [u8]) -> &mut [[u8; N]] {
    // SAFETY: as for `chunks`; the bytes are lent to nobody else.
    unsafe { from_raw_parts_mut(bytes.as_mut_ptr().cast(), bytes.len() / N) }
}

/// The records of a diff that has passed.
pub fn records(diff: &[u8]) -> &[Record] {
    chunks(&diff[HEAD..])
}

pub fn address(record: &Record) -> u32 {
    u32::from_le_bytes([record[2], record[3], record[4], record[5]])
}

pub fn content(record: &Record) -> &[u8] {
    &record[CONTENT..]
}

pub fn write_record(record: &mut Record, address: u32, content: &[u8]) {
    record[..2].copy_from_slice(&BLOCK_MARK);
    record[2..CONTENT].copy_from_slice(&address.to_le_bytes());
    record[CONTENT..].copy_from_slice(content);
}

/// Marks and rising addresses, record after record.
pub fn check_records(records: &[Record]) -> Result<(), Refusal> {
    let mut lowest = 0;
    for record in records {
        if record[..2] != BLOCK_MARK {
            return Err(Refusal::BadMark);
        }
        let address = address(record);
        if address as usize >= MAX_BLOCKS || address < lowest {
            return Err(Refusal::BadOrder);
        }
        lowest = address + 1;
    }
    Ok(())
}

pub fn read_state(bytes: &[u8]) -> Result<State, Refusal> {
    let record: &[u8; STATE] = bytes.try_into().map_err(|_| Refusal::BadState)?;
    let (b, t, e) = (u64_at(record, 4), u64_at(record, 12), u64_at(record, 20));
    if record[..2] != STATE_MARK || record[3] != 0 || b.max(t).max(e) > MAX_GID {
        return Err(Refusal::BadState);
    }
    let (kind, allowed) = match record[2] {
        0 => (StateKind::Settled, t == b && b <= e),
        1 => (StateKind::Span, b < t && t <= e),
        2 => (StateKind::Pair, b < t && t == e),
        _ => return Err(Refusal::BadState),
    };
    if !allowed {
        return Err(Refusal::BadState);
    }
    Ok(State { kind, b, t, e })
}

pub fn write_state(state: &State) -> StateRecord {
    let mut record = [0; STATE];
    record[..2].copy_from_slice(&STATE_MARK);
    record[2] = match state.kind {
        StateKind::Settled => 0,
        StateKind::Span => 1,
        StateKind::Pair => 2,
    };
    record[4..12].copy_from_slice(&state.b.to_le_bytes());
    record[12..20].copy_from_slice(&state.t.to_le_bytes());
    record[20..28].copy_from_slice(&state.e.to_le_bytes());
    record
}

/// The number of blocks of an image.
pub fn check_image(image: &[u8]) -> Result<usize, Refusal> {
    let blocks = image.len() / BLOCK;
    if blocks == 0 || image.len() % BLOCK != 0 || blocks > MAX_BLOCKS {
        return Err(Refusal::BadImage);
    }
    Ok(blocks)
}
