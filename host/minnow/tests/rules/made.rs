//! Records put together byte by byte from the paper's table, so that the tests do not lean on what they test.

pub const LOG: u8 = 0;
pub const COMPARED: u8 = 1;
pub const SETTLED: u8 = 0;
pub const SPAN: u8 = 1;
pub const PAIR: u8 = 2;

/// A block of one byte value.
pub fn filled(fill: u8) -> [u8; 512] {
    [fill; 512]
}

pub fn head(kind: u8, p: u64, q: u64, n: u32) -> Vec<u8> {
    let mut bytes = vec![0x57, 0x44, kind, 0];
    bytes.extend(p.to_le_bytes());
    bytes.extend(q.to_le_bytes());
    bytes.extend(n.to_le_bytes());
    bytes
}

/// A diff whose blocks are given as address and fill.
pub fn diff(kind: u8, p: u64, q: u64, blocks: &[(u32, u8)]) -> Vec<u8> {
    let mut bytes = head(kind, p, q, blocks.len() as u32);
    for &(address, fill) in blocks {
        bytes.extend([0x57, 0x42]);
        bytes.extend(address.to_le_bytes());
        bytes.extend(filled(fill));
    }
    bytes
}

pub fn state(kind: u8, b: u64, t: u64, e: u64) -> Vec<u8> {
    let mut bytes = vec![0x57, 0x53, kind, 0];
    for gid in [b, t, e] {
        bytes.extend(gid.to_le_bytes());
    }
    bytes
}

pub fn clean(g: u64) -> Vec<u8> {
    state(SETTLED, g, g, g)
}

/// An image of blocks, each of one byte value.
pub fn image(fills: &[u8]) -> Vec<u8> {
    fills.iter().flat_map(|&fill| filled(fill)).collect()
}
