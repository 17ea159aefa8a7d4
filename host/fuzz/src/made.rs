//! Sound records and images, as the paper's "Records" lays them out, around few gids and few blocks so that the rules meet.

use minnow::{BLOCK, MAX_BLOCKS, MAX_GID};

use crate::random::Random;

pub const LOG: u8 = 0;
pub const COMPARED: u8 = 1;
const SETTLED: u8 = 0;
const SPAN: u8 = 1;
const PAIR: u8 = 2;

/// Gids of one case lie this close together.
const GIDS: u64 = 13;

/// How much memory a case takes.
#[derive(Clone, Copy, PartialEq, Eq, Debug)]
pub enum Size {
    /// A dozen blocks.
    Small,
    /// Some hundred blocks.
    Medium,
    /// The most blocks that the rules allow.
    Full,
}

/// What the inputs of one case have in common.
pub struct World {
    /// Blocks of its images.
    pub blocks: usize,
    /// Its gids lie from here on.
    base: u64,
}

/// A diff's head without its count.
#[derive(Clone, Copy)]
pub struct Ends {
    pub kind: u8,
    pub p: u64,
    pub q: u64,
}

/// A state's fields.
#[derive(Clone, Copy)]
pub struct Fields {
    kind: u8,
    pub b: u64,
    pub t: u64,
    e: u64,
}

impl World {
    pub fn new(random: &mut Random, size: Size) -> World {
        let blocks = match size {
            Size::Small => 1 + random.below(12),
            Size::Medium => 100 + random.below(900),
            Size::Full => MAX_BLOCKS,
        };
        let base = random.pick(&[0, 0, 0, 250, u32::MAX as u64 - 6, MAX_GID - GIDS + 1]);
        World { blocks, base }
    }

    pub fn gid(&self, random: &mut Random) -> u64 {
        self.base + random.next() % GIDS
    }

    /// Two gids, the first below the second.
    fn rising(&self, random: &mut Random) -> (u64, u64) {
        let p = random.next() % (GIDS - 1);
        let q = p + 1 + random.next() % (GIDS - 1 - p);
        (self.base + p, self.base + q)
    }

    pub fn ends(&self, random: &mut Random) -> Ends {
        let (p, q) = self.rising(random);
        let kind = if random.once_in(4) { COMPARED } else { LOG };
        Ends { kind, p, q }
    }

    /// Ends that rules 11 to 14 accept for the state, where such exist within the world's gids.
    pub fn fitting(&self, random: &mut Random, state: Fields) -> Ends {
        let kind = if random.once_in(3) { COMPARED } else { LOG };
        let p = match kind {
            COMPARED => state.b,
            _ => self.base + random.next() % (state.b - self.base + 1),
        };
        let least = state.t.max(state.b + 1);
        let last = (self.base + GIDS - 1).max(least);
        let q = match state.kind {
            PAIR if kind == COMPARED => state.t,
            _ => least + random.next() % (last - least + 1),
        };
        Ends { kind, p, q }
    }

    pub fn state(&self, random: &mut Random) -> Fields {
        let (b, t) = self.rising(random);
        let e = t + random.next() % (self.base + GIDS - t);
        match random.below(4) {
            0 => clean(b),
            1 => fields(SETTLED, b, b, e),
            2 => fields(SPAN, b, t, e),
            _ => fields(PAIR, b, t, t),
        }
    }

    /// Strictly rising addresses of a diff; now and then one lies outside of the image.
    pub fn addresses(&self, random: &mut Random) -> Vec<u32> {
        let beyond = if random.once_in(16) { 3 } else { 0 };
        let end = (self.blocks + beyond).min(MAX_BLOCKS) as u32;
        let all = if self.blocks == MAX_BLOCKS { 2 } else { 4 };
        let every = match random.once_in(all) {
            true => 1,
            false => random.pick(&[2, 2, 4]),
        };
        (0..end).filter(|_| random.once_in(every)).collect()
    }

    pub fn image(&self, random: &mut Random) -> Vec<u8> {
        random.bytes(self.blocks * BLOCK)
    }
}

pub fn clean(g: u64) -> Fields {
    fields(SETTLED, g, g, g)
}

fn fields(kind: u8, b: u64, t: u64, e: u64) -> Fields {
    Fields { kind, b, t, e }
}

pub fn head(ends: Ends, n: u32) -> Vec<u8> {
    let mut bytes = vec![0x57, 0x44, ends.kind, 0];
    bytes.extend(ends.p.to_le_bytes());
    bytes.extend(ends.q.to_le_bytes());
    bytes.extend(n.to_le_bytes());
    bytes
}

/// A diff that names these addresses, with random content.
pub fn diff(random: &mut Random, ends: Ends, addresses: &[u32]) -> Vec<u8> {
    let mut bytes = head(ends, addresses.len() as u32);
    bytes.reserve(minnow::RECORD * addresses.len());
    let mut content = [0; BLOCK];
    for address in addresses {
        bytes.extend([0x57, 0x42]);
        bytes.extend(address.to_le_bytes());
        random.fill(&mut content);
        bytes.extend(content);
    }
    bytes
}

pub fn record(state: Fields) -> Vec<u8> {
    let mut bytes = vec![0x57, 0x53, state.kind, 0];
    for gid in [state.b, state.t, state.e] {
        bytes.extend(gid.to_le_bytes());
    }
    bytes
}
