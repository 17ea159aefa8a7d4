//! "History and truth": random histories of a small volume, the true diffs made from them, and truth asserted by them.

use std::collections::BTreeSet;

use crate::model::record::{block_of, write_diff, Block, Head, Kind, State, StateKind, BLOCK, MAX_GID};
use crate::rng::Rng;

/// The images from a first gid on. Earlier gids exist too, but nothing here uses them.
pub struct History {
    first: u64,
    images: Vec<Vec<u8>>,
    /// The blocks that each step writes, also those written with the content they had.
    written: Vec<BTreeSet<u32>>,
}

impl History {
    pub fn random(rng: &mut Rng) -> History {
        let blocks = rng.within(1, 12) as u32;
        let steps = rng.within(1, 9);
        let mut images = vec![rng.bytes(BLOCK * blocks as usize)];
        let mut written = Vec::new();
        for _ in 0..steps {
            let one_in = rng.within(1, 6);
            let step: BTreeSet<u32> = (0..blocks).filter(|_| rng.once_in(one_in)).collect();
            let mut image = images[images.len() - 1].clone();
            for address in &step {
                let content = new_content(rng, &images, *address);
                image[BLOCK * *address as usize..][..BLOCK].copy_from_slice(&content);
            }
            images.push(image);
            written.push(step);
        }
        History { first: first_gid(rng, steps), images, written }
    }

    pub fn first(&self) -> u64 {
        self.first
    }

    pub fn last(&self) -> u64 {
        self.first + self.written.len() as u64
    }

    pub fn blocks(&self) -> usize {
        self.images[0].len() / BLOCK
    }

    pub fn any_gid(&self, rng: &mut Rng) -> u64 {
        rng.within(self.first(), self.last())
    }

    /// Two different gids in rising order.
    pub fn any_span(&self, rng: &mut Rng) -> (u64, u64) {
        let p = rng.within(self.first(), self.last() - 1);
        (p, rng.within(p + 1, self.last()))
    }

    /// H(g).
    pub fn image(&self, g: u64) -> &[u8] {
        &self.images[(g - self.first) as usize]
    }

    fn block(&self, g: u64, address: u32) -> Block {
        block_of(&self.image(g)[BLOCK * address as usize..])
    }

    /// The blocks that the true diff from p to q of this kind names.
    pub fn names(&self, kind: Kind, p: u64, q: u64) -> BTreeSet<u32> {
        match kind {
            Kind::Log => {
                let steps = (p - self.first) as usize..(q - self.first) as usize;
                self.written[steps].iter().flatten().copied().collect()
            }
            Kind::Compared => {
                let differs = |address: &u32| self.block(p, *address) != self.block(q, *address);
                (0..self.blocks() as u32).filter(differs).collect()
            }
        }
    }

    /// The true diff from p to q of this kind.
    pub fn diff(&self, kind: Kind, p: u64, q: u64) -> Vec<u8> {
        let names = self.names(kind, p, q);
        let blocks = names.iter().map(|address| (*address, self.block(q, *address))).collect();
        write_diff(kind, p, q, &blocks)
    }

    /// The head of the true diff from p to q of this kind.
    pub fn head(&self, kind: Kind, p: u64, q: u64) -> Head {
        Head { kind, p, q, n: self.names(kind, p, q).len() as u32 }
    }

    /// The gids that a byte of a volume in this state may come from.
    pub fn sources(state: &State) -> Vec<u64> {
        match state.kind {
            StateKind::Settled | StateKind::Span => (state.b..=state.e).collect(),
            StateKind::Pair => vec![state.b, state.t],
        }
    }

    /// The first byte of the image that makes the state untrue.
    pub fn untrue_byte(&self, state: &State, image: &[u8]) -> Option<usize> {
        let sources: Vec<&[u8]> = History::sources(state).into_iter().map(|g| self.image(g)).collect();
        let untrue = |at: &usize| sources.iter().all(|source| source[*at] != image[*at]);
        (0..image.len()).find(untrue)
    }

    /// A random state of a kind that the gids of this history allow, and an image in which it is true.
    pub fn any_volume(&self, rng: &mut Rng) -> (State, Vec<u8>) {
        let (low, high) = self.any_span(rng);
        let settled = |b, e| State { kind: StateKind::Settled, b, t: b, e };
        let state = match rng.below(6) {
            0..=2 => settled(low, low),
            3 => settled(low, high),
            4 => State { kind: StateKind::Span, b: low, t: rng.within(low + 1, high), e: high },
            _ => State { kind: StateKind::Pair, b: low, t: high, e: high },
        };
        let sources = History::sources(&state);
        let mut image = self.image(low).to_vec();
        for start in (0..image.len()).step_by(BLOCK) {
            let torn = rng.once_in(2);
            let mut from = rng.pick(&sources);
            for (at, byte) in image.iter_mut().enumerate().skip(start).take(BLOCK) {
                if torn && rng.once_in(8) {
                    from = rng.pick(&sources);
                }
                *byte = self.image(from)[at];
            }
        }
        (state, image)
    }
}

/// What a step writes: fresh bytes, the old content again, an earlier one, the old one but for a byte, or that of another
/// block.
fn new_content(rng: &mut Rng, images: &[Vec<u8>], address: u32) -> Block {
    let at = BLOCK * address as usize;
    let old = &images[images.len() - 1];
    match rng.below(12) {
        0..=4 => block_of(&rng.bytes(BLOCK)),
        5..=6 => block_of(&old[at..]),
        7..=9 => block_of(&images[rng.place(images.len())][at..]),
        10 => {
            let mut content = block_of(&old[at..]);
            let byte = rng.pick(&[0, 1, 255, 256, BLOCK - 2, BLOCK - 1]);
            content[byte] ^= 1 << rng.below(8);
            content
        }
        _ => block_of(&old[BLOCK * rng.place(old.len() / BLOCK)..]),
    }
}

/// Small, around a power of 256, anywhere, or so that the last gid is the largest one.
fn first_gid(rng: &mut Rng, steps: u64) -> u64 {
    let most = MAX_GID - steps;
    match rng.below(5) {
        0 => 0,
        1 => rng.below(100),
        2 => (1 << (8 * rng.within(1, 7))) - rng.within(0, steps),
        3 => rng.within(0, most),
        _ => most,
    }
}

#[cfg(test)]
mod tests {
    use super::*;

    /// A made volume that is not true would make every later claim empty.
    #[test]
    fn volumes_are_made_true_and_damage_shows() {
        for seed in 0..200 {
            let mut rng = Rng::new(seed);
            let history = History::random(&mut rng);
            let (state, mut image) = history.any_volume(&mut rng);
            assert_eq!(history.untrue_byte(&state, &image), None);
            let at = rng.place(image.len());
            let held: BTreeSet<u8> = History::sources(&state).iter().map(|g| history.image(*g)[at]).collect();
            image[at] = (0..=255).find(|byte| !held.contains(byte)).expect("at most ten values are held");
            assert_eq!(history.untrue_byte(&state, &image), Some(at));
        }
    }
}
