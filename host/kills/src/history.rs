//! A history as the paper has it: an image for each gid, the blocks that each step wrote, and the true diffs between any two.

use crate::random::Random;
use crate::rules::Head;

pub const BLOCK: usize = 512;

pub struct History {
    images: Vec<Vec<u8>>,
    /// By step, which blocks it wrote.
    written: Vec<Vec<bool>>,
}

/// Block `a` of an image.
pub fn block(image: &[u8], a: usize) -> &[u8] {
    &image[BLOCK * a..BLOCK * (a + 1)]
}

pub fn block_mut(image: &mut [u8], a: usize) -> &mut [u8] {
    &mut image[BLOCK * a..BLOCK * (a + 1)]
}

impl History {
    pub fn new(random: &mut Random, blocks: usize, last: u64) -> History {
        let mut first = vec![0; BLOCK * blocks];
        random.fill(&mut first);
        let mut history = History {
            images: vec![first],
            written: Vec::new(),
        };
        for _ in 0..last {
            history.step(random);
        }
        history
    }

    /// Writes one block in 2, 4, 8 or 16; some get back what they held at an earlier gid.
    fn step(&mut self, random: &mut Random) {
        let share = 1 << random.within(1, 4);
        let mut image = self.images[self.images.len() - 1].clone();
        let mut written = vec![false; self.blocks()];
        for (a, written) in written.iter_mut().enumerate() {
            *written = random.once_in(share);
            if *written && random.once_in(8) {
                let earlier = random.below(self.images.len());
                block_mut(&mut image, a).copy_from_slice(block(&self.images[earlier], a));
            } else if *written {
                random.fill(block_mut(&mut image, a));
            }
        }
        self.images.push(image);
        self.written.push(written);
    }

    pub fn blocks(&self) -> usize {
        self.images[0].len() / BLOCK
    }

    pub fn last(&self) -> u64 {
        self.written.len() as u64
    }

    pub fn image(&self, g: u64) -> &[u8] {
        &self.images[g as usize]
    }

    /// The blocks that the true diff names, rising.
    pub fn names(&self, head: &Head) -> Vec<usize> {
        let (old, new) = (self.image(head.p), self.image(head.q));
        let steps = &self.written[head.p as usize..head.q as usize];
        let named = |a: &usize| match head.compared {
            true => block(old, *a) != block(new, *a),
            false => steps.iter().any(|written| written[*a]),
        };
        (0..self.blocks()).filter(named).collect()
    }

    /// The true diff.
    pub fn diff(&self, head: &Head) -> Vec<u8> {
        let names = self.names(head);
        let mut bytes = vec![0x57, 0x44, u8::from(head.compared), 0];
        bytes.extend(head.p.to_le_bytes());
        bytes.extend(head.q.to_le_bytes());
        bytes.extend((names.len() as u32).to_le_bytes());
        for a in names {
            bytes.extend([0x57, 0x42]);
            bytes.extend((a as u32).to_le_bytes());
            bytes.extend(block(self.image(head.q), a));
        }
        bytes
    }
}
