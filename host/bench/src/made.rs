//! The inputs: diffs, images, states and shelves, the same on every machine.

use minnow::{BLOCK, HEAD, MAX_BLOCKS, RECORD, STATE};

/// Random numbers from a seed (the splitmix64 generator).
pub struct Random(pub u64);

impl Random {
    pub fn next(&mut self) -> u64 {
        self.0 = self.0.wrapping_add(0x9E37_79B9_7F4A_7C15);
        let z = (self.0 ^ (self.0 >> 30)).wrapping_mul(0xBF58_476D_1CE4_E5B9);
        let z = (z ^ (z >> 27)).wrapping_mul(0x94D0_49BB_1331_11EB);
        z ^ (z >> 31)
    }

    /// A number below `end`, which is not 0.
    pub fn below(&mut self, end: u64) -> u64 {
        self.next() % end
    }
}

/// The content of block a at gid g.
fn fill(block: &mut [u8], a: u32, g: u64) {
    let mut random = Random(g << 32 | u64::from(a));
    for word in block.chunks_exact_mut(8) {
        word.copy_from_slice(&random.next().to_le_bytes());
    }
}

pub fn head(kind: u8, p: u64, q: u64, n: u32) -> [u8; HEAD] {
    let mut head = [0; HEAD];
    head[..3].copy_from_slice(&[0x57, 0x44, kind]);
    head[4..12].copy_from_slice(&p.to_le_bytes());
    head[12..20].copy_from_slice(&q.to_le_bytes());
    head[20..].copy_from_slice(&n.to_le_bytes());
    head
}

/// The diff from p to q that names these addresses.
pub fn diff(kind: u8, p: u64, q: u64, addresses: &[u32]) -> Vec<u8> {
    let mut diff = head(kind, p, q, addresses.len() as u32).to_vec();
    for &a in addresses {
        let mut record = [0; RECORD];
        record[..2].copy_from_slice(&[0x57, 0x42]);
        record[2..6].copy_from_slice(&a.to_le_bytes());
        fill(&mut record[6..], a, q);
        diff.extend(record);
    }
    diff
}

pub fn state(kind: u8, b: u64, t: u64, e: u64) -> [u8; STATE] {
    let mut state = [0; STATE];
    state[..3].copy_from_slice(&[0x57, 0x53, kind]);
    state[4..12].copy_from_slice(&b.to_le_bytes());
    state[12..20].copy_from_slice(&t.to_le_bytes());
    state[20..].copy_from_slice(&e.to_le_bytes());
    state
}

/// An image; block a has the content of gid 1 where `changed` says so, else of gid 0.
pub fn image(blocks: usize, changed: impl Fn(usize) -> bool) -> Vec<u8> {
    let mut image = vec![0; BLOCK * blocks];
    for (a, block) in image.chunks_exact_mut(BLOCK).enumerate() {
        fill(block, a as u32, u64::from(changed(a)));
    }
    image
}

/// `n` addresses spread evenly over `of`, which is at least n; another `shift` leaves out others.
pub fn spread(n: usize, of: usize, shift: usize) -> Vec<u32> {
    let left_out = of - n;
    let is_in = |a: &usize| (a + shift) * left_out % of >= left_out;
    (0..of).filter(is_in).map(|a| a as u32).collect()
}

/// Addresses of two diffs of n blocks that have 1 block in 100 in common.
pub fn few_common(n: usize) -> [Vec<u32>; 2] {
    let first = (0..n as u32).map(|i| 2 * i).collect();
    let second = (0..n as u32).map(|i| 2 * i + u32::from(i % 100 != 0));
    [first, second.collect()]
}

/// Addresses of two diffs of n blocks that have 99 blocks in 100 in common.
pub fn nearly_all_common(n: usize) -> [Vec<u32>; 2] {
    two_spread(n, n + n / 100)
}

/// Addresses of two diffs of n blocks, together all there are: with n above 32,768, as few in common as can be.
pub fn fewest_common(n: usize) -> [Vec<u32>; 2] {
    two_spread(n, MAX_BLOCKS)
}

/// Two diffs of n blocks among the lowest `of` addresses, each block in one of them.
fn two_spread(n: usize, of: usize) -> [Vec<u32>; 2] {
    let half_a_step = of / (of - n) / 2;
    [spread(n, of, 0), spread(n, of, half_a_step)]
}

#[cfg(test)]
mod tests {
    use super::*;

    fn common(pair: &[Vec<u32>; 2]) -> usize {
        pair[0].iter().filter(|a| pair[1].contains(a)).count()
    }

    #[test]
    fn pairs_have_their_sizes_and_what_they_say_in_common() {
        for (pair, n, shared) in [
            (few_common(1_000), 1_000, 10),
            (nearly_all_common(1_000), 1_000, 990),
            (fewest_common(60_000), 60_000, 54_464),
        ] {
            assert_eq!([pair[0].len(), pair[1].len()], [n, n]);
            assert_eq!(common(&pair), shared);
        }
    }

    #[test]
    fn spread_addresses_rise_and_fit() {
        for (n, of) in [(1_000, 2_000), (60_000, MAX_BLOCKS)] {
            let addresses = spread(n, of, 0);
            assert_eq!(addresses.len(), n);
            assert!(addresses.windows(2).all(|pair| pair[0] < pair[1]));
            assert!(addresses.iter().all(|&a| (a as usize) < of));
        }
    }
}
