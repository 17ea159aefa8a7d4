//! What a power cut may do besides the kill: blocks that were not flushed hold any mix of old and new bytes, a record that was
//! put in its place without a flush of the folder is the old one again, and a draft with anything in it is left.

use crate::history::{block, block_mut};
use crate::random::Random;

/// Gives a block some mix of its contents: those that it had, byte by byte, in two parts, or one of them whole.
pub fn mix(random: &mut Random, image: &mut [u8], a: usize, others: [&[u8]; 2]) {
    let others = others.map(|other| block(other, a));
    let current = block_mut(image, a);
    match random.below(5) {
        0 => {}
        1 => current.copy_from_slice(others[0]),
        2 => current.copy_from_slice(others[1]),
        3 => {
            let at = random.below(current.len());
            let front = random.below(2);
            current[..at].copy_from_slice(&others[front][..at]);
            current[at..].copy_from_slice(&others[1 - front][at..]);
        }
        _ => each_byte(random, current, others),
    }
}

fn each_byte(random: &mut Random, current: &mut [u8], others: [&[u8]; 2]) {
    let mut bits = 0;
    for (i, byte) in current.iter_mut().enumerate() {
        if i % 32 == 0 {
            bits = random.next();
        }
        match bits & 3 {
            0 => *byte = others[0][i],
            1 => *byte = others[1][i],
            _ => {}
        }
        bits >>= 2;
    }
}

/// What a draft may hold: nothing, something, too much.
pub fn draft(random: &mut Random) -> Vec<u8> {
    let mut bytes = vec![0; random.below(64)];
    random.fill(&mut bytes);
    bytes
}
