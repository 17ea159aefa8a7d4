//! Both sides on small random inputs, sound and spoiled: answers, refusals and lent bytes have to be the same.

use crate::baseline;
use crate::cases::{agreed, plans, same_bytes};
use crate::made::{self, Random};
use minnow::{HEAD, MAX_GID};

/// How many answers were compared, and how many of them were refusals.
#[derive(Default)]
pub struct Tally {
    pub answers: usize,
    pub refusals: usize,
}

impl Tally {
    fn count<T, E>(&mut self, answer: Result<T, E>) {
        self.answers += 1;
        self.refusals += usize::from(answer.is_err());
    }
}

/// Gids, and blocks, of a small case lie below this.
const SMALL: u64 = 9;

pub fn on_small_inputs(rounds: u64) -> Result<Tally, String> {
    let mut tally = Tally::default();
    for seed in 0..rounds {
        round(&mut Random(seed), &mut tally).map_err(|error| format!("seed {seed}: {error}"))?;
    }
    Ok(tally)
}

fn round(random: &mut Random, tally: &mut Tally) -> Result<(), String> {
    let first = spoiled(random, diff);
    let second = spoiled(random, diff);
    let state = spoiled(random, state);
    let blocks = random.below(SMALL) as usize;
    let before = made::image(blocks, |_| false);
    let pattern = random.below(1 << blocks);
    let after = made::image(blocks, |a| pattern >> a & 1 == 1);
    tally.count(agreed(
        "check",
        minnow::check(&first),
        baseline::check(&first),
    )?);
    apply(&first, &state, &before, tally)?;
    let room = random.below(SMALL * 600) as usize;
    let out = vec![0xA5; room];
    merge(&first, &second, &out, tally)?;
    let longer = random.below(20) == 0;
    let after = if longer {
        [after, vec![0; 512]].concat()
    } else {
        after
    };
    compare((&before, &after), (gid(random), gid(random)), &out, tally)?;
    plan(random, &state, tally)
}

fn apply(diff: &[u8], state: &[u8], image: &[u8], tally: &mut Tally) -> Result<(), String> {
    let (mut one, mut two) = (image.to_vec(), image.to_vec());
    let library = minnow::apply(diff, state, &mut one);
    let plain = baseline::apply(diff, state, &mut two);
    tally.count(agreed("apply", library, plain)?);
    same_bytes("apply", &one, &two)
}

fn merge(first: &[u8], second: &[u8], out: &[u8], tally: &mut Tally) -> Result<(), String> {
    let (mut one, mut two) = (out.to_vec(), out.to_vec());
    let library = minnow::merge(first, second, &mut one);
    let plain = baseline::merge(first, second, &mut two);
    tally.count(agreed("merge", library, plain)?);
    same_bytes("merge", &one, &two)
}

fn compare(
    (old, new): (&[u8], &[u8]),
    (p, q): (u64, u64),
    out: &[u8],
    tally: &mut Tally,
) -> Result<(), String> {
    let (mut one, mut two) = (out.to_vec(), out.to_vec());
    let library = minnow::compare(old, new, p, q, &mut one);
    let plain = baseline::compare(old, new, p, q, &mut two);
    tally.count(agreed("compare", library, plain)?);
    same_bytes("compare", &one, &two)
}

fn plan(random: &mut Random, state: &[u8], tally: &mut Tally) -> Result<(), String> {
    let count = random.below(12) as usize;
    let heads: Vec<u8> = (0..count).flat_map(|_| head(random, 1)).collect();
    let spoil = random.below(10) == 0;
    let heads = if spoil {
        spoiled(random, |_| heads.clone())
    } else {
        heads
    };
    let asked = if random.below(40) == 0 { 97 } else { count };
    let [library, plain] = plans(&heads, asked, state, gid(random));
    tally.count(agreed("plan", library, plain)?);
    Ok(())
}

/// A gid, now and then at the edge of what is allowed.
fn gid(random: &mut Random) -> u64 {
    match random.below(60) {
        0 => MAX_GID,
        1 => MAX_GID + 1,
        _ => random.below(SMALL),
    }
}

fn head(random: &mut Random, n: u32) -> [u8; HEAD] {
    let p = gid(random);
    let q = if random.below(20) == 0 {
        gid(random)
    } else {
        p + 1 + random.below(4)
    };
    made::head(u8::from(random.below(4) == 0), p, q, n)
}

fn diff(random: &mut Random) -> Vec<u8> {
    let pattern = random.below(1 << SMALL);
    let addresses: Vec<u32> = (0..SMALL as u32)
        .filter(|a| pattern >> a & 1 == 1)
        .collect();
    let mut diff = made::diff(0, 0, 1, &addresses);
    let head = head(random, addresses.len() as u32);
    diff[..HEAD].copy_from_slice(&head);
    diff
}

fn state(random: &mut Random) -> Vec<u8> {
    let (b, more, most) = (gid(random), random.below(4), random.below(4));
    match random.below(4) {
        0 => made::state(0, b, b, b),
        1 => made::state(0, b, b, b + more),
        2 => made::state(1, b, b + more, b + more + most),
        _ => made::state(2, b, b + more, b + more),
    }
    .to_vec()
}

/// What `make` makes; once in four times with a byte changed, once in ten cut off or longer.
fn spoiled(random: &mut Random, make: impl FnOnce(&mut Random) -> Vec<u8>) -> Vec<u8> {
    let mut bytes = make(random);
    if !bytes.is_empty() && random.below(4) == 0 {
        // Heads and the front of records are where rules are.
        let front = bytes.len().min(60) as u64;
        let at = random.below(front) as usize;
        bytes[at] = random.below(256) as u8;
    }
    match random.below(20) {
        0 => bytes.truncate(random.below(bytes.len() as u64 + 1) as usize),
        1 => bytes.push(0),
        _ => {}
    }
    bytes
}
