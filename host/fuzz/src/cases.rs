//! Cases: inputs for one call, sound, spoiled or random, with outputs that are now and then too short.

use minnow::{BLOCK, HEAD, MAX_BLOCKS, MAX_GID, PLACES, RECORD, STATE};

use crate::desk::Call;
use crate::made::{self, Ends, Size, World, LOG};
use crate::random::Random;
use crate::spoil::{spoil, Meant};

/// How a case came about.
#[derive(Clone, Copy, PartialEq, Eq, Debug)]
pub enum Family {
    Sound,
    Spoiled,
    Random,
}

impl Family {
    pub const ALL: [Family; 3] = [Family::Sound, Family::Spoiled, Family::Random];

    pub fn name(self) -> &'static str {
        match self {
            Family::Sound => "sound",
            Family::Spoiled => "spoiled",
            Family::Random => "random bytes",
        }
    }
}

/// What one call is given; the lists are in the order of its parameters.
pub struct Case {
    pub call: Call,
    pub family: Family,
    /// Slices that it may only read.
    pub read: Vec<Vec<u8>>,
    /// What stands in the slices and numbers that it may write.
    pub written: Vec<Vec<u8>>,
    /// Numbers given by value.
    pub numbers: Vec<u64>,
}

/// Calls whose work grows with the blocks.
const BULK: [Call; 7] = [
    Call::Check,
    Call::Decide,
    Call::Apply,
    Call::Run,
    Call::Merge,
    Call::Compare,
    Call::ReadThrough,
];

/// Bytes of the numbers that are written to.
const BYTE: usize = 1;
const HALF: usize = 4;
const WORD: usize = 8;

/// Lengths that random inputs often have.
const LENGTHS: [usize; 16] = [
    0, 1, 23, 24, 25, 27, 28, 29, 48, 511, 512, 513, 541, 542, 1_024, 1_060,
];

/// Numbers by value that a spoiled case often has.
const EDGES: [u64; 12] = [
    0,
    1,
    2,
    3,
    96,
    97,
    65_535,
    65_536,
    MAX_GID,
    MAX_GID + 1,
    u64::MAX / 24 + 1,
    u64::MAX,
];

type Input = (Vec<u8>, Meant);

/// Makes a case of a call.
struct Maker<'a> {
    random: &'a mut Random,
    world: World,
    call: Call,
    family: Family,
}

pub fn make(random: &mut Random, size: Size) -> Case {
    let call = match size {
        Size::Full => random.pick(&BULK),
        _ => random.pick(&Call::ALL),
    };
    let family = match random.below(16) {
        0..=5 => Family::Sound,
        6 => Family::Random,
        _ => Family::Spoiled,
    };
    let world = World::new(random, size);
    let maker = Maker {
        random,
        world,
        call,
        family,
    };
    match call {
        Call::Check => maker.check(),
        Call::ReadState => maker.read_state(),
        Call::WriteState => maker.write_state(),
        Call::Decide | Call::Apply => maker.apply(),
        Call::Run => maker.run(),
        Call::Merge => maker.merge(),
        Call::Compare => maker.compare(),
        Call::ReadThrough => maker.read_through(),
        Call::Plan => maker.plan(),
        Call::Lag => maker.lag(),
    }
}

impl Maker<'_> {
    fn case(
        self,
        read: Vec<Vec<u8>>,
        mut written: Vec<Vec<u8>>,
        numbers: &[usize],
        values: Vec<u64>,
    ) -> Case {
        let numbers = numbers.iter().map(|&size| self.random.bytes(size));
        written.extend(numbers);
        Case {
            call: self.call,
            family: self.family,
            read,
            written,
            numbers: values,
        }
    }

    /// The inputs as the family wants them: one is spoiled or random, or at times none, and others now and then.
    fn treat<const N: usize>(&mut self, inputs: [Input; N]) -> [Vec<u8>; N] {
        let chosen = self.random.below(N + 1);
        let mut place = 0;
        inputs.map(|(mut bytes, meant)| {
            let hit = place == chosen || self.random.once_in(5);
            place += 1;
            match self.family {
                Family::Spoiled if hit => spoil(self.random, &mut bytes, meant),
                Family::Random if hit => bytes = self.any_bytes(),
                _ => (),
            }
            bytes
        })
    }

    fn any_bytes(&mut self) -> Vec<u8> {
        let len = match self.random.below(2) {
            0 => self.random.pick(&LENGTHS),
            _ => self.random.below(2_000),
        };
        self.random.bytes(len)
    }

    /// A number by value: now and then, in a case that is not sound, an edge instead.
    fn value(&mut self, sound: u64) -> u64 {
        if self.family != Family::Sound && self.random.once_in(3) {
            return self.random.pick(&EDGES);
        }
        sound
    }

    /// Memory for a result of `need` bytes: often exactly so much or one byte less, with something in it.
    fn out(&mut self, need: usize) -> Vec<u8> {
        let len = match self.random.below(8) {
            0 => need.saturating_sub(1),
            1 => self.random.below(need + 1),
            2 => need + 1,
            3 | 4 => need + self.random.below(700),
            _ => need,
        };
        self.random.bytes(len)
    }

    fn diff(&mut self) -> Vec<u8> {
        let ends = self.world.ends(self.random);
        let addresses = self.world.addresses(self.random);
        made::diff(self.random, ends, &addresses)
    }

    fn image(&mut self) -> Vec<u8> {
        let mut image = self.world.image(self.random);
        if self.world.blocks == MAX_BLOCKS && self.random.once_in(8) {
            image.extend([0; BLOCK]);
        }
        image
    }

    fn check(mut self) -> Case {
        let diff = self.diff();
        let read = self.treat([(diff, Meant::Diff)]);
        self.case(read.into(), vec![], &[BYTE, WORD, WORD, HALF], vec![])
    }

    fn read_state(mut self) -> Case {
        let state = made::record(self.world.state(self.random));
        let read = self.treat([(state, Meant::State)]);
        self.case(read.into(), vec![], &[BYTE, WORD, WORD, WORD], vec![])
    }

    fn write_state(mut self) -> Case {
        let record = made::record(self.world.state(self.random));
        let gid = |at: usize| u64::from_le_bytes(std::array::from_fn(|i| record[at + i]));
        let values = [u64::from(record[2]), gid(4), gid(12), gid(20)];
        let values = values.map(|value| self.value(value)).to_vec();
        let out = self.out(STATE);
        self.case(vec![], vec![out], &[WORD], values)
    }

    fn apply(mut self) -> Case {
        let state = self.world.state(self.random);
        let ends = match self.random.below(3) {
            0 => self.world.ends(self.random),
            _ => self.world.fitting(self.random, state),
        };
        let addresses = self.world.addresses(self.random);
        let diff = made::diff(self.random, ends, &addresses);
        let [diff, state, image] = [
            (diff, Meant::Diff),
            (made::record(state), Meant::State),
            (self.image(), Meant::Image),
        ];
        let [diff, state, image] = self.treat([diff, state, image]);
        let done = self.out(STATE);
        if self.call == Call::Apply {
            return self.case(vec![diff, state], vec![image, done], &[], vec![]);
        }
        let during = self.out(STATE);
        self.case(vec![diff, state, image], vec![during, done], &[], vec![])
    }

    fn run(mut self) -> Case {
        let (diff, image) = (self.diff(), self.image());
        let n = (diff.len() - HEAD) / RECORD;
        let [diff, image] = self.treat([(diff, Meant::Diff), (image, Meant::Image)]);
        let i = match self.random.below(8) {
            0 => n,
            1 => n + 1,
            2 => usize::MAX,
            _ => self.random.below(n + 1),
        };
        let k = match self.random.below(8) {
            0 => 0,
            1 => usize::MAX,
            2 => usize::MAX - i,
            3 => n - i.min(n),
            _ => self.random.below(n + 2),
        };
        let values = vec![i as u64, k as u64];
        self.case(vec![diff], vec![image], &[WORD], values)
    }

    fn merge(mut self) -> Case {
        let first = self.world.ends(self.random);
        let second = self.world.ends(self.random);
        let touching = Ends {
            kind: LOG,
            p: first.q,
            q: first.q + 1,
        };
        let (first, second) = match self.random.below(5) {
            0 => (first, second),
            _ => (Ends { kind: LOG, ..first }, touching),
        };
        let addresses = [(); 2].map(|()| self.world.addresses(self.random));
        let need = HEAD + RECORD * together(&addresses[0], &addresses[1]);
        let first = made::diff(self.random, first, &addresses[0]);
        let second = made::diff(self.random, second, &addresses[1]);
        let read = self.treat([(first, Meant::Diff), (second, Meant::Diff)]);
        let out = self.out(need);
        self.case(read.into(), vec![out], &[WORD], vec![])
    }

    fn compare(mut self) -> Case {
        let old = self.image();
        let mut new = old.clone();
        let every = self.random.pick(&[1, 2, 2, 8]);
        let mut differing = 0;
        for block in new.chunks_exact_mut(BLOCK) {
            if self.random.once_in(every) {
                let at = self.random.pick(&[0, 1, 255, 510, BLOCK - 1]);
                block[at] ^= 1 << self.random.below(8);
                differing += 1;
            }
        }
        let ends = self.world.ends(self.random);
        let values = [ends.p, ends.q].map(|gid| self.value(gid)).to_vec();
        let read = self.treat([(old, Meant::Image), (new, Meant::Image)]);
        let out = self.out(HEAD + RECORD * differing);
        self.case(read.into(), vec![out], &[WORD], values)
    }

    fn read_through(mut self) -> Case {
        let (diff, image) = (self.diff(), self.image());
        let read = self.treat([(diff, Meant::Diff), (image, Meant::Image)]);
        let asked = self.random.below(self.world.blocks + 1) as u64;
        let a = match self.random.below(16) {
            0 => self.random.pick(&EDGES),
            // A block number whose byte would wrap to a place inside.
            1 => asked + u64::MAX / BLOCK as u64 + 1,
            _ => asked,
        };
        self.case(read.into(), vec![], &[HALF, WORD], vec![a])
    }

    fn plan(mut self) -> Case {
        let entries = match self.random.below(8) {
            0 => self.random.pick(&[PLACES - 1, PLACES, PLACES + 1]),
            1 => self.random.below(PLACES + 1),
            _ => self.random.below(20),
        };
        let mut target = self.world.gid(self.random);
        let mut heads = vec![];
        for _ in 0..entries {
            let n = self.random.below(MAX_BLOCKS + 1) as u32;
            let ends = self.world.ends(self.random);
            heads.extend(made::head(ends, n));
            target = target.max(ends.q);
        }
        let state = made::record(self.world.state(self.random));
        let read = self.treat([(heads, Meant::Heads), (state, Meant::State)]);
        if self.random.once_in(2) {
            target = self.world.gid(self.random);
        }
        let count = match self.random.below(8) {
            0 => self.random.below(entries + 2),
            _ => entries,
        };
        let values = [count as u64, target].map(|value| self.value(value));
        let room = self
            .random
            .pick(&[0, PLACES - 1, PLACES, PLACES, PLACES, PLACES + 20]);
        let places = self.random.bytes(WORD * room);
        self.case(read.into(), vec![places], &[WORD], values.to_vec())
    }

    fn lag(mut self) -> Case {
        let state = made::record(self.world.state(self.random));
        let read = self.treat([(state, Meant::State)]);
        let target = self.world.gid(self.random);
        let target = self.value(target);
        self.case(read.into(), vec![], &[WORD], vec![target])
    }
}

/// How many addresses two rising lists have between them.
fn together(first: &[u32], second: &[u32]) -> usize {
    let new = |address: &&u32| first.binary_search(address).is_err();
    first.len() + second.iter().filter(new).count()
}
