//! Sizes and limits of the records, and what the calls take and give as values: the paper's "Records" and "Moves of a volume".

use std::fmt;

/// Bytes of a block.
pub const BLOCK: usize = 512;
/// Bytes of a diff's head.
pub const HEAD: usize = 24;
/// Bytes of a block's record in a diff.
pub const RECORD: usize = 518;
/// Bytes of a state's record.
pub const STATE: usize = 28;
/// Most blocks of an image, and of a diff.
pub const MAX_BLOCKS: usize = 65_536;
/// Places of a shelf, and of a plan.
pub const PLACES: usize = 96;
/// The largest gid.
pub const MAX_GID: u64 = 9_223_372_036_854_775_807;

/// Kind of a diff.
#[derive(Clone, Copy, PartialEq, Eq, Debug, Hash)]
pub enum DiffKind {
    Log,
    Compared,
}

/// Head of a sound diff: its kind, from p to q, with n blocks.
#[derive(Clone, Copy, PartialEq, Eq, Debug, Hash)]
pub struct Head {
    pub kind: DiffKind,
    pub p: u64,
    pub q: u64,
    pub n: u32,
}

/// Kind of a state.
#[derive(Clone, Copy, PartialEq, Eq, Debug, Hash)]
pub enum StateKind {
    Settled,
    Span,
    Pair,
}

/// A state. Any values may be put together; [`write_state`](crate::write_state) refuses those that break the rules of the kind.
#[derive(Clone, Copy, PartialEq, Eq, Debug, Hash)]
pub struct State {
    pub kind: StateKind,
    pub b: u64,
    pub t: u64,
    pub e: u64,
}

impl State {
    /// Clean at g.
    pub fn clean(g: u64) -> State {
        State::settled(g, g)
    }

    /// Settled at b, with bytes up to e: dirty where b < e.
    pub fn settled(b: u64, e: u64) -> State {
        State {
            kind: StateKind::Settled,
            b,
            t: b,
            e,
        }
    }

    /// Between b and t and nothing else.
    pub fn pair(b: u64, t: u64) -> State {
        State {
            kind: StateKind::Pair,
            b,
            t,
            e: t,
        }
    }

    /// Anywhere from b to e, on the way to t.
    pub fn span(b: u64, t: u64, e: u64) -> State {
        State {
            kind: StateKind::Span,
            b,
            t,
            e,
        }
    }

    /// Whether the image is that of one gid.
    pub fn is_clean(&self) -> bool {
        self.kind == StateKind::Settled && self.b == self.t && self.t == self.e
    }
}

/// As the night book writes it: `clean 7`, `dirty 4,4,10`, `span 4,8,10`, `pair 7,9,9`.
impl fmt::Display for State {
    fn fmt(&self, f: &mut fmt::Formatter<'_>) -> fmt::Result {
        if self.is_clean() {
            return write!(f, "clean {}", self.b);
        }
        let word = match self.kind {
            StateKind::Settled => "dirty",
            StateKind::Span => "span",
            StateKind::Pair => "pair",
        };
        write!(f, "{word} {},{},{}", self.b, self.t, self.e)
    }
}

/// A state as its record.
pub type StateRecord = [u8; STATE];

/// The two further states of an accepted apply, as records.
#[derive(Clone, Copy, PartialEq, Eq, Debug)]
pub struct Further {
    /// *While*: what must stand saved before the first byte of the image moves.
    pub during: StateRecord,
    /// *Done*: what may be saved once every named block is written.
    pub done: StateRecord,
}

/// Which lent slice a read-through shows a part of.
#[derive(Clone, Copy, PartialEq, Eq, Debug, Hash)]
pub enum Slice {
    Diff,
    Image,
}

/// A block as it would stand after the apply: a part of the lent slice, from byte `at` on, never a copy.
#[derive(Clone, Copy, PartialEq, Eq, Debug)]
pub struct View<'a> {
    pub slice: Slice,
    pub at: usize,
    /// The block's 512 bytes.
    pub bytes: &'a [u8],
}

/// The list of shelf places that a restore goes through.
#[derive(Clone, Copy, PartialEq, Eq, Debug)]
pub struct Plan {
    laid_out: [usize; PLACES],
    length: usize,
}

impl Plan {
    pub(crate) fn new(laid_out: [usize; PLACES], length: usize) -> Plan {
        assert!(
            length <= PLACES,
            "the library answered a list of {length} places"
        );
        Plan { laid_out, length }
    }

    /// The list, without the zeros behind it.
    pub fn places(&self) -> &[usize] {
        &self.laid_out[..self.length]
    }
}
