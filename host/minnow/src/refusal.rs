//! The twenty refusals: the table "When the desk says no".

use std::fmt;

/// Why the desk says no. Its number is that of the table.
#[derive(Clone, Copy, PartialEq, Eq, Debug, Hash)]
pub enum Refusal {
    CutOff = 1,
    BadMark,
    BadHead,
    TooMany,
    BadOrder,
    Tail,
    BadState,
    BadImage,
    Outside,
    BadStart,
    Behind,
    Gap,
    Short,
    NotExact,
    Compared,
    Apart,
    NoRoom,
    ShelfFull,
    NoChain,
    BadGid,
}

/// Name and words of each refusal, in the order of the numbers from 1 on.
const TABLE: [(&str, &str); 20] = [
    ("CutOff", "under 24 bytes, or under 24 + 518n"),
    ("BadMark", "a diff or block mark differs"),
    (
        "BadHead",
        "kind above 1, spare byte not zero, a gid too large, or p ≥ q",
    ),
    ("TooMany", "n above 65,536"),
    (
        "BadOrder",
        "an address above 65,535 or not above the one before",
    ),
    ("Tail", "bytes beyond 24 + 518n"),
    (
        "BadState",
        "state not 28 bytes, wrong mark, spare byte, kind, gid too large, or gids against the kind",
    ),
    (
        "BadImage",
        "length zero, not in whole blocks, too long, or two images of unequal length",
    ),
    (
        "Outside",
        "a diff names, or a caller asks for, a block that the image hasn't",
    ),
    ("BadStart", "a run starts beyond record n"),
    ("Behind", "q ≤ b"),
    ("Gap", "p > b"),
    ("Short", "q < t"),
    (
        "NotExact",
        "compared, and not (p = b and (the state is clean, or kind 2 with q = t))",
    ),
    ("Compared", "either diff of a merge is compared"),
    ("Apart", "the first's q is not the second's p"),
    ("NoRoom", "the output buffer is shorter than the result"),
    ("ShelfFull", "more than 96 entries"),
    ("NoChain", "no list as defined"),
    ("BadGid", "target gid too large"),
];

impl Refusal {
    /// Every refusal, in the order of the numbers.
    pub const ALL: [Refusal; 20] = [
        Refusal::CutOff,
        Refusal::BadMark,
        Refusal::BadHead,
        Refusal::TooMany,
        Refusal::BadOrder,
        Refusal::Tail,
        Refusal::BadState,
        Refusal::BadImage,
        Refusal::Outside,
        Refusal::BadStart,
        Refusal::Behind,
        Refusal::Gap,
        Refusal::Short,
        Refusal::NotExact,
        Refusal::Compared,
        Refusal::Apart,
        Refusal::NoRoom,
        Refusal::ShelfFull,
        Refusal::NoChain,
        Refusal::BadGid,
    ];

    /// The refusal that has this number; none for 0 ("done") and above 20.
    pub fn of(number: u32) -> Option<Refusal> {
        let place = usize::try_from(number).ok()?.checked_sub(1)?;
        Refusal::ALL.get(place).copied()
    }

    /// Its number, 1 to 20.
    pub fn number(self) -> u32 {
        self as u32
    }

    /// Its name.
    pub fn name(self) -> &'static str {
        self.row().0
    }

    /// When it is given, in the words of the table.
    pub fn given_when(self) -> &'static str {
        self.row().1
    }

    fn row(self) -> (&'static str, &'static str) {
        TABLE[self as usize - 1]
    }
}

/// As in `12 Gap: p > b`.
impl fmt::Display for Refusal {
    fn fmt(&self, f: &mut fmt::Formatter<'_>) -> fmt::Result {
        write!(
            f,
            "{} {}: {}",
            self.number(),
            self.name(),
            self.given_when()
        )
    }
}

impl std::error::Error for Refusal {}
