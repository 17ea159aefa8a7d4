//! Bends: each is one rule of 01 bent at one spot of the model, to show that the play would notice.

use std::sync::atomic::{AtomicUsize, Ordering};

#[derive(Clone, Copy, Debug, PartialEq, Eq)]
pub enum Bend {
    None,
    GidLimit,
    HeadEqual,
    SpareFree,
    CountLimit,
    AddressLimit,
    OrderEqual,
    ImageLimit,
    SpanShort,
    PairLoose,
    BadHeadFirst,
    TooManyFirst,
    CutOffFirst,
    TailLast,
    MarksFirst,
    AddressFirst,
    BehindBelow,
    GapEqual,
    ShortFirst,
    NotExactFirst,
    ShortOfE,
    ShortEqual,
    ExactFromBelow,
    ExactDirty,
    ExactLonger,
    ExactSpan,
    WhilePair,
    WhileByPair,
    WhileByCleanAlone,
    WhileEnd,
    DoneClean,
    ImageFirst,
    OutsideLast,
    OutsideByRun,
    WritesUntilOutside,
    WritesBeforeRoom,
    StartEqual,
    StartFirst,
    RunUncapped,
    ThroughAskedAlone,
    ThroughEnd,
    LagGidFirst,
    LagFromEnd,
    MergeFirstWins,
    MergeDropsEqual,
    MergeBySecond,
    SecondDiffFirst,
    ApartFirst,
    ApartOnlyGap,
    CompareShort,
    CompareOld,
    GidsBeforeImages,
    RoomEqual,
    RoomBeforeState,
    RoomForWhileAlone,
    OutputRestZero,
    ShelfLimit,
    PlanGidFirst,
    PlanLast,
    PlanDirtyEnd,
    PlacesForList,
    PlacesRestStays,
}

/// Each bend with its name on the command line and what it bends.
pub const ALL: &[(Bend, &str, &str)] = &[
    (Bend::GidLimit, "gid-limit", "the gid 2^63 is not too large"),
    (Bend::HeadEqual, "head-equal", "BadHead where p > q, for p >= q"),
    (Bend::SpareFree, "spare-free", "the spare byte is not looked at"),
    (Bend::CountLimit, "count-limit", "TooMany where n is above 65,535, for 65,536"),
    (Bend::AddressLimit, "address-limit", "address 65,536 is in order"),
    (Bend::OrderEqual, "order-equal", "an address equal to the one before is in order"),
    (Bend::ImageLimit, "image-limit", "an image of 65,537 blocks is not too long"),
    (Bend::SpanShort, "span-short", "kind 1 asks for t < e, for t <= e"),
    (Bend::PairLoose, "pair-loose", "kind 2 allows t < e"),
    (Bend::BadHeadFirst, "bad-head-first", "a diff's BadHead before its mark"),
    (Bend::TooManyFirst, "too-many-first", "TooMany before BadHead"),
    (Bend::CutOffFirst, "cut-off-first", "under 24 + 518n before TooMany"),
    (Bend::TailLast, "tail-last", "Tail after the records"),
    (Bend::MarksFirst, "marks-first", "all block marks before all addresses"),
    (Bend::AddressFirst, "address-first", "a record's address before its mark"),
    (Bend::BehindBelow, "behind-below", "Behind where q < b, for q <= b"),
    (Bend::GapEqual, "gap-equal", "Gap where p >= b, for p > b"),
    (Bend::ShortFirst, "short-first", "Short before Gap"),
    (Bend::NotExactFirst, "not-exact-first", "NotExact before Behind"),
    (Bend::ShortOfE, "short-of-e", "Short where q < e, for q < t"),
    (Bend::ShortEqual, "short-equal", "Short where q <= t, for q < t"),
    (Bend::ExactFromBelow, "exact-from-below", "a compared diff accepted with p < b"),
    (Bend::ExactDirty, "exact-dirty", "a compared diff accepted on a dirty volume"),
    (Bend::ExactLonger, "exact-longer", "a pair resumed by a compared diff with q > t"),
    (Bend::ExactSpan, "exact-span", "a span resumed by a compared diff with q = t"),
    (Bend::WhilePair, "while-pair", "every cut volume is a pair"),
    (Bend::WhileByPair, "while-by-pair", "While is a pair also where the state was one"),
    (Bend::WhileByCleanAlone, "while-by-clean-alone", "While is a pair only where the state was clean"),
    (Bend::WhileEnd, "while-end", "While has e = q, for the larger of q and e"),
    (Bend::DoneClean, "done-clean", "Done is clean though q < e"),
    (Bend::ImageFirst, "image-first", "an apply checks the image before the state"),
    (Bend::OutsideLast, "outside-last", "an apply checks 11 to 14 before Outside"),
    (Bend::OutsideByRun, "outside-by-run", "Outside by the last record of the run alone"),
    (Bend::WritesUntilOutside, "writes-until-outside", "a run refused as Outside has written blocks"),
    (Bend::WritesBeforeRoom, "writes-before-room", "an apply refused for room has written the image"),
    (Bend::StartEqual, "start-equal", "BadStart where i >= n, for i > n"),
    (Bend::StartFirst, "start-first", "a run checks BadStart before Outside"),
    (Bend::RunUncapped, "run-uncapped", "a run answers i + k, for the smaller of i + k and n"),
    (Bend::ThroughAskedAlone, "through-asked-alone", "a read-through is Outside by the asked block alone"),
    (Bend::ThroughEnd, "through-end", "a read-through of the block just past the image is not Outside"),
    (Bend::LagGidFirst, "lag-gid-first", "the lag checks 20 before 7"),
    (Bend::LagFromEnd, "lag-from-end", "the lag is e minus the target, for b"),
    (Bend::MergeFirstWins, "merge-first-wins", "a merge takes the first's block where both name one"),
    (Bend::MergeDropsEqual, "merge-drops-equal", "a merge drops a block whose content equals the first's"),
    (Bend::MergeBySecond, "merge-by-second", "a merge takes a compared first diff"),
    (Bend::SecondDiffFirst, "second-diff-first", "a merge checks its second diff first"),
    (Bend::ApartFirst, "apart-first", "Apart before Compared"),
    (Bend::ApartOnlyGap, "apart-only-gap", "Apart where the first's q < the second's p, for unequal"),
    (Bend::CompareShort, "compare-short", "a comparison looks at 511 bytes of a block"),
    (Bend::CompareOld, "compare-old", "a comparison takes the old content"),
    (Bend::GidsBeforeImages, "gids-before-images", "a comparison checks 3 before 8"),
    (Bend::RoomEqual, "room-equal", "NoRoom also where the output has just the length"),
    (Bend::RoomBeforeState, "room-before-state", "writing a state checks NoRoom before BadState"),
    (Bend::RoomForWhileAlone, "room-for-while-alone", "deciding looks at the room for While alone"),
    (Bend::OutputRestZero, "output-rest-zero", "output beyond the result becomes zero"),
    (Bend::ShelfLimit, "shelf-limit", "ShelfFull at 96 entries"),
    (Bend::PlanGidFirst, "plan-gid-first", "a plan checks 20 before 7"),
    (Bend::PlanLast, "plan-last", "a plan is the last list in dictionary order"),
    (Bend::PlanDirtyEnd, "plan-dirty-end", "a plan may end dirty at the target"),
    (Bend::PlacesForList, "places-for-list", "places are asked for the list alone, for 96"),
    (Bend::PlacesRestStays, "places-rest-stays", "places past the length keep what they held"),
];

static CHOSEN: AtomicUsize = AtomicUsize::new(Bend::None as usize);

/// From now on the model has this bend and no other.
pub fn choose(bend: Bend) {
    CHOSEN.store(bend as usize, Ordering::Relaxed);
}

/// Whether the model has this bend.
pub fn bent(bend: Bend) -> bool {
    CHOSEN.load(Ordering::Relaxed) == bend as usize
}

#[cfg(test)]
mod tests {
    use super::{Bend, ALL};

    /// A bend left out of the list would never be tried.
    #[test]
    fn every_bend_is_listed_once() {
        let last = Bend::PlacesRestStays as usize;
        assert_eq!(ALL.len(), last);
        for (index, (bend, name, _)) in ALL.iter().enumerate() {
            assert_eq!(*bend as usize, index + 1, "{name}");
            assert_eq!(ALL.iter().filter(|(_, other, _)| other == name).count(), 1);
        }
    }
}
