//! Diffs of a block volume, checked, applied, merged, compared and planned: safe calls over the proved library.
//!
//! The library is written and proved in another language and linked as an archive, `build/lib/libdesk.a`, which
//! `host/archive` makes; MINNOW_LIB may name another folder for it. Any bytes may be given as a diff, a state, an image or
//! heads: they are checked, and what breaks a rule is refused by its number ([`Refusal`]). A refusal changes no lent byte.
//!
//! Nothing here allocates. [`merge`] and [`compare`] write into a slice of the caller's; [`merged_room`] and
//! [`compared_room`] say how long it need be at most: 24 + 518 · min(65,536, n1 + n2) bytes for a merge of diffs with n1 and
//! n2 blocks, 24 + 518 · blocks for a comparison.
//!
//! The empty log diff from 5 to 9, on a volume that is clean at 7:
//!
//! ```
//! use minnow::{DiffKind, HEAD, Head, Refusal, State};
//!
//! let mut diff = [0; HEAD];
//! diff[..2].copy_from_slice(&[0x57, 0x44]);
//! diff[4] = 5;
//! diff[12] = 9;
//! assert_eq!(minnow::check(&diff)?, Head { kind: DiffKind::Log, p: 5, q: 9, n: 0 });
//!
//! let state = minnow::write_state(State::clean(7))?;
//! let mut image = [0; 512];
//! let further = minnow::decide(&diff, &state, &image)?;
//! assert_eq!(minnow::read_state(&further.during)?, State::pair(7, 9));
//!
//! // `further.during` is saved here; only then may the image change.
//! let done = minnow::apply(&diff, &state, &mut image)?;
//! assert_eq!(minnow::read_state(&done)?, State::clean(9));
//! assert_eq!(minnow::lag(&done, 11)?, -2);
//!
//! let again = minnow::apply(&diff, &done, &mut image);
//! assert_eq!(again, Err(Refusal::Behind));
//! assert_eq!(Refusal::Behind.to_string(), "11 Behind: q ≤ b");
//! # Ok::<(), Refusal>(())
//! ```

pub mod face;

mod calls;
mod records;
mod refusal;

pub use calls::{
    apply, check, compare, compared_room, decide, lag, merge, merged_room, plan, read_state,
    read_through, run, write_state,
};
pub use records::{
    DiffKind, Further, Head, Plan, Slice, State, StateKind, StateRecord, View, BLOCK, HEAD,
    MAX_BLOCKS, MAX_GID, PLACES, RECORD, STATE,
};
pub use refusal::Refusal;
