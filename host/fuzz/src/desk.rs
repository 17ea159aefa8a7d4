//! The eleven calls of the C interface: their names, the answers that `include/minnow.h` lists for each, and the call itself
//! on lent memory.

use std::mem::{align_of, size_of};

use minnow::face;

use crate::guarded::Lent;

#[derive(Clone, Copy, PartialEq, Eq, Debug)]
pub enum Call {
    Check,
    ReadState,
    WriteState,
    Decide,
    Apply,
    Run,
    Merge,
    Compare,
    ReadThrough,
    Plan,
    Lag,
}

impl Call {
    pub const ALL: [Call; 11] = [
        Call::Check,
        Call::ReadState,
        Call::WriteState,
        Call::Decide,
        Call::Apply,
        Call::Run,
        Call::Merge,
        Call::Compare,
        Call::ReadThrough,
        Call::Plan,
        Call::Lag,
    ];

    pub fn name(self) -> &'static str {
        match self {
            Call::Check => "check",
            Call::ReadState => "read_state",
            Call::WriteState => "write_state",
            Call::Decide => "decide",
            Call::Apply => "apply",
            Call::Run => "run",
            Call::Merge => "merge",
            Call::Compare => "compare",
            Call::ReadThrough => "read_through",
            Call::Plan => "plan",
            Call::Lag => "lag",
        }
    }

    /// The refusals that the header lists for it; 0 is always an answer.
    pub fn refusals(self) -> &'static [u32] {
        match self {
            Call::Check => &[1, 2, 3, 4, 5, 6],
            Call::ReadState => &[7],
            Call::WriteState => &[7, 17],
            Call::Decide | Call::Apply => &[1, 2, 3, 4, 5, 6, 7, 8, 9, 11, 12, 13, 14, 17],
            Call::Run => &[1, 2, 3, 4, 5, 6, 8, 9, 10],
            Call::Merge => &[1, 2, 3, 4, 5, 6, 15, 16, 17],
            Call::Compare => &[3, 8, 17],
            Call::ReadThrough => &[1, 2, 3, 4, 5, 6, 8, 9],
            Call::Plan => &[1, 2, 3, 4, 7, 17, 18, 19, 20],
            Call::Lag => &[7, 20],
        }
    }
}

/// What a call is lent, each list in the order of the parameters.
pub struct Lending {
    /// Slices that it may only read.
    pub read: Vec<Lent>,
    /// Slices and numbers that it may write.
    pub written: Vec<Lent>,
    /// Numbers given by value.
    pub numbers: Vec<u64>,
}

impl Lending {
    fn read(&self, place: usize) -> (*const u8, usize) {
        let lent = &self.read[place];
        (lent.pointer(), lent.len())
    }

    fn written(&self, place: usize) -> (*mut u8, usize) {
        let lent = &self.written[place];
        (lent.pointer(), lent.len())
    }

    /// A number to be written: its memory is as long as its type.
    fn number<T>(&self, place: usize) -> *mut T {
        let lent = &self.written[place];
        assert_eq!(lent.len(), size_of::<T>());
        let pointer: *mut T = lent.pointer().cast();
        assert!(aligned(pointer));
        pointer
    }

    fn value(&self, place: usize) -> usize {
        self.numbers[place] as usize
    }
}

/// Makes the call.
///
/// # Safety
/// `lent` holds what the call's parameters ask for; every buffer of `lent.written` is writable and apart from all others.
pub unsafe fn enter(call: Call, lent: &Lending) -> u32 {
    // SAFETY: as promised by the caller; `number` holds each number's memory to its type.
    unsafe {
        match call {
            Call::Check | Call::ReadState | Call::WriteState | Call::Lag => on_records(call, lent),
            Call::Decide | Call::Apply | Call::Run | Call::ReadThrough => on_volumes(call, lent),
            Call::Merge | Call::Compare => making(call, lent),
            Call::Plan => planning(lent),
        }
    }
}

unsafe fn on_records(call: Call, lent: &Lending) -> u32 {
    if call == Call::WriteState {
        let [kind, b, t, e] = [0, 1, 2, 3].map(|place| lent.numbers[place]);
        let (out, out_len) = lent.written(0);
        // SAFETY: as for `enter`.
        return unsafe {
            face::minnow_write_state(kind as u8, b, t, e, out, out_len, lent.number(1))
        };
    }
    let (bytes, len) = lent.read(0);
    let number = |place| lent.number::<u64>(place);
    // SAFETY: as for `enter`.
    unsafe {
        match call {
            Call::Check => face::minnow_check(
                bytes,
                len,
                lent.number(0),
                number(1),
                number(2),
                lent.number(3),
            ),
            Call::ReadState => {
                face::minnow_read_state(bytes, len, lent.number(0), number(1), number(2), number(3))
            }
            _ => face::minnow_lag(bytes, len, lent.numbers[0], lent.number(0)),
        }
    }
}

unsafe fn on_volumes(call: Call, lent: &Lending) -> u32 {
    let (diff, diff_len) = lent.read(0);
    // SAFETY: as for `enter`.
    unsafe {
        match call {
            Call::Decide => {
                let ((state, state_len), (image, image_len)) = (lent.read(1), lent.read(2));
                let ((during, during_len), (done, done_len)) = (lent.written(0), lent.written(1));
                face::minnow_decide(
                    diff, diff_len, state, state_len, image, image_len, during, during_len, done,
                    done_len,
                )
            }
            Call::Apply => {
                let (state, state_len) = lent.read(1);
                let ((image, image_len), (done, done_len)) = (lent.written(0), lent.written(1));
                face::minnow_apply(
                    diff, diff_len, state, state_len, image, image_len, done, done_len,
                )
            }
            Call::Run => {
                let (image, image_len) = lent.written(0);
                let (i, k) = (lent.value(0), lent.value(1));
                face::minnow_run(diff, diff_len, image, image_len, i, k, lent.number(1))
            }
            _ => {
                let (image, image_len) = lent.read(1);
                let (a, slice, at) = (lent.value(0), lent.number(0), lent.number(1));
                face::minnow_read_through(diff, diff_len, image, image_len, a, slice, at)
            }
        }
    }
}

unsafe fn making(call: Call, lent: &Lending) -> u32 {
    let ((first, first_len), (second, second_len)) = (lent.read(0), lent.read(1));
    let (out, out_len) = lent.written(0);
    let length = lent.number(1);
    // SAFETY: as for `enter`.
    unsafe {
        if call == Call::Merge {
            return face::minnow_merge(first, first_len, second, second_len, out, out_len, length);
        }
        let (p, q) = (lent.numbers[0], lent.numbers[1]);
        face::minnow_compare(
            first, first_len, second, second_len, p, q, out, out_len, length,
        )
    }
}

fn aligned<T>(pointer: *mut T) -> bool {
    pointer as usize % align_of::<T>() == 0
}

unsafe fn planning(lent: &Lending) -> u32 {
    let ((heads, heads_len), (state, state_len)) = (lent.read(0), lent.read(1));
    let (places, places_len) = lent.written(0);
    assert!(aligned(places.cast::<usize>()));
    // SAFETY: as for `enter`; the length in places is that of the whole numbers in the memory.
    unsafe {
        face::minnow_plan(
            heads,
            heads_len,
            lent.value(0),
            state,
            state_len,
            lent.numbers[1],
            places.cast(),
            places_len / size_of::<usize>(),
            lent.number(1),
        )
    }
}
