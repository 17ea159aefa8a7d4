//! The C interface of the proved library, as `include/minnow.h` declares it: a slice is a pointer and then a length.
//!
//! Each call answers 0 or the number of a refusal. A caller owes what the header says: every pointer is non-null, aligned and
//! valid for its length (also where that is 0), for writing where it is `*mut`; no memory that is written through overlaps any
//! other memory handed over; and nothing else writes to that memory while the call runs. Any bytes may stand in it. Whoever
//! does not need the raw calls has the safe ones of the crate, with the same names.

extern "C" {
    /// Checks a diff; refusals 1 to 6.
    pub fn minnow_check(
        diff: *const u8,
        diff_len: usize,
        kind: *mut u8,
        p: *mut u64,
        q: *mut u64,
        n: *mut u32,
    ) -> u32;

    /// Reads a state record; refusal 7.
    pub fn minnow_read_state(
        state: *const u8,
        state_len: usize,
        kind: *mut u8,
        b: *mut u64,
        t: *mut u64,
        e: *mut u64,
    ) -> u32;

    /// Writes a state's record; refusals 7, 17.
    pub fn minnow_write_state(
        kind: u8,
        b: u64,
        t: u64,
        e: u64,
        out: *mut u8,
        out_len: usize,
        size: *mut usize,
    ) -> u32;

    /// Decides an apply; refusals 1 to 9, 11 to 14, 17.
    pub fn minnow_decide(
        diff: *const u8,
        diff_len: usize,
        state: *const u8,
        state_len: usize,
        image: *const u8,
        image_len: usize,
        during: *mut u8,
        during_len: usize,
        done: *mut u8,
        done_len: usize,
    ) -> u32;

    /// Does an apply; refusals 1 to 9, 11 to 14, 17.
    pub fn minnow_apply(
        diff: *const u8,
        diff_len: usize,
        state: *const u8,
        state_len: usize,
        image: *mut u8,
        image_len: usize,
        done: *mut u8,
        done_len: usize,
    ) -> u32;

    /// Writes the records of a run; refusals 1 to 6, 8, 9, 10.
    pub fn minnow_run(
        diff: *const u8,
        diff_len: usize,
        image: *mut u8,
        image_len: usize,
        i: usize,
        k: usize,
        next: *mut usize,
    ) -> u32;

    /// Merges two log diffs that touch; refusals 1 to 6, 15, 16, 17.
    pub fn minnow_merge(
        first: *const u8,
        first_len: usize,
        second: *const u8,
        second_len: usize,
        out: *mut u8,
        out_len: usize,
        size: *mut usize,
    ) -> u32;

    /// Writes the compared diff of two images; refusals 3, 8, 17.
    pub fn minnow_compare(
        old_image: *const u8,
        old_len: usize,
        new_image: *const u8,
        new_len: usize,
        p: u64,
        q: u64,
        out: *mut u8,
        out_len: usize,
        size: *mut usize,
    ) -> u32;

    /// Says where block a stands after the apply of a diff; refusals 1 to 6, 8, 9.
    pub fn minnow_read_through(
        diff: *const u8,
        diff_len: usize,
        image: *const u8,
        image_len: usize,
        a: usize,
        slice: *mut u32,
        at: *mut usize,
    ) -> u32;

    /// Plans a restore; refusals 1 to 4, 7, 17 to 20.
    pub fn minnow_plan(
        heads: *const u8,
        heads_len: usize,
        count: usize,
        state: *const u8,
        state_len: usize,
        target: u64,
        places: *mut usize,
        places_len: usize,
        size: *mut usize,
    ) -> u32;

    /// The lag; refusals 7, 20.
    pub fn minnow_lag(state: *const u8, state_len: usize, target: u64, gids: *mut i64) -> u32;
}
