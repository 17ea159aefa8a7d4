/* The desk: diffs of a block volume, checked, applied, merged, compared, planned.
 *
 * A slice crosses as a pointer and then a length (for bytes in bytes, for places in places).
 * Each call answers 0 (MINNOW_DONE) or the number of a refusal, from the table below. What else a call gives it writes
 * through the pointers that are not const; a result goes to the front of the slice lent for it, and what lies beyond the
 * result stays. A refusal changes nothing that they point to. Any bytes may be given as a diff, a state, an image or
 * heads: they are checked.
 *
 * What the caller owes for the memory: pointers that are valid for their lengths and aligned for their types, also where a
 * length is 0 (any non-null aligned pointer then); no pointer that is written through overlaps any other memory handed
 * over; and nothing else writes to that memory while the call runs, as another thread or a mapped file might.
 *
 * What the caller owes for a volume: decide; save the While record whole before the first byte of the image moves; apply,
 * or run until all records are written; make the image durable; then save the Done record. A cut at any moment then leaves
 * a state that is true of the volume, and the diff that was cut is accepted again.
 *
 * Stack: a comparison uses about 64 KiB, a plan about 12 KiB, the others little.
 */
#ifndef MINNOW_H
#define MINNOW_H

#include <stddef.h>
#include <stdint.h>

#ifdef __cplusplus
extern "C" {
#endif

enum {
    MINNOW_DONE = 0,
    MINNOW_CUT_OFF = 1,     /* under 24 bytes, or under 24 + 518n */
    MINNOW_BAD_MARK = 2,    /* a diff or block mark differs */
    MINNOW_BAD_HEAD = 3,    /* kind above 1, spare byte not zero, a gid too large, or p >= q */
    MINNOW_TOO_MANY = 4,    /* n above 65,536 */
    MINNOW_BAD_ORDER = 5,   /* an address above 65,535 or not above the one before */
    MINNOW_TAIL = 6,        /* bytes beyond 24 + 518n */
    MINNOW_BAD_STATE = 7,   /* not 28 bytes, wrong mark, spare byte, kind, gid too large, or gids against the kind */
    MINNOW_BAD_IMAGE = 8,   /* length zero, not in whole blocks, too long, or two images of unequal length */
    MINNOW_OUTSIDE = 9,     /* a diff names, or a caller asks for, a block that the image hasn't */
    MINNOW_BAD_START = 10,  /* a run starts beyond record n */
    MINNOW_BEHIND = 11,     /* q <= b */
    MINNOW_GAP = 12,        /* p > b */
    MINNOW_SHORT = 13,      /* q < t */
    MINNOW_NOT_EXACT = 14,  /* compared, and not (p = b and (the state is clean, or kind 2 with q = t)) */
    MINNOW_COMPARED = 15,   /* either diff of a merge is compared */
    MINNOW_APART = 16,      /* the first's q is not the second's p */
    MINNOW_NO_ROOM = 17,    /* the output is shorter than the result */
    MINNOW_SHELF_FULL = 18, /* more than 96 entries */
    MINNOW_NO_CHAIN = 19,   /* no list of places that ends clean at the target */
    MINNOW_BAD_GID = 20     /* target gid too large */
};

enum { MINNOW_LOG = 0, MINNOW_COMPARED_KIND = 1 };                  /* kinds of a diff */
enum { MINNOW_SETTLED = 0, MINNOW_SPAN = 1, MINNOW_PAIR = 2 };      /* kinds of a state */
enum { MINNOW_IN_DIFF = 0, MINNOW_IN_IMAGE = 1 };                   /* where a read-through finds its block */

#define MINNOW_BLOCK 512u           /* bytes of a block */
#define MINNOW_HEAD 24u             /* bytes of a diff's head */
#define MINNOW_RECORD 518u          /* bytes of a block's record in a diff */
#define MINNOW_STATE 28u            /* bytes of a state's record */
#define MINNOW_BLOCKS 65536u        /* most blocks of an image, and of a diff */
#define MINNOW_PLACES 96u           /* places of a shelf, and of a plan */
#define MINNOW_MAX_GID UINT64_C(9223372036854775807)

/* Checks a diff whole, and hands out kind, p, q and the number of blocks of its head. Refusals 1 to 6. */
uint32_t minnow_check(const uint8_t *diff, size_t diff_len, uint8_t *kind, uint64_t *p, uint64_t *q, uint32_t *n);

/* Reads a state record. Refusal 7. */
uint32_t minnow_read_state(const uint8_t *state, size_t state_len, uint8_t *kind, uint64_t *b, uint64_t *t, uint64_t *e);

/* Writes a state's record where out opens, and its length, 28. Refusals 7, 17. */
uint32_t minnow_write_state(uint8_t kind, uint64_t b, uint64_t t, uint64_t e, uint8_t *out, size_t out_len, size_t *size);

/* Decides an apply and writes no block: the While record goes to the front of `during`, the Done record to that of `done`.
 * Refusals: the diff's, 7, 8, 9, 11 to 14, then 17 where `during` or `done` has under 28 bytes. */
uint32_t minnow_decide(const uint8_t *diff, size_t diff_len, const uint8_t *state, size_t state_len,
                       const uint8_t *image, size_t image_len, uint8_t *during, size_t during_len,
                       uint8_t *done, size_t done_len);

/* Writes every named block into the image, and the Done record to the front of `done`.
 * Refusals: the diff's, 7, 8, 9, 11 to 14, then 17 where `done` has under 28 bytes. */
uint32_t minnow_apply(const uint8_t *diff, size_t diff_len, const uint8_t *state, size_t state_len,
                      uint8_t *image, size_t image_len, uint8_t *done, size_t done_len);

/* Writes records i up to the smaller of i + k and n into the image; `next` becomes that number. Records count from 0, the
 * end is left out, the sum does not wrap. It looks at no state. Refusals: the diff's, 8, 9, 10. */
uint32_t minnow_run(const uint8_t *diff, size_t diff_len, uint8_t *image, size_t image_len, size_t i, size_t k, size_t *next);

/* Merges two log diffs that touch; the result goes to the front of out, its length to `size`.
 * Refusals: the first diff's, the second's, 15, 16, 17. */
uint32_t minnow_merge(const uint8_t *first, size_t first_len, const uint8_t *second, size_t second_len,
                      uint8_t *out, size_t out_len, size_t *size);

/* Writes the compared diff from p to q of two images to the front of out, its length to `size`.
 * Refusals: 8, 3, 17. */
uint32_t minnow_compare(const uint8_t *old_image, size_t old_len, const uint8_t *new_image, size_t new_len,
                        uint64_t p, uint64_t q, uint8_t *out, size_t out_len, size_t *size);

/* Where block a stands after the apply of the diff: `slice` becomes MINNOW_IN_DIFF or MINNOW_IN_IMAGE, and the block is
 * the 512 bytes from byte `at` of that slice on. Refusals: the diff's, 8, 9. */
uint32_t minnow_read_through(const uint8_t *diff, size_t diff_len, const uint8_t *image, size_t image_len,
                             size_t a, uint32_t *slice, size_t *at);

/* Plans a restore to the target gid over `count` heads of 24 bytes, back to back. Bytes past 24 * count have no part in
 * the answer. The plan is the first list in dictionary order of places, counted from 0, whose diffs are accepted in turn and
 * end clean at the target. `places` has its first 96 numbers written, the list and then zeros; `size` becomes the number
 * of places in the list.
 * Refusals: 18; for each entry in turn 1 (its 24 bytes are not there), 2, 3, 4; then 7, 20, 19, and 17 where `places` has
 * under 96. */
uint32_t minnow_plan(const uint8_t *heads, size_t heads_len, size_t count, const uint8_t *state, size_t state_len,
                     uint64_t target, size_t *places, size_t places_len, size_t *size);

/* b minus the target gid: below zero, the volume is behind. Refusals 7, 20. */
uint32_t minnow_lag(const uint8_t *state, size_t state_len, uint64_t target, int64_t *gids);

#ifdef __cplusplus
}
#endif

#endif
