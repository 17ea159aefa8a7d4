/* Calls each function of minnow.h on rows of 01, good and refused, and holds the answer and all that was lent to the paper.
 * Every slice and number is lent as a heap block of its own exact length, so that valgrind sees a step outside. */
#include "minnow.h"

#include <inttypes.h>
#include <stdio.h>
#include <stdlib.h>
#include <string.h>

enum { MOST = 4096, LENDINGS = 8, FILL = 0xEE };
#define COUNT(table) (sizeof(table) / sizeof *(table))
#define LARGE (MINNOW_MAX_GID + 1)

/* What the header names has 01's numbers. */
typedef char names_hold[
    MINNOW_DONE == 0 && MINNOW_CUT_OFF == 1 && MINNOW_BAD_MARK == 2 && MINNOW_BAD_HEAD == 3 && MINNOW_TOO_MANY == 4 &&
    MINNOW_BAD_ORDER == 5 && MINNOW_TAIL == 6 && MINNOW_BAD_STATE == 7 && MINNOW_BAD_IMAGE == 8 && MINNOW_OUTSIDE == 9 &&
    MINNOW_BAD_START == 10 && MINNOW_BEHIND == 11 && MINNOW_GAP == 12 && MINNOW_SHORT == 13 && MINNOW_NOT_EXACT == 14 &&
    MINNOW_COMPARED == 15 && MINNOW_APART == 16 && MINNOW_NO_ROOM == 17 && MINNOW_SHELF_FULL == 18 && MINNOW_NO_CHAIN == 19 &&
    MINNOW_BAD_GID == 20 && MINNOW_LOG == 0 && MINNOW_COMPARED_KIND == 1 && MINNOW_SETTLED == 0 && MINNOW_SPAN == 1 &&
    MINNOW_PAIR == 2 && MINNOW_BLOCK == 512 && MINNOW_HEAD == 24 && MINNOW_RECORD == 518 && MINNOW_STATE == 28 &&
    MINNOW_BLOCKS == 65536 && MINNOW_PLACES == 96 && MINNOW_MAX_GID == 9223372036854775807 ? 1 : -1];

struct bytes { size_t len; uint8_t at[MOST]; };
struct head { uint8_t kind; uint64_t p, q; };
struct state { uint8_t kind; uint64_t b, t, e; };

/* The row at hand: its expected answer and, of each block lent to the call, what it has to hold afterwards. */
static const char *call, *row;
static uint32_t answer;
static struct lending { const char *name; size_t len; uint8_t *at; uint8_t want[MOST]; } lendings[LENDINGS];
static size_t lent, rows, failed;

static void begin(const char *of_call, const char *name, uint32_t expected) { call = of_call, row = name, answer = expected; }

/* Lends a block with these bytes. A done call leaves it opening with `front`, the rest as it was; a refusal leaves it all. */
static void *lend(const char *name, const void *from, size_t len, const void *front, size_t front_len) {
    struct lending *to = &lendings[lent];
    if (lent == LENDINGS || len > MOST || (to->at = malloc(len > 0 ? len : 1)) == NULL) {
        fputs("rows: no room to lend from\n", stderr);
        exit(2);
    }
    lent++;
    to->name = name, to->len = len;
    memcpy(to->want, from, len);
    memcpy(to->at, from, len);
    if (answer == MINNOW_DONE && front_len > 0) memcpy(to->want, front, front_len);
    return to->at;
}

static void *lend_in(const struct bytes *from) { return lend("input", from->at, from->len, NULL, 0); }

static void *lend_out(const char *name, size_t room, const void *front, size_t front_len) {
    uint8_t fill[MOST];
    memset(fill, FILL, sizeof fill);
    return lend(name, fill, room, front, front_len);
}
#define NUMBER(expected) lend_out(#expected, sizeof(expected), &(expected), sizeof(expected))

static int holds(const struct lending *l) {
    size_t i = 0;
    while (i < l->len && l->at[i] == l->want[i]) i++;
    if (i < l->len) printf("%s, %s: byte %zu of %s: expected %02x, got %02x\n", call, row, i, l->name, l->want[i], l->at[i]);
    return i == l->len;
}

/* Ends the row: compares the answer, then all that was lent, and takes it back. */
static void settle(uint32_t got) {
    int good = answer == got;
    if (!good) printf("%s, %s: expected %" PRIu32 ", got %" PRIu32 "\n", call, row, answer, got);
    for (size_t i = 0; i < lent; i++) {
        good = good && holds(&lendings[i]);
        free(lendings[i].at);
    }
    lent = 0;
    rows++;
    failed += !good;
}

static void put(struct bytes *to, uint64_t number, size_t width) {
    for (size_t i = 0; i < width; i++) to->at[to->len++] = (uint8_t)(number >> (8 * i));
}

static void put_content(struct bytes *to, char letter) {
    for (unsigned i = 0; i < 512; i++) put(to, (unsigned)letter + i, 1);
}

/* One block for each letter. */
static struct bytes image_of(const char *letters) {
    struct bytes image = {0, {0}};
    for (; *letters; letters++) put_content(&image, *letters);
    return image;
}

/* Blocks as an address digit and a letter each: "1A3B". */
static struct bytes diff_of(struct head h, const char *blocks) {
    struct bytes diff = {0, {0}};
    put(&diff, 0x4457, 2), put(&diff, h.kind, 2), put(&diff, h.p, 8), put(&diff, h.q, 8), put(&diff, strlen(blocks) / 2, 4);
    for (; *blocks; blocks += 2)
        put(&diff, 0x4257, 2), put(&diff, (unsigned)(blocks[0] - '0'), 4), put_content(&diff, blocks[1]);
    return diff;
}

static struct bytes record_of(struct state s) {
    struct bytes record = {0, {0}};
    put(&record, 0x5357, 2), put(&record, s.kind, 2), put(&record, s.b, 8), put(&record, s.t, 8), put(&record, s.e, 8);
    return record;
}

/* A row that cuts sound bytes to a length and changes one of them. */
struct edit { const char *row; size_t len, at; uint8_t byte; uint32_t answer; };

static struct bytes edited(struct bytes whole, const struct edit *e) {
    whole.len = e->len;
    whole.at[e->at] = e->byte;
    return whole;
}

static void check(const char *name, const struct bytes *diff, uint32_t expected, struct head h, uint32_t n) {
    begin("check", name, expected);
    settle(minnow_check(lend_in(diff), diff->len, NUMBER(h.kind), NUMBER(h.p), NUMBER(h.q), NUMBER(n)));
}

static void check_rows(void) {
    static const struct bytes empty = {24, {0x57, 0x44, 0, 0, 5, 0, 0, 0, 0, 0, 0, 0, 9}};
    static const struct head log = {0, 5, 9}, compared = {1, 5, MINNOW_MAX_GID};
    static const struct edit edits[] = {
        {"23 bytes", 23, 0, 0x58, MINNOW_CUT_OFF}, {"a byte missing", 1059, 0, 0x57, MINNOW_CUT_OFF},
        {"mark of the head", 1060, 1, 0x42, MINNOW_BAD_MARK}, {"mark of a block", 1060, 543, 0x44, MINNOW_BAD_MARK},
        {"kind 2", 1060, 2, 2, MINNOW_BAD_HEAD}, {"spare byte", 1060, 3, 1, MINNOW_BAD_HEAD},
        {"gid too large", 1060, 19, 0x80, MINNOW_BAD_HEAD}, {"p = q", 1060, 4, 9, MINNOW_BAD_HEAD},
        {"65,538 blocks", 1060, 22, 1, MINNOW_TOO_MANY}, {"address 65,537", 1060, 28, 1, MINNOW_BAD_ORDER},
        {"an address twice", 1060, 544, 1, MINNOW_BAD_ORDER}, {"a byte more", 1061, 0, 0x57, MINNOW_TAIL},
    };
    struct bytes two = diff_of(log, "1A3B"), one = diff_of(compared, "0A");
    check("the empty log diff from 5 to 9", &empty, MINNOW_DONE, log, 0);
    check("two blocks", &two, MINNOW_DONE, log, 2);
    check("compared, up to the last gid", &one, MINNOW_DONE, compared, 1);
    for (size_t i = 0; i < COUNT(edits); i++) {
        struct bytes diff = edited(two, &edits[i]);
        check(edits[i].row, &diff, edits[i].answer, log, 2);
    }
}

static void read_state(const char *name, const struct bytes *record, uint32_t expected, struct state s) {
    begin("read_state", name, expected);
    settle(minnow_read_state(lend_in(record), record->len, NUMBER(s.kind), NUMBER(s.b), NUMBER(s.t), NUMBER(s.e)));
}

/* Gives the output's first 28 bytes. */
static struct bytes write_state(const char *name, struct state s, size_t room, uint32_t expected) {
    struct bytes record = record_of(s), written = {28, {0}};
    begin("write_state", name, expected);
    uint8_t *out = lend_out("out", room, record.at, 28);
    uint32_t got = minnow_write_state(s.kind, s.b, s.t, s.e, out, room, NUMBER(record.len));
    memcpy(written.at, out, room < 28 ? room : 28);
    settle(got);
    return written;
}

static void state_rows(void) {
    static const struct { const char *row; struct state s; uint32_t answer; } states[] = {
        {"clean 7", {0, 7, 7, 7}, MINNOW_DONE}, {"dirty 4,4,10", {0, 4, 4, 10}, MINNOW_DONE},
        {"span 4,8,10", {1, 4, 8, 10}, MINNOW_DONE}, {"pair 7,9,9", {2, 7, 9, 9}, MINNOW_DONE},
        {"settled 4,4,3", {0, 4, 4, 3}, MINNOW_BAD_STATE}, {"span 4,4,5", {1, 4, 4, 5}, MINNOW_BAD_STATE},
        {"pair 7,9,10", {2, 7, 9, 10}, MINNOW_BAD_STATE}, {"gid too large", {0, 4, 4, LARGE}, MINNOW_BAD_STATE},
    };
    static const struct edit edits[] = {
        {"27 bytes", 27, 0, 0x57, MINNOW_BAD_STATE}, {"29 bytes", 29, 0, 0x57, MINNOW_BAD_STATE},
        {"mark", 28, 1, 0x44, MINNOW_BAD_STATE}, {"spare byte", 28, 3, 1, MINNOW_BAD_STATE},
    };
    for (size_t i = 0; i < COUNT(states); i++) {
        struct bytes record = record_of(states[i].s);
        read_state(states[i].row, &record, states[i].answer, states[i].s);
        write_state(states[i].row, states[i].s, 30, states[i].answer);
    }
    for (size_t i = 0; i < COUNT(edits); i++) {
        struct bytes record = edited(record_of(states[0].s), &edits[i]);
        read_state(edits[i].row, &record, edits[i].answer, states[0].s);
    }
    write_state("27 bytes of room", states[0].s, 27, MINNOW_NO_ROOM);
    write_state("settled 4,4,3 and no room", states[4].s, 0, MINNOW_BAD_STATE);
}

struct apply { const char *row; struct state before; struct head h; uint32_t answer; struct state during, done; };
struct setting { const char *row, *blocks; size_t state_len, image_len, during_room, done_room; uint32_t decided, applied; };

/* Decides, then applies, on an image of one block or as much of it as the setting has. */
static void decide_and_apply(const struct apply *r, const struct setting *s, struct bytes state) {
    const char *name = s->row ? s->row : r->row;
    struct bytes diff = diff_of(r->h, s->blocks), image = image_of("a"), after = image_of("Z");
    struct bytes during = record_of(r->during), done = record_of(r->done);
    state.len = s->state_len, image.len = s->image_len;
    begin("decide", name, s->row ? s->decided : r->answer);
    settle(minnow_decide(lend_in(&diff), diff.len, lend_in(&state), state.len, lend_in(&image), image.len,
                         lend_out("while", s->during_room, during.at, 28), s->during_room,
                         lend_out("done", s->done_room, done.at, 28), s->done_room));
    begin("apply", name, s->row ? s->applied : r->answer);
    settle(minnow_apply(lend_in(&diff), diff.len, lend_in(&state), state.len,
                        lend("image", image.at, image.len, after.at, after.len), image.len,
                        lend_out("done", s->done_room, done.at, 28), s->done_room));
}

/* While and done as the rows give them; P8's while, which its row leaves out, by the rule for While. */
#define REFUSED(no) no, {0, 0, 0, 0}, {0, 0, 0, 0}
static const struct apply night_book[] = {
    {"P1", {0, 7, 7, 7}, {0, 5, 9}, MINNOW_DONE, {2, 7, 9, 9}, {0, 9, 9, 9}},
    {"P2", {0, 7, 7, 7}, {0, 8, 9}, REFUSED(MINNOW_GAP)},
    {"P3", {0, 7, 7, 7}, {0, 3, 7}, REFUSED(MINNOW_BEHIND)},
    {"P4", {0, 7, 7, 7}, {1, 7, 9}, MINNOW_DONE, {2, 7, 9, 9}, {0, 9, 9, 9}},
    {"P5", {0, 7, 7, 7}, {1, 5, 9}, REFUSED(MINNOW_NOT_EXACT)},
    {"P6", {0, 7, 7, 7}, {1, 5, 7}, REFUSED(MINNOW_BEHIND)},
    {"P7", {0, 4, 4, 10}, {0, 4, 8}, MINNOW_DONE, {1, 4, 8, 10}, {0, 8, 8, 10}},
    {"P8", {0, 4, 4, 10}, {0, 2, 10}, MINNOW_DONE, {1, 4, 10, 10}, {0, 10, 10, 10}},
    {"P9", {2, 7, 9, 9}, {0, 5, 8}, REFUSED(MINNOW_SHORT)},
    {"P10", {2, 7, 12, 12}, {0, 8, 10}, REFUSED(MINNOW_GAP)},
    {"P11", {2, 7, 9, 9}, {1, 7, 10}, REFUSED(MINNOW_NOT_EXACT)},
    {"P12", {2, 7, 9, 9}, {0, 7, 9}, MINNOW_DONE, {1, 7, 9, 9}, {0, 9, 9, 9}},
};

/* The first setting is the night book's, the others have answers of their own for P1. */
static void apply_rows(void) {
    static const struct setting settings[] = {
        {NULL, "0Z", 28, 512, 30, 30, 0, 0},
        {"an address twice", "0Z0Z", 27, 511, 0, 0, MINNOW_BAD_ORDER, MINNOW_BAD_ORDER},
        {"state of 27 bytes", "0Z1Z", 27, 511, 0, 0, MINNOW_BAD_STATE, MINNOW_BAD_STATE},
        {"image of 511 bytes", "0Z1Z", 28, 511, 0, 0, MINNOW_BAD_IMAGE, MINNOW_BAD_IMAGE},
        {"second block outside", "0Z1Z", 28, 512, 0, 0, MINNOW_OUTSIDE, MINNOW_OUTSIDE},
        {"while of 27 bytes", "0Z", 28, 512, 27, 28, MINNOW_NO_ROOM, MINNOW_DONE},
        {"done of 27 bytes", "0Z", 28, 512, 28, 27, MINNOW_NO_ROOM, MINNOW_NO_ROOM},
    };
    for (const struct apply *r = night_book; r < night_book + COUNT(night_book); r++)
        decide_and_apply(r, &settings[0], write_state(r->row, r->before, 28, MINNOW_DONE));
    for (size_t i = 1; i < COUNT(settings); i++) decide_and_apply(&night_book[0], &settings[i], record_of(night_book[0].before));
}

static void run_rows(void) {
    static const struct run { const char *row, *blocks, *before, *after; size_t i, k; uint32_t answer; size_t next; } runs[] = {
        {"first part", "0A2B3C", "abcd", "Abcd", 0, 1, MINNOW_DONE, 1},
        {"second part", "0A2B3C", "Abcd", "AbBd", 1, 1, MINNOW_DONE, 2},
        {"last part", "0A2B3C", "AbBd", "AbBC", 2, 9, MINNOW_DONE, 3},
        {"the sum does not wrap", "0A2B3C", "abcd", "abBC", 1, SIZE_MAX, MINNOW_DONE, 3},
        {"k = 0", "0A2B3C", "abcd", "abcd", 1, 0, MINNOW_DONE, 1},
        {"start at n", "0A2B3C", "abcd", "abcd", 3, 5, MINNOW_DONE, 3},
        {"start beyond n", "0A2B3C", "abcd", "", 4, 0, MINNOW_BAD_START, 0},
        {"block 3 outside", "0A2B3C", "abc", "", 4, 1, MINNOW_OUTSIDE, 0},
        {"an address twice, no image", "2B2C", "", "", 0, 1, MINNOW_BAD_ORDER, 0},
    };
    for (const struct run *r = runs; r < runs + COUNT(runs); r++) {
        struct bytes diff = diff_of(night_book[0].h, r->blocks), before = image_of(r->before), after = image_of(r->after);
        begin("run", r->row, r->answer);
        settle(minnow_run(lend_in(&diff), diff.len, lend("image", before.at, before.len, after.at, after.len), before.len,
                          r->i, r->k, NUMBER(r->next)));
    }
}

static void merge_rows(void) {
    static const struct merge { const char *row; struct head first, second; size_t cut, room; uint32_t answer; } merges[] = {
        {"{1: A, 3: B} with {3: C, 6: D}", {0, 0, 4}, {0, 4, 9}, 0, 1600, MINNOW_DONE},
        {"1,578 bytes of room", {0, 0, 4}, {0, 4, 9}, 0, 1578, MINNOW_DONE},
        {"1,577 bytes of room", {0, 0, 4}, {0, 4, 9}, 0, 1577, MINNOW_NO_ROOM},
        {"first compared, apart", {1, 0, 4}, {0, 5, 9}, 0, 1600, MINNOW_COMPARED},
        {"second compared", {0, 0, 4}, {1, 4, 9}, 0, 1600, MINNOW_COMPARED},
        {"apart, no room", {0, 0, 4}, {0, 5, 9}, 0, 0, MINNOW_APART},
        {"second cut", {1, 0, 4}, {0, 4, 9}, 1, 1600, MINNOW_CUT_OFF},
    };
    static const size_t size = 1578;
    struct bytes result = diff_of((struct head){0, 0, 9}, "1A3C6D");
    for (const struct merge *r = merges; r < merges + COUNT(merges); r++) {
        struct bytes first = diff_of(r->first, "1A3B"), second = diff_of(r->second, "3C6D");
        second.len -= r->cut;
        begin("merge", r->row, r->answer);
        settle(minnow_merge(lend_in(&first), first.len, lend_in(&second), second.len, lend_out("out", r->room, result.at, size),
                            r->room, NUMBER(size)));
    }
}

static void compare_rows(void) {
    static const struct compare {
        const char *row, *before, *after, *blocks; struct head h; size_t room; uint32_t answer;
    } compares[] = {
        {"blocks 1 and 3 differ", "abcd", "aBcD", "1B3D", {1, 3, 5}, 1100, MINNOW_DONE},
        {"1,059 bytes of room", "abcd", "aBcD", "", {1, 3, 5}, 1059, MINNOW_NO_ROOM},
        {"none differs", "ab", "ab", "", {1, 0, MINNOW_MAX_GID}, 24, MINNOW_DONE},
        {"unequal lengths, p = q", "ab", "abc", "", {1, 5, 5}, 0, MINNOW_BAD_IMAGE},
        {"p = q, no room", "ab", "aB", "", {1, 5, 5}, 0, MINNOW_BAD_HEAD},
    };
    for (const struct compare *r = compares; r < compares + COUNT(compares); r++) {
        struct bytes before = image_of(r->before), after = image_of(r->after), result = diff_of(r->h, r->blocks);
        begin("compare", r->row, r->answer);
        settle(minnow_compare(lend_in(&before), before.len, lend_in(&after), after.len, r->h.p, r->h.q,
                              lend_out("out", r->room, result.at, result.len), r->room, NUMBER(result.len)));
    }
}

static void read_through_rows(void) {
    static const struct read { const char *row, *blocks, *image; size_t a; uint32_t answer, slice; size_t at; } reads[] = {
        {"first of the diff", "1B2C", "abc", 1, MINNOW_DONE, MINNOW_IN_DIFF, 24 + 6},
        {"second of the diff", "1B2C", "abc", 2, MINNOW_DONE, MINNOW_IN_DIFF, 24 + 518 + 6},
        {"in the image", "1B2C", "abcd", 3, MINNOW_DONE, MINNOW_IN_IMAGE, 3 * 512},
        {"asks outside", "1B2C", "abc", 3, MINNOW_OUTSIDE, 0, 0},
        {"diff outside", "1B5F", "abc", 0, MINNOW_OUTSIDE, 0, 0},
        {"no image", "1B2C", "", 3, MINNOW_BAD_IMAGE, 0, 0},
        {"an address twice, no image", "1B1C", "", 0, MINNOW_BAD_ORDER, 0, 0},
    };
    for (const struct read *r = reads; r < reads + COUNT(reads); r++) {
        struct bytes diff = diff_of(night_book[0].h, r->blocks), image = image_of(r->image);
        begin("read_through", r->row, r->answer);
        settle(minnow_read_through(lend_in(&diff), diff.len, lend_in(&image), image.len, r->a, NUMBER(r->slice), NUMBER(r->at)));
    }
}

struct plan {
    const char *row; struct state before; uint64_t target; size_t count, room; uint32_t answer; size_t size, places[96];
};

static void plan(const struct plan *r, const char *name, const struct bytes *heads, uint32_t expected) {
    struct bytes state = record_of(r->before);
    begin("plan", name, expected);
    settle(minnow_plan(lend_in(heads), heads->len, r->count, lend_in(&state), state.len, r->target,
                       lend_out("places", r->room * sizeof(size_t), r->places, sizeof r->places), r->room, NUMBER(r->size)));
}

static void plan_rows(void) {
    static const struct head heads[] = {{0, 0, 4}, {1, 4, 9}, {0, 4, 6}, {0, 6, 9}};
    static const struct plan plans[] = {
        {"from clean 0", {0, 0, 0, 0}, 9, 4, 98, MINNOW_DONE, 2, {0, 1}},
        {"from clean 5", {0, 5, 5, 5}, 9, 4, 96, MINNOW_DONE, 2, {2, 3}},
        {"from dirty 0,0,5", {0, 0, 0, 5}, 9, 4, 96, MINNOW_DONE, 3, {0, 2, 3}},
        {"target 5", {0, 0, 0, 0}, 5, 4, 95, MINNOW_NO_CHAIN, 0, {0}},
        {"clean 9 already", {0, 9, 9, 9}, 9, 4, 96, MINNOW_DONE, 0, {0}},
        {"a head past the count", {0, 5, 5, 5}, 9, 3, 96, MINNOW_NO_CHAIN, 0, {0}},
        {"95 places", {0, 0, 0, 0}, 9, 4, 95, MINNOW_NO_ROOM, 0, {0}},
        {"97 entries", {3, 0, 0, 0}, LARGE, 97, 96, MINNOW_SHELF_FULL, 0, {0}},
        {"target too large", {0, 0, 0, 0}, LARGE, 4, 96, MINNOW_BAD_GID, 0, {0}},
        {"state of kind 3", {3, 0, 0, 0}, LARGE, 4, 96, MINNOW_BAD_STATE, 0, {0}},
    };
    static const struct edit edits[] = {
        {"a byte missing", 95, 0, 0x57, MINNOW_CUT_OFF}, {"mark of a head", 96, 73, 0x42, MINNOW_BAD_MARK},
        {"kind 2", 96, 74, 2, MINNOW_BAD_HEAD}, {"131,072 blocks", 96, 94, 2, MINNOW_TOO_MANY},
    };
    struct bytes shelf = {0, {0}};
    for (size_t i = 0; i < COUNT(heads); i++, shelf.len += 24) {
        struct bytes head = diff_of(heads[i], "");
        memcpy(shelf.at + shelf.len, head.at, 24);
    }
    for (size_t i = 0; i < COUNT(plans); i++) plan(&plans[i], plans[i].row, &shelf, plans[i].answer);
    for (size_t i = 0; i < COUNT(edits); i++) {
        struct bytes other = edited(shelf, &edits[i]);
        plan(&plans[COUNT(plans) - 1], edits[i].row, &other, edits[i].answer);
    }
}

static void lag_rows(void) {
    static const struct lag { const char *row; struct state s; uint64_t target; uint32_t answer; int64_t gids; } lags[] = {
        {"clean 7, target 9", {0, 7, 7, 7}, 9, MINNOW_DONE, -2},
        {"dirty 9,9,12, target 7", {0, 9, 9, 12}, 7, MINNOW_DONE, 2},
        {"0, target the last gid", {0, 0, 0, 0}, MINNOW_MAX_GID, MINNOW_DONE, -INT64_MAX},
        {"kind 3, target too large", {3, 7, 7, 7}, LARGE, MINNOW_BAD_STATE, 0},
        {"target too large", {0, 7, 7, 7}, LARGE, MINNOW_BAD_GID, 0},
    };
    for (const struct lag *r = lags; r < lags + COUNT(lags); r++) {
        struct bytes state = record_of(r->s);
        begin("lag", r->row, r->answer);
        settle(minnow_lag(lend_in(&state), state.len, r->target, NUMBER(r->gids)));
    }
}

int main(void) {
    check_rows(), state_rows(), apply_rows(), run_rows(), merge_rows(), compare_rows();
    read_through_rows(), plan_rows(), lag_rows();
    printf("%zu rows as 01 has them\n", rows - failed);
    return failed > 0;
}
