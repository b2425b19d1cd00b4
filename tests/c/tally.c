/* A million questions in a row on one desk record, from all windows in any order, with the whole record looked at after each: all seven kinds, answered and refused,
 * drawn from a table of known replies, and some of them from windows that there are not, which is 13 whatever else is wrong.
 *
 *     tally [N]   N questions (1,000,000 if not given), and then 3,000 by which some windows come to rest at the top while others go on
 *
 * Before that the whole table is put from each window, and from windows above 31. Its own look must find each planted fault. The last line is 'N passed, M failed':
 * one for each of the three runs, for each window of the last, and for each planted fault. */
#include "calls.h"

#include <stdio.h>
#include <stdlib.h>
#include <string.h>

enum { MILLION = 1000000, TOP_RUN = 3000, BELOW = 10, RECORD = FE_DESK + 4 };

/* Card B of document 01, all pairs of 0, 1, 2, 3, all pairs of 3, 4, 5, 6, and 2-4; and 6-7, the last link, which is in no triangle. Its groups: 0 and 1 of strength 4,
 * 2 of strength 3 with all 13 links of card B, 3 of strength 2 with 6-7. */
static const uint8_t CARD[] = {
    1, 0, 8, 0, 14,
    6, 0, 0, 0, 1,  6, 0, 0, 0, 2,  6, 0, 0, 0, 3,  6, 0, 1, 0, 2,  6, 0, 1, 0, 3,  6, 0, 2, 0, 3,
    6, 0, 3, 0, 4,  6, 0, 3, 0, 5,  6, 0, 3, 0, 6,  6, 0, 4, 0, 5,  6, 0, 4, 0, 6,  6, 0, 5, 0, 6,
    6, 0, 2, 0, 4,  6, 0, 7, 0, 6,
    5,
};

/* A question with its reply to a window that there is. `named` is how many of the accounts are lent, in half accounts so that it can be odd; room and desk are
 * lengths. */
struct known {
    enum call call;
    uint32_t number[4], k;
    size_t named;
    uint8_t accounts[4];
    size_t room, desk;
    uint32_t refusal, value, second;
    uint8_t answer[8]; /* how the answer begins: eight bytes or all */
    int damaged;       /* on bytes that are no index */
};

enum { R = 64, D = RECORD, X = FE_DESK, S = FE_DESK - 1 }; /* a record is longer than it need be, exact, or one byte short */

static const struct known KNOWN[] = {
    {.call = STRENGTH, .number = {0, 1}, .desk = D, .value = 4, .second = 2},
    {.call = STRENGTH, .number = {4, 2}, .desk = D, .value = 3, .second = 1},
    {.call = STRENGTH, .number = {6, 5}, .desk = X, .value = 4, .second = 2},
    {.call = STRENGTH, .number = {2, 3}, .desk = X, .value = 4, .second = 2}, /* 2-3-4 has weight 3 */
    {.call = STRENGTH, .number = {6, 7}, .desk = D, .value = 2, .second = 0},
    {.call = STRENGTH, .number = {0, 4}, .desk = D, .refusal = 11},
    {.call = STRENGTH, .number = {0, 8}, .desk = D, .refusal = 9},
    {.call = STRENGTH, .number = {0, 1}, .desk = S, .refusal = 12},
    {.call = STRENGTH, .number = {0, 1}, .desk = 4, .refusal = 12},
    {.call = STRENGTH, .number = {0, 1}, .desk = D, .refusal = 7, .damaged = 1},
    {.call = STRENGTH, .number = {0, 8}, .desk = 0, .refusal = 7, .damaged = 1},
    {.call = JOINED, .number = {2, 3, 3, 4}, .desk = D, .value = 3},
    {.call = JOINED, .number = {1, 0, 2, 3}, .desk = D, .value = 4},
    {.call = JOINED, .number = {5, 6, 5, 6}, .desk = X, .value = 4},
    {.call = JOINED, .number = {6, 7, 7, 6}, .desk = D, .value = 2},
    {.call = JOINED, .number = {6, 7, 5, 6}, .desk = X, .value = 0},
    {.call = JOINED, .number = {0, 1, 1, 4}, .desk = D, .refusal = 11},
    {.call = JOINED, .number = {0, 1, 1, 9}, .desk = D, .refusal = 9},
    {.call = GROUPS_AT, .k = 4, .named = 2, .accounts = {0, 3}, .room = R, .desk = D, .value = 6, .answer = {0, 2, 0, 0, 0, 1}},
    {.call = GROUPS_AT, .k = 4, .named = 4, .accounts = {0, 2, 0, 4}, .room = 2, .desk = D, .value = 2, .answer = {0, 0}},
    {.call = GROUPS_AT, .k = 3, .named = 4, .accounts = {0, 2, 0, 4}, .room = 4, .desk = X, .value = 4, .answer = {0, 1, 0, 2}},
    {.call = GROUPS_AT, .k = 2, .named = 2, .accounts = {0, 3}, .room = R, .desk = D, .value = 4, .answer = {0, 1, 0, 2}},
    {.call = GROUPS_AT, .k = 2, .named = 2, .accounts = {0, 6}, .room = 6, .desk = X, .value = 6, .answer = {0, 2, 0, 2, 0, 3}},
    {.call = GROUPS_AT, .k = 2, .named = 4, .accounts = {0, 6, 0, 7}, .room = 4, .desk = D, .value = 4, .answer = {0, 1, 0, 3}},
    {.call = GROUPS_AT, .k = 3, .named = 2, .accounts = {0, 7}, .room = R, .desk = D, .value = 2, .answer = {0, 0}},
    {.call = GROUPS_AT, .k = 1, .named = 2, .accounts = {0, 3}, .room = R, .desk = D, .refusal = 10},
    {.call = GROUPS_AT, .k = 65, .named = 2, .accounts = {0, 3}, .room = R, .desk = D, .refusal = 10},
    {.call = GROUPS_AT, .k = 3, .named = 0, .room = R, .desk = D, .refusal = 8},
    {.call = GROUPS_AT, .k = 1, .named = 0, .room = 0, .desk = S, .refusal = 7, .damaged = 1},
    {.call = GROUPS_AT, .k = 2, .named = 2, .accounts = {0, 6}, .room = 5, .desk = D, .refusal = 12},
    {.call = STRONGEST, .named = 2, .accounts = {0, 3}, .room = 6, .desk = D, .value = 6, .answer = {0, 2, 0, 0, 0, 1}},
    {.call = STRONGEST, .named = 4, .accounts = {0, 0, 0, 6}, .room = R, .desk = D, .value = 4, .answer = {0, 1, 0, 2}},
    {.call = STRONGEST, .named = 2, .accounts = {0, 7}, .room = R, .desk = X, .value = 4, .answer = {0, 1, 0, 3}},
    {.call = STRONGEST, .named = 2, .accounts = {0, 6}, .room = R, .desk = D, .value = 4, .answer = {0, 1, 0, 1}},
    {.call = STRONGEST, .named = 2, .accounts = {0, 8}, .room = R, .desk = D, .refusal = 9},
    {.call = STRONGEST, .named = 2, .accounts = {0, 3}, .room = 5, .desk = D, .refusal = 12},
    {.call = ALL_GROUPS, .named = 2, .accounts = {0, 3}, .room = R, .desk = D, .value = 8, .answer = {0, 3, 0, 0, 0, 1, 0, 2}},
    {.call = ALL_GROUPS, .named = 2, .accounts = {0, 0}, .room = R, .desk = X, .value = 6, .answer = {0, 2, 0, 0, 0, 2}},
    {.call = ALL_GROUPS, .named = 2, .accounts = {0, 6}, .room = 8, .desk = D, .value = 8, .answer = {0, 3, 0, 1, 0, 2, 0, 3}},
    {.call = ALL_GROUPS, .named = 4, .accounts = {0, 7, 0, 6}, .room = R, .desk = D, .value = 4, .answer = {0, 1, 0, 3}},
    {.call = ALL_GROUPS, .named = 3, .accounts = {0, 3, 0}, .room = R, .desk = D, .refusal = 8},
    {.call = ALL_GROUPS, .named = 0, .room = 0, .desk = S, .refusal = 8},
    {.call = ALL_GROUPS, .named = 2, .accounts = {0, 3}, .room = R, .desk = 0, .refusal = 12},
    {.call = GROUP_LINKS, .number = {0, 1}, .k = 4, .room = R, .desk = D, .value = 14, .answer = {0, 6, 0, 0, 0, 1, 0, 2}},
    {.call = GROUP_LINKS, .number = {4, 2}, .k = 3, .room = 28, .desk = D, .value = 28, .answer = {0, 13, 0, 0, 0, 1, 0, 2}},
    {.call = GROUP_LINKS, .number = {2, 4}, .k = 4, .room = 2, .desk = X, .value = 2, .answer = {0, 0}},
    {.call = GROUP_LINKS, .number = {7, 6}, .k = 2, .room = 4, .desk = D, .value = 4, .answer = {0, 1, 0, 13}},
    {.call = GROUP_LINKS, .number = {6, 7}, .k = 3, .room = R, .desk = X, .value = 2, .answer = {0, 0}},
    {.call = GROUP_LINKS, .number = {5, 6}, .k = 2, .room = R, .desk = D, .value = 28, .answer = {0, 13, 0, 0, 0, 1, 0, 2}},
    {.call = GROUP_LINKS, .number = {6, 7}, .k = 1, .room = R, .desk = D, .refusal = 10},
    {.call = GROUP_LINKS, .number = {2, 4}, .k = 66, .room = R, .desk = D, .refusal = 10},
    {.call = GROUP_LINKS, .number = {1, 4}, .k = 3, .room = R, .desk = D, .refusal = 11},
    {.call = GROUP_LINKS, .number = {0, 1}, .k = 4, .room = 13, .desk = D, .refusal = 12},
    {.call = CHAIN, .number = {2, 3, 3, 4}, .k = 3, .room = 8, .desk = D, .value = 8, .answer = {0, 1, 0, 2, 0, 3, 0, 4}},
    {.call = CHAIN, .number = {2, 3, 3, 4}, .k = 4, .room = 2, .desk = X, .value = 2, .answer = {0, 0}},
    {.call = CHAIN, .number = {3, 2, 0, 1}, .k = 4, .room = 14, .desk = D, .value = 14, .answer = {0, 2, 0, 0, 0, 2, 0, 3}},
    {.call = CHAIN, .number = {0, 1, 5, 6}, .k = 3, .room = R, .desk = D, .value = 32, .answer = {0, 5, 0, 0, 0, 1, 0, 2}},
    {.call = CHAIN, .number = {4, 2, 2, 4}, .k = 3, .room = R, .desk = X, .value = 8, .answer = {0, 1, 0, 2, 0, 3, 0, 4}},
    {.call = CHAIN, .number = {2, 4, 2, 4}, .k = 2, .room = 8, .desk = D, .value = 8, .answer = {0, 1, 0, 2, 0, 3, 0, 4}},
    {.call = CHAIN, .number = {6, 7, 6, 7}, .k = 2, .room = 2, .desk = D, .value = 2, .answer = {0, 0}},
    {.call = CHAIN, .number = {5, 6, 6, 7}, .k = 2, .room = R, .desk = X, .value = 2, .answer = {0, 0}},
    {.call = CHAIN, .number = {0, 1, 5, 6}, .k = 3, .room = R, .desk = D, .refusal = 7, .damaged = 1},
    {.call = CHAIN, .number = {0, 1, 5, 8}, .k = 1, .room = 0, .desk = S, .refusal = 9},
    {.call = CHAIN, .number = {6, 7, 6, 7}, .k = 1, .room = R, .desk = D, .refusal = 10},
    {.call = CHAIN, .number = {0, 1, 1, 4}, .k = 65, .room = R, .desk = D, .refusal = 10},
    {.call = CHAIN, .number = {1, 4, 0, 1}, .k = 3, .room = R, .desk = D, .refusal = 11},
    {.call = CHAIN, .number = {0, 1, 5, 6}, .k = 3, .room = 31, .desk = D, .refusal = 12},
    {.call = CHAIN, .number = {0, 1, 5, 6}, .k = 3, .room = R, .desk = S, .refusal = 12},
};

enum { TABLE = sizeof KNOWN / sizeof *KNOWN };

static uint8_t index_bytes[FE_INDEX_MAX], damaged[FE_INDEX_MAX];
static size_t index_len;

/* The desk as it must be: a count for each window, and the record that shows them, with bytes after it that stay. */
struct run {
    library *call;
    uint8_t record[RECORD], wanted[RECORD];
    uint64_t count[FE_WINDOWS], answered[FE_WINDOWS], refused, outside;
};

static const uint8_t AFTER[RECORD - FE_DESK] = {0xDE, 0x5C, 0x00, 0xFF};

static void put_four(uint8_t *at, uint64_t tally) {
    for (int i = 0; i < 4; i++) at[i] = (uint8_t)(tally >> (24 - 8 * i));
}

static void start(struct run *run, library *call, const uint32_t *tallies) {
    *run = (struct run){.call = call};
    memcpy(run->wanted + FE_DESK, AFTER, sizeof AFTER);
    for (uint32_t w = 0; w < FE_WINDOWS; w++) put_four(run->wanted + 4 * w, run->count[w] = tallies[w]);
    memcpy(run->record, run->wanted, RECORD);
}

/* Puts a question from a window; gives whether reply, answer and desk record are as they must be. */
static int put(struct run *run, const struct known *known, uint32_t window) {
    uint8_t answer[R];
    struct asked asked = {.call = known->call, .k = known->k, .window = window, .desk = {run->record, known->desk}, .buffer = {answer, known->room}};
    memcpy(asked.number, known->number, sizeof asked.number);
    asked.read = (struct slice){known->damaged ? damaged : index_bytes, index_len};
    uint8_t accounts[4];
    memcpy(accounts, known->accounts, sizeof accounts);
    asked.accounts = (struct slice){accounts, known->named};
    fe_reply reply = run->call(&asked);
    uint32_t refusal = window >= FE_WINDOWS ? 13 : known->refusal, value = refusal ? 0 : known->value, second = refusal ? 0 : known->second;
    if (window >= FE_WINDOWS) run->outside++;
    else if (refusal) run->refused++;
    else {
        run->answered[window]++, run->count[window] += run->count[window] < UINT32_MAX;
        put_four(run->wanted + 4 * window, run->count[window]);
    }
    if (reply.refusal != refusal || reply.value != value || reply.second != second || reply.third) return 0;
    size_t shown = has_buffer(known->call) ? value : 0;
    return !memcmp(answer, known->answer, shown < 8 ? shown : 8) && !memcmp(run->record, run->wanted, RECORD);
}

/* Windows that there are not, and what makes one of any window. */
static const uint32_t OUTSIDE[] = {32, 33, 63, 64, 255, 256, 65536, UINT32_C(0x80000000), UINT32_MAX}, MORE[] = {32, 64, 256, 65536, UINT32_C(0x80000000)};

enum { OUTSIDE_COUNT = sizeof OUTSIDE / sizeof *OUTSIDE, MORE_COUNT = sizeof MORE / sizeof *MORE };

static uint32_t next(uint64_t *seed, uint32_t limit) {
    *seed = *seed * UINT64_C(6364136223846793005) + UINT64_C(1442695040888963407);
    return (uint32_t)(*seed >> 33) % limit;
}

/* One in eight is not there. */
static uint32_t some_window(uint64_t *seed) {
    uint32_t window = next(seed, FE_WINDOWS);
    if (next(seed, 8)) return window;
    return next(seed, 2) ? OUTSIDE[next(seed, OUTSIDE_COUNT)] : MORE[next(seed, MORE_COUNT)] + window;
}

/* So many questions of the table, in an order that a seed fixes; gives how many were right. Those after a fault are left out. */
static uint64_t row(struct run *run, uint64_t questions, uint64_t seed) {
    for (uint64_t i = 0; i < questions; i++) {
        const struct known *known = &KNOWN[next(&seed, TABLE)];
        if (!put(run, known, some_window(&seed))) return i;
    }
    return questions;
}

enum { WHOLE = TABLE * (FE_WINDOWS + OUTSIDE_COUNT) };

/* The whole table from each window and from each that is not there. */
static uint64_t whole(struct run *run) {
    for (uint64_t i = 0; i < WHOLE; i++) {
        uint32_t window = (uint32_t)(i / TABLE);
        if (!put(run, &KNOWN[i % TABLE], window < FE_WINDOWS ? window : OUTSIDE[window - FE_WINDOWS])) return i;
    }
    return WHOLE;
}

/* ---- tallies to begin with ---- */

static const uint32_t NONE[FE_WINDOWS];

/* At the top and close below it, and where a carry goes through one byte to all: so laid that each kind has others before and after it. */
static const uint32_t MIXED[FE_WINDOWS] = {
    UINT32_MAX - BELOW, 0, UINT32_MAX, UINT32_MAX, 0xFFFFFF - BELOW, UINT32_MAX - 1, 0xFFFF - BELOW, 0xFF - BELOW,
    0, UINT32_MAX - BELOW, UINT32_MAX - BELOW, 0, 0xFFFFFF - BELOW, 0xFFFFFF - BELOW, UINT32_MAX, 0xFFFFFF - BELOW,
    UINT32_MAX, 0xFFFF - BELOW, UINT32_MAX - 1, 0xFF - BELOW, UINT32_MAX, 0xFF, 0xFFFF, 0xFFFFFF,
    0x7FFFFFFF - BELOW, 0x80000000, 0, UINT32_MAX - 2, 1, UINT32_MAX - BELOW, 0xFEFFFFFF - BELOW, UINT32_MAX - BELOW,
};

/* ---- planted faults ---- */

static uint64_t asked_so_far;

static uint8_t *tally_of(const struct asked *a) {
    return a->desk.at + 4 * a->window;
}

static int has_tally(const struct asked *a) {
    return a->window < FE_WINDOWS && a->desk.length >= FE_DESK;
}

static int is_top(const uint8_t *tally) {
    return tally[0] == 255 && tally[1] == 255 && tally[2] == 255 && tally[3] == 255;
}

static fe_reply one_in_500_not_counted(const struct asked *a) {
    uint8_t before[RECORD] = {0};
    memcpy(before, a->desk.at, a->desk.length);
    fe_reply reply = make_call(a);
    if (asked_so_far++ % 500 == 499) memcpy(a->desk.at, before, a->desk.length);
    return reply;
}

static fe_reply refused_counts(const struct asked *a) {
    fe_reply reply = make_call(a);
    if (reply.refusal == 12 && has_tally(a)) tally_of(a)[3]++;
    return reply;
}

static fe_reply no_index_counts(const struct asked *a) {
    fe_reply reply = make_call(a);
    if (reply.refusal == 7 && has_tally(a)) tally_of(a)[3]++;
    return reply;
}

static fe_reply no_window_counts(const struct asked *a) {
    fe_reply reply = make_call(a);
    if (reply.refusal == 13 && a->desk.length >= FE_DESK) a->desk.at[3]++;
    return reply;
}

static fe_reply no_carry(const struct asked *a) {
    uint8_t high = has_tally(a) ? tally_of(a)[2] : 0;
    fe_reply reply = make_call(a);
    if (reply.refusal == 0) tally_of(a)[2] = high;
    return reply;
}

static fe_reply wraps_at_the_top(const struct asked *a) {
    int top = has_tally(a) && is_top(tally_of(a));
    fe_reply reply = make_call(a);
    if (reply.refusal == 0 && top) memset(tally_of(a), 0, 4);
    return reply;
}

static fe_reply last_byte_of_the_record(const struct asked *a) {
    fe_reply reply = make_call(a);
    if (reply.refusal == 0 && a->desk.length == RECORD) a->desk.at[RECORD - 1] ^= 1;
    return reply;
}

static fe_reply next_window_moved(const struct asked *a) {
    struct asked other = *a;
    if (a->window < FE_WINDOWS) other.window = (a->window + 1) % FE_WINDOWS;
    return make_call(&other);
}

static fe_reply all_windows_moved(const struct asked *a) {
    fe_reply reply = make_call(a);
    struct asked other = *a;
    for (other.window = 0; reply.refusal == 0 && other.window < FE_WINDOWS; other.window++)
        if (other.window != a->window) make_call(&other);
    return reply;
}

static fe_reply window_by_32(const struct asked *a) {
    struct asked other = *a;
    other.window %= FE_WINDOWS;
    return make_call(&other);
}

static fe_reply window_cut(const struct asked *a) {
    struct asked other = *a;
    other.window &= 65535;
    return make_call(&other);
}

/* Window 32 has the four bytes after the record. */
static fe_reply one_window_more(const struct asked *a) {
    struct asked other = *a;
    if (a->window == FE_WINDOWS && a->desk.length == RECORD) other.window--, other.desk.at += 4, other.desk.length -= 4;
    return make_call(&other);
}

/* The reply to a window that there is not, by window 0, if `late` says so of its refusal; else 13. */
static fe_reply late_13(const struct asked *a, int late(uint32_t refusal)) {
    struct asked other = *a;
    uint8_t record[RECORD] = {0}, answer[R];
    other.window = 0, other.desk.at = record, other.buffer.at = answer;
    fe_reply reply = make_call(&other);
    return a->window >= FE_WINDOWS && late(reply.refusal) ? reply : make_call(a);
}

static int by_7(uint32_t refusal) {
    return refusal == 7;
}

static int by_8(uint32_t refusal) {
    return refusal == 8;
}

static int by_12(uint32_t refusal) {
    return refusal == 12;
}

static fe_reply after_7(const struct asked *a) {
    return late_13(a, by_7);
}

static fe_reply after_8(const struct asked *a) {
    return late_13(a, by_8);
}

static fe_reply after_12(const struct asked *a) {
    return late_13(a, by_12);
}

static fe_reply carry_into_the_tally_before(const struct asked *a) {
    int carry = has_tally(a) && a->window && is_top(tally_of(a));
    fe_reply reply = make_call(a);
    if (reply.refusal == 0 && carry) tally_of(a)[-1]++;
    return reply;
}

static fe_reply carry_into_the_next_tally(const struct asked *a) {
    int carry = has_tally(a) && tally_of(a)[3] == 255 && !is_top(tally_of(a));
    fe_reply reply = make_call(a);
    if (reply.refusal == 0 && carry && a->window < FE_WINDOWS - 1) tally_of(a)[4]++;
    return reply;
}

/* With a record that is short, but has so many bytes, as with a whole one. */
static fe_reply enough(const struct asked *a, size_t length) {
    struct asked other = *a;
    uint8_t record[FE_DESK] = {0};
    if (a->window >= FE_WINDOWS || a->desk.length >= FE_DESK || a->desk.length < length) return make_call(a);
    memcpy(record, a->desk.at, a->desk.length);
    other.desk = (struct slice){record, FE_DESK};
    fe_reply reply = make_call(&other);
    memcpy(a->desk.at, record, a->desk.length);
    return reply;
}

static fe_reply one_byte_short(const struct asked *a) {
    return enough(a, FE_DESK - 1);
}

static fe_reply own_bytes_only(const struct asked *a) {
    return enough(a, 4 * (size_t)a->window + 4);
}

static const struct {
    const char *name;
    library *call;
} PLANTED[] = {
    {"one in 500 not counted", one_in_500_not_counted},
    {"a refused question counted", refused_counts},
    {"a question on no index counted", no_index_counts},
    {"a question from no window counted for window 0", no_window_counts},
    {"no carry into the third byte", no_carry},
    {"0 after the top", wraps_at_the_top},
    {"the last byte of the record changed", last_byte_of_the_record},
    {"the next window's tally moved", next_window_moved},
    {"all tallies moved", all_windows_moved},
    {"window 32 taken for 0", window_by_32},
    {"the window cut to two bytes", window_cut},
    {"a tally for window 32", one_window_more},
    {"13 after 7", after_7},
    {"13 after 8", after_8},
    {"13 after 12", after_12},
    {"a carry into the tally before", carry_into_the_tally_before},
    {"a carry into the next tally", carry_into_the_next_tally},
    {"a record of 127 bytes answered", one_byte_short},
    {"a record that ends with the window's tally answered", own_bytes_only},
};

enum { FAULTS = sizeof PLANTED / sizeof *PLANTED };

/* The run of the test itself, short: from 0, and up to the top. */
static int found(library *call) {
    struct run run;
    start(&run, call, NONE);
    if (row(&run, TOP_RUN, 1) < TOP_RUN) return 1;
    start(&run, call, MIXED);
    return row(&run, TOP_RUN, 2) < TOP_RUN;
}

static uint64_t passed, failed;

static void check(int holds, const char *what, uint64_t at, const char *name) {
    if (holds) {
        passed++;
    } else {
        failed++;
        printf("FAILED tally: %s, %s %llu\n", name, what, (unsigned long long)at);
    }
}

static void add(const char *name, const struct run *run, uint64_t right, uint64_t questions) {
    uint64_t answered = 0, least = UINT64_MAX;
    for (int w = 0; w < FE_WINDOWS; w++) answered += run->answered[w], least = run->answered[w] < least ? run->answered[w] : least;
    printf("tally: %s: %llu answered, %llu or more to each window, %llu refused, %llu from no window\n", name, (unsigned long long)answered,
           (unsigned long long)least, (unsigned long long)run->refused, (unsigned long long)run->outside);
    check(right == questions, "question", right, name);
}

int main(int count, char **words) {
    uint64_t questions = count > 1 ? strtoull(words[1], NULL, 10) : MILLION;
    struct run run;
    fe_reply built = fe_build(CARD, sizeof CARD, index_bytes, sizeof index_bytes);
    index_len = built.value;
    if (built.refusal) return 2;
    memcpy(damaged, index_bytes, index_len);
    damaged[index_len - 2] ^= 1;
    for (size_t i = 0; i < FAULTS; i++) check(found(PLANTED[i].call), "not found: planted fault", i, PLANTED[i].name);
    start(&run, make_call, MIXED);
    add("each question from each window", &run, whole(&run), WHOLE);
    start(&run, make_call, NONE);
    add("from 0", &run, row(&run, questions, 1), questions);
    start(&run, make_call, MIXED);
    add("to the top", &run, row(&run, TOP_RUN, 2), TOP_RUN);
    for (uint32_t w = 0; w < FE_WINDOWS; w++) { /* past the next carry, or at rest */
        uint64_t sum = MIXED[w] + run.answered[w], tally = sum < UINT32_MAX ? sum : UINT32_MAX;
        uint8_t shown[4];
        put_four(shown, tally);
        check(run.answered[w] > BELOW && !memcmp(run.record + 4 * w, shown, 4), "window", w, "to the top");
    }
    printf("%llu passed, %llu failed\n", (unsigned long long)passed, (unsigned long long)failed);
    return failed != 0;
}
