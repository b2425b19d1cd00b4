/* A row of changes as a C host makes it, in two buffers in turn: from 2,048 links down to none and up to 2,048 again, in another order. After each change the new index
 * is compared with fe_build's of a plain set that is kept here, and the old one and all other bytes of both buffers with what they were. Now and then each refusal is
 * met, and the row goes on from the same index. Each planted fault must be found.
 * The last line is 'N passed, M failed', one for each change and for each planted fault. */
#include "calls.h"

#include <stdio.h>
#include <string.h>

enum { ACCOUNTS = 592, LINKS = 2048, CLIQUE = 8, ROOM = FE_INDEX_MAX + 8, REFUSED_AT = 32 };

static int passed, failed;

/* ---- the plain set ---- */

static uint32_t pairs[LINKS][2]; /* in order */
static uint8_t there[LINKS];
static uint32_t links_there;

/* All pairs of eight accounts and eight more, as long as there are links: groups beside each other. */
static void draw_pairs(void) {
    size_t at = 0;
    for (uint32_t a = 0; at < LINKS; a++)
        for (uint32_t b = a + 1; b % CLIQUE && at < LINKS; b++, at++) pairs[at][0] = a, pairs[at][1] = b;
}

static void set_pair(size_t pair, uint8_t value) {
    links_there += value, links_there -= there[pair];
    there[pair] = value;
}

static uint8_t *put_two(uint8_t *at, uint32_t value) {
    *at++ = (uint8_t)(value >> 8), *at++ = (uint8_t)value;
    return at;
}

/* fe_build's index of the set; gives its length. */
static size_t build(uint8_t *index) {
    static uint8_t links[FE_LINKS_MAX];
    uint8_t *at = links;
    *at++ = 1, at = put_two(put_two(at, ACCOUNTS), links_there);
    for (size_t i = 0; i < LINKS; i++)
        if (there[i]) *at++ = 6, at = put_two(put_two(at, pairs[i][0]), pairs[i][1]);
    *at++ = 5;
    return fe_build(links, (size_t)(at - links), index, FE_INDEX_MAX).value;
}

/* ---- a change ---- */

static uint8_t buffers[2][ROOM], built[FE_INDEX_MAX];
static int last; /* the buffer with the last index */
static size_t length;

/* Makes the change and looks at all bytes. The refusal is the one that is due; if there is none, the set has the change already, and every third time the room is just
 * enough. Gives whether all is right. */
static int right(library *library, enum call call, const uint32_t *ends, size_t room, uint32_t refusal) {
    static uint8_t before[2][ROOM];
    memcpy(before, buffers, sizeof buffers);
    uint8_t *index = buffers[last], *out = buffers[1 - last], *wanted = before[1 - last];
    size_t value = 0;
    if (refusal == 0) value = build(built), memcpy(wanted, built, value);
    if (refusal == 0 && links_there % 3 == 0) room = value;
    struct asked asked = {.call = call, .number = {ends[0], ends[1]}, .read = {index, length}, .buffer = {out, room}};
    fe_reply reply = library(&asked);
    int is_right = reply.refusal == refusal && reply.value == value && !reply.second && !reply.third && !memcmp(before, buffers, sizeof buffers);
    if (refusal == 0) last = 1 - last, length = value;
    return is_right;
}

/* A refused change; the index stays. */
static int refused(library *library, enum call call, uint32_t a, uint32_t b, size_t room, uint32_t refusal) {
    const uint32_t ends[2] = {a, b};
    return right(library, call, ends, room, refusal);
}

/* Every refusal that there is now, alone and before others. */
static int all_refused(library *library) {
    const uint32_t far = ACCOUNTS - 1;
    int full = links_there == LINKS, is_right = 1;
    uint8_t *byte = &buffers[last][1];
    *byte ^= 0x80; /* no card has so many accounts */
    is_right &= refused(library, PUT_IN, 1, UINT32_MAX, FE_INDEX_MAX, 7) && refused(library, WITHDRAW, 1, 1, 0, 7);
    *byte ^= 0x80;
    is_right &= refused(library, PUT_IN, ACCOUNTS, ACCOUNTS, 0, 9) && refused(library, WITHDRAW, 1, UINT32_C(0x10000), FE_INDEX_MAX, 9);
    is_right &= refused(library, PUT_IN, far, far, 0, 5) && refused(library, WITHDRAW, far, far, 0, 11) && refused(library, WITHDRAW, far, 1, FE_INDEX_MAX, 11);
    is_right &= refused(library, PUT_IN, far, 1, 5, full ? 3 : 12);
    for (size_t i = 0; i < LINKS; i++) {
        if (!there[i]) continue;
        is_right &= refused(library, PUT_IN, pairs[i][1], pairs[i][0], 0, 14) && refused(library, WITHDRAW, pairs[i][0], pairs[i][1], 5, 12);
        break;
    }
    return is_right;
}

static int step(library *library, enum call call, size_t pair) {
    const uint32_t *ends = pairs[pair], turned[2] = {ends[1], ends[0]};
    set_pair(pair, call == PUT_IN);
    int is_right = right(library, call, links_there % 2 ? ends : turned, links_there % 5 ? FE_INDEX_MAX : ROOM, 0);
    return is_right && (links_there % REFUSED_AT || all_refused(library));
}

/* ---- the row ---- */

/* Down by so many links, and up by as many in another order. Gives how many changes were right; the row ends with the first that is not. */
static size_t row(library *library, size_t count) {
    size_t good = 0;
    memset(there, 0, sizeof there), memset(buffers, 0xA5, sizeof buffers);
    links_there = 0, last = 0;
    for (size_t i = 0; i < LINKS; i++) set_pair(i, 1);
    length = build(buffers[0]);
    if (!all_refused(library)) return 0;
    for (size_t i = 0; i < count; i++, good++)
        if (!step(library, WITHDRAW, i * 1237 % LINKS)) return good;
    for (size_t i = count; i > 0; i--, good++)
        if (!step(library, PUT_IN, (count == LINKS ? i * 5 : i - 1) * 1237 % LINKS)) return good;
    return all_refused(library) ? good : good - 1;
}

/* ---- planted faults ---- */

static fe_reply old_back(const struct asked *a) {
    fe_reply reply = make_call(a);
    if (reply.refusal == 0) memcpy(a->buffer.at, a->read.at, a->read.length), reply.value = (uint32_t)a->read.length;
    return reply;
}

/* The index before the last, which is in the second buffer, for the one to alter. */
static fe_reply from_the_one_before(const struct asked *a) {
    static uint8_t older[FE_INDEX_MAX];
    static size_t older_length;
    struct asked other = *a;
    if (older_length) other.read = (struct slice){older, older_length};
    fe_reply reply = make_call(&other);
    memcpy(older, a->read.at, a->read.length), older_length = a->read.length;
    return reply;
}

static fe_reply into_the_first(const struct asked *a) {
    fe_reply reply = make_call(a);
    if (reply.refusal == 0) a->read.at[0] = 0;
    return reply;
}

static fe_reply wipes_the_rest(const struct asked *a) {
    fe_reply reply = make_call(a);
    if (reply.refusal == 0) memset(a->buffer.at + reply.value, 0, a->buffer.length - reply.value);
    return reply;
}

static fe_reply writes_when_refused(const struct asked *a) {
    fe_reply reply = make_call(a);
    if (reply.refusal && a->buffer.length) a->buffer.at[0] = 0;
    return reply;
}

static fe_reply done_for_12(const struct asked *a) {
    fe_reply reply = make_call(a);
    return reply.refusal == 12 ? (fe_reply){0, (uint32_t)a->buffer.length, 0, 0} : reply;
}

static fe_reply none_left_refused(const struct asked *a) {
    return a->call == WITHDRAW && a->read.length == 6 + 8 + 6 ? (fe_reply){11, 0, 0, 0} : make_call(a);
}

static fe_reply exact_is_12(const struct asked *a) {
    fe_reply reply = make_call(a);
    return reply.refusal == 0 && reply.value == a->buffer.length ? (fe_reply){12, 0, 0, 0} : reply;
}

static fe_reply full_at_2047(const struct asked *a) {
    return a->call == PUT_IN && a->read.at[3] == 7 && a->read.at[4] == 255 ? (fe_reply){3, 0, 0, 0} : make_call(a);
}

static fe_reply full_before_there(const struct asked *a) {
    fe_reply reply = make_call(a);
    if (reply.refusal == 14 && a->read.at[3] == 8) reply.refusal = 3;
    return reply;
}

static const struct {
    const char *name;
    library *library;
    size_t count; /* of links withdrawn until it is found */
} PLANTED[] = {
    {"the old index written back", old_back, 10},
    {"the index before the last altered", from_the_one_before, 10},
    {"the old index changed", into_the_first, 10},
    {"the rest of the buffer wiped", wipes_the_rest, 10},
    {"the buffer written by a refused change", writes_when_refused, 10},
    {"done for 12", done_for_12, 10},
    {"12 at the exact length", exact_is_12, 10},
    {"the last link kept", none_left_refused, LINKS},
    {"3 at 2,047 links", full_at_2047, 10},
    {"3 before 14", full_before_there, 10},
};

static void count(const char *what, int holds) {
    if (holds) {
        passed++;
    } else {
        failed++;
        printf("FAILED changes: %s\n", what);
    }
}

int main(void) {
    draw_pairs();
    for (size_t i = 0; i < sizeof PLANTED / sizeof *PLANTED; i++) count(PLANTED[i].name, row(PLANTED[i].library, PLANTED[i].count) < 2 * PLANTED[i].count);
    size_t good = row(make_call, LINKS);
    passed += (int)good;
    if (good < 2 * LINKS) printf("FAILED changes: change %zu, %u links\n", good, links_there), failed++;
    printf("%d passed, %d failed\n", passed, failed);
    return failed != 0;
}
