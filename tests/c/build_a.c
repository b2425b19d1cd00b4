/* Builds card A of document 01 as a C host would, compares the index with the document's bytes, 90 since request 7 of document 02, reads it back, and tries a limit on a
 * day's bets. */
#include "footballelm.h"

#include <stdio.h>
#include <string.h>

static const uint8_t LINKS[36] = {
    1, 0, 5, 0, 6,
    6, 0, 0, 0, 1,  6, 0, 0, 0, 2,  6, 0, 1, 0, 2,  6, 0, 1, 0, 3,  6, 0, 2, 0, 3,  6, 0, 3, 0, 4,
    5,
};

static const uint8_t INDEX[90] = {
    7, 0, 5, 0, 6,
    2, 0, 0, 0, 1, 3, 0, 0,
    2, 0, 0, 0, 2, 3, 0, 0,
    2, 0, 1, 0, 2, 3, 0, 0,
    2, 0, 1, 0, 3, 3, 0, 0,
    2, 0, 2, 0, 3, 3, 0, 0,
    2, 0, 3, 0, 4, 2, 0, 1,
    3, 0, 0, 0, 1, 3,
    3, 0, 0, 0, 2, 3,
    3, 0, 2, 0, 3, 3,
    3, 0, 2, 0, 4, 3,
    4, 0xFF, 0xFF, 3, 0, 0,
    4, 0xFF, 0xFF, 2, 0, 5,
    5,
};

/* At 2, account 3 is in the group of 0 to 3 and in the pair 3-4. After the bets a lower limit, and seven bytes that are no record. */
enum { BETS = 3, ALL = 4 };
static const uint8_t DAY[ALL * FE_RECORD + 7] = {
    0, 0, 0, 0, 4, 0, 0, 0, 60,  0, 0, 0, 0, 3, 0, 0, 0, 50,  0, 0, 0, 0, 0, 0, 0, 0, 50,
    255, 1, 2, 3, 4, 0, 0, 0, 55,
};

static int passed, failed;

static void check(const char *name, int holds) {
    if (holds) {
        passed++;
    } else {
        failed++;
        printf("FAILED build_a: %s\n", name);
    }
}

static int is(fe_reply r, uint32_t refusal, uint32_t value) {
    return r.refusal == refusal && r.value == value && r.second == 0 && r.third == 0;
}

static int all(const uint8_t *bytes, size_t from, size_t to, uint8_t value) {
    for (size_t i = from; i < to; i++)
        if (bytes[i] != value) return 0;
    return 1;
}

/* As the header says. */
static int64_t margin(const uint8_t *at) {
    uint64_t bits = 0;
    for (int i = 0; i < FE_MARGIN; i++) bits = bits << 8 | at[i];
    return (int64_t)bits;
}

static uint8_t taken[ALL + 1], margins[3 * FE_MARGIN];

/* Tries the limit on so much of the day in new buffers, of which so much is lent; the bytes beyond must stay. */
static int trying(uint32_t k, uint32_t limit, size_t records_len, size_t room, size_t wide, uint32_t refusal, uint32_t value) {
    memset(taken, 0xA5, sizeof taken), memset(margins, 0xA5, sizeof margins);
    size_t written = refusal ? 0 : records_len / FE_RECORD;
    return is(fe_try_limit(INDEX, sizeof INDEX, DAY, records_len, k, limit, taken, room, margins, wide), refusal, value) && all(taken, written, sizeof taken, 0xA5) &&
           all(margins, refusal ? 0 : FE_MARGIN * value, sizeof margins, 0xA5);
}

static void a_day(void) {
    size_t bets = BETS * FE_RECORD, day = ALL * FE_RECORD;
    check("a limit tried", trying(2, 100, bets, sizeof taken, sizeof margins, 0, 2));
    check("bets taken", taken[0] == 1 && taken[1] == 0 && taken[2] == 1);
    check("margins", margin(margins) == 50 && margin(margins + FE_MARGIN) == 40);
    check("a lower limit, in exact buffers", trying(2, 100, sizeof DAY, ALL, 2 * FE_MARGIN, 0, 2));
    check("a new limit is taken", taken[2] == 1 && taken[3] == 1);
    check("a margin below zero", margin(margins) == 5 && margin(margins + FE_MARGIN) == -5 && margins[FE_MARGIN] == 0xFF);
    check("at 3 the pair is none", trying(3, 100, day, ALL, FE_MARGIN, 0, 1) && taken[1] == 1 && margin(margins) == -45);
    check("at 4 there is no group", trying(4, 100, day, ALL, 0, 0, 0) && taken[1] == 1);
    check("no records", trying(2, FE_LIMIT_MAX, FE_RECORD - 1, 0, 2 * FE_MARGIN, 0, 2) && margin(margins) == FE_LIMIT_MAX);
    check("k = 1 is 10", trying(1, 100, day, ALL, sizeof margins, 10, 0));
    check("a limit above the most is 15", trying(2, FE_LIMIT_MAX + 1, day, ALL, sizeof margins, 15, 0));
    check("a byte too few is 12", trying(2, 100, day, ALL - 1, sizeof margins, 12, 0));
    check("margins too short are 12", trying(2, 100, day, ALL, 2 * FE_MARGIN - 1, 12, 0));
}

int main(void) {
    static uint8_t index[FE_INDEX_MAX], links[FE_LINKS_MAX], altered[sizeof INDEX], other[sizeof LINKS];

    memset(index, 0xA5, sizeof index);
    check("reply", is(fe_build(LINKS, sizeof LINKS, index, sizeof index), 0, sizeof INDEX));
    check("index", memcmp(index, INDEX, sizeof INDEX) == 0);
    check("bytes after the index", all(index, sizeof INDEX, sizeof index, 0xA5));

    memset(index, 0xA5, sizeof index);
    check("exact buffer", is(fe_build(LINKS, sizeof LINKS, index, sizeof INDEX), 0, sizeof INDEX));
    check("index in an exact buffer", memcmp(index, INDEX, sizeof INDEX) == 0 && all(index, sizeof INDEX, sizeof index, 0xA5));

    memset(index, 0xA5, sizeof index);
    check("short buffer is 12", is(fe_build(LINKS, sizeof LINKS, index, sizeof INDEX - 1), 12, 0));
    check("no end is 1 at 35", is(fe_build(LINKS, sizeof LINKS - 1, index, sizeof index), 1, 35));
    memcpy(other, LINKS, sizeof LINKS), other[0] = 7;
    check("links that begin as an index does are 1 at 0", is(fe_build(other, sizeof other, index, sizeof index), 1, 0));
    check("an index for links is 1 at 0", is(fe_build(INDEX, sizeof INDEX, index, sizeof index), 1, 0));
    check("bytes after a refusal", all(index, 0, sizeof index, 0xA5));

    memset(links, 0xA5, sizeof links);
    check("read back", is(fe_read(INDEX, sizeof INDEX, links, sizeof links), 0, sizeof LINKS));
    check("links read back", memcmp(links, LINKS, sizeof LINKS) == 0 && all(links, sizeof LINKS, sizeof links, 0xA5));
    memset(links, 0xA5, sizeof links);
    check("short buffer for links is 12", is(fe_read(INDEX, sizeof INDEX, links, sizeof LINKS - 1), 12, 0));
    memcpy(altered, INDEX, sizeof INDEX);
    altered[5 + 6 * 8 + 2 * 6 + 2] = 1; /* the third join: 1 and 3 for 2 and 3 */
    check("an altered join is 7", is(fe_read(altered, sizeof altered, links, sizeof links), 7, 0));
    memcpy(altered, INDEX, sizeof INDEX), altered[0] = 1;
    check("an index that begins as links do is 7", is(fe_read(altered, sizeof altered, links, sizeof links), 7, 0));
    memcpy(altered, INDEX, sizeof INDEX), memset(altered + 5 + 5 * 8 + 6, 0xFF, 2);
    check("a link in no group is 7", is(fe_read(altered, sizeof altered, links, sizeof links), 7, 0));
    check("links for an index are 7", is(fe_read(LINKS, sizeof LINKS, links, sizeof links), 7, 0));
    check("bytes after a refused reading", all(links, 0, sizeof links, 0xA5));
    a_day();

    printf("%d passed, %d failed\n", passed, failed);
    return failed != 0;
}
