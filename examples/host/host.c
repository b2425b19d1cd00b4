/* A host of the terminal: builds the index of card B of document 01, asks every question on it from two windows, meets every refusal, shows which window was
 * answered how often, plays an afternoon in which links come and go, reads to a customer the larger of two parties, finds two people who are a party by themselves, and
 * tries two limits on an afternoon's bets. After `rt lib` in crates/terminal:
 *
 *     gcc -std=c11 -O2 -Wall -Wextra -Werror -pedantic -Iinclude examples/host/host.c crates/terminal/out/libterminal.a -o host && ./host
 *
 * It prints what stands in the file stdout beside it. */
#include "footballelm.h"

#include <stdio.h>
#include <string.h>

/* The links file: 7 accounts, 13 links; all pairs of 0, 1, 2, 3, all pairs of 3, 4, 5, 6, and 2-4. */
static const uint8_t CARD[] = {
    1, 0, 7, 0, 13,
    6, 0, 0, 0, 1,  6, 0, 0, 0, 2,  6, 0, 0, 0, 3,  6, 0, 1, 0, 2,  6, 0, 1, 0, 3,  6, 0, 2, 0, 3,
    6, 0, 3, 0, 4,  6, 0, 3, 0, 5,  6, 0, 3, 0, 6,  6, 0, 4, 0, 5,  6, 0, 4, 0, 6,  6, 0, 5, 0, 6,
    6, 0, 2, 0, 4,
    5,
};

/* Another one: 6 accounts, 8 links; account 2 is in two parties of strength 3, with 0 and 1, and with 3, 4 and 5. */
static const uint8_t PARTIES[] = {
    1, 0, 6, 0, 8,
    6, 0, 0, 0, 1,  6, 0, 0, 0, 2,  6, 0, 1, 0, 2,
    6, 0, 2, 0, 3,  6, 0, 2, 0, 4,  6, 0, 3, 0, 4,  6, 0, 3, 0, 5,  6, 0, 4, 0, 5,
    5,
};

/* The two windows that ask here, of the 32 that share the desk record. */
enum { PAYOUTS = 3, DISPUTES = 17 };

/* Accounts as questions name them, two bytes each. */
static const uint8_t ZERO[] = {0, 0}, TWO[] = {0, 2}, THREE[] = {0, 3}, TWO_AND_FOUR[] = {0, 2, 0, 4}, SEVEN[] = {0, 7};

/* An afternoon's bets in pence, as management tries limits on them: three, a new limit, two more. */
static const struct {
    uint8_t kind; /* 0: a bet; 1: a new limit, whose account is not looked at */
    uint32_t account, pence;
} AFTERNOON[] = {{0, 2, 4000}, {0, 0, 3000}, {0, 5, 5000}, {1, 0, 7000}, {0, 1, 2000}, {0, 4, 1000}};
enum { RECORDS = sizeof AFTERNOON / sizeof *AFTERNOON };

/* Two buffers for the index: a change goes from the one in use into the other. */
static uint8_t buffers[2][FE_INDEX_MAX], *index_bytes = buffers[0], *second = buffers[1];
static size_t length;
static uint8_t answer[FE_CHAIN_MAX], desk[FE_DESK];

/* Who can put a refusal right, and its reason. */
static const char *const WHY[17][2] = {
    {"", ""},
    {"filer of links", "an unknown or misplaced kind, a cut record, or bytes after the end"},
    {"filer of links", "the number of accounts is 0 or above 1,024"},
    {"filer of links", "the number of links is above 2,048"},
    {"filer of links", "an account is not below the number of accounts"},
    {"filer of links", "both accounts are the same"},
    {"filer of links", "the pair came earlier"},
    {"holder of the index", "the bytes are not the index of any links file"},
    {"window", "no account is named, over 16 are, or the byte length is odd"},
    {"window", "an account is not below the number of accounts"},
    {"window", "k is below 2 or above 64"},
    {"window", "a pair is no link"},
    {"host", "the result is longer than the buffer lent for it, or the desk record is below 128 bytes"},
    {"host", "the window is above 31"},
    {"filer of links", "the pair is there already"},
    {"manager", "a stake is 0 or above 1,000,000 pence, or a limit is above 1,000,000,000"},
    {"manager", "there are more than 4,096 records"},
};

static unsigned two(const uint8_t *at) { return at[0] * 256u + at[1]; }

static void why(fe_reply r) { printf(", for the %s: %s.\n", WHY[r.refusal][0], WHY[r.refusal][1]); }

/* Of a links file, 1 to 6 have a place in it. */
static void refused(fe_reply r) {
    printf("Refused %u", r.refusal);
    if (r.refusal <= 6) printf(" at byte %u", r.value);
    why(r);
}

/* The answer of A: the strength, and how many triangles of at least that weight hold the link. */
static void strength(const char *link, fe_reply r) {
    if (r.refusal) refused(r);
    else printf("Strength of %s: %u, held by %u triangle%s.\n", link, r.value, r.second, r.second == 1 ? "" : "s");
}

/* The answer of B: a number. */
static void number(const char *text, fe_reply r) {
    if (r.refusal) refused(r);
    else printf("%s: %u.\n", text, r.value);
}

/* The answer of C to F: numbers of groups or of links. Link i is the record at 5 + 8 * i in the index, with its two accounts after the first byte. */
static void list(const char *text, fe_reply r, int links) {
    if (r.refusal) {
        refused(r);
        return;
    }
    printf("%s:%s", text, two(answer) ? "" : " none");
    for (unsigned i = 1; i <= two(answer); i++) {
        unsigned it = two(answer + 2 * i);
        const uint8_t *record = index_bytes + 5 + 8 * it;
        if (links) printf(" %u-%u", two(record + 1), two(record + 3));
        else printf(" %u", it);
    }
    printf(".\n");
}

static int is_in(unsigned account, const uint8_t *triangle) {
    return account == two(triangle) || account == two(triangle + 2) || account == two(triangle + 4);
}

/* The answer of G, as a supervisor reads it to two parties: triangle by triangle, each with the link that leads on to the next. */
static void chain(const char *links, unsigned k, fe_reply r) {
    if (r.refusal) {
        refused(r);
        return;
    }
    unsigned count = two(answer);
    if (count == 0) printf("%s do not hang together at %u.\n", links, k);
    else printf("%s hang together at %u, by %u triangle%s:\n", links, k, count, count == 1 ? "" : "s");
    for (const uint8_t *t = answer + 2; count > 0; t += 6, count--) {
        printf("  %u, %u and %u are all linked", two(t), two(t + 2), two(t + 4));
        if (count > 1) { /* two of the three are in the next */
            int first = is_in(two(t), t + 6), last = is_in(two(t + 4), t + 6);
            printf("; on by %u-%u", two(first ? t : t + 2), two(last ? t + 4 : t + 2));
        }
        printf("\n");
    }
}

/* The card built with one byte changed. */
static fe_reply build_changed(size_t at, uint8_t byte) {
    uint8_t card[sizeof CARD], other[FE_INDEX_MAX];
    memcpy(card, CARD, sizeof card);
    card[at] = byte;
    return fe_build(card, sizeof card, other, sizeof other);
}

/* The tallies, for the supervisor who wants to see which window puts the questions. */
static void tallies(void) {
    printf("Questions answered:");
    for (unsigned window = 0; window < FE_WINDOWS; window++) {
        const uint8_t *tally = desk + 4 * window;
        unsigned long answered = two(tally) * 65536ul + two(tally + 2);
        if (answered != 0) printf(" %lu at window %u,", answered, window);
    }
    printf(" none at the others.\n");
}

/* A change: if it is done, the new index is in use from here on, and the old one's buffer takes the next; refused, all stays as it was, and there is no place. */
static void change(const char *text, fe_reply r) {
    if (r.refusal) {
        printf("Refused %u", r.refusal);
        why(r);
        return;
    }
    uint8_t *old = index_bytes;
    index_bytes = second, second = old, length = r.value;
    printf("%s: %u links, an index of %zu bytes.\n", text, two(index_bytes + 3), length);
}

static void group_of_0_1(void) {
    list("Links of the group at 4 with 0-1", fe_group_links(index_bytes, length, 0, 1, 4, answer, sizeof answer, PAYOUTS, desk, sizeof desk), 1);
}

/* A ticket of account 1 is cashed by account 4, and two groups become one. The same pair comes in again. Then 3-4 turns out to be a mistake, and the group is what it
 * was. */
static void afternoon(void) {
    group_of_0_1();
    change("A ticket is cashed, 1-4 put in", fe_put_in(index_bytes, length, 1, 4, second, FE_INDEX_MAX));
    group_of_0_1();
    change("4-1 put in", fe_put_in(index_bytes, length, 4, 1, second, FE_INDEX_MAX));
    change("3-4 withdrawn", fe_withdraw(index_bytes, length, 3, 4, second, FE_INDEX_MAX));
    group_of_0_1();
    tallies();
}

/* Both parties of account 2 have strength 3, so the larger comes first, though its number is higher: it is the one to read to the customer. The links of a group are those
 * of F with a link whose record names the group, at that link's strength. */
static void larger_party(void) {
    fe_reply r = fe_build(PARTIES, sizeof PARTIES, index_bytes, FE_INDEX_MAX);
    if (r.refusal) {
        refused(r);
        return;
    }
    length = r.value;
    printf("Another card: %u accounts, %u links, an index of %zu bytes.\n", two(index_bytes + 1), two(index_bytes + 3), length);
    r = fe_strongest_groups(index_bytes, length, TWO, sizeof TWO, answer, sizeof answer, PAYOUTS, desk, sizeof desk);
    list("Strongest groups with account 2", r, 0);
    if (r.refusal) return;
    const uint8_t *link = index_bytes + 5;
    while (two(link + 6) != two(answer + 2)) link += 8;
    r = fe_group_links(index_bytes, length, two(link + 1), two(link + 3), link[5], answer, sizeof answer, PAYOUTS, desk, sizeof desk);
    list("The first of them is read", r, 1);
}

/* 0 and 5 have no one in common, so their link is in no triangle: at 3 it is in no group, at 2 it is one by itself, beside the party that account 0 is in. */
static void two_people(void) {
    change("A ticket is cashed, 0-5 put in", fe_put_in(index_bytes, length, 0, 5, second, FE_INDEX_MAX));
    strength("0-5", fe_strength(index_bytes, length, 0, 5, PAYOUTS, desk, sizeof desk));
    list("Groups at 3 with account 0", fe_groups_at(index_bytes, length, ZERO, sizeof ZERO, 3, answer, sizeof answer, PAYOUTS, desk, sizeof desk), 0);
    list("Groups at 2 with account 0", fe_groups_at(index_bytes, length, ZERO, sizeof ZERO, 2, answer, sizeof answer, PAYOUTS, desk, sizeof desk), 0);
    list("Links of the group at 2 with 0-5", fe_group_links(index_bytes, length, 0, 5, 2, answer, sizeof answer, PAYOUTS, desk, sizeof desk), 1);
    number("Greatest k with 0-5 and 5-0 in one group", fe_joined(index_bytes, length, 0, 5, 5, 0, DISPUTES, desk, sizeof desk));
    chain("0-5 and 0-1", 2, fe_chain(index_bytes, length, 0, 5, 0, 1, 2, answer, sizeof answer, DISPUTES, desk, sizeof desk));
    tallies();
}

static void put_four(uint8_t *at, uint32_t value) {
    for (int i = 3; i >= 0; i--, value >>= 8) at[i] = (uint8_t)value;
}

/* A margin: eight bytes, two's complement. */
static long long margin(const uint8_t *at) {
    uint64_t bits = 0;
    for (int i = 0; i < FE_MARGIN; i++) bits = bits << 8 | at[i];
    return (int64_t)bits;
}

/* Under this limit at the start, at 2: what is taken, and what is left to each group at the close. Every group that holds the account has to have room for the stake. */
static void try_limit(const char *text, uint32_t limit) {
    static uint8_t records[RECORDS * FE_RECORD], taken[RECORDS], margins[16 * FE_MARGIN];
    for (size_t i = 0; i < RECORDS; i++) {
        uint8_t *record = records + FE_RECORD * i;
        record[0] = AFTERNOON[i].kind, put_four(record + 1, AFTERNOON[i].account), put_four(record + 5, AFTERNOON[i].pence);
    }
    fe_reply r = fe_try_limit(index_bytes, length, records, sizeof records, 2, limit, taken, sizeof taken, margins, sizeof margins);
    if (r.refusal) {
        refused(r);
        return;
    }
    printf("%s, %u pence:\n", text, limit);
    for (size_t i = 0; i < RECORDS; i++) {
        if (AFTERNOON[i].kind) printf("  the limit is %u from here on\n", AFTERNOON[i].pence);
        else printf("  account %u bets %u: %s\n", AFTERNOON[i].account, AFTERNOON[i].pence, taken[i] ? "taken" : "turned back");
    }
    printf("  left to each group at the close:");
    for (uint32_t group = 0; group < r.value; group++) printf(" %lld", margin(margins + FE_MARGIN * group));
    printf("\n");
}

/* Before a meeting, management tries a tight limit and a loose one. Accounts 0, 2 and 5 are in two groups each, and their bets count in both. Under the tight one two early
 * bets are turned back, and the late ones find room. Under the loose one they are taken, so the new limit is below what two groups have taken: their margins
 * are below zero, and the late bets are turned back. It is no question, and no tally moves. */
static void two_limits(void) {
    static uint8_t records[(FE_RECORDS_MAX + 1) * FE_RECORD], taken[FE_RECORDS_MAX], margins[16 * FE_MARGIN];
    list("Groups at 2 with account 2", fe_groups_at(index_bytes, length, TWO, sizeof TWO, 2, answer, sizeof answer, PAYOUTS, desk, sizeof desk), 0);
    try_limit("A tight limit", 6000);
    try_limit("A loose limit", 12000);
    refused(fe_try_limit(index_bytes, length, records, FE_RECORD, 2, 6000, taken, sizeof taken, margins, sizeof margins)); /* a stake of 0 */
    refused(fe_try_limit(index_bytes, length, records, sizeof records, 2, 6000, taken, sizeof taken, margins, sizeof margins));
    refused(fe_try_limit(index_bytes, length, records, 0, 2, 6000, taken, sizeof taken, margins, 23)); /* three margins take 24 bytes */
    tallies();
}

int main(void) {
    fe_reply r = fe_build(CARD, sizeof CARD, index_bytes, FE_INDEX_MAX);
    if (r.refusal) {
        refused(r);
        return 1;
    }
    length = r.value;
    printf("Card B: %u accounts, %u links, an index of %zu bytes.\n", two(index_bytes + 1), two(index_bytes + 3), length);

    strength("2-3", fe_strength(index_bytes, length, 2, 3, PAYOUTS, desk, sizeof desk));
    strength("4-2", fe_strength(index_bytes, length, 4, 2, PAYOUTS, desk, sizeof desk));
    number("Greatest k with 2-3 and 3-4 in one group", fe_joined(index_bytes, length, 2, 3, 3, 4, DISPUTES, desk, sizeof desk));
    r = fe_groups_at(index_bytes, length, THREE, sizeof THREE, 4, answer, sizeof answer, PAYOUTS, desk, sizeof desk);
    list("Groups at 4 with account 3", r, 0);
    r = fe_groups_at(index_bytes, length, TWO_AND_FOUR, sizeof TWO_AND_FOUR, 4, answer, sizeof answer, PAYOUTS, desk, sizeof desk);
    list("Groups at 4 with accounts 2 and 4", r, 0);
    r = fe_groups_at(index_bytes, length, TWO_AND_FOUR, sizeof TWO_AND_FOUR, 3, answer, sizeof answer, PAYOUTS, desk, sizeof desk);
    list("Groups at 3 with accounts 2 and 4", r, 0);
    r = fe_strongest_groups(index_bytes, length, THREE, sizeof THREE, answer, sizeof answer, PAYOUTS, desk, sizeof desk);
    list("Strongest groups with account 3", r, 0);
    r = fe_all_groups(index_bytes, length, THREE, sizeof THREE, answer, sizeof answer, PAYOUTS, desk, sizeof desk);
    list("All groups with account 3", r, 0);
    list("Links of the group at 4 with 3-4", fe_group_links(index_bytes, length, 3, 4, 4, answer, sizeof answer, PAYOUTS, desk, sizeof desk), 1);
    list("Links of the group at 4 with 2-4", fe_group_links(index_bytes, length, 2, 4, 4, answer, sizeof answer, PAYOUTS, desk, sizeof desk), 1);
    chain("2-3 and 3-4", 3, fe_chain(index_bytes, length, 2, 3, 3, 4, 3, answer, sizeof answer, DISPUTES, desk, sizeof desk));
    chain("2-3 and 3-4", 4, fe_chain(index_bytes, length, 2, 3, 3, 4, 4, answer, sizeof answer, DISPUTES, desk, sizeof desk));
    chain("0-1 and 5-6", 3, fe_chain(index_bytes, length, 0, 1, 5, 6, 3, answer, sizeof answer, DISPUTES, desk, sizeof desk));
    tallies();

    refused(build_changed(70, 6)); /* another link where the end should be */
    refused(build_changed(2, 0));  /* no accounts */
    refused(build_changed(3, 8));  /* 2,061 links */
    refused(build_changed(9, 7));  /* the first link: 0-7 */
    refused(build_changed(9, 0));  /* 0-0 */
    refused(build_changed(14, 1)); /* the second link: 0-1 again */
    index_bytes[10]--;             /* the strength of the first link */
    refused(fe_strength(index_bytes, length, 2, 3, PAYOUTS, desk, sizeof desk));
    index_bytes[10]++; /* and back */
    refused(fe_all_groups(index_bytes, length, THREE, 0, answer, sizeof answer, PAYOUTS, desk, sizeof desk));
    refused(fe_all_groups(index_bytes, length, SEVEN, sizeof SEVEN, answer, sizeof answer, PAYOUTS, desk, sizeof desk));
    refused(fe_group_links(index_bytes, length, 2, 3, 65, answer, sizeof answer, PAYOUTS, desk, sizeof desk));
    refused(fe_strength(index_bytes, length, 0, 6, PAYOUTS, desk, sizeof desk));
    refused(fe_all_groups(index_bytes, length, THREE, sizeof THREE, answer, 7, PAYOUTS, desk, sizeof desk)); /* three groups take 8 bytes */
    refused(fe_chain(index_bytes, length, 0, 1, 5, 7, 3, answer, sizeof answer, DISPUTES, desk, sizeof desk)); /* the second link: 5-7, and there is no account 7 */
    refused(fe_chain(index_bytes, length, 0, 1, 0, 6, 3, answer, sizeof answer, DISPUTES, desk, sizeof desk)); /* 0-6 */
    refused(fe_chain(index_bytes, length, 0, 1, 5, 6, 3, answer, 31, DISPUTES, desk, sizeof desk));            /* five triangles take 32 bytes */
    refused(fe_strength(index_bytes, length, 2, 3, FE_WINDOWS, desk, sizeof desk));                            /* window 32: the last one is 31 */
    tallies();

    afternoon();
    larger_party();
    two_people();
    two_limits();
    return 0;
}
