/* The calls between guard pages, on cards, indexes, changes and questions that are drawn and then changed again and again: an own driver with a seed.
 *
 *     guard                          planted faults, then TURNS turns from seed 1: the gate's run
 *     guard turns N [SEED]           so many turns
 *     guard seconds N [SEED [LIST]]  so long; LIST gets each block of the library with whether it was reached
 *     guard hex FILE                 the one turn whose bytes a failure printed
 *
 * A turn that reached something new is kept and changed further: a new block of the library, or one more often, if the archive has counters (tests/guard/fuzz); else
 * a new kind of reply. The last line is 'N passed, M failed', one for each turn and for each planted fault. */
#define _POSIX_C_SOURCE 200809L
#include "coverage.h"
#include "draw.h"
#include "planted.h"

#include <stdio.h>
#include <stdlib.h>
#include <string.h>
#include <time.h>

enum { TURNS = 150000, PLANTED_TURNS = 20000, KEPT = 1 << 15, SHOWN = 5, REPLIES = 17 };

/* The refusals that each call can have. */
static const uint8_t REFUSALS[CALLS][8] = {
    {1, 2, 3, 4, 5, 6, 12}, {7, 12}, {7, 9, 5, 14, 3, 12}, {7, 9, 11, 12}, {7, 9, 11, 12, 13}, {7, 9, 11, 12, 13}, {7, 8, 9, 10, 12, 13}, {7, 8, 9, 12, 13},
    {7, 8, 9, 12, 13}, {7, 9, 10, 11, 12, 13}, {7, 9, 10, 11, 12, 13}, {7, 10, 16, 15, 9, 12},
};

/* Answers with lone links, and those at 2 without. */
static const char *const LONE[LONES] = {
    "B of a lone link with itself", "C at 2 of lone links", "C at 2 of others", "C at 2 of both", "D of lone links", "E of lone links and others",
    "F at 2 of a lone link", "F at 2 of others", "G at 2 of a lone link with itself", "G at 2 of another with itself",
};

/* What days that were tried had. */
static const char *const DAY[DAYS] = {
    "a bet for which one group has room and another not", "a bet taken of an account in several groups", "a bet taken of an account in no group",
    "a bet refused of an account in no group", "a bet that leaves a margin of 0", "a bet refused by one penny", "a bet refused where a margin is below zero",
    "a closing margin below zero", "a lowered limit", "a bet taken in a lone pair", "no record", "4,096 records", "a tail", "a new limit of an account that there is not",
    "a kind above 1", "no margin",
};

struct kept {
    uint8_t *data;
    size_t size;
};

static struct kept kept[KEPT];
static size_t kept_count;
static uint64_t passed, failed, made, met_count[CALLS][REPLIES], reordered[CALLS], other_heads[CALLS], lone[LONES + 1], days[DAYS], answered[FE_WINDOWS];

static uint8_t data[TURN_MAX];
static struct turn turn, other;

/* ---- what is new ---- */

static int is_new_reply(const struct met *met) {
    static uint8_t seen[CALLS * REPLIES * 131 * 32];
    uint32_t value = met->reply.value, size = 0, large = 0;
    for (uint32_t v = value; v; v >>= 1) size++;
    for (size_t v = met->length; v; v >>= 1) large++;
    if (met->reply.refusal == 0 && value < 64) size = 64 + value;
    uint32_t key = ((met->call * (uint32_t)REPLIES + met->reply.refusal) * 131u + size) * 32u + large;
    int new = !seen[key];
    seen[key] = 1;
    return new;
}

static void keep(const struct turn *t) {
    size_t size = turn_write(t, data);
    uint8_t *copy = malloc(size);
    if (!copy) exit(2);
    memcpy(copy, data, size);
    size_t at = kept_count < KEPT ? kept_count++ : size % KEPT;
    free(kept[at].data);
    kept[at] = (struct kept){copy, size};
}

static void some_kept(struct random *random, struct turn *t) {
    size_t late = kept_count > 64 && random_below(random, 4) == 0 ? kept_count - 64 : 0;
    const struct kept *k = &kept[late + random_below(random, kept_count - late)];
    turn_read(t, k->data, k->size);
}

static void next_turn(struct random *random) {
    /* a kind of reply tells less than blocks do, so more turns are drawn anew where there are no counters */
    if (kept_count < 16 || random_below(random, coverage_blocks() ? 12 : 3) == 0) {
        draw_fresh(random, &turn);
        return;
    }
    some_kept(random, &turn), some_kept(random, &other);
    draw_change(random, &turn, &other);
}

/* ---- one turn ---- */

static void show(const struct turn *t, const char *what) {
    printf("FAILED guard, %s: %s\n", name_of(t->call), what);
    if (failed > SHOWN) return;
    size_t size = turn_write(t, data);
    for (size_t i = 0; i < size; i++) printf("%02x", data[i]);
    printf("\n  repeat: target/tests/guard hex FILE, with the line above in the file\n");
}

/* Gives whether the turn met something new. */
static int one(const struct turn *t) {
    struct met met;
    coverage_clear();
    const char *what = turn_run(make_call, t, &met);
    made += met.made;
    if (what) {
        failed++;
        show(t, what);
        return 0;
    }
    passed++;
    met_count[met.call][met.reply.refusal]++, reordered[met.call] += (uint64_t)met.reordered;
    other_heads[met.call] += (uint64_t)met.other_head, lone[met.lone]++;
    for (int kind = 0; kind < DAYS; kind++) days[kind] += met.days >> kind & 1;
    if (is_question(met.call) && met.reply.refusal == 0) answered[t->window]++;
    return coverage_blocks() ? coverage_look() != 0 : is_new_reply(&met);
}

static double now(void) {
    struct timespec at;
    clock_gettime(CLOCK_MONOTONIC, &at);
    return (double)at.tv_sec + (double)at.tv_nsec / 1e9;
}

static void say_so_far(double seconds, uint64_t turns) {
    printf("  %.0f s: %llu turns, %zu kept, %zu of %zu blocks\n", seconds, (unsigned long long)turns, kept_count, coverage_reached(), coverage_blocks());
    fflush(stdout);
}

/* So many turns, or so many seconds. */
static void drive(uint64_t turns, double seconds, uint64_t seed) {
    struct random random = {seed};
    double began = now(), said = began;
    uint64_t done = 0;
    for (double at = began; done < turns; done++) {
        if (seconds > 0 && done % 256 == 0) at = now();
        if (at - began > seconds) break;
        if (at - said > 60) said = at, say_so_far(at - began, done);
        next_turn(&random);
        if (one(&turn)) keep(&turn);
    }
    printf("guard: seed %llu, %llu turns, %llu calls, %zu turns kept, %.1f s\n", (unsigned long long)seed, (unsigned long long)done,
           (unsigned long long)made, kept_count, now() - began);
    if (coverage_blocks()) printf("guard: %zu of %zu blocks of the library reached\n", coverage_reached(), coverage_blocks());
}

/* ---- what must be met ---- */

static void show_met(void) {
    for (int call = 0; call < CALLS; call++) {
        printf("  %s done: %llu", name_of(call), (unsigned long long)met_count[call][0]);
        int all = met_count[call][0] > 0;
        for (const uint8_t *refusal = REFUSALS[call]; *refusal; refusal++) {
            printf(", by %d: %llu", *refusal, (unsigned long long)met_count[call][*refusal]);
            all &= met_count[call][*refusal] > 0;
        }
        if (has_accounts(call)) printf(", groups in another order than the index's: %llu", (unsigned long long)reordered[call]), all &= reordered[call] > 0;
        printf(", by the other file's head: %llu\n", (unsigned long long)other_heads[call]);
        all &= other_heads[call] > 0;
        if (all) continue;
        failed++;
        printf("FAILED guard: some reply or order of %s was never met\n", name_of(call));
    }
    for (int kind = 0; kind < LONES; kind++) {
        printf("  %s: %llu\n", LONE[kind], (unsigned long long)lone[kind]);
        if (lone[kind]) continue;
        failed++;
        printf("FAILED guard: no answer was %s\n", LONE[kind]);
    }
    for (int kind = 0; kind < DAYS; kind++) {
        printf("  days with %s: %llu\n", DAY[kind], (unsigned long long)days[kind]);
        if (days[kind]) continue;
        failed++;
        printf("FAILED guard: no day had %s\n", DAY[kind]);
    }
    uint64_t least = answered[0];
    for (int window = 1; window < FE_WINDOWS; window++) least = answered[window] < least ? answered[window] : least;
    printf("  answered to each window: %llu or more\n", (unsigned long long)least);
    if (least) return;
    failed++;
    printf("FAILED guard: some window was never answered\n");
}

static void count_planted(const char *name, int found) {
    if (found) {
        passed++;
    } else {
        failed++;
        printf("FAILED guard: planted fault not found: %s\n", name);
    }
}

/* Whether a wrong index is seen, given the sorted links alone. */
static int seen_in_links(library *build, uint64_t seed) {
    static uint8_t sorted[FE_LINKS_MAX], index[FE_INDEX_MAX];
    struct random random = {seed};
    for (int turns = 0; turns < PLANTED_TURNS; turns++) {
        draw_fresh(&random, &turn);
        struct asked asked = {.call = BUILD, .read = {turn.card, turn.card_len}, .buffer = {index, sizeof index}};
        if (build(&asked).refusal) continue;
        right_sorted(turn.card, sorted);
        if (!right_lone(sorted, index)) return 1;
    }
    return 0;
}

/* The turns must find each planted fault, and the links each wrong index. */
static void planted_faults(void) {
    for (size_t i = 0; i < PLANTED_COUNT; i++) {
        struct random random = {i + 1};
        struct met met;
        int found = 0;
        for (int turns = 0; turns < PLANTED_TURNS && !found; turns++) {
            draw_fresh(&random, &turn);
            if (turns % 2) draw_fresh(&random, &other), draw_change(&random, &turn, &other);
            turn.call = (uint8_t)PLANTED[i].of;
            found = turn_run(PLANTED[i].call, &turn, &met) != NULL;
        }
        count_planted(PLANTED[i].name, found);
    }
    for (size_t i = 0; i < WRONG_COUNT; i++) count_planted(WRONG[i].name, seen_in_links(WRONG[i].call, i + 1));
}

static int from_hex(const char *name) {
    FILE *file = fopen(name, "r");
    unsigned byte;
    size_t size = 0;
    if (!file) return 2;
    while (size < sizeof data && fscanf(file, "%2x", &byte) == 1) data[size++] = (uint8_t)byte;
    fclose(file);
    turn_read(&turn, data, size);
    one(&turn);
    return 0;
}

int main(int count, char **words) {
    const char *mode = count > 1 ? words[1] : "";
    uint64_t number = count > 2 ? strtoull(words[2], NULL, 10) : 0, seed = count > 3 ? strtoull(words[3], NULL, 10) : 1;
    setvbuf(stdout, NULL, _IOLBF, 1 << 16);
    turn_start(1);
    if (!strcmp(mode, "hex")) {
        if (from_hex(count > 2 ? words[2] : "")) return 2;
    } else if (!strcmp(mode, "turns")) {
        drive(number, 0, seed);
        show_met();
    } else if (!strcmp(mode, "seconds")) {
        drive(UINT64_MAX, (double)number, seed);
        show_met();
        FILE *list = count > 4 ? fopen(words[4], "w") : NULL;
        if (list) coverage_list(list), fclose(list);
    } else {
        planted_faults();
        drive(TURNS, 0, 1);
        show_met();
    }
    printf("%llu passed, %llu failed\n", (unsigned long long)passed, (unsigned long long)failed);
    return failed != 0 || passed == 0;
}
