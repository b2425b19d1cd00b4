/* Slices at the edges of what may be lent: empty ones with any pointer (of a live byte, into memory that cannot be touched, null) in every combination, from a window
 * and from none, accounts or records that lie inside the index, and slices longer than 4 GiB. The library must reply as for plain slices; and each planted fault must be found.
 * The last line is 'N passed, M failed', one for each combination, part of the index, long slice and planted fault. */
#define _GNU_SOURCE
#include "calls.h"

#include <stdio.h>
#include <string.h>
#include <sys/mman.h>

enum { PAGE = 4096, FILL = 0xA5, RECORD = FE_DESK + 2, ROOM = 200, WINDOW = 17 };

/* Card A of document 01. */
static const uint8_t CARD[36] = {
    1, 0, 5, 0, 6,
    6, 0, 0, 0, 1,  6, 0, 0, 0, 2,  6, 0, 1, 0, 2,  6, 0, 1, 0, 3,  6, 0, 2, 0, 3,  6, 0, 3, 0, 4,
    5,
};

static const struct question {
    uint32_t number[4], k;
    uint8_t accounts[2];
} ASKED = {{1, 2, 2, 3}, 3, {0, 1}};

/* 1-2 is a link, and can be withdrawn; what is put in is 1-4. */
enum { PUT = 4 };

/* A limit tried on three bets: of 4, which is in no group at 3, of 3 and of 0, which are in one, and that has no room for the second. */
enum { LIMIT = 100, BETS = 3 };
static const uint8_t DAY[BETS * FE_RECORD] = {0, 0, 0, 0, 4, 0, 0, 0, 60, 0, 0, 0, 0, 3, 0, 0, 0, 50, 0, 0, 0, 0, 0, 0, 0, 0, 60};
static const uint8_t TAKEN[BETS] = {1, 1, 0}, LEFT[FE_MARGIN] = {0, 0, 0, 0, 0, 0, 0, 50}, WHOLE_LIMIT[FE_MARGIN] = {0, 0, 0, 0, 0, 0, 0, LIMIT};

/* Of each call done on this card: the value, and what is in the buffer. */
static uint32_t value[CALLS];
static uint8_t result[CALLS][ROOM], index_bytes[ROOM];
static size_t index_len;

/* Question A has a second number: 1-2 is in two triangles of weight 3. */
static uint32_t second_of(enum call call) {
    return call == STRENGTH ? 2 : 0;
}

static uint8_t *untouchable;
static int passed, failed;

static void count(const char *what, const char *name, int holds) {
    if (holds) {
        passed++;
    } else {
        failed++;
        printf("FAILED empty: %s, %s\n", name, what);
    }
}

/* ---- what is lent ---- */

/* A slice as it is, or empty with one of three pointers. */
enum state { WHOLE, EMPTY, EMPTY_UNTOUCHABLE, EMPTY_NULL, STATES };

static struct {
    uint8_t read[ROOM], accounts[2], buffer[ROOM], desk[RECORD], records[sizeof DAY], margins[ROOM];
} own;

/* What is read beside the first slice, and what is written beside the buffer. */
static int has_second(enum call call) {
    return has_accounts(call) || call == TRY_LIMIT;
}

static int has_last(enum call call) {
    return is_question(call) || call == TRY_LIMIT;
}

static struct slice in_state(uint8_t *at, size_t length, enum state state) {
    uint8_t *const pointer[STATES] = {at, at, untouchable, NULL};
    return (struct slice){pointer[state], state == WHOLE ? length : 0};
}

/* The call from window 17 with its slices in these states; the memory is filled anew. Of a limit tried, the second are the records and the last the margins. */
static struct asked lend(enum call call, enum state read, enum state accounts, enum state buffer, enum state desk) {
    struct asked a = {.call = call, .k = ASKED.k, .window = WINDOW, .limit = LIMIT};
    size_t length = call == BUILD ? sizeof CARD : index_len;
    memset(&own, FILL, sizeof own);
    memcpy(own.read, call == BUILD ? CARD : index_bytes, length);
    memcpy(own.accounts, ASKED.accounts, sizeof own.accounts), memcpy(a.number, ASKED.number, sizeof a.number);
    if (call == PUT_IN) a.number[1] = PUT;
    memset(own.desk, 0, FE_DESK), memcpy(own.records, DAY, sizeof DAY);
    a.read = in_state(own.read, length, read), a.accounts = in_state(own.accounts, sizeof own.accounts, accounts);
    a.buffer = in_state(own.buffer, ROOM, buffer), a.desk = in_state(own.desk, RECORD, desk);
    a.records = in_state(own.records, sizeof own.records, accounts), a.margins = in_state(own.margins, ROOM, desk);
    return a;
}

/* ---- empty slices ---- */

/* The refusal that the window and the empty slices lead to, in the calls' order of checks; 0 if none. */
static uint32_t refusal_of(const struct asked *a) {
    if (is_question(a->call) && a->window >= FE_WINDOWS) return 13;
    if (!a->read.length) return a->call == BUILD ? 1 : 7;
    if (a->call == TRY_LIMIT) return (a->records.length && !a->buffer.length) || !a->margins.length ? 12 : 0;
    if (has_accounts(a->call) && !a->accounts.length) return 8;
    if (has_buffer(a->call) && !a->buffer.length) return 12;
    return is_question(a->call) && !a->desk.length ? 12 : 0;
}

/* The desk record as it must be: all tallies 0 but that of an answered question. */
static void desk_after(int answered, uint8_t *desk) {
    memset(desk, FILL, RECORD), memset(desk, 0, FE_DESK);
    if (answered) desk[4 * WINDOW + 3] = 1;
}

/* The buffers of a limit tried: with no records the whole limit is left. */
static void day_after(int done, int records, uint8_t *buffer, uint8_t *margins) {
    memset(buffer, FILL, ROOM), memset(margins, FILL, ROOM);
    if (done && records) memcpy(buffer, TAKEN, BETS);
    if (done) memcpy(margins, records ? LEFT : WHOLE_LIMIT, FE_MARGIN);
}

/* Reply, buffers and desk record are as they must be. */
static int right(const struct asked *a, fe_reply reply) {
    uint8_t buffer[ROOM], desk[RECORD], margins[ROOM];
    uint32_t refusal = refusal_of(a);
    int done = refusal == 0, trial = a->call == TRY_LIMIT;
    memset(buffer, FILL, ROOM);
    if (done && has_buffer(a->call) && !trial) memcpy(buffer, result[a->call], value[a->call]);
    desk_after(done && is_question(a->call), desk);
    day_after(done && trial, a->records.length != 0, trial ? buffer : margins, margins);
    return reply.refusal == refusal && reply.value == (done ? value[a->call] : 0) && reply.second == (done ? second_of(a->call) : 0) && !reply.third &&
           !memcmp(own.buffer, buffer, ROOM) && !memcmp(own.desk, desk, RECORD) && !memcmp(own.margins, margins, ROOM);
}

/* All states of all slices that the call has, from window 17 and from 32, which there is not; gives how many combinations were wrong. */
static int combinations(library *library, enum call call, int counted) {
    enum { ALL = STATES * STATES * STATES * STATES };
    int wrong = 0;
    for (int i = 0; i < 2 * ALL; i++) {
        enum state read = i % STATES, accounts = i / STATES % STATES, buffer = i / STATES / STATES % STATES, desk = i / STATES / STATES / STATES % STATES;
        if ((!has_second(call) && accounts) || (!has_buffer(call) && buffer) || (!has_last(call) && desk) || (!is_question(call) && i >= ALL)) continue;
        struct asked a = lend(call, read, accounts, buffer, desk);
        if (i >= ALL) a.window = FE_WINDOWS;
        int holds = right(&a, library(&a));
        if (counted) count("empty slices", name_of(call), holds);
        wrong += !holds;
    }
    return wrong;
}

/* ---- accounts or records inside the index ---- */

/* Each part of the index as the accounts, or as the records, beside a copy of it; gives how many differed. */
static int inside(library *library, enum call call, int counted) {
    uint8_t copy[ROOM], buffer[ROOM], desk[RECORD], margins[ROOM];
    int wrong = 0;
    for (size_t from = 0; from <= index_len; from++)
        for (size_t length = 0; length <= 34 && from + length <= index_len; length++) {
            struct asked a = lend(call, WHOLE, WHOLE, WHOLE, WHOLE);
            memcpy(copy, index_bytes + from, length);
            a.accounts = a.records = (struct slice){copy, length};
            fe_reply apart = make_call(&a);
            memcpy(buffer, own.buffer, ROOM), memcpy(desk, own.desk, RECORD), memcpy(margins, own.margins, ROOM);
            a = lend(call, WHOLE, WHOLE, WHOLE, WHOLE);
            a.accounts = a.records = (struct slice){own.read + from, length};
            fe_reply within = library(&a);
            int holds = !memcmp(&apart, &within, sizeof apart) && !memcmp(buffer, own.buffer, ROOM) && !memcmp(desk, own.desk, RECORD) && !memcmp(margins, own.margins, ROOM);
            if (counted) count("accounts or records inside the index", name_of(call), holds);
            wrong += !holds;
        }
    return wrong;
}

/* ---- slices above 4 GiB ---- */

static const size_t FOUR_GIB = (size_t)1 << 32;

/* Each slice in turn is 4 GiB longer than it was: what is read is then refused, what is written suffices. Gives how many were wrong. */
static int long_slices(library *library, uint8_t *memory, enum call call, int counted) {
    uint8_t desk[RECORD];
    int wrong = 0, trial = call == TRY_LIMIT;
    for (int which = 0; which < 4; which++) {
        struct asked a = lend(call, WHOLE, WHOLE, WHOLE, WHOLE);
        struct slice *const slices[] = {&a.read, trial ? &a.records : &a.accounts, &a.buffer, trial ? &a.margins : &a.desk};
        if ((which == 1 && !has_second(call)) || (which == 2 && !has_buffer(call)) || (which == 3 && !has_last(call))) continue;
        uint32_t refusal = which == 0 ? (call == BUILD ? 1 : 7) : which == 1 ? (trial ? 16 : 8) : 0;
        uint32_t wanted = refusal == 0 ? value[call] : refusal == 1 ? sizeof CARD : 0;
        memcpy(memory, slices[which]->at, slices[which]->length);
        slices[which]->at = memory;
        slices[which]->length = which > 1 ? FOUR_GIB + 1 : FOUR_GIB + slices[which]->length;
        fe_reply reply = library(&a);
        int holds = reply.refusal == refusal && reply.value == wanted && reply.second == (refusal ? 0 : second_of(call)) && !reply.third;
        if (which == 2 && holds) holds = !memcmp(memory, result[call], trial ? BETS : value[call]);
        desk_after(1, desk);
        if (which == 3 && holds) holds = trial ? !memcmp(memory, LEFT, FE_MARGIN) : !memcmp(memory, desk, RECORD);
        if (counted) count("a slice above 4 GiB", name_of(call), holds);
        wrong += !holds;
    }
    return wrong;
}

/* ---- planted faults ---- */

static fe_reply null_is_12(const struct asked *a) {
    fe_reply reply = make_call(a);
    return a->desk.at == NULL && is_question(a->call) && reply.refusal == 7 ? (fe_reply){12, 0, 0, 0} : reply;
}

static fe_reply null_before_window(const struct asked *a) {
    return a->window >= FE_WINDOWS && a->read.at == NULL ? (fe_reply){7, 0, 0, 0} : make_call(a);
}

static fe_reply empty_is_done(const struct asked *a) {
    fe_reply reply = make_call(a);
    return a->call == READ && reply.refusal == 12 ? (fe_reply){0, 0, 0, 0} : reply;
}

static fe_reply empty_first(const struct asked *a) {
    return a->buffer.length ? make_call(a) : (fe_reply){12, 0, 0, 0};
}

static fe_reply null_left_alone(const struct asked *a) {
    fe_reply reply = make_call(a);
    return a->buffer.at == NULL && reply.refusal == 12 ? (fe_reply){0, value[a->call], 0, 0} : reply;
}

static fe_reply no_records_refused(const struct asked *a) {
    return a->records.at == NULL && a->read.length ? (fe_reply){15, 0, 0, 0} : make_call(a);
}

static fe_reply empty_without_records(const struct asked *a) {
    fe_reply reply = make_call(a);
    return reply.refusal == 0 && !a->buffer.length ? (fe_reply){12, 0, 0, 0} : reply;
}

static fe_reply no_margins_done(const struct asked *a) {
    fe_reply reply = make_call(a);
    return reply.refusal == 12 && !a->margins.length ? (fe_reply){0, 0, 0, 0} : reply;
}

static fe_reply looks_at_another_record(const struct asked *a) {
    struct asked other = *a;
    if (a->records.at > a->read.at && a->records.at < a->read.at + a->read.length) other.records.at--;
    return make_call(&other);
}

static fe_reply looks_at_another_account(const struct asked *a) {
    struct asked other = *a;
    if (a->accounts.at > a->read.at && a->accounts.at < a->read.at + a->read.length) other.accounts.at--;
    return make_call(&other);
}

static fe_reply length_cut(const struct asked *a) {
    struct asked other = *a;
    other.read.length = (uint32_t)other.read.length, other.accounts.length = (uint32_t)other.accounts.length;
    other.records.length = (uint32_t)other.records.length;
    return make_call(&other);
}

static fe_reply room_cut(const struct asked *a) {
    struct asked other = *a;
    other.buffer.length = (uint32_t)other.buffer.length, other.desk.length = (uint32_t)other.desk.length;
    other.margins.length = (uint32_t)other.margins.length;
    return make_call(&other);
}

static void planted_faults(uint8_t *memory) {
    count("planted", "a null desk record refused first", combinations(null_is_12, STRENGTH, 0) > 0);
    count("planted", "a null index refused before the window", combinations(null_before_window, JOINED, 0) > 0);
    count("planted", "a reading into nothing done", combinations(empty_is_done, READ, 0) > 0);
    count("planted", "a change into nothing refused before the index", combinations(empty_first, WITHDRAW, 0) > 0);
    count("planted", "a change into a null buffer done", combinations(null_left_alone, PUT_IN, 0) > 0);
    count("planted", "other accounts read where they lie in the index", inside(looks_at_another_account, ALL_GROUPS, 0) > 0);
    count("planted", "no records refused", combinations(no_records_refused, TRY_LIMIT, 0) > 0);
    count("planted", "no records into nothing refused", combinations(empty_without_records, TRY_LIMIT, 0) > 0);
    count("planted", "a limit tried without a place for margins", combinations(no_margins_done, TRY_LIMIT, 0) > 0);
    count("planted", "other records read where they lie in the index", inside(looks_at_another_record, TRY_LIMIT, 0) > 0);
    if (!memory) return;
    count("planted", "lengths read cut to 32 bits", long_slices(length_cut, memory, BUILD, 0) > 0 && long_slices(length_cut, memory, GROUPS_AT, 0) > 0);
    count("planted", "lengths written cut to 32 bits", long_slices(room_cut, memory, READ, 0) > 0 && long_slices(room_cut, memory, JOINED, 0) > 0);
    count("planted", "a day's lengths cut to 32 bits", long_slices(length_cut, memory, TRY_LIMIT, 0) > 1 && long_slices(room_cut, memory, TRY_LIMIT, 0) > 1);
    count("planted", "a change's lengths cut to 32 bits", long_slices(length_cut, memory, PUT_IN, 0) > 0 && long_slices(room_cut, memory, WITHDRAW, 0) > 0);
}

/* The calls on plain slices: they must be done. */
static int learn(void) {
    index_len = fe_build(CARD, sizeof CARD, index_bytes, sizeof index_bytes).value;
    for (enum call call = BUILD; call < CALLS; call++) {
        struct asked a = lend(call, WHOLE, WHOLE, WHOLE, WHOLE);
        fe_reply reply = make_call(&a);
        if (reply.refusal) return 0;
        value[call] = reply.value;
        memcpy(result[call], own.buffer, ROOM);
    }
    return 1;
}

int main(void) {
    untouchable = mmap(NULL, PAGE, PROT_NONE, MAP_PRIVATE | MAP_ANONYMOUS, -1, 0);
    uint8_t *memory = mmap(NULL, FOUR_GIB + PAGE, PROT_READ | PROT_WRITE, MAP_PRIVATE | MAP_ANONYMOUS | MAP_NORESERVE, -1, 0);
    if (untouchable == MAP_FAILED || !learn()) return 2;
    untouchable += PAGE / 2;
    if (memory == MAP_FAILED) memory = NULL, printf("empty: no 4 GiB of address space: slices above that were not tried\n");
    planted_faults(memory);
    for (enum call call = BUILD; call < CALLS; call++) {
        combinations(make_call, call, 1);
        if (has_second(call)) inside(make_call, call, 1);
        if (memory) long_slices(make_call, memory, call, 1);
    }
    printf("%d passed, %d failed\n", passed, failed);
    return failed != 0;
}
