/* One call between guard pages and the check of all that it did; turn.h says what is given.
 *
 * Of every call: the reply is the right one in all four numbers, a refused call changes no lent byte, a done one changes only the first `value` bytes of its
 * buffer and the four bytes of its window's tally, a limit tried the bytes of its records and margins, and these to what they must be. Of a build and of a change besides: what it wrote reads back as the sorted links file,
 * that builds to the same bytes, and each lone link of the file is a group of its own. A reading is right if it gives the links that the bytes name and if a build of
 * these gives the bytes again (right.h); a change is right if it gives what a build of the altered links gives. */
#define _POSIX_C_SOURCE 200809L
#include "turn.h"
#include "lent.h"
#include "random.h"

#include <setjmp.h>
#include <signal.h>
#include <stdio.h>
#include <stdlib.h>
#include <string.h>

/* ---- a turn as bytes ---- */

static size_t least(size_t a, size_t b) {
    return a < b ? a : b;
}

void turn_read(struct turn *t, const uint8_t *data, size_t size) {
    uint8_t head[TURN_HEAD] = {0};
    size_t at = least(size, TURN_HEAD);
    if (at) memcpy(head, data, at);
    t->call = head[0] % CALLS, t->lay = head[1], t->room = head[2] % ROOMS, t->as_card = head[3] & 1;
    t->desk_len = (uint16_t)two(head + 4), t->given = (uint16_t)two(head + 6), t->tally = four(head + 8);
    for (int i = 0; i < 4; i++) t->number[i] = four(head + 12 + 4 * i);
    t->k = four(head + 28), t->window = four(head + 32), t->accounts_len = head[36] % (TURN_ACCOUNTS + 1), t->edits = head[37] % (TURN_EDITS + 1);
    t->limit = four(head + 38), t->wide = head[42] % ROOMS, t->given_wide = (uint16_t)two(head + 43), t->day_len = (uint16_t)two(head + 45);
    t->row_len = (uint16_t)(two(head + 47) % (TURN_ROW + 1));
    t->accounts_len = (uint8_t)least(t->accounts_len, size - at);
    if (t->accounts_len) memcpy(t->accounts, data + at, t->accounts_len);
    at += t->accounts_len;
    t->row_len = (uint16_t)least(t->row_len, size - at);
    if (t->row_len) memcpy(t->row, data + at, t->row_len);
    at += t->row_len;
    t->edits = (uint8_t)least(t->edits, (size - at) / 6);
    for (int i = 0; i < t->edits; i++, at += 6)
        t->edit[i] = (struct edit){data[at] % EDIT_KINDS, data[at + 1], (uint16_t)two(data + at + 2), (uint16_t)two(data + at + 4)};
    t->card_len = least(size - at, TURN_CARD);
    if (t->card_len) memcpy(t->card, data + at, t->card_len);
}

size_t turn_write(const struct turn *t, uint8_t *data) {
    size_t at = TURN_HEAD;
    memset(data, 0, TURN_HEAD);
    data[0] = t->call, data[1] = t->lay, data[2] = t->room, data[3] = t->as_card;
    put_two(data + 4, t->desk_len), put_two(data + 6, t->given), put_four(data + 8, t->tally);
    for (int i = 0; i < 4; i++) put_four(data + 12 + 4 * i, t->number[i]);
    put_four(data + 28, t->k), put_four(data + 32, t->window), data[36] = t->accounts_len, data[37] = t->edits;
    put_four(data + 38, t->limit), data[42] = t->wide, put_two(data + 43, t->given_wide), put_two(data + 45, t->day_len), put_two(data + 47, t->row_len);
    memcpy(data + at, t->accounts, t->accounts_len), at += t->accounts_len;
    memcpy(data + at, t->row, t->row_len), at += t->row_len;
    for (int i = 0; i < t->edits; i++, at += 6) {
        data[at] = t->edit[i].kind, data[at + 1] = t->edit[i].count;
        put_two(data + at + 2, t->edit[i].at), put_two(data + at + 4, t->edit[i].value);
    }
    memcpy(data + at, t->card, t->card_len);
    return at + t->card_len;
}

/* ---- edits ---- */

/* Bytes that are edited: never more than what can be lent. */
struct bytes {
    uint8_t at[LENT_MAX];
    size_t length;
};

static void insert(struct bytes *b, size_t at, const uint8_t *from, size_t count) {
    static uint8_t copy[LENT_MAX];
    if (count > LENT_MAX - b->length) return;
    memcpy(copy, from, count);
    memmove(b->at + at + count, b->at + at, b->length - at);
    memcpy(b->at + at, copy, count);
    b->length += count;
}

static void append(struct bytes *b, size_t count, uint8_t value) {
    count = least(count, LENT_MAX - b->length);
    memset(b->at + b->length, value, count);
    b->length += count;
}

static void change(struct bytes *b, const struct edit *e, size_t record) {
    uint8_t fill[256];
    if (b->length == 0) {
        append(b, e->count, (uint8_t)e->value);
        return;
    }
    size_t at = e->at % b->length, other = e->value % b->length, count = least(e->count, b->length - at);
    size_t records = b->length > 5 + record ? (b->length - 5) / record : 0;
    switch (e->kind) {
    case SET: b->at[at] = (uint8_t)e->value; break;
    case FLIP: b->at[at] ^= (uint8_t)(1 << e->value % 8); break;
    case INSERT: memset(fill, e->value, sizeof fill), insert(b, at, fill, e->count); break;
    case DELETE: memmove(b->at + at, b->at + at + count, b->length - at - count), b->length -= count; break;
    case CUT: b->length = at; break;
    case APPEND: append(b, e->count, (uint8_t)e->value); break;
    case SWAP_RECORDS:
        if (records == 0) break;
        memcpy(fill, b->at + 5 + record * (e->at % records), record);
        memmove(b->at + 5 + record * (e->at % records), b->at + 5 + record * (e->value % records), record);
        memcpy(b->at + 5 + record * (e->value % records), fill, record);
        break;
    case ADD:
        if (at + 2 <= b->length) put_two(b->at + at, two(b->at + at) + e->value);
        break;
    case COPY: memmove(b->at + other, b->at + at, least(count, b->length - other)); break;
    case REPEAT_RECORD:
        if (records) insert(b, 5 + record * (e->value % records), b->at + 5 + record * (e->at % records), record);
        break;
    default: append(b, e->value, (uint8_t)e->count); break;
    }
}

/* What the call reads: the card's bytes or its index, edited. */
static void given_bytes(const struct turn *t, struct bytes *b, struct met *met) {
    int built = 0;
    if (t->call != BUILD && t->as_card) {
        fe_reply reply = fe_build(t->card, t->card_len, b->at, FE_INDEX_MAX);
        built = reply.refusal == 0, b->length = reply.value, met->made++;
    }
    if (!built) memcpy(b->at, t->card, t->card_len), b->length = t->card_len;
    for (int i = 0; i < t->edits; i++) change(b, &t->edit[i], t->call == BUILD ? 5 : 8);
}

/* ---- memory and faults ---- */

enum slice_number { FIRST, SECOND, THIRD, DESK, RECORDS, MARGINS, SLICES }; /* what is read; the accounts; the buffer; the desk record; a day's records and margins */

static const uint8_t STARTS[SLICES] = {FIRST_STARTS, SECOND_STARTS, THIRD_STARTS, DESK_STARTS, RECORDS_START, MARGINS_START};

static struct lent lent[SLICES];
static uint8_t noise[2 * LENT_MAX];
static sigjmp_buf back;
static volatile sig_atomic_t calling;
static char fault[128];

/* A guard page was touched, or a slice written that is only read. */
static void touched(int number, siginfo_t *info, void *context) {
    (void)number, (void)context;
    long offset;
    if (!calling) _Exit(3);
    snprintf(fault, sizeof fault, "memory touched outside the slices");
    for (int i = 0; i < SLICES; i++)
        if (lent_has(&lent[i], info->si_addr, &offset))
            snprintf(fault, sizeof fault, "%s of %zu bytes: byte %ld touched", lent[i].name, lent[i].length, offset);
    siglongjmp(back, 1);
}

void turn_start(int catch) {
    struct random random = {1};
    lent_make(&lent[FIRST], "the bytes read", 0), lent_make(&lent[SECOND], "the accounts", 0);
    lent_make(&lent[THIRD], "the buffer", 1), lent_make(&lent[DESK], "the desk record", 1);
    lent_make(&lent[RECORDS], "the records", 0), lent_make(&lent[MARGINS], "the margins", 1);
    for (size_t i = 0; i < sizeof noise; i++) noise[i] = (uint8_t)random_number(&random);
    if (!catch) return;
    struct sigaction action = {.sa_sigaction = touched, .sa_flags = SA_SIGINFO};
    sigaction(SIGSEGV, &action, NULL), sigaction(SIGBUS, &action, NULL);
}

/* ---- the call ---- */

/* A slice as the call gets it. */
static struct slice put(const struct turn *t, enum slice_number number, const uint8_t *bytes, size_t length) {
    uint8_t *at = lent_put(&lent[number], bytes, length, (t->lay & STARTS[number]) != 0);
    return (struct slice){length == 0 && t->lay & NULL_IF_EMPTY ? NULL : at, length};
}

/* Gives 0 if the call touched what it must not. */
static int called(library *call, const struct asked *asked, fe_reply *reply) {
    if (sigsetjmp(back, 1)) {
        calling = 0;
        return 0;
    }
    calling = 1;
    *reply = call(asked);
    calling = 0;
    return 1;
}

/* ---- what is right ---- */

/* The links file that a build or a change that is done stands for. */
struct file {
    uint8_t at[FE_LINKS_MAX];
    size_t length;
};

/* What the call must give with buffers that are long enough, and what it then writes there. */
static fe_reply right(const struct asked *asked, uint8_t *result, uint8_t *margins, struct file *file, struct met *met) {
    static uint8_t links[FE_LINKS_MAX];
    size_t links_len;
    if (asked->call == BUILD) {
        fe_reply reply = right_links(asked->read.at, asked->read.length);
        if (reply.refusal) return reply;
        met->made++;
        memcpy(file->at, asked->read.at, asked->read.length), file->length = asked->read.length;
        return fe_build(file->at, file->length, result, FE_INDEX_MAX);
    }
    if (is_question(asked->call) && asked->window >= FE_WINDOWS) return (fe_reply){13, 0, 0, 0};
    met->made++;
    if (!right_index(asked->read.at, asked->read.length, links, &links_len)) return (fe_reply){7, 0, 0, 0};
    if (is_change(asked->call)) {
        fe_reply reply = right_change(asked, links, links_len, file->at, &file->length);
        if (reply.refusal) return reply;
        met->made++;
        return fe_build(file->at, file->length, result, FE_INDEX_MAX);
    }
    if (asked->call == TRY_LIMIT) return right_day(asked, result, margins, &met->days);
    if (asked->call != READ) return right_answer(asked, result);
    memcpy(result, links, links_len);
    return (fe_reply){0, (uint32_t)links_len, 0, 0};
}

static size_t room_of(enum room room, size_t given, size_t result_len) {
    switch (room) {
    case EXACT: return result_len;
    case ONE_LESS: return result_len ? result_len - 1 : 0;
    case ONE_MORE: return result_len + 1;
    case EMPTY: return 0;
    case GIVEN: return given;
    default: return FE_INDEX_MAX;
    }
}

/* What an accepted links file's index leads to: the sorted links file, and back to the same index. */
static const char *there_and_back(const uint8_t *file, size_t file_len, const uint8_t *index, size_t index_len, struct met *met) {
    static uint8_t sorted[FE_LINKS_MAX], links[FE_LINKS_MAX], again[FE_INDEX_MAX];
    right_sorted(file, sorted);
    met->made += 2;
    fe_reply read = fe_read(index, index_len, links, sizeof links);
    if (read.refusal || read.value != file_len || memcmp(links, sorted, file_len)) return "the index reads back as another links file";
    fe_reply built = fe_build(links, read.value, again, sizeof again);
    if (built.refusal || built.value != index_len || memcmp(again, index, index_len)) return "what was read back builds to another index";
    return right_lone(sorted, index) ? NULL : "a lone link is no group of its own";
}

/* Whether only the head is wrong, and is that of the other file. */
static int has_other_head(const struct asked *asked) {
    static uint8_t bytes[LENT_MAX], links[FE_LINKS_MAX];
    size_t length = asked->read.length, links_len;
    int build = asked->call == BUILD;
    if (length == 0 || asked->read.at[0] != (build ? 7 : 1)) return 0;
    memcpy(bytes, asked->read.at, length), bytes[0] = build ? 1 : 7;
    return build ? right_links(bytes, length).refusal == 0 : right_index(bytes, length, links, &links_len);
}

/* The window's tally in a desk record; of a window that there is not, some tally. */
static uint8_t *tally_in(const struct turn *t, uint8_t *desk) {
    return desk + 4 * (size_t)(t->window % FE_WINDOWS);
}

static void expect_desk(const struct turn *t, int answered, uint8_t *desk) {
    if (answered && t->tally != UINT32_MAX) put_four(tally_in(t, desk), t->tally + 1);
}

/* What changed that should not, or did not change as it should. */
static const char *changes(const struct asked *asked, int answered, const uint8_t *buffer, const uint8_t *desk, const uint8_t *margins) {
    if (!lent_holds(&lent[FIRST], asked->read.at) || !lent_holds(&lent[SECOND], asked->accounts.at)) return "a byte changed that is only read";
    if (!lent_holds(&lent[RECORDS], asked->records.at)) return "a record changed";
    if (!lent_holds(&lent[MARGINS], margins)) return answered ? "the margins are others" : "a refused call changed the margins";
    if (!lent_holds(&lent[THIRD], buffer)) return answered ? "the buffer holds something else" : "a refused call changed the buffer";
    if (!lent_holds(&lent[DESK], desk)) return answered ? "the desk record holds something else" : "a refused call changed the desk record";
    for (int i = 0; i < SLICES; i++)
        if (!lent_side_stays(&lent[i])) return "a byte beside a slice changed";
    return NULL;
}

/* The row of a turn, again and again. */
static size_t fill_day(const struct turn *t, uint8_t *day) {
    size_t length = t->row_len ? least(t->day_len, LENT_MAX) : 0;
    for (size_t i = 0; i < length; i++) day[i] = t->row[i % t->row_len];
    return length;
}

/* Whether numbers of groups, after their count, are in another order than the index's. */
static int is_reordered(const uint8_t *answer, size_t length) {
    for (size_t at = 4; at + 2 <= length; at += 2)
        if (two(answer + at - 2) > two(answer + at)) return 1;
    return 0;
}

static const char *replies(fe_reply found, fe_reply wanted) {
    if (found.third) return "third is not 0";
    if (found.refusal == wanted.refusal && found.value == wanted.value && found.second == wanted.second) return NULL;
    snprintf(fault, sizeof fault, "reply %u %u %u, should be %u %u %u", found.refusal, found.value, found.second, wanted.refusal, wanted.value, wanted.second);
    return fault;
}

const char *turn_run(library *call, const struct turn *t, struct met *met) {
    static struct bytes given;
    static struct file file;
    static uint8_t result[LENT_MAX], buffer[LENT_MAX], desk[LENT_MAX], accounts[TURN_ACCOUNTS], day[LENT_MAX], left[LENT_MAX], margins[LENT_MAX];
    *met = (struct met){.call = t->call};
    given_bytes(t, &given, met);
    met->length = given.length;

    /* what is asked; the accounts, or the records, may be a part of the index itself */
    struct asked asked = {.call = t->call, .k = t->k, .window = t->window, .limit = t->limit, .read = {given.at, given.length}, .accounts = {accounts, t->accounts_len}};
    if (t->call == TRY_LIMIT) asked.records = (struct slice){day, fill_day(t, day)};
    memcpy(asked.number, t->number, sizeof asked.number), memcpy(accounts, t->accounts, t->accounts_len);
    size_t inside = t->given % (given.length + 1);
    int trial = t->call == TRY_LIMIT, is_inside = (has_accounts(t->call) || trial) && t->lay & INSIDE;
    if (is_inside && !trial) asked.accounts = (struct slice){given.at + inside, least(t->accounts_len, given.length - inside)};
    if (is_inside && trial) asked.records = (struct slice){given.at + inside, least(asked.records.length, given.length - inside)};

    fe_reply wanted = right(&asked, result, left, &file, met);
    int question = is_question(t->call), answered = wanted.refusal == 0;
    size_t length = answered && has_buffer(t->call) ? wanted.value : 0, left_len = 0;
    if (answered && trial) length = asked.records.length / FE_RECORD, left_len = FE_MARGIN * (size_t)wanted.value;
    size_t room = room_of(t->room, t->given, length), wide = trial ? room_of(t->wide, t->given_wide, left_len) : 0;
    if (answered && (room < length || (question && t->desk_len < FE_DESK) || (trial && wide < left_len))) wanted = (fe_reply){12, 0, 0, 0}, answered = 0;
    if (!answered) met->days = 0;
    met->reordered = answered && has_accounts(t->call) && is_reordered(result, length);
    met->lone = answered && question ? lone_in(&asked, wanted.value, result) : LONES;
    met->other_head = wanted.refusal == (t->call == BUILD ? 1 : 7) && has_other_head(&asked);

    /* what is lent */
    const uint8_t *before = noise + t->given;
    memcpy(desk, before, t->desk_len < FE_DESK ? FE_DESK : t->desk_len), put_four(tally_in(t, desk), t->tally);
    struct asked lending = asked;
    lending.read = put(t, FIRST, given.at, given.length), lending.accounts = put(t, SECOND, asked.accounts.at, asked.accounts.length);
    lending.buffer = put(t, THIRD, before, room), lending.desk = put(t, DESK, desk, t->desk_len);
    lending.records = put(t, RECORDS, asked.records.at, asked.records.length), lending.margins = put(t, MARGINS, before, wide);
    if (is_inside && asked.accounts.length && !trial) lending.accounts.at = lending.read.at + inside;
    if (is_inside && asked.records.length && trial) lending.records.at = lending.read.at + inside;
    memcpy(buffer, before, room), memcpy(margins, before, wide);
    if (answered) memcpy(buffer, result, length), memcpy(margins, left, left_len);
    if (question) expect_desk(t, answered, desk);

    met->made++;
    if (!called(call, &lending, &met->reply)) return fault;
    const char *what = replies(met->reply, wanted);
    if (!what) what = changes(&asked, answered, buffer, desk, margins);
    if (!what && answered && (t->call == BUILD || is_change(t->call))) what = there_and_back(file.at, file.length, result, length, met);
    return what;
}
