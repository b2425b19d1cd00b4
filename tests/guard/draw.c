/* Draws and changes turns; draw.h says what is given. A card is changed as a graph most of the time, so that it stays a links file; else as bytes. */
#include "draw.h"

#include <string.h>

/* ---- cards ---- */

enum { ACCOUNTS = 1024, LINKS = 2048 };

static uint32_t links_in(const struct turn *t) {
    return t->card_len > 5 ? (uint32_t)((t->card_len - 5) / 5) : 0;
}

/* Gives the head the number of links that are there. */
static void count_links(struct turn *t) {
    if (t->card_len >= 5) put_two(t->card + 3, links_in(t));
}

static void start_card(struct turn *t, uint32_t accounts) {
    t->card[0] = 1, put_two(t->card + 1, accounts), put_two(t->card + 3, 0), t->card[5] = 5, t->card_len = 6;
}

/* Puts a link before the last byte, if it is not there and there is room. */
static void add_link(struct turn *t, uint32_t a, uint32_t b) {
    uint8_t record[5] = {6};
    if (a == b || t->card_len < 6 || t->card_len + 5 > TURN_CARD) return;
    put_two(record + 1, a), put_two(record + 3, b);
    for (size_t at = 5; at + 5 < t->card_len; at += 5) {
        uint32_t c = two(t->card + at + 1), d = two(t->card + at + 3);
        if ((a == c && b == d) || (a == d && b == c)) return;
    }
    memmove(t->card + t->card_len + 4, t->card + t->card_len - 1, 1);
    memcpy(t->card + t->card_len - 1, record, 5);
    t->card_len += 5;
}

static uint32_t accounts_of(const struct turn *t) {
    uint32_t accounts = t->card_len >= 3 ? two(t->card + 1) : 1;
    return accounts ? accounts : 1;
}

/* All pairs of `count` accounts from `from` on, each left out once in `leave` (0: none). */
static void add_clique(struct random *r, struct turn *t, uint32_t from, uint32_t count, uint32_t leave) {
    for (uint32_t b = from + 1; b < from + count; b++)
        for (uint32_t a = from; a < b; a++)
            if (!leave || random_below(r, leave)) add_link(t, a, b);
}

static void add_random_links(struct random *r, struct turn *t, uint32_t count) {
    uint32_t accounts = accounts_of(t);
    while (count--) add_link(t, random_below(r, accounts), random_below(r, accounts));
}

/* Cliques that overlap in some accounts, so that groups lie beside and in each other. */
static void add_cliques(struct random *r, struct turn *t, uint32_t most) {
    uint32_t from = 0;
    for (uint32_t turns = 1 + random_below(r, 4); turns; turns--) {
        uint32_t count = 3 + random_below(r, most - 2);
        add_clique(r, t, from, count, random_below(r, 3) ? 0 : 6);
        from += random_below(r, count + 1);
    }
    put_two(t->card + 1, from + most + 1);
}

/* A strip of triangles, or a hub whose neighbours are linked in a row. */
static void add_strip(struct turn *t, uint32_t accounts, int hub) {
    for (uint32_t a = 2; a < accounts; a++) add_link(t, hub ? 0 : a - 2, a), add_link(t, a - 1, a);
}

/* A clique and one more account for each lower strength, linked to so many of the first: each group lies in the next. */
static void add_nest(struct random *r, struct turn *t, uint32_t first) {
    add_clique(r, t, 0, first, 0);
    for (uint32_t ends = first - 2, account = first; ends >= 2; ends--, account++)
        for (uint32_t a = 0; a < ends; a++) add_link(t, a, account);
    put_two(t->card + 1, 2 * first);
}

/* Parties of up to seven accounts that have one in common, the first or the last: rows, in which each account is linked to the next two, cliques, and cliques to which
 * the common account has two links. So some are as strong, some as large, and some lie in others. */
static void add_parties(struct random *r, struct turn *t) {
    enum { MOST = 6, LAST = 6 * MOST + 1 };
    uint32_t common = random_below(r, 2) ? LAST : 0, next = 1;
    for (uint32_t parties = 2 + random_below(r, MOST - 1); parties; parties--) {
        uint32_t others = 2 + random_below(r, 5), first = next, last = next + others - 1;
        next += others;
        switch (random_below(r, 5)) {
        case 0: case 1:
            for (uint32_t a = first; a <= last; a++) {
                add_link(t, a == first ? common : a - 1, a);
                if (a > first) add_link(t, a == first + 1 ? common : a - 2, a);
            }
            break;
        case 2:
            for (uint32_t a = first; a <= last; a++) add_link(t, common, a);
            add_clique(r, t, first, others, 0);
            break;
        default: add_link(t, common, first), add_link(t, common, first + 1), add_clique(r, t, first, others, 0); break;
        }
    }
    put_two(t->card + 1, LAST + 1);
}

/* Links in no triangle: a star, a row, pairs apart, or each of some accounts with each of a few others; every other time a triangle with them. */
static void add_lone(struct random *r, struct turn *t, uint32_t accounts, uint32_t others) {
    uint32_t kind = random_below(r, 4);
    put_two(t->card + 1, accounts + others);
    for (uint32_t a = 1; a < accounts; a++) {
        if (kind == 0) add_link(t, a, 0);
        if (kind == 1 || (kind == 2 && a % 2)) add_link(t, a - 1, a);
        for (uint32_t b = accounts; kind == 3 && b < accounts + others; b++) add_link(t, a, b);
    }
    if (random_below(r, 2)) add_clique(r, t, random_below(r, accounts), 3, 0);
}

static void draw_card(struct random *r, struct turn *t) {
    uint32_t few = 1 + random_below(r, 12);
    start_card(t, few);
    switch (random_below(r, 11)) {
    case 0: break;
    case 1: add_random_links(r, t, few * few / 2); break;
    case 2: put_two(t->card + 1, few + 1), add_clique(r, t, 0, few, 0); break;
    case 3: add_cliques(r, t, 6); break;
    case 4: put_two(t->card + 1, few + 2), add_strip(t, few + 2, random_below(r, 2) == 0); break;
    case 5: add_nest(r, t, 3 + few / 2); break;
    case 6: put_two(t->card + 1, 20 + random_below(r, 20)), add_random_links(r, t, 60 + random_below(r, 100)); break;
    case 7: add_cliques(r, t, 4), put_two(t->card + 1, random_below(r, 2) ? ACCOUNTS : 40), add_random_links(r, t, 20); break;
    case 8: add_parties(r, t); break;
    case 9: add_lone(r, t, few + 1, 3); break;
    default: put_two(t->card + 1, 1 + random_below(r, 60)), add_random_links(r, t, 40); break;
    }
    if (random_below(r, 400) == 0) { /* seldom a card at the limits: it takes long */
        start_card(t, ACCOUNTS);
        switch (random_below(r, 4)) {
        case 0: add_clique(r, t, 0, 64, 0); break;
        case 1: add_strip(t, ACCOUNTS, random_below(r, 2) == 0); break;
        case 2: add_lone(r, t, 33, 64); break;
        default: add_lone(r, t, ACCOUNTS - 1, 1), count_links(t); return;
        }
        while (links_in(t) < LINKS + random_below(r, 2)) add_random_links(r, t, 50);
        if (links_in(t) > LINKS && random_below(r, 8)) t->card_len = 5 + 5 * (size_t)LINKS + 1, t->card[t->card_len - 1] = 5;
    }
    count_links(t);
}

/* ---- changes of a card ---- */

static uint8_t *some_record(struct random *r, struct turn *t) {
    return links_in(t) ? t->card + 5 + 5 * (size_t)random_below(r, links_in(t)) : NULL;
}

static void swap_ends(uint8_t *record) {
    uint32_t a = two(record + 1);
    put_two(record + 1, two(record + 3)), put_two(record + 3, a);
}

static void swap_records(struct random *r, struct turn *t) {
    uint8_t kept[5], *first = some_record(r, t), *second = some_record(r, t);
    if (!first || !second) return;
    memcpy(kept, first, 5), memmove(first, second, 5), memcpy(second, kept, 5);
}

static void drop_record(struct random *r, struct turn *t) {
    uint8_t *record = some_record(r, t);
    if (!record) return;
    memmove(record, record + 5, (size_t)(t->card + t->card_len - record) - 5);
    t->card_len -= 5;
}

/* Links two accounts that have a neighbour in common, or all the neighbours of one. */
static void close_triangles(struct random *r, struct turn *t) {
    uint8_t *record = some_record(r, t);
    if (!record) return;
    uint32_t hub = two(record + 1), last = two(record + 3), links = links_in(t);
    int all = random_below(r, 4) == 0;
    for (uint32_t link = 0; link < links && links_in(t) < LINKS; link++) {
        uint32_t a = two(t->card + 5 + 5 * (size_t)link + 1), b = two(t->card + 5 + 5 * (size_t)link + 3);
        if (a != hub && b != hub) continue;
        add_link(t, a == hub ? b : a, last);
        if (!all && random_below(r, 2)) return;
    }
}

static void take_from(struct random *r, struct turn *t, const struct turn *other) {
    for (uint32_t count = 1 + random_below(r, 12); count && links_in(other); count--) {
        const uint8_t *record = other->card + 5 + 5 * (size_t)random_below(r, links_in(other));
        add_link(t, two(record + 1), two(record + 3));
    }
}

static void change_graph(struct random *r, struct turn *t, const struct turn *other) {
    uint32_t accounts = accounts_of(t);
    uint8_t *record;
    switch (random_below(r, 10)) {
    case 0: add_link(t, random_below(r, accounts), random_below(r, accounts)); break;
    case 1: drop_record(r, t); break;
    case 2: swap_records(r, t); break;
    case 3: if ((record = some_record(r, t))) swap_ends(record); break;
    case 4: close_triangles(r, t); break;
    case 5: add_clique(r, t, random_below(r, accounts), 3 + random_below(r, 6), random_below(r, 8)); break;
    case 6: take_from(r, t, other); break;
    case 7: if ((record = some_record(r, t))) put_two(record + 1 + 2 * random_below(r, 2), random_below(r, accounts)); break;
    case 8: if (t->card_len >= 3) put_two(t->card + 1, accounts + random_below(r, 3) - 1); break;
    default: add_random_links(r, t, random_below(r, 20)); break;
    }
    count_links(t);
}

static void change_bytes(struct random *r, struct turn *t) {
    static const uint16_t EDGES[] = {0, 1, 2, 3, 5, 6, 64, 65, 255, 256, 1023, 1024, 1025, 2047, 2048, 2049, 0x7FFF, 0xFFFE, 0xFFFF};
    if (t->card_len < 6) {
        start_card(t, 5);
        return;
    }
    size_t at = random_below(r, t->card_len - 1);
    switch (random_below(r, 8)) {
    case 0: t->card[at] ^= (uint8_t)(1 << random_below(r, 8)); break;
    case 1: t->card[at] = (uint8_t)random_number(r); break;
    case 2: put_two(t->card + at - at % 5 % 4, EDGES[random_below(r, sizeof EDGES / sizeof *EDGES)]); break;
    case 3: t->card_len = at; break;
    case 4: put_two(t->card + 1 + 2 * random_below(r, 2), EDGES[random_below(r, sizeof EDGES / sizeof *EDGES)]); break;
    case 5: t->card[at] = (uint8_t)random_below(r, 8); break;
    case 6:
        if (t->card_len + 5 <= TURN_CARD) memmove(t->card + at + 5, t->card + at, t->card_len - at), t->card_len += 5;
        break;
    default: put_two(t->card + 3, links_in(t) + random_below(r, 3) - 1); break;
    }
}

/* ---- the rest of a turn ---- */

static uint32_t some_account(struct random *r, const struct turn *t) {
    uint32_t links = links_in(t), accounts = accounts_of(t);
    if (links && random_below(r, 3)) return two(t->card + 5 + 5 * (size_t)random_below(r, links) + 1 + 2 * random_below(r, 2));
    return random_below(r, 12) ? random_below(r, accounts) : accounts - 1 + random_below(r, 3);
}

static void draw_numbers(struct random *r, struct turn *t) {
    for (int i = 0; i < 4; i += 2) {
        uint32_t links = links_in(t);
        const uint8_t *record = links ? t->card + 5 + 5 * (size_t)random_below(r, links) : NULL;
        int turned = random_below(r, 2) != 0;
        t->number[i] = record && random_below(r, 6) ? two(record + 1 + 2 * turned) : some_account(r, t);
        t->number[i + 1] = record && random_below(r, 6) ? two(record + 3 - 2 * turned) : some_account(r, t);
    }
    if (t->call == PUT_IN && random_below(r, 2)) t->number[0] = some_account(r, t), t->number[1] = some_account(r, t); /* mostly no link yet */
    if (random_below(r, 10) == 0) t->number[2] = t->number[1], t->number[3] = t->number[0]; /* a link with itself */
    if (random_below(r, 40) == 0) t->number[1] = t->number[0];
    if (random_below(r, 60) == 0) t->number[random_below(r, 4)] += random_below(r, 2) ? UINT32_C(0x10000) : UINT32_C(0x80000000);
}

/* The account with the most links, which may be in several groups. */
static uint32_t busiest_account(const struct turn *t) {
    uint16_t links_at[ACCOUNTS] = {0};
    uint32_t busiest = 0;
    for (uint32_t end = 0; end < 2 * links_in(t); end++) {
        uint32_t account = two(t->card + 5 + 5 * (size_t)(end / 2) + 1 + 2 * (end % 2));
        if (account < ACCOUNTS && ++links_at[account] > links_at[busiest]) busiest = account;
    }
    return busiest;
}

static void draw_accounts(struct random *r, struct turn *t) {
    if (random_below(r, 4) == 0) {
        t->accounts_len = 2, put_two(t->accounts, busiest_account(t));
        return;
    }
    t->accounts_len = (uint8_t)(2 * (1 + random_below(r, random_below(r, 4) ? 3 : 16)));
    if (random_below(r, 12) == 0) t->accounts_len = (uint8_t)random_below(r, TURN_ACCOUNTS + 1);
    for (int at = 0; at + 1 < t->accounts_len; at += 2) put_two(t->accounts + at, at && random_below(r, 5) == 0 ? two(t->accounts) : some_account(r, t));
}

static void draw_level(struct random *r, struct turn *t) {
    static const uint32_t EDGES[] = {0, 1, 1, 63, 64, 65, 66, 67, 255, 256, 258, 259, UINT32_C(0x10002), UINT32_C(0x10003), UINT32_C(0x80000003), UINT32_MAX};
    t->k = random_below(r, 10) ? 2 + random_below(r, 1 + random_below(r, 6)) : EDGES[random_below(r, sizeof EDGES / sizeof *EDGES)];
}

static void draw_tally(struct random *r, struct turn *t) {
    static const uint32_t EDGES[] = {0, 1, 254, 255, 256, 65535, 65536, 16777215, 16777216, UINT32_MAX - 1, UINT32_MAX};
    t->tally = random_below(r, 3) ? EDGES[random_below(r, sizeof EDGES / sizeof *EDGES)] : (uint32_t)random_number(r);
}

/* Mostly one that there is, often the last; else 32, 33, or one that would be a window if it were cut. */
static void draw_window(struct random *r, struct turn *t) {
    static const uint32_t EDGES[] = {32, 32, 33, 63, 64, 255, 256, UINT32_C(0x10000), UINT32_C(0x80000000), UINT32_MAX};
    static const uint32_t MORE[] = {32, 64, 256, UINT32_C(0x10000), UINT32_C(0x80000000)};
    t->window = random_below(r, 6) ? random_below(r, FE_WINDOWS) : random_below(r, 3) ? 31 : 0;
    switch (random_below(r, 20)) {
    case 0: t->window = EDGES[random_below(r, sizeof EDGES / sizeof *EDGES)]; break;
    case 1: t->window += MORE[random_below(r, sizeof MORE / sizeof *MORE)]; break;
    default: break;
    }
}

/* Mostly long enough; else by one byte not, or just so that the window's own tally is there or is not, or any; seldom very long. */
static void draw_desk_len(struct random *r, struct turn *t) {
    uint16_t own = (uint16_t)(4 * (t->window % FE_WINDOWS));
    const uint16_t lengths[] = {0, 4, own + 3, own + 4, FE_DESK - 1, FE_DESK - 1, (uint16_t)random_below(r, FE_DESK)};
    t->desk_len = (uint16_t)(FE_DESK + random_below(r, 6));
    if (random_below(r, 10) == 0) t->desk_len = lengths[random_below(r, sizeof lengths / sizeof *lengths)];
    if (random_below(r, 100) == 0) t->desk_len = (uint16_t)random_number(r);
}

static void draw_desk(struct random *r, struct turn *t) {
    draw_tally(r, t), draw_window(r, t), draw_desk_len(r, t);
}

static void draw_room(struct random *r, struct turn *t) {
    t->room = (uint8_t)random_below(r, ROOMS), t->given = (uint16_t)random_number(r);
    t->wide = (uint8_t)random_below(r, random_below(r, 2) ? ROOMS : EXACT + 1), t->given_wide = (uint16_t)random_number(r);
    if (random_below(r, 2)) t->given %= 300, t->given_wide %= 300;
}

/* Mostly within what a day's bets come to. */
static uint32_t some_limit(struct random *r, uint32_t whole) {
    static const uint32_t EDGES[] = {0, 0, 1, FE_LIMIT_MAX - 1, FE_LIMIT_MAX, FE_LIMIT_MAX + 1, UINT32_C(0x80000000), UINT32_MAX};
    return random_below(r, 40) ? random_below(r, (uint64_t)whole + 1) : EDGES[random_below(r, sizeof EDGES / sizeof *EDGES)];
}

static uint32_t some_stake(struct random *r, uint32_t most) {
    static const uint32_t EDGES[] = {0, 1, FE_STAKE_MAX - 1, FE_STAKE_MAX, FE_STAKE_MAX, FE_STAKE_MAX + 1, UINT32_C(0x1000001), UINT32_C(0x80000001), UINT32_MAX};
    return random_below(r, 120) ? 1 + random_below(r, most) : EDGES[random_below(r, sizeof EDGES / sizeof *EDGES)];
}

/* How long the day is: the row once, none of it, again and again up to as many records as there may be, or one more; then a tail. */
static void draw_day_len(struct random *r, struct turn *t) {
    t->day_len = t->row_len;
    switch (random_below(r, 24)) {
    case 0: t->day_len = 0; break;
    case 1: t->day_len = FE_RECORD * FE_RECORDS_MAX; break;
    case 2: t->day_len = FE_RECORD * (FE_RECORDS_MAX + 1); break;
    case 3: t->day_len = (uint16_t)random_below(r, FE_RECORD * (FE_RECORDS_MAX + 1)); break;
    default: break;
    }
    if (random_below(r, 3) == 0) t->day_len = (uint16_t)(t->day_len + random_below(r, FE_RECORD));
}

/* Bets of a few accounts, so that margins fill up, and new limits between, about what is staked in all. */
static void draw_day(struct random *r, struct turn *t) {
    static const uint32_t MOST[] = {2, 9, 100, FE_STAKE_MAX};
    static const uint8_t KINDS[] = {1, 1, 2, 3, 128, 255};
    uint32_t most = MOST[random_below(r, 4)], count = 1 + random_below(r, TURN_ROW / FE_RECORD), limits = 2 + random_below(r, 30), few[4], accounts = accounts_of(t);
    t->row_len = (uint16_t)(FE_RECORD * count), draw_day_len(r, t);
    uint64_t whole = (uint64_t)most * (1 + t->day_len / FE_RECORD / 3);
    if (whole > FE_LIMIT_MAX) whole = FE_LIMIT_MAX;
    for (int i = 0; i < 4; i++) few[i] = random_below(r, 3) ? some_account(r, t) : busiest_account(t), few[i] %= random_below(r, 8) ? accounts : UINT32_MAX;
    for (uint32_t i = 0; i < count; i++) {
        uint8_t *record = t->row + FE_RECORD * (size_t)i;
        int bet = random_below(r, limits) != 0;
        uint32_t account = random_below(r, 12) ? few[random_below(r, 4)] : random_below(r, accounts);
        if (random_below(r, bet ? 250 : 4) == 0) account = random_below(r, 2) ? accounts : account + (UINT32_C(1) << (8 + random_below(r, 24)));
        record[0] = bet ? 0 : KINDS[random_below(r, sizeof KINDS)];
        put_four(record + 1, account), put_four(record + 5, bet ? some_stake(r, most) : some_limit(r, (uint32_t)whole));
    }
    t->limit = some_limit(r, (uint32_t)whole);
    if (random_below(r, 24) == 0) t->row_len = (uint16_t)random_below(r, t->row_len + 1u); /* records out of step */
}

static void draw_edit(struct random *r, struct turn *t) {
    static const uint16_t EDGES[] = {0, 1, 2, 3, 4, 5, 6, 7, 0xFF, 0x100, 0xFFFF, 0xFFFE, 1024, 2048};
    if (t->edits < TURN_EDITS && random_below(r, 3)) t->edits++;
    if (t->edits == 0) return;
    struct edit *edit = &t->edit[random_below(r, t->edits)];
    edit->kind = (uint8_t)random_below(r, EDIT_KINDS), edit->count = (uint8_t)(1 + random_below(r, random_below(r, 2) ? 8 : 255));
    edit->at = (uint16_t)random_number(r);
    edit->value = random_below(r, 2) ? EDGES[random_below(r, sizeof EDGES / sizeof *EDGES)] : (uint16_t)random_number(r);
    if (random_below(r, 8) == 0) edit->kind = SET, edit->at = 0, edit->value = t->call == BUILD ? 7 : 1; /* the other file's head */
}

void draw_fresh(struct random *r, struct turn *t) {
    t->call = (uint8_t)random_below(r, CALLS), t->as_card = 1, t->lay = (uint8_t)random_number(r), t->edits = 0;
    if (random_below(r, 4)) t->lay &= (uint8_t)~INSIDE;
    draw_card(r, t), draw_numbers(r, t), draw_accounts(r, t), draw_level(r, t), draw_desk(r, t), draw_room(r, t), draw_day(r, t);
    if (random_below(r, 4) == 0) draw_edit(r, t);
}

/* The card becomes the bytes of its index, to be changed as bytes; or bytes are taken for a card again. */
static void freeze(struct random *r, struct turn *t) {
    static uint8_t index[FE_INDEX_MAX];
    if (!t->as_card || random_below(r, 4)) {
        t->as_card = 1;
        return;
    }
    fe_reply reply = fe_build(t->card, t->card_len, index, sizeof index);
    if (reply.refusal) return;
    memcpy(t->card, index, reply.value);
    t->card_len = reply.value, t->as_card = 0;
}

static void change_once(struct random *r, struct turn *t, const struct turn *other) {
    switch (random_below(r, 17)) {
    case 0: case 1: case 2: case 3: change_graph(r, t, other); break;
    case 4: if (random_below(r, 2)) change_bytes(r, t); break;
    case 5: t->call = (uint8_t)random_below(r, CALLS); break;
    case 6: t->lay ^= (uint8_t)(1 << random_below(r, 8)); break;
    case 7: draw_room(r, t); break;
    case 8: draw_desk(r, t); break;
    case 9: draw_numbers(r, t); break;
    case 10: draw_accounts(r, t); break;
    case 11: draw_level(r, t); break;
    case 12: draw_edit(r, t); break;
    case 13: if (t->edits) t->edits--; break;
    case 15: draw_day(r, t); break;
    case 14: memcpy(t->card, other->card, other->card_len), t->card_len = other->card_len; break;
    default: freeze(r, t); break;
    }
}

void draw_change(struct random *r, struct turn *t, const struct turn *other) {
    for (uint32_t count = 1 + random_below(r, 4); count; count--) change_once(r, t, other);
}
