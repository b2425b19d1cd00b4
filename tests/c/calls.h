/* The twelve calls in one form, so that a test can go through them all and can put a faulty one in a call's place. */
#ifndef CALLS_H
#define CALLS_H

#include "footballelm.h"

enum call { BUILD, READ, PUT_IN, WITHDRAW, STRENGTH, JOINED, GROUPS_AT, STRONGEST, ALL_GROUPS, GROUP_LINKS, CHAIN, TRY_LIMIT, CALLS };

struct slice {
    uint8_t *at;
    size_t length;
};

/* A call with its numbers and all that it is lent. Not every call has all of it. */
struct asked {
    enum call call;
    uint32_t number[4], k, window, limit;
    struct slice read, accounts, buffer, desk; /* a buffer is an index, a links file, an answer or the bytes of a day's records */
    struct slice records, margins;
};

/* The library, or the library with a fault. */
typedef fe_reply library(const struct asked *asked);

static inline const char *name_of(enum call call) {
    static const char *const NAME[CALLS] = {
        "fe_build",     "fe_read",             "fe_put_in",     "fe_withdraw",    "fe_strength", "fe_joined",
        "fe_groups_at", "fe_strongest_groups", "fe_all_groups", "fe_group_links", "fe_chain",    "fe_try_limit",
    };
    return NAME[call];
}

static inline int is_change(enum call call) {
    return call == PUT_IN || call == WITHDRAW;
}

static inline int is_question(enum call call) {
    return call > WITHDRAW && call != TRY_LIMIT;
}

static inline int has_accounts(enum call call) {
    return call == GROUPS_AT || call == STRONGEST || call == ALL_GROUPS;
}

static inline int has_level(enum call call) {
    return call == GROUPS_AT || call == GROUP_LINKS || call == CHAIN || call == TRY_LIMIT;
}

/* How many of a call's numbers are accounts: two for each link. */
static inline uint32_t ends_of(enum call call) {
    return call <= READ || has_accounts(call) || call == TRY_LIMIT ? 0 : call == JOINED || call == CHAIN ? 4 : 2;
}

static inline int has_buffer(enum call call) {
    return call != STRENGTH && call != JOINED;
}

static inline fe_reply make_call(const struct asked *asked) {
    const uint32_t *n = asked->number, w = asked->window;
    struct slice i = asked->read, v = asked->accounts, o = asked->buffer, d = asked->desk, r = asked->records, m = asked->margins;
    switch (asked->call) {
    case BUILD: return fe_build(i.at, i.length, o.at, o.length);
    case READ: return fe_read(i.at, i.length, o.at, o.length);
    case PUT_IN: return fe_put_in(i.at, i.length, n[0], n[1], o.at, o.length);
    case WITHDRAW: return fe_withdraw(i.at, i.length, n[0], n[1], o.at, o.length);
    case STRENGTH: return fe_strength(i.at, i.length, n[0], n[1], w, d.at, d.length);
    case JOINED: return fe_joined(i.at, i.length, n[0], n[1], n[2], n[3], w, d.at, d.length);
    case GROUPS_AT: return fe_groups_at(i.at, i.length, v.at, v.length, asked->k, o.at, o.length, w, d.at, d.length);
    case STRONGEST: return fe_strongest_groups(i.at, i.length, v.at, v.length, o.at, o.length, w, d.at, d.length);
    case ALL_GROUPS: return fe_all_groups(i.at, i.length, v.at, v.length, o.at, o.length, w, d.at, d.length);
    case GROUP_LINKS: return fe_group_links(i.at, i.length, n[0], n[1], asked->k, o.at, o.length, w, d.at, d.length);
    case CHAIN: return fe_chain(i.at, i.length, n[0], n[1], n[2], n[3], asked->k, o.at, o.length, w, d.at, d.length);
    default: return fe_try_limit(i.at, i.length, r.at, r.length, asked->k, asked->limit, o.at, o.length, m.at, m.length);
    }
}

#endif
