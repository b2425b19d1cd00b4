/* Planted faults: each makes the library's call and does one thing wrong. */
#include "planted.h"

#include <string.h>

static uint8_t look(const uint8_t *byte) {
    return *(const volatile uint8_t *)byte;
}

static void write_byte(uint8_t *byte, uint8_t value) {
    *(volatile uint8_t *)byte = value;
}

static void flip(uint8_t *byte) {
    write_byte(byte, look(byte) ^ 1);
}

/* ---- memory ---- */

static fe_reply reads_past(const struct asked *a) {
    look(a->read.at + a->read.length);
    return make_call(a);
}

static fe_reply reads_before(const struct asked *a) {
    look(a->read.at - 1);
    return make_call(a);
}

static fe_reply reads_past_accounts(const struct asked *a) {
    if (a->accounts.length) look(a->accounts.at + a->accounts.length);
    return make_call(a);
}

static fe_reply reads_empty(const struct asked *a) {
    if (!a->read.length) look(a->read.at);
    return make_call(a);
}

static fe_reply reads_empty_buffer(const struct asked *a) {
    if (!a->buffer.length) look(a->buffer.at);
    return make_call(a);
}

static fe_reply writes_what_it_read(const struct asked *a) {
    if (a->read.length) write_byte(a->read.at, look(a->read.at));
    return make_call(a);
}

static fe_reply writes_past_buffer(const struct asked *a) {
    if (a->buffer.length) flip(a->buffer.at + a->buffer.length);
    return make_call(a);
}

static fe_reply writes_before_buffer(const struct asked *a) {
    if (a->buffer.length) flip(a->buffer.at - 1);
    return make_call(a);
}

static fe_reply writes_past_desk(const struct asked *a) {
    flip(a->desk.at + a->desk.length);
    return make_call(a);
}

/* ---- bytes of the result, and bytes that stay ---- */

static fe_reply writes_after_result(const struct asked *a) {
    fe_reply reply = make_call(a);
    if (reply.refusal == 0 && reply.value < a->buffer.length) flip(a->buffer.at + reply.value);
    return reply;
}

static fe_reply other_last_byte(const struct asked *a) {
    fe_reply reply = make_call(a);
    if (reply.refusal == 0) flip(a->buffer.at + reply.value - 1);
    return reply;
}

static fe_reply refused_and_changed(const struct asked *a) {
    fe_reply reply = make_call(a);
    if (reply.refusal && a->buffer.length) flip(a->buffer.at + a->buffer.length - 1);
    return reply;
}

static fe_reply turns_a_link(const struct asked *a) {
    fe_reply reply = make_call(a);
    if (reply.refusal == 0 && reply.value > 6) flip(a->buffer.at + 9), flip(a->buffer.at + 7);
    return reply;
}

static fe_reply one_number_less(const struct asked *a) {
    fe_reply reply = make_call(a);
    if (reply.refusal == 0 && reply.value > 2) reply.value -= 2, a->buffer.at[1]--;
    return reply;
}

/* ---- replies ---- */

static fe_reply other_place(const struct asked *a) {
    fe_reply reply = make_call(a);
    if (reply.refusal == 6) reply.value += 5;
    return reply;
}

static fe_reply third_number(const struct asked *a) {
    fe_reply reply = make_call(a);
    reply.third = 1;
    return reply;
}

static fe_reply second_number(const struct asked *a) {
    fe_reply reply = make_call(a);
    reply.second++;
    return reply;
}

static fe_reply no_second_number(const struct asked *a) {
    fe_reply reply = make_call(a);
    reply.second = 0;
    return reply;
}

static fe_reply each_triangle_twice(const struct asked *a) {
    fe_reply reply = make_call(a);
    reply.second *= 2;
    return reply;
}

static fe_reply triangle_of_a_weak_link(const struct asked *a) {
    fe_reply reply = make_call(a);
    if (reply.refusal == 0 && reply.second == 0) reply.second = 1;
    return reply;
}

static fe_reply least_triangles(const struct asked *a) {
    fe_reply reply = make_call(a);
    if (reply.refusal == 0) reply.second = reply.value - 2;
    return reply;
}

/* Every triangle on the link, by the accounts that are linked with both ends, whatever the strengths. */
static fe_reply triangles_of_any_weight(const struct asked *a) {
    fe_reply reply = make_call(a);
    if (reply.refusal) return reply;
    reply.second = 0;
    for (uint32_t c = 0, accounts = two(a->read.at + 1); c < accounts; c++) {
        int ends = 0;
        for (const uint8_t *link = a->read.at + 5; *link == 2; link += 8)
            for (int i = 0; i < 2; i++) {
                uint32_t low = two(link + 1), high = two(link + 3), end = a->number[i];
                ends += (low == c && high == end) || (low == end && high == c);
            }
        reply.second += ends == 2;
    }
    return reply;
}

static fe_reply exact_is_12(const struct asked *a) {
    fe_reply reply = make_call(a);
    if (reply.refusal == 0 && reply.value == a->buffer.length) reply.refusal = 12, reply.value = 0;
    return reply;
}

static fe_reply takes_no_index(const struct asked *a) {
    fe_reply reply = make_call(a);
    if (reply.refusal == 7 && a->read.length > 5 && a->buffer.length >= 6) reply.refusal = 0, reply.value = 6;
    return reply;
}

static fe_reply refuses_an_index(const struct asked *a) {
    fe_reply reply = make_call(a);
    if (reply.refusal == 12) reply.refusal = 7;
    return reply;
}

static fe_reply one_less(const struct asked *a) {
    fe_reply reply = make_call(a);
    if (reply.refusal == 0 && reply.value > 3) reply.value--;
    return reply;
}

static fe_reply short_desk_first(const struct asked *a) {
    fe_reply reply = make_call(a);
    if (reply.refusal && reply.refusal != 13 && a->desk.length < FE_DESK) reply.refusal = 12;
    return reply;
}

static fe_reply all_for_strongest(const struct asked *a) {
    struct asked other = *a;
    other.call = ALL_GROUPS;
    return make_call(&other);
}

static fe_reply four_for_three(const struct asked *a) {
    struct asked other = *a;
    if (other.k == 3) other.k = 4;
    return make_call(&other);
}

static fe_reply level_cut(const struct asked *a) {
    struct asked other = *a;
    other.k &= 255;
    return make_call(&other);
}

static fe_reply account_cut(const struct asked *a) {
    struct asked other = *a;
    other.number[0] &= 65535;
    return make_call(&other);
}

static fe_reply fourth_account_cut(const struct asked *a) {
    struct asked other = *a;
    other.number[3] &= 65535;
    return make_call(&other);
}

/* ---- the order of groups ---- */

/* What the order of a group may be taken from; the first key counts most, and lower ones come first. */
struct judged {
    int number, strength, least, links, accounts, own_accounts; /* links and accounts of nested groups too, but for own accounts */
    int key[3];
};

static struct judged judge(const uint8_t *index, uint32_t number) {
    enum { ACCOUNTS = 1024, NONE = 0xFFFF };
    uint8_t own[ACCOUNTS] = {0}, held[ACCOUNTS] = {0};
    const uint8_t *groups = index + 5;
    while (*groups != 4) groups += *groups == 2 ? 8 : 6;
    const uint8_t *record = groups + 6 * (size_t)number;
    struct judged g = {.number = (int)number, .strength = record[3], .least = (int)two(record + 4)};
    for (const uint8_t *link = index + 5; *link == 2; link += 8) {
        uint32_t above = two(link + 6);
        if (above == number) own[two(link + 1)] = own[two(link + 3)] = 1;
        while (above != NONE && above != number) above = two(groups + 6 * (size_t)above + 1);
        if (above == number) held[two(link + 1)] = held[two(link + 3)] = 1, g.links++;
    }
    for (int account = 0; account < ACCOUNTS; account++) g.own_accounts += own[account], g.accounts += held[account];
    return g;
}

static int is_before(const struct judged *g, const struct judged *other) {
    for (int i = 0; i < 3; i++)
        if (g->key[i] != other->key[i]) return g->key[i] < other->key[i];
    return 0;
}

/* Puts the groups of an answer in the order of other keys. */
static fe_reply in_order(const struct asked *a, void set_keys(struct judged *)) {
    static struct judged groups[2048];
    fe_reply reply = make_call(a);
    size_t count = reply.refusal ? 0 : two(a->buffer.at);
    for (size_t i = 0; i < count; i++) {
        struct judged g = judge(a->read.at, two(a->buffer.at + 2 + 2 * i));
        size_t at = i;
        set_keys(&g);
        for (; at > 0 && is_before(&g, &groups[at - 1]); at--) groups[at] = groups[at - 1];
        groups[at] = g;
    }
    for (size_t i = 0; i < count; i++) put_two(a->buffer.at + 2 + 2 * i, (uint32_t)groups[i].number);
    return reply;
}

static void set_three(struct judged *g, int first, int second, int third) {
    g->key[0] = first, g->key[1] = second, g->key[2] = third;
}

static void by_number(struct judged *g) {
    set_three(g, g->number, 0, 0);
}

static void by_fewer_accounts(struct judged *g) {
    set_three(g, -g->strength, g->accounts, g->least);
}

static void by_less_strength(struct judged *g) {
    set_three(g, g->strength, -g->accounts, g->least);
}

static void by_own_accounts(struct judged *g) {
    set_three(g, -g->strength, -g->own_accounts, g->least);
}

static void by_links(struct judged *g) {
    set_three(g, -g->strength, -g->links, g->least);
}

static void by_falling_least_link(struct judged *g) {
    set_three(g, -g->strength, -g->accounts, -g->least);
}

static void by_accounts_first(struct judged *g) {
    set_three(g, -g->accounts, -g->strength, g->least);
}

static fe_reply index_order(const struct asked *a) {
    return in_order(a, by_number);
}

static fe_reply smaller_first(const struct asked *a) {
    return in_order(a, by_fewer_accounts);
}

static fe_reply weaker_first(const struct asked *a) {
    return in_order(a, by_less_strength);
}

static fe_reply nested_left_out(const struct asked *a) {
    return in_order(a, by_own_accounts);
}

static fe_reply links_for_accounts(const struct asked *a) {
    return in_order(a, by_links);
}

static fe_reply greatest_least_link_first(const struct asked *a) {
    return in_order(a, by_falling_least_link);
}

static fe_reply larger_before_stronger(const struct asked *a) {
    return in_order(a, by_accounts_first);
}

/* Those that hold as many accounts as the first. */
static fe_reply largest_only(const struct asked *a) {
    fe_reply reply = make_call(a);
    if (reply.refusal || reply.value < 6) return reply;
    int most = judge(a->read.at, two(a->buffer.at + 2)).accounts;
    while (judge(a->read.at, two(a->buffer.at + reply.value - 2)).accounts < most) reply.value -= 2;
    put_two(a->buffer.at, (reply.value - 2) / 2);
    return reply;
}

/* ---- chains ---- */

static fe_reply one_triangle_less(const struct asked *a) {
    fe_reply reply = make_call(a);
    if (reply.refusal == 0 && reply.value > 8) reply.value -= 6, a->buffer.at[1]--;
    return reply;
}

static fe_reply corners_exchanged(const struct asked *a) {
    fe_reply reply = make_call(a);
    uint8_t *last = a->buffer.at + reply.value;
    if (reply.refusal || reply.value < 8) return reply;
    for (int i = 1; i <= 2; i++) {
        uint8_t kept = last[-i];
        last[-i] = last[-i - 2], last[-i - 2] = kept;
    }
    return reply;
}

/* The chain from the second link to the first, turned round. */
static fe_reply chain_back(const struct asked *a) {
    struct asked other = *a;
    for (int i = 0; i < 4; i++) other.number[i] = a->number[(i + 2) % 4];
    fe_reply reply = make_call(&other);
    if (reply.refusal) return reply;
    for (size_t low = 2, high = reply.value; low + 6 < high; low += 6, high -= 6)
        for (size_t i = 0; i < 6; i++) {
            uint8_t kept = a->buffer.at[low + i];
            a->buffer.at[low + i] = a->buffer.at[high - 6 + i], a->buffer.at[high - 6 + i] = kept;
        }
    return reply;
}

static int is_itself(const struct asked *a) {
    const uint32_t *n = a->number;
    return (n[0] == n[2] && n[1] == n[3]) || (n[0] == n[3] && n[1] == n[2]);
}

static fe_reply none_with_itself(const struct asked *a) {
    fe_reply reply = make_call(a);
    if (reply.refusal == 0 && is_itself(a)) reply.value = 2, a->buffer.at[0] = a->buffer.at[1] = 0;
    return reply;
}

static fe_reply none_with_itself_at_2(const struct asked *a) {
    return a->k == 2 ? none_with_itself(a) : make_call(a);
}

/* A triangle of the link's two accounts and one of them again. */
static fe_reply one_with_itself_at_2(const struct asked *a) {
    fe_reply reply = make_call(a);
    if (reply.refusal || reply.value != 2 || a->k != 2 || !is_itself(a)) return reply;
    if (a->buffer.length < 8) return (fe_reply){12, 0, 0, 0};
    put_two(a->buffer.at, 1), reply.value = 8;
    for (int i = 0; i < 3; i++) put_two(a->buffer.at + 2 + 2 * i, a->number[i]);
    return reply;
}

static fe_reply second_link_first(const struct asked *a) {
    struct asked other = *a;
    for (int i = 0; i < 2; i++) other.number[i] = a->number[i + 2];
    fe_reply reply = make_call(&other);
    return reply.refusal == 10 || reply.refusal == 11 ? reply : make_call(a);
}

/* ---- lone links ---- */

static fe_reply at_level(const struct asked *a, uint32_t from, uint32_t to) {
    struct asked other = *a;
    if (other.k == from) other.k = to;
    return make_call(&other);
}

static fe_reply level_2_refused(const struct asked *a) {
    return at_level(a, 2, 1);
}

static fe_reply level_1_taken(const struct asked *a) {
    return at_level(a, 1, 2);
}

static fe_reply three_for_two(const struct asked *a) {
    return at_level(a, 2, 3);
}

static fe_reply two_for_three(const struct asked *a) {
    return at_level(a, 3, 2);
}

/* Only the groups of strength 2 of an answer, or only the others. */
static fe_reply keep_groups(const struct asked *a, int lone) {
    fe_reply reply = make_call(a);
    if (reply.refusal) return reply;
    uint32_t count = two(a->buffer.at), kept = 0;
    for (uint32_t i = 0; i < count; i++) {
        uint32_t group = two(a->buffer.at + 2 + 2 * (size_t)i);
        if ((judge(a->read.at, group).strength == 2) == lone) put_two(a->buffer.at + 2 + 2 * (size_t)kept++, group);
    }
    put_two(a->buffer.at, kept), reply.value = 2 + 2 * kept;
    return reply;
}

static fe_reply lone_left_out(const struct asked *a) {
    return keep_groups(a, 0);
}

static fe_reply lone_only_at_2(const struct asked *a) {
    return a->k == 2 ? keep_groups(a, 1) : make_call(a);
}

/* All groups, and of those from 3 up only the strongest. */
static fe_reply lone_beside_strongest(const struct asked *a) {
    struct asked other = *a;
    other.call = ALL_GROUPS;
    fe_reply reply = make_call(&other);
    if (reply.refusal) return reply;
    uint32_t count = two(a->buffer.at), kept = 0;
    int greatest = 0;
    for (uint32_t i = 0; i < count; i++) {
        struct judged g = judge(a->read.at, two(a->buffer.at + 2 + 2 * (size_t)i));
        if (g.strength > greatest) greatest = g.strength;
        if (g.strength == 2 || g.strength == greatest) put_two(a->buffer.at + 2 + 2 * (size_t)kept++, (uint32_t)g.number);
    }
    put_two(a->buffer.at, kept), reply.value = 2 + 2 * kept;
    return reply;
}

/* Each group by its number in an index that has the lone links first. */
static fe_reply lone_numbered_first(const struct asked *a) {
    fe_reply reply = make_call(a);
    if (reply.refusal) return reply;
    uint32_t lone = 0, others = 0;
    for (const uint8_t *link = a->read.at + 5; *link == 2; link += 8) lone += link[5] == 2;
    for (const uint8_t *group = a->read.at + a->read.length - 7; *group == 4; group -= 6) others += group[3] > 2;
    for (uint32_t i = 0; i < two(a->buffer.at); i++) {
        uint8_t *at = a->buffer.at + 2 + 2 * (size_t)i;
        put_two(at, two(at) < others ? two(at) + lone : two(at) - others);
    }
    return reply;
}

static fe_reply lone_with_itself_0(const struct asked *a) {
    fe_reply reply = make_call(a);
    if (reply.refusal == 0 && reply.value == 2) reply.value = 0;
    return reply;
}

static fe_reply different_joined_at_2(const struct asked *a) {
    fe_reply reply = make_call(a);
    if (reply.refusal == 0 && reply.value == 0) reply.value = 2;
    return reply;
}

/* F at 2: the link that is named, of whatever group. */
static fe_reply alone_at_2(const struct asked *a) {
    fe_reply reply = make_call(a);
    if (reply.refusal || a->k != 2) return reply;
    uint32_t link = 0, low = a->number[0] < a->number[1] ? a->number[0] : a->number[1], high = a->number[0] + a->number[1] - low;
    for (const uint8_t *record = a->read.at + 5; two(record + 1) != low || two(record + 3) != high; record += 8) link++;
    put_two(a->buffer.at, 1), put_two(a->buffer.at + 2, link), reply.value = 4;
    return reply;
}

/* What is read, under the head of a file that it is not. */
static fe_reply under_head(const struct asked *a, uint8_t head) {
    static uint8_t bytes[1 << 16];
    struct asked other = *a;
    if (a->read.length && (a->read.at[0] == 1 || a->read.at[0] == 7)) {
        memcpy(bytes, a->read.at, a->read.length), bytes[0] = head;
        other.read.at = bytes;
    }
    return make_call(&other);
}

static fe_reply kind_1_taken(const struct asked *a) {
    return under_head(a, 7);
}

static fe_reply kind_7_built(const struct asked *a) {
    return under_head(a, 1);
}

static fe_reply other_head_written(const struct asked *a) {
    fe_reply reply = make_call(a);
    if (reply.refusal == 0) a->buffer.at[0] = a->call == READ ? 7 : 1;
    return reply;
}

/* The groups of an index: what each link names, and of each group its parent, strength and least link. */
struct tree {
    const uint8_t *links;
    uint32_t link_count, group_count;
    uint32_t named[2048];
    struct stored {
        uint32_t parent, strength, least;
    } group[2048];
};

enum { NO_GROUP = 0xFFFF };

static void read_tree(const uint8_t *index, struct tree *t) {
    const uint8_t *group = index + 5 + 8 * (size_t)two(index + 3);
    t->links = index + 5, t->link_count = two(index + 3), t->group_count = 0;
    for (uint32_t i = 0; i < t->link_count; i++) t->named[i] = two(t->links + 8 * (size_t)i + 6);
    while (*group == 3) group += 6;
    for (; *group == 4; group += 6) t->group[t->group_count++] = (struct stored){two(group + 1), group[3], two(group + 4)};
}

static int is_lone(const struct tree *t, uint32_t group) {
    return t->group[group].strength == 2;
}

/* The groups at these old numbers are kept, in this order; what named another has none. */
static void renumber(struct tree *t, const uint32_t *kept, uint32_t count) {
    static struct stored group[2048];
    static uint32_t number[NO_GROUP + 1];
    memset(number, 0xFF, sizeof number);
    for (uint32_t i = 0; i < count; i++) number[kept[i]] = i, group[i] = t->group[kept[i]];
    for (uint32_t i = 0; i < count; i++) t->group[i] = group[i], t->group[i].parent = number[group[i].parent] & NO_GROUP;
    for (uint32_t i = 0; i < t->link_count; i++) t->named[i] = number[t->named[i]] & NO_GROUP;
    t->group_count = count;
}

static void in_no_group(struct tree *t) {
    uint32_t kept[2048], count = 0;
    for (uint32_t i = 0; i < t->group_count; i++)
        if (!is_lone(t, i)) kept[count++] = i;
    renumber(t, kept, count);
}

static void before_the_others(struct tree *t) {
    uint32_t kept[2048], count = 0;
    for (uint32_t lone = 2; lone-- > 0;)
        for (uint32_t i = 0; i < t->group_count; i++)
            if (is_lone(t, i) == (int)lone) kept[count++] = i;
    renumber(t, kept, count);
}

static void by_falling_link(struct tree *t) {
    uint32_t kept[2048], count = 0;
    for (uint32_t i = 0; i < t->group_count; i++)
        if (!is_lone(t, i)) kept[count++] = i;
    for (uint32_t i = t->group_count; i-- > count;) kept[t->group_count - 1 - i + count] = i;
    renumber(t, kept, t->group_count);
}

/* The last of the other groups is the parent. */
static void with_a_parent(struct tree *t) {
    uint32_t last = NO_GROUP;
    for (uint32_t i = 0; i < t->group_count; i++) {
        if (is_lone(t, i)) t->group[i].parent = last;
        else last = i;
    }
}

static int share(const uint8_t *link, const uint8_t *other) {
    uint32_t a = two(link + 1), b = two(link + 3), c = two(other + 1), d = two(other + 3);
    return a == c || a == d || b == c || b == d;
}

/* A lone link is in the group of the first other link that shares an account with it, if that is lone, or if it is not. */
static void to_another(struct tree *t, int lone) {
    uint32_t kept[2048], count = 0;
    for (uint32_t i = 0; i < t->link_count; i++) {
        const uint8_t *link = t->links + 8 * (size_t)i;
        for (uint32_t j = 0; j < t->link_count && link[5] == 2; j++) {
            const uint8_t *other = t->links + 8 * (size_t)j;
            if (i == j || (other[5] == 2) != lone || !share(link, other)) continue;
            t->named[i] = t->named[j];
            break;
        }
    }
    for (uint32_t i = 0; i < t->group_count; i++) {
        uint32_t link = 0;
        while (link < t->link_count && t->named[link] != i) link++;
        if (link < t->link_count) kept[count++] = i;
    }
    renumber(t, kept, count);
}

static void put_together(struct tree *t) {
    to_another(t, 1);
}

static void in_the_group_beside(struct tree *t) {
    to_another(t, 0);
}

/* The index that a build or a change writes, with other groups. */
static fe_reply with_tree(const struct asked *a, void change(struct tree *)) {
    static uint8_t index[FE_INDEX_MAX];
    static struct tree tree;
    struct asked other = *a;
    other.buffer = (struct slice){index, sizeof index};
    fe_reply reply = make_call(&other);
    if (reply.refusal) return reply;
    read_tree(index, &tree), change(&tree);
    uint8_t *at = index + 5;
    for (uint32_t i = 0; i < tree.link_count; i++, at += 8) put_two(at + 6, tree.named[i]);
    while (*at == 3) at += 6;
    for (uint32_t i = 0; i < tree.group_count; i++, at += 6) {
        struct stored g = tree.group[i];
        at[0] = 4, put_two(at + 1, g.parent), at[3] = (uint8_t)g.strength, put_two(at + 4, g.least);
    }
    *at++ = 5;
    reply.value = (uint32_t)(at - index);
    if (reply.value > a->buffer.length) return (fe_reply){12, 0, 0, 0};
    memcpy(a->buffer.at, index, reply.value);
    return reply;
}

static fe_reply lone_in_no_group(const struct asked *a) {
    return with_tree(a, in_no_group);
}

static fe_reply lone_put_together(const struct asked *a) {
    return with_tree(a, put_together);
}

static fe_reply lone_in_the_group_beside(const struct asked *a) {
    return with_tree(a, in_the_group_beside);
}

static fe_reply lone_with_a_parent(const struct asked *a) {
    return with_tree(a, with_a_parent);
}

static fe_reply lone_before_the_others(const struct asked *a) {
    return with_tree(a, before_the_others);
}

static fe_reply lone_by_falling_link(const struct asked *a) {
    return with_tree(a, by_falling_link);
}

/* ---- a limit tried on a day's bets ---- */

/* What a wrong day does. */
enum wrong_day {
    IN_SOME_GROUP, EXACTLY_K, REFUSED_COUNTED, CUT_AT_0, LATER_ONLY, ALWAYS_ALONE, OPENING_AT_CLOSE, LAST_FROM_START, SHARED_ALONE, FIRST_GROUP_COUNTED, OWN_LINKS_ONLY,
    ONE_PENNY_MORE, LIMIT_FORGETS, ALONE_SHOWN
};

static int64_t at_least_0(int64_t margin) {
    return margin < 0 ? 0 : margin;
}

static int is_meant(const struct tree *t, uint32_t group, uint32_t k, enum wrong_day wrong) {
    uint32_t parent = t->group[group].parent;
    if (wrong == EXACTLY_K) return t->group[group].strength == k;
    return t->group[group].strength >= k && (parent == NO_GROUP || t->group[parent].strength < k);
}

/* Whether a group holds the account. */
static int holds(const struct tree *t, uint32_t group, uint32_t account, int own_only) {
    for (uint32_t link = 0; link < t->link_count; link++) {
        const uint8_t *record = t->links + 8 * (size_t)link;
        if (two(record + 1) != account && two(record + 3) != account) continue;
        if (own_only && t->named[link] == group) return 1;
        for (uint32_t above = t->named[link]; above != NO_GROUP && !own_only; above = t->group[above].parent)
            if (above == group) return 1;
    }
    return 0;
}

/* The day where the library has it done, tried again with one thing wrong. */
static fe_reply wrongly(const struct asked *a, enum wrong_day wrong) {
    enum { SUMS = 2048 + 1024 };
    static struct tree t;
    static int64_t sum[SUMS], met_at[SUMS];
    static uint32_t meant[2048];
    fe_reply reply = make_call(a);
    if (reply.refusal) return reply;
    read_tree(a->read.at, &t), memset(sum, 0, sizeof sum);
    for (size_t i = 0; i < SUMS; i++) met_at[i] = -1;
    uint32_t groups = 0;
    size_t count = a->records.length / FE_RECORD;
    int64_t limit = a->limit;
    for (uint32_t group = 0; group < t.group_count; group++)
        if (is_meant(&t, group, a->k, wrong)) meant[groups++] = group;
    for (size_t i = 0; i < count && wrong == LAST_FROM_START; i++)
        if (a->records.at[FE_RECORD * i]) limit = four(a->records.at + FE_RECORD * i + 5);
    for (size_t i = 0; i < count; i++) {
        const uint8_t *record = a->records.at + FE_RECORD * i;
        uint32_t account = four(record + 1), amount = four(record + 5), in[2048], held = 0, room = 0;
        if (*record) {
            if (wrong != LAST_FROM_START) limit = amount;
            if (wrong == LIMIT_FORGETS) memset(sum, 0, sizeof sum);
            continue;
        }
        for (uint32_t g = 0; g < groups; g++)
            if (holds(&t, meant[g], account, wrong == OWN_LINKS_ONLY)) in[held++] = g;
        int alone = held == 0;
        if (alone) in[held++] = 2048 + (wrong == SHARED_ALONE ? 0 : account);
        for (uint32_t g = 0; g < held; g++) {
            if (met_at[in[g]] < 0) met_at[in[g]] = limit;
            room += (wrong == LATER_ONLY ? met_at[in[g]] : limit) - sum[in[g]] >= (int64_t)amount + (wrong == ONE_PENNY_MORE);
        }
        int taken = wrong == IN_SOME_GROUP ? room > 0 : room == held;
        if (alone && wrong == ALWAYS_ALONE) taken = 1;
        for (uint32_t g = 0; g < held && (taken || wrong == REFUSED_COUNTED); g++)
            if (g == 0 || wrong != FIRST_GROUP_COUNTED) sum[in[g]] += amount;
        a->buffer.at[i] = (uint8_t)taken;
    }
    for (uint32_t g = 0; g < groups && FE_MARGIN * (g + (size_t)1) <= a->margins.length; g++) {
        int64_t at = wrong == OPENING_AT_CLOSE ? a->limit : wrong == LATER_ONLY && met_at[g] >= 0 ? met_at[g] : limit;
        uint64_t margin = (uint64_t)(wrong == CUT_AT_0 ? at_least_0(at - sum[g]) : at - sum[g]);
        put_four(a->margins.at + FE_MARGIN * g, (uint32_t)(margin >> 32)), put_four(a->margins.at + FE_MARGIN * g + 4, (uint32_t)margin);
    }
    reply.value = groups;
    if (wrong == ALONE_SHOWN && met_at[2048] >= 0) reply.value++;
    return reply;
}

static fe_reply some_group_has_room(const struct asked *a) {
    return wrongly(a, IN_SOME_GROUP);
}

static fe_reply strength_just_k(const struct asked *a) {
    return wrongly(a, EXACTLY_K);
}

static fe_reply refused_stakes_counted(const struct asked *a) {
    return wrongly(a, REFUSED_COUNTED);
}

static fe_reply margin_cut_at_0(const struct asked *a) {
    return wrongly(a, CUT_AT_0);
}

static fe_reply limit_for_later_groups(const struct asked *a) {
    return wrongly(a, LATER_ONLY);
}

static fe_reply alone_always_taken(const struct asked *a) {
    return wrongly(a, ALWAYS_ALONE);
}

static fe_reply opening_limit_at_close(const struct asked *a) {
    return wrongly(a, OPENING_AT_CLOSE);
}

static fe_reply last_limit_from_start(const struct asked *a) {
    return wrongly(a, LAST_FROM_START);
}

static fe_reply alone_together(const struct asked *a) {
    return wrongly(a, SHARED_ALONE);
}

static fe_reply counted_in_first_group(const struct asked *a) {
    return wrongly(a, FIRST_GROUP_COUNTED);
}

static fe_reply own_links_only(const struct asked *a) {
    return wrongly(a, OWN_LINKS_ONLY);
}

static fe_reply room_for_more_than_the_stake(const struct asked *a) {
    return wrongly(a, ONE_PENNY_MORE);
}

static fe_reply limit_forgets_stakes(const struct asked *a) {
    return wrongly(a, LIMIT_FORGETS);
}

static fe_reply alone_shown(const struct asked *a) {
    return wrongly(a, ALONE_SHOWN);
}

/* Whether a buffer is shorter than the records; one for no margins is taken for short too. */
static int is_short(const struct asked *a) {
    return a->buffer.length < a->records.length / FE_RECORD || !a->margins.length;
}

static fe_reply short_before(const struct asked *a, uint32_t refusal) {
    fe_reply reply = make_call(a);
    return reply.refusal == refusal && is_short(a) ? (fe_reply){12, 0, 0, 0} : reply;
}

static fe_reply short_before_outside(const struct asked *a) {
    return short_before(a, 9);
}

static fe_reply short_before_amount(const struct asked *a) {
    return short_before(a, 15);
}

static fe_reply short_before_too_many(const struct asked *a) {
    return short_before(a, 16);
}

static fe_reply too_many_before_level(const struct asked *a) {
    fe_reply reply = make_call(a);
    return reply.refusal == 10 && a->records.length / FE_RECORD > FE_RECORDS_MAX ? (fe_reply){16, 0, 0, 0} : reply;
}

static fe_reply opening_before_level(const struct asked *a) {
    fe_reply reply = make_call(a);
    return reply.refusal == 10 && a->limit > FE_LIMIT_MAX ? (fe_reply){15, 0, 0, 0} : reply;
}

/* The first fault of the records where accounts and amounts are looked at in this order. */
static fe_reply amount_before_account(const struct asked *a) {
    fe_reply reply = make_call(a);
    for (size_t at = 0; reply.refusal == 9 && at + FE_RECORD <= a->records.length; at += FE_RECORD) {
        const uint8_t *record = a->records.at + at;
        uint32_t amount = four(record + 5);
        if (four(record + 1) >= two(a->read.at + 1) && !*record) return amount == 0 || amount > FE_STAKE_MAX ? (fe_reply){15, 0, 0, 0} : reply;
    }
    return reply;
}

static fe_reply account_of_a_limit(const struct asked *a) {
    fe_reply reply = make_call(a);
    for (size_t at = 0; reply.refusal == 0 && at + FE_RECORD <= a->records.length; at += FE_RECORD)
        if (a->records.at[at] && four(a->records.at + at + 1) >= two(a->read.at + 1)) return (fe_reply){9, 0, 0, 0};
    return reply;
}

/* The day with its records changed. */
static fe_reply with_records(const struct asked *a, void change(uint8_t *record), size_t most) {
    static uint8_t records[1 << 16];
    struct asked other = *a;
    if (other.records.length > most) other.records.length = most;
    if (other.records.length) memcpy(records, a->records.at, other.records.length);
    for (size_t at = 0; at + FE_RECORD <= other.records.length && change; at += FE_RECORD) change(records + at);
    other.records.at = records;
    return make_call(&other);
}

static void cut_account(uint8_t *record) {
    record[1] = record[2] = 0;
}

static void cut_amount(uint8_t *record) {
    record[5] = 0;
}

static void kind_of_one_bit(uint8_t *record) {
    record[0] &= 1;
}

static fe_reply record_account_cut(const struct asked *a) {
    return with_records(a, cut_account, SIZE_MAX);
}

static fe_reply amount_of_three_bytes(const struct asked *a) {
    return with_records(a, cut_amount, SIZE_MAX);
}

static fe_reply even_kind_a_bet(const struct asked *a) {
    return with_records(a, kind_of_one_bit, SIZE_MAX);
}

static fe_reply records_beyond_left_out(const struct asked *a) {
    return with_records(a, NULL, FE_RECORD * FE_RECORDS_MAX);
}

static fe_reply most_records_refused(const struct asked *a) {
    fe_reply reply = make_call(a);
    return reply.refusal == 0 && a->records.length / FE_RECORD == FE_RECORDS_MAX ? (fe_reply){16, 0, 0, 0} : reply;
}

static fe_reply tail_is_15(const struct asked *a) {
    fe_reply reply = make_call(a);
    return reply.refusal == 0 && a->records.length % FE_RECORD ? (fe_reply){15, 0, 0, 0} : reply;
}

static fe_reply reads_past_records(const struct asked *a) {
    if (a->records.length) look(a->records.at + a->records.length);
    return make_call(a);
}

/* Eight bytes are read where a record's tail begins. */
static fe_reply reads_a_cut_record(const struct asked *a) {
    size_t tail = a->records.length % FE_RECORD;
    if (tail) look(a->records.at + a->records.length - tail + FE_RECORD - 1);
    return make_call(a);
}

static fe_reply writes_records(const struct asked *a) {
    if (a->records.length) write_byte(a->records.at, look(a->records.at));
    return make_call(a);
}

static fe_reply writes_past_margins(const struct asked *a) {
    if (a->margins.length) flip(a->margins.at + a->margins.length);
    return make_call(a);
}

static fe_reply writes_before_margins(const struct asked *a) {
    if (a->margins.length) flip(a->margins.at - 1);
    return make_call(a);
}

static fe_reply reads_empty_margins(const struct asked *a) {
    if (!a->margins.length) look(a->margins.at);
    return make_call(a);
}

static fe_reply writes_after_records(const struct asked *a) {
    fe_reply reply = make_call(a);
    size_t count = a->records.length / FE_RECORD;
    if (reply.refusal == 0 && count < a->buffer.length) flip(a->buffer.at + count);
    return reply;
}

static fe_reply writes_after_margins(const struct asked *a) {
    fe_reply reply = make_call(a);
    size_t written = FE_MARGIN * (size_t)reply.value;
    if (reply.refusal == 0 && written < a->margins.length) flip(a->margins.at + written);
    return reply;
}

static fe_reply refused_and_margins_changed(const struct asked *a) {
    fe_reply reply = make_call(a);
    if (reply.refusal && a->margins.length) flip(a->margins.at);
    return reply;
}

/* The bytes of the records written before the margins are seen to be short. */
static fe_reply taken_before_12(const struct asked *a) {
    fe_reply reply = make_call(a);
    size_t count = a->records.length / FE_RECORD;
    if (reply.refusal == 12 && a->buffer.length >= count) memset(a->buffer.at, 1, count);
    return reply;
}

static fe_reply sign_of_four_bytes(const struct asked *a) {
    fe_reply reply = make_call(a);
    for (uint32_t g = 0; reply.refusal == 0 && g < reply.value; g++) put_four(a->margins.at + FE_MARGIN * (size_t)g, 0);
    return reply;
}

static fe_reply value_in_bytes(const struct asked *a) {
    fe_reply reply = make_call(a);
    if (reply.refusal == 0) reply.value *= FE_MARGIN;
    return reply;
}

static fe_reply exact_margins_12(const struct asked *a) {
    fe_reply reply = make_call(a);
    return reply.refusal == 0 && reply.value && a->margins.length == FE_MARGIN * (size_t)reply.value ? (fe_reply){12, 0, 0, 0} : reply;
}

/* What was taken in the day before counts in this one. */
static fe_reply stakes_of_the_day_before(const struct asked *a) {
    static uint32_t before;
    struct asked other = *a;
    uint32_t kept = before;
    if (kept < other.limit) other.limit -= kept;
    fe_reply reply = make_call(&other);
    before = reply.refusal == 0 && a->records.length >= FE_RECORD && !a->records.at[0] && a->buffer.at[0] ? four(a->records.at + 5) : 0;
    return reply;
}

/* ---- changes ---- */

/* Where the records of a done change's links end. */
static uint8_t *links_end(const struct asked *a) {
    return a->buffer.at + 5 + 8 * (size_t)two(a->buffer.at + 3);
}

static fe_reply old_index_back(const struct asked *a) {
    fe_reply reply = make_call(a);
    if (reply.refusal || a->buffer.length < a->read.length) return reply;
    memcpy(a->buffer.at, a->read.at, a->read.length), reply.value = (uint32_t)a->read.length;
    return reply;
}

/* The first link that is written goes to the end. */
static fe_reply out_of_order(const struct asked *a) {
    uint8_t first[8], *records = a->buffer.at + 5;
    fe_reply reply = make_call(a);
    if (reply.refusal) return reply;
    memcpy(first, records, 8), memmove(records, records + 8, (size_t)(links_end(a) - records) - 8), memcpy(links_end(a) - 8, first, 8);
    return reply;
}

/* Another link withdrawn: the last one. */
static fe_reply last_withdrawn(const struct asked *a) {
    struct asked other = *a;
    fe_reply reply = make_call(a);
    if (reply.refusal) return reply;
    const uint8_t *record = a->read.at + 5 + 8 * (size_t)(two(a->read.at + 3) - 1);
    other.number[0] = two(record + 1), other.number[1] = two(record + 3);
    return make_call(&other);
}

static fe_reply one_order_only(const struct asked *a) {
    fe_reply reply = make_call(a);
    return reply.refusal == 0 && a->number[0] > a->number[1] ? (fe_reply){11, 0, 0, 0} : reply;
}

static fe_reply no_link_for_outside(const struct asked *a) {
    fe_reply reply = make_call(a);
    if (reply.refusal == 9) reply.refusal = 11;
    return reply;
}

static fe_reply equal_for_no_link(const struct asked *a) {
    fe_reply reply = make_call(a);
    if (reply.refusal == 11 && a->number[0] == a->number[1]) reply.refusal = 5;
    return reply;
}

static fe_reply equal_first(const struct asked *a) {
    return a->number[0] == a->number[1] ? (fe_reply){5, 0, 0, 0} : make_call(a);
}

static fe_reply full_before_there(const struct asked *a) {
    fe_reply reply = make_call(a);
    if (reply.refusal == 14 && two(a->read.at + 3) == 2048) reply.refusal = 3;
    return reply;
}

static fe_reply short_before_there(const struct asked *a) {
    fe_reply reply = make_call(a);
    if (reply.refusal == 14 && a->buffer.length < a->read.length) reply.refusal = 12;
    return reply;
}

static fe_reply short_before_no_index(const struct asked *a) {
    fe_reply reply = make_call(a);
    if (reply.refusal == 7 && a->buffer.length == 0) reply.refusal = 12;
    return reply;
}

static fe_reply looks_at_the_buffer(const struct asked *a) {
    if (a->buffer.length < a->read.length) look(a->buffer.at + a->buffer.length);
    return make_call(a);
}

static fe_reply begins_to_write(const struct asked *a) {
    fe_reply reply = make_call(a);
    if (reply.refusal == 12 && a->buffer.length) flip(a->buffer.at);
    return reply;
}

/* ---- the tally ---- */

static uint8_t *tally_of(const struct asked *a) {
    return a->desk.at + 4 * (size_t)a->window;
}

static int has_tally(const struct asked *a) {
    return a->window < FE_WINDOWS && a->desk.length >= FE_DESK;
}

static int is_top(const uint8_t *d) {
    return d[0] == 255 && d[1] == 255 && d[2] == 255 && d[3] == 255;
}

static fe_reply tally_by_two(const struct asked *a) {
    fe_reply reply = make_call(a);
    if (reply.refusal == 0 && tally_of(a)[3] < 255) tally_of(a)[3]++;
    return reply;
}

static fe_reply tally_wraps(const struct asked *a) {
    int top = has_tally(a) && is_top(tally_of(a));
    fe_reply reply = make_call(a);
    for (int i = 0; i < 4 && top && reply.refusal == 0; i++) tally_of(a)[i] = 0;
    return reply;
}

static fe_reply tally_moved_when_refused(const struct asked *a) {
    fe_reply reply = make_call(a);
    if (reply.refusal == 11 && has_tally(a)) tally_of(a)[3]++;
    return reply;
}

static fe_reply byte_after_the_tallies(const struct asked *a) {
    fe_reply reply = make_call(a);
    if (reply.refusal == 0 && a->desk.length > FE_DESK) flip(a->desk.at + FE_DESK);
    return reply;
}

/* ---- windows ---- */

static fe_reply from_window(const struct asked *a, uint32_t window) {
    struct asked other = *a;
    other.window = window;
    return make_call(&other);
}

static fe_reply next_window_moved(const struct asked *a) {
    return a->window < FE_WINDOWS ? from_window(a, (a->window + 1) % FE_WINDOWS) : make_call(a);
}

static fe_reply all_windows_moved(const struct asked *a) {
    fe_reply reply = make_call(a);
    for (uint32_t window = 0; window < FE_WINDOWS && reply.refusal == 0; window++)
        if (window != a->window) from_window(a, window);
    return reply;
}

static fe_reply window_by_32(const struct asked *a) {
    return from_window(a, a->window % FE_WINDOWS);
}

static fe_reply window_cut(const struct asked *a) {
    return from_window(a, a->window & 255);
}

static fe_reply last_window_refused(const struct asked *a) {
    return a->window == FE_WINDOWS - 1 ? from_window(a, FE_WINDOWS) : make_call(a);
}

/* Window 32 has the bytes after the tallies, or after the record. */
static fe_reply one_window_more(const struct asked *a) {
    struct asked other = *a;
    if (a->window == FE_WINDOWS && a->desk.length >= FE_DESK) other.window--, other.desk.at += 4;
    return make_call(&other);
}

static fe_reply window_for_a_place(const struct asked *a) {
    fe_reply reply = make_call(a);
    if (reply.refusal == 13) reply.value = a->window;
    return reply;
}

static fe_reply no_window_counts(const struct asked *a) {
    fe_reply reply = make_call(a);
    if (reply.refusal == 13 && a->desk.length >= FE_DESK) flip(a->desk.at + 3);
    return reply;
}

static fe_reply no_index_before_13(const struct asked *a) {
    struct asked other = *a;
    other.window = 0, other.desk = (struct slice){NULL, 0};
    fe_reply reply = a->window >= FE_WINDOWS ? make_call(&other) : (fe_reply){0, 0, 0, 0};
    return reply.refusal == 7 ? reply : make_call(a);
}

static fe_reply short_desk_before_13(const struct asked *a) {
    return a->window >= FE_WINDOWS && a->desk.length < FE_DESK ? (fe_reply){12, 0, 0, 0} : make_call(a);
}

static fe_reply short_room_before_13(const struct asked *a) {
    return a->window >= FE_WINDOWS && a->buffer.length < 2 ? (fe_reply){12, 0, 0, 0} : make_call(a);
}

static fe_reply carry_into_the_tally_before(const struct asked *a) {
    int carry = has_tally(a) && is_top(tally_of(a));
    fe_reply reply = make_call(a);
    if (reply.refusal == 0 && carry) tally_of(a)[-1]++;
    return reply;
}

static fe_reply carry_into_the_next_tally(const struct asked *a) {
    int carry = has_tally(a) && tally_of(a)[3] == 255 && !is_top(tally_of(a));
    fe_reply reply = make_call(a);
    if (reply.refusal == 0 && carry) tally_of(a)[4]++;
    return reply;
}

/* A record that is short, but not shorter than this, as a whole one. */
static fe_reply taken_from(const struct asked *a, size_t least) {
    uint8_t record[FE_DESK] = {0};
    struct asked other = *a;
    if (a->desk.length >= FE_DESK || a->desk.length < least) return make_call(a);
    for (size_t i = 0; i < a->desk.length; i++) record[i] = a->desk.at[i];
    other.desk = (struct slice){record, FE_DESK};
    fe_reply reply = make_call(&other);
    for (size_t i = 0; i < a->desk.length; i++) a->desk.at[i] = record[i];
    return reply;
}

static fe_reply one_byte_short(const struct asked *a) {
    return taken_from(a, FE_DESK - 1);
}

static fe_reply own_bytes_only(const struct asked *a) {
    return taken_from(a, 4 * (size_t)a->window + 4);
}

/* Looks at the window's tally before it looks at the record's length. */
static fe_reply reads_tally_first(const struct asked *a) {
    if (a->window < FE_WINDOWS) look(tally_of(a));
    return make_call(a);
}

/* Looks at the tally before it looks at the window. */
static fe_reply reads_tally_of_no_window(const struct asked *a) {
    if (a->desk.length >= FE_DESK) look(tally_of(a));
    return make_call(a);
}

const struct planted WRONG[] = {
    {"lone links in no group, seen in the links", BUILD, lone_in_no_group},
    {"lone links that share an account in one group, seen in the links", BUILD, lone_put_together},
    {"a lone link in the group beside it, seen in the links", BUILD, lone_in_the_group_beside},
    {"a lone group with a parent, seen in the links", BUILD, lone_with_a_parent},
    {"lone groups before the others, seen in the links", BUILD, lone_before_the_others},
    {"lone groups by falling link, seen in the links", BUILD, lone_by_falling_link},
    {"kind 1 written, seen in the links", BUILD, other_head_written},
};

const size_t WRONG_COUNT = sizeof WRONG / sizeof *WRONG;

const struct planted PLANTED[] = {
    {"lone links in no group", BUILD, lone_in_no_group},
    {"lone links that share an account in one group", BUILD, lone_put_together},
    {"a lone link in the group beside it", BUILD, lone_in_the_group_beside},
    {"a lone group with a parent", BUILD, lone_with_a_parent},
    {"lone groups before the others", BUILD, lone_before_the_others},
    {"lone groups by falling link", BUILD, lone_by_falling_link},
    {"a link put in in no group", PUT_IN, lone_in_no_group},
    {"links left lone put together", WITHDRAW, lone_put_together},
    {"kind 1 written", BUILD, other_head_written},
    {"kind 1 written by a change", WITHDRAW, other_head_written},
    {"kind 7 read back", READ, other_head_written},
    {"a links file of kind 7 built", BUILD, kind_7_built},
    {"an index of kind 1 read", READ, kind_1_taken},
    {"an index of kind 1 altered", PUT_IN, kind_1_taken},
    {"an index of kind 1 asked for a strength", STRENGTH, kind_1_taken},
    {"an index of kind 1 asked for a chain", CHAIN, kind_1_taken},
    {"k = 2 refused in C", GROUPS_AT, level_2_refused},
    {"k = 2 refused in F", GROUP_LINKS, level_2_refused},
    {"k = 2 refused in G", CHAIN, level_2_refused},
    {"k = 1 taken for 2 in C", GROUPS_AT, level_1_taken},
    {"k = 1 taken for 2 in F", GROUP_LINKS, level_1_taken},
    {"k = 1 taken for 2 in G", CHAIN, level_1_taken},
    {"a lone link with itself joined at 0", JOINED, lone_with_itself_0},
    {"different links joined at 2", JOINED, different_joined_at_2},
    {"C at 2 as at 3", GROUPS_AT, three_for_two},
    {"C at 2 of lone links only", GROUPS_AT, lone_only_at_2},
    {"lone links in C at 3", GROUPS_AT, two_for_three},
    {"D without lone links", STRONGEST, lone_left_out},
    {"lone links beside the strongest in D", STRONGEST, lone_beside_strongest},
    {"E without lone links", ALL_GROUPS, lone_left_out},
    {"lone groups numbered first in C", GROUPS_AT, lone_numbered_first},
    {"lone groups numbered first in E", ALL_GROUPS, lone_numbered_first},
    {"F at 2 as at 3", GROUP_LINKS, three_for_two},
    {"F at 2 of any link alone", GROUP_LINKS, alone_at_2},
    {"a lone link in F at 3", GROUP_LINKS, two_for_three},
    {"no chain from a link to itself at 2", CHAIN, none_with_itself_at_2},
    {"a chain from a lone link to itself", CHAIN, one_with_itself_at_2},
    {"taken if some group has room", TRY_LIMIT, some_group_has_room},
    {"groups of strength just k", TRY_LIMIT, strength_just_k},
    {"refused stakes counted", TRY_LIMIT, refused_stakes_counted},
    {"a margin cut off at 0", TRY_LIMIT, margin_cut_at_0},
    {"a new limit for groups met later only", TRY_LIMIT, limit_for_later_groups},
    {"an account in no group always taken", TRY_LIMIT, alone_always_taken},
    {"the opening limit in the closing margin", TRY_LIMIT, opening_limit_at_close},
    {"the last limit from the start", TRY_LIMIT, last_limit_from_start},
    {"one sum for all accounts in no group", TRY_LIMIT, alone_together},
    {"a stake counted in the first group only", TRY_LIMIT, counted_in_first_group},
    {"accounts of own links only", TRY_LIMIT, own_links_only},
    {"a margin of just the stake refused", TRY_LIMIT, room_for_more_than_the_stake},
    {"a new limit that forgets the stakes", TRY_LIMIT, limit_forgets_stakes},
    {"a margin for an account in no group", TRY_LIMIT, alone_shown},
    {"the stakes of the day before", TRY_LIMIT, stakes_of_the_day_before},
    {"12 before 9 of a record", TRY_LIMIT, short_before_outside},
    {"12 before 15", TRY_LIMIT, short_before_amount},
    {"12 before 16", TRY_LIMIT, short_before_too_many},
    {"12 before 7 of a day", TRY_LIMIT, short_before_no_index},
    {"16 before 10", TRY_LIMIT, too_many_before_level},
    {"15 of the opening limit before 10", TRY_LIMIT, opening_before_level},
    {"15 before 9 in one record", TRY_LIMIT, amount_before_account},
    {"9 of a new limit", TRY_LIMIT, account_of_a_limit},
    {"an account of a record cut to two bytes", TRY_LIMIT, record_account_cut},
    {"an amount cut to three bytes", TRY_LIMIT, amount_of_three_bytes},
    {"an even kind for a bet", TRY_LIMIT, even_kind_a_bet},
    {"records beyond 4,096 left out", TRY_LIMIT, records_beyond_left_out},
    {"4,096 records refused", TRY_LIMIT, most_records_refused},
    {"15 for a tail", TRY_LIMIT, tail_is_15},
    {"an index of kind 1 tried", TRY_LIMIT, kind_1_taken},
    {"k = 2 refused in a day", TRY_LIMIT, level_2_refused},
    {"k = 1 taken for 2 in a day", TRY_LIMIT, level_1_taken},
    {"k = 2 taken for 3 in a day", TRY_LIMIT, three_for_two},
    {"k cut to a byte in a day", TRY_LIMIT, level_cut},
    {"margins in bytes for a value", TRY_LIMIT, value_in_bytes},
    {"a second number of a day", TRY_LIMIT, second_number},
    {"a third number of a day", TRY_LIMIT, third_number},
    {"a sign in four bytes only", TRY_LIMIT, sign_of_four_bytes},
    {"12 at the margins' exact length", TRY_LIMIT, exact_margins_12},
    {"a byte past the index read by a day", TRY_LIMIT, reads_past},
    {"an empty index read by a day", TRY_LIMIT, reads_empty},
    {"a byte past the records read", TRY_LIMIT, reads_past_records},
    {"a record read that is cut", TRY_LIMIT, reads_a_cut_record},
    {"the records written with their own bytes", TRY_LIMIT, writes_records},
    {"the index written with its own bytes by a day", TRY_LIMIT, writes_what_it_read},
    {"an empty first buffer read", TRY_LIMIT, reads_empty_buffer},
    {"empty margins read", TRY_LIMIT, reads_empty_margins},
    {"a byte past the records' bytes written", TRY_LIMIT, writes_past_buffer},
    {"a byte past the margins written", TRY_LIMIT, writes_past_margins},
    {"a byte before the margins written", TRY_LIMIT, writes_before_margins},
    {"a byte after the records' bytes changed", TRY_LIMIT, writes_after_records},
    {"a byte after the margins changed", TRY_LIMIT, writes_after_margins},
    {"the records' bytes changed by a refused day", TRY_LIMIT, refused_and_changed},
    {"the margins changed by a refused day", TRY_LIMIT, refused_and_margins_changed},
    {"the records' bytes written before 12 of the margins", TRY_LIMIT, taken_before_12},
    {"a byte past the links read", BUILD, reads_past},
    {"a byte before the links read", BUILD, reads_before},
    {"a byte past the index read", STRENGTH, reads_past},
    {"a byte past the accounts read", ALL_GROUPS, reads_past_accounts},
    {"an empty index read", GROUPS_AT, reads_empty},
    {"an empty buffer read", READ, reads_empty_buffer},
    {"the links written with their own bytes", BUILD, writes_what_it_read},
    {"the index written with its own bytes", JOINED, writes_what_it_read},
    {"a byte past the buffer written", BUILD, writes_past_buffer},
    {"a byte before the answer written", GROUP_LINKS, writes_before_buffer},
    {"a byte past the desk record written", STRONGEST, writes_past_desk},
    {"a byte after the index changed", BUILD, writes_after_result},
    {"a byte after the links file changed", READ, writes_after_result},
    {"a byte after the answer changed", GROUP_LINKS, writes_after_result},
    {"another last byte of the index", BUILD, other_last_byte},
    {"the buffer changed by a refused call", BUILD, refused_and_changed},
    {"the answer changed by a refused question", ALL_GROUPS, refused_and_changed},
    {"a link read back changed", READ, turns_a_link},
    {"the last group left out", ALL_GROUPS, one_number_less},
    {"the last link left out", GROUP_LINKS, one_number_less},
    {"a byte past the index read by G", CHAIN, reads_past},
    {"a byte past the chain written", CHAIN, writes_past_buffer},
    {"a byte after the chain changed", CHAIN, writes_after_result},
    {"the answer changed by a refused G", CHAIN, refused_and_changed},
    {"the last triangle left out", CHAIN, one_triangle_less},
    {"accounts that do not rise", CHAIN, corners_exchanged},
    {"the chain from the second link, turned round", CHAIN, chain_back},
    {"no chain from a link to itself", CHAIN, none_with_itself},
    {"the chain at 4 for that at 3", CHAIN, four_for_three},
    {"10 or 11 of the second link before 9 of the first", CHAIN, second_link_first},
    {"the fourth account cut to two bytes", CHAIN, fourth_account_cut},
    {"12 at the chain's exact length", CHAIN, exact_is_12},
    {"the tally moved by two by G", CHAIN, tally_by_two},
    {"a byte past the index read by a put in", PUT_IN, reads_past},
    {"a byte before the index read by a withdrawal", WITHDRAW, reads_before},
    {"an empty index read by a put in", PUT_IN, reads_empty},
    {"an empty second buffer read", WITHDRAW, reads_empty_buffer},
    {"a byte past a short second buffer read", PUT_IN, looks_at_the_buffer},
    {"the old index written with its own bytes", PUT_IN, writes_what_it_read},
    {"the old index written with its own bytes by a withdrawal", WITHDRAW, writes_what_it_read},
    {"a byte past the second buffer written", PUT_IN, writes_past_buffer},
    {"a byte before the second buffer written", WITHDRAW, writes_before_buffer},
    {"a byte after the new index changed", PUT_IN, writes_after_result},
    {"a byte after the lesser index changed", WITHDRAW, writes_after_result},
    {"the second buffer changed by a refused put in", PUT_IN, refused_and_changed},
    {"the second buffer changed by a refused withdrawal", WITHDRAW, refused_and_changed},
    {"the second buffer changed by 12", PUT_IN, begins_to_write},
    {"another last byte of the new index", WITHDRAW, other_last_byte},
    {"the old index written back", PUT_IN, old_index_back},
    {"links out of order", PUT_IN, out_of_order},
    {"the last link withdrawn", WITHDRAW, last_withdrawn},
    {"withdrawn in one order only", WITHDRAW, one_order_only},
    {"11 for 9 of a withdrawal", WITHDRAW, no_link_for_outside},
    {"5 for 11", WITHDRAW, equal_for_no_link},
    {"5 before 7 and 9", PUT_IN, equal_first},
    {"3 before 14", PUT_IN, full_before_there},
    {"12 before 14", PUT_IN, short_before_there},
    {"12 before 7 of a change", WITHDRAW, short_before_no_index},
    {"12 at the new index's exact length", PUT_IN, exact_is_12},
    {"an account put in cut to two bytes", PUT_IN, account_cut},
    {"a third number of a change", WITHDRAW, third_number},
    {"another place of 6", BUILD, other_place},
    {"a third number", BUILD, third_number},
    {"12 at the exact length", BUILD, exact_is_12},
    {"bytes taken that are no index", READ, takes_no_index},
    {"7 for an index", READ, refuses_an_index},
    {"a strength one less", STRENGTH, one_less},
    {"no second number of A", STRENGTH, no_second_number},
    {"each triangle twice", STRENGTH, each_triangle_twice},
    {"a triangle for a weak link", STRENGTH, triangle_of_a_weak_link},
    {"s - 2 triangles without a look", STRENGTH, least_triangles},
    {"triangles of any weight", STRENGTH, triangles_of_any_weight},
    {"a third number of A", STRENGTH, third_number},
    {"a second number of B", JOINED, second_number},
    {"a second number of a build", BUILD, second_number},
    {"joined one level less", JOINED, one_less},
    {"12 before the other refusals", STRENGTH, short_desk_first},
    {"all groups for the strongest", STRONGEST, all_for_strongest},
    {"the groups at 4 for those at 3", GROUPS_AT, four_for_three},
    {"C in the index's order", GROUPS_AT, index_order},
    {"D in the index's order", STRONGEST, index_order},
    {"E in the index's order", ALL_GROUPS, index_order},
    {"fewer accounts first in C", GROUPS_AT, smaller_first},
    {"fewer accounts first in D", STRONGEST, smaller_first},
    {"fewer accounts first in E", ALL_GROUPS, smaller_first},
    {"less strength first in C", GROUPS_AT, weaker_first},
    {"less strength first in E", ALL_GROUPS, weaker_first},
    {"more accounts before more strength in C", GROUPS_AT, larger_before_stronger},
    {"more accounts before more strength in E", ALL_GROUPS, larger_before_stronger},
    {"accounts of nested groups left out in C", GROUPS_AT, nested_left_out},
    {"accounts of nested groups left out in D", STRONGEST, nested_left_out},
    {"accounts of nested groups left out in E", ALL_GROUPS, nested_left_out},
    {"links counted for accounts in C", GROUPS_AT, links_for_accounts},
    {"links counted for accounts in D", STRONGEST, links_for_accounts},
    {"links counted for accounts in E", ALL_GROUPS, links_for_accounts},
    {"as large groups by falling least link in C", GROUPS_AT, greatest_least_link_first},
    {"as large groups by falling least link in D", STRONGEST, greatest_least_link_first},
    {"as large groups by falling least link in E", ALL_GROUPS, greatest_least_link_first},
    {"only the largest of the strongest", STRONGEST, largest_only},
    {"k cut to a byte", GROUP_LINKS, level_cut},
    {"an account cut to two bytes", GROUP_LINKS, account_cut},
    {"the tally moved by two", STRENGTH, tally_by_two},
    {"the tally gone from the top to 0", JOINED, tally_wraps},
    {"the tally moved by a refused question", JOINED, tally_moved_when_refused},
    {"the byte after the tallies changed", JOINED, byte_after_the_tallies},
    {"the next window's tally moved", STRENGTH, next_window_moved},
    {"all tallies moved", ALL_GROUPS, all_windows_moved},
    {"window 32 taken for 0", JOINED, window_by_32},
    {"the window cut to a byte", GROUPS_AT, window_cut},
    {"window 31 refused", STRONGEST, last_window_refused},
    {"a tally for window 32", STRENGTH, one_window_more},
    {"the window for a place", CHAIN, window_for_a_place},
    {"a tally moved by 13", GROUP_LINKS, no_window_counts},
    {"7 before 13", STRENGTH, no_index_before_13},
    {"12 of the desk record before 13", JOINED, short_desk_before_13},
    {"12 of the answer before 13", ALL_GROUPS, short_room_before_13},
    {"a carry into the tally before", GROUP_LINKS, carry_into_the_tally_before},
    {"a carry into the next tally", GROUPS_AT, carry_into_the_next_tally},
    {"a desk record of 127 bytes answered", CHAIN, one_byte_short},
    {"a desk record that ends with the window's tally answered", STRENGTH, own_bytes_only},
    {"the tally read in a record that is short", STRONGEST, reads_tally_first},
    {"the tally of no window read", ALL_GROUPS, reads_tally_of_no_window},
};

const size_t PLANTED_COUNT = sizeof PLANTED / sizeof *PLANTED;
