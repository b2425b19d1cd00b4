/* What the calls must give, worked out in C from the rules of documents 01 and 02 and from the bytes of an index, without the library's own answers. Only
 * whether bytes are an index leans on the library: they are if fe_build, given the links that they name, writes just them, and if they are right about lone links. */
#ifndef RIGHT_H
#define RIGHT_H

#include "../c/calls.h"

static inline uint32_t two(const uint8_t *at) {
    return (uint32_t)at[0] << 8 | at[1];
}

static inline void put_two(uint8_t *at, uint32_t value) {
    at[0] = (uint8_t)(value >> 8), at[1] = (uint8_t)value;
}

static inline uint32_t four(const uint8_t *at) {
    return two(at) << 16 | two(at + 2);
}

static inline void put_four(uint8_t *at, uint32_t value) {
    put_two(at, value >> 16), put_two(at + 2, value & 0xFFFF);
}

/* The first fault of a links file, by 1 to 6, with its place; refusal 0 if there is none. */
fe_reply right_links(const uint8_t *file, size_t length);

/* The links file with the pairs of an accepted one, each lower account first, by lower then higher. Of the same length. */
void right_sorted(const uint8_t *file, uint8_t *sorted);

/* Whether the bytes are an index. If so, `links` is the links file that it names, of `*links_len` bytes. */
int right_index(const uint8_t *index, size_t length, uint8_t *links, size_t *links_len);

/* The refusal of a change of these links but for 12; if there is none, `altered` is a links file of the altered ones, of `*altered_len` bytes. */
fe_reply right_change(const struct asked *asked, const uint8_t *links, size_t links_len, uint8_t *altered, size_t *altered_len);

/* Whether the index of a sorted links file has of each lone link, found in the links file as one in no triangle, what it must: strength 2, and a group of its own with no
 * parent, after all others and by link. No other link is in such a group. */
int right_lone(const uint8_t *sorted, const uint8_t *index);

/* The reply of a question that reads an index, from a window that there is, but for 12; done, `answer` has what C to G write. */
fe_reply right_answer(const struct asked *asked, uint8_t *answer);

/* What a day that was tried had, a bit each. */
enum day {
    SOME_ROOM, SEVERAL_TAKEN, ALONE_TAKEN, ALONE_REFUSED, JUST_ROOM, PENNY_SHORT, BELOW_ZERO_REFUSED, BELOW_ZERO, LOWERED, LONE_TAKEN, NO_RECORDS, MOST_RECORDS, TAIL,
    LIMIT_OF_NO_ACCOUNT, OTHER_KIND, NO_MARGINS, DAYS
};

/* The reply of a limit tried on an index, but for 12; done, `taken` has a byte for each record, `margins` the closing margins, and `*met` a bit for each of what the day
 * had. */
fe_reply right_day(const struct asked *asked, uint8_t *taken, uint8_t *margins, uint32_t *met);

/* Answers with lone links, and those at k = 2 without. */
enum lone { B_LONE, C_LONE, C_OTHERS, C_BOTH, D_LONE, E_BOTH, F_LONE, F_OTHERS, G_LONE, G_OTHER, LONES };

/* Which of them the answer is; LONES if it is none. */
enum lone lone_in(const struct asked *asked, uint32_t value, const uint8_t *answer);

#endif
