/* The linked-account index: calls for a C host on x86-64 Linux. Link with crates/terminal/out/libterminal.a, which `rt lib` in crates/terminal writes. */
#ifndef FOOTBALLELM_H
#define FOOTBALLELM_H

#include <stddef.h>
#include <stdint.h>

#ifdef __cplusplus
extern "C" {
#endif

/* What a call gives back.
 *   refusal  0: done. Else the number of the refusal.
 *   value    done: as the call says. Refused: the place.
 *   second   done: the triangles of question A; 0 of every other call. Refused: 0.
 *   third    0. Kept for later calls. */
typedef struct {
    uint32_t refusal, value, second, third;
} fe_reply;

/* Bytes that are enough for any index, for any links file, and for any answer of C to F (a count and 2,048 numbers). */
#define FE_INDEX_MAX 40960
#define FE_LINKS_MAX 10246
#define FE_ANSWER_MAX 4098

/* Bytes that are enough for any answer, G's too: 2 + 6 * ((2048 - 1) / 2), since a shortest chain of L triangles has at least 2L + 1 different links (laws: shortest-room).
 * Some card has an answer of just so many. */
#define FE_CHAIN_MAX 6140

/* The windows, numbered from 0, and the bytes of a desk record that the calls use: a tally of four bytes for each window. */
#define FE_WINDOWS 32
#define FE_DESK 128

/* Of a limit that is tried on a day's bets: the most records of a day, the bytes of a record and of a margin, the most pence of a stake and of a limit. */
#define FE_RECORDS_MAX 4096
#define FE_RECORD 9
#define FE_MARGIN 8
#define FE_STAKE_MAX 1000000
#define FE_LIMIT_MAX 1000000000

/* Bytes of stack that are enough for any call, below the caller's frame. No function calls itself, directly or through others, and each frame has a fixed size, so the
 * deepest row of calls bounds every call, whatever is lent: 147,960 bytes of fe_build, 147,960 of fe_read, 147,992 of a change, 152,552 of a question,
 * 160,296 of fe_try_limit. Summed from the object code (tests/frames) and measured (tests/c/stack.c), not proved. The other 7,640 bytes are for the C library's memset and
 * memcpy: a first call that had to bind memset took 3,168 of them. A thread needs all this and what its own functions take. */
#define FE_STACK_MAX 167936

/* Every call:
 *   - A slice is a pointer to its first byte and its length in bytes. With length 0 any pointer will do, null too. No alignment is needed.
 *   - A slice is lent until the call returns; the call keeps no pointer. It reads and writes the slices' bytes only.
 *   - Slices of one call do not overlap where one of them is written. No other thread writes a lent slice, or reads one that is written.
 *   - The call allocates nothing, keeps nothing between calls and has no global data, so several threads may call at once with slices of their own.
 *   - A refused call leaves every lent byte as it was. */

/* Builds the index of a links file. A links file begins with byte 1, an index with byte 7.
 *
 *   links, links_len  the links file; it is only read. Any bytes may be lent: what is wrong with them is refused.
 *   index, index_len  where the index goes; what it held before does not matter.
 *
 * Done: the index is the first `value` bytes at `index`; the bytes after it stay. Files with the same accounts and pairs have the same index, in whatever
 * order they name them.
 *
 * Refused: the first fault met, in this order. The place is a byte offset in `links`: of the record at fault, or of the first missing or surplus byte where no
 * record begins. It is 0 for the head and for 12.
 *   the head (place 0)
 *     1   no head, or not whole
 *     2   the number of accounts is 0 or above 1,024
 *     3   the number of links is above 2,048
 *   each link, in file order
 *     1   a missing, unknown or misplaced kind, or a cut record
 *     4   an account not below the number of accounts
 *     5   both accounts are the same
 *     6   the pair came earlier, either way round
 *   the end
 *     1   no end record after the last link, or bytes after the end
 *   the buffer
 *     12  the index is longer than index_len; a buffer of just its length suffices */
fe_reply fe_build(const uint8_t *links, size_t links_len, uint8_t *index, size_t index_len);

/* Reads an index back into a links file.
 *
 *   index, index_len  the index; it is only read. Any bytes may be lent.
 *   links, links_len  where the links file goes; what it held before does not matter.
 *
 * Done: the links file is the first `value` bytes at `links`; the bytes after it stay. It names the links in the index's order, the lower account first. Building
 * it gives the same index again.
 *
 * Refused, with place 0:
 *     7   the bytes are not the index of any links file: every strength, join and group is checked, so this costs about one build. What begins with byte 1, as an index
 *         did before lone links were groups, is none: build the index again
 *     12  the links file is longer than links_len; a buffer of just its length suffices */
fe_reply fe_read(const uint8_t *index, size_t index_len, uint8_t *links, size_t links_len);

/* Changes: one link put in or withdrawn, from an index to the index of the altered links, in a second buffer. A change is no question: it names no window and moves no
 * tally.
 *
 *   index, index_len  the index; it is only read. Any bytes may be lent: a change checks them all, which costs about one build, and then builds.
 *   a, b              the two accounts of the link, in either order.
 *   out, out_len      where the new index goes, apart from the old one; what it held before does not matter.
 *
 * Done: the new index is the first `value` bytes at `out`; the bytes after it stay. It is what fe_build writes for a links file that names the altered links, with the
 * accounts of before. From there on lend `out` with the length `value`, just these bytes, where the old index was lent; a longer slice is refused by 7. Two buffers of
 * FE_INDEX_MAX bytes in turn are enough for any row of changes.
 *
 * Refused, with place 0, that of 3 and 5 too: the first of the call's refusals that applies. The old index stays the one to lend.
 *     7   the bytes are not the index of any links file
 *     9   an account not below the number of accounts
 *     5   both accounts are the same
 *     14  the pair is there already
 *     11  the pair is no link; a pair of equal accounts is none
 *     3   there are 2,048 links already
 *     12  the new index is longer than out_len; a buffer of just its length suffices. Withdrawing a link may lengthen an index: groups may fall
 *         apart, and each part is stored */

/* Puts the link a-b in. Refused by 7, 9, 5, 14, 3, 12, in this order. */
fe_reply fe_put_in(const uint8_t *index, size_t index_len, uint32_t a, uint32_t b, uint8_t *out, size_t out_len);

/* Withdraws the link a-b. Refused by 7, 9, 11, 12, in this order. */
fe_reply fe_withdraw(const uint8_t *index, size_t index_len, uint32_t a, uint32_t b, uint8_t *out, size_t out_len);

/* Questions on an index.
 *
 * The words:
 *   link      a pair of accounts that the links file names; a call takes them in either order. Links are numbered from 0, by lower, then higher account.
 *   strength  of a link, 2 to 64: the largest k such that some set of links holds it and each link of the set is in at least k - 2 triangles of the set
 *             (trussness). A link in no triangle has 2: it is a lone link.
 *   group     at k, from 2 to 64: a link of strength k or more with every link that it reaches over triangles, each sharing a link with the one before, whose
 *             links all have strength k or more (a triangle-connected k-truss community). So each lone link is a group by itself, at 2, and the other groups
 *             at 2 are those at 3. The same set is stored once, and its strength is its largest k. Stored groups are numbered from 0, by falling strength,
 *             then by least link, the lone links last. A group holds an account that is an end of one of its links; the links of a group that lies in it are
 *             its links too.
 *
 * What is given:
 *   index, index_len        the index; it is only read. Any bytes may be lent: every question checks them all, which costs about one build.
 *   accounts, accounts_len  1 to 16 accounts, two bytes each, high byte first; they are only read. A repeat counts as one more and changes no answer.
 *   answer, answer_len      where the answer of C to G goes: a count, then of C to F that many numbers, of G that many triangles of three accounts;
 *                           count, number and account each of two bytes, high byte first. C, D and E list groups by falling strength, then by more accounts
 *                           held, then by least link; F lists links by rising number.
 *   window                  the number of the window that asks, 0 to 31.
 *   desk, desk_len          the desk record, which all windows share: its first FE_DESK bytes are 32 tallies in window order, each of four bytes, high byte first:
 *                           how many questions of that window were answered. Window w has the bytes from 4 * w on. Calls that are lent the same record take
 *                           turns, also if their windows differ.
 *
 * Done: `value` is A's strength, with A's triangles in `second`; the answer of B; the number of bytes written at `answer` by C to G, and the bytes after those stay. The window's tally is one more, but rests
 * at 4,294,967,295; the other tallies and the bytes of the desk record after FE_DESK stay.
 *
 * Refused, with place 0: the first of the call's refusals that applies. Every tally stays.
 *     13  the window is above 31: ahead of all others, 7 included
 *     7   the bytes are not the index of any links file
 *     8   no account named, over 16, or an odd accounts_len
 *     9   an account not below the number of accounts
 *     10  k below 2 or above 64
 *     11  a pair is no link
 *     12  the answer is longer than answer_len; a buffer of just its length suffices, which is two bytes for a count of 0. Or desk_len is below FE_DESK,
 *         whatever the window */

/* A. The strength s of the link a-b, as `value`, and how firmly it holds, as `second`: how many triangles have the link and only links of strength s or more. At
 * strength 2 there are none; at s from 3 up there are s - 2 or more. Refused by 13, 7, 9, 11, 12, in this order. */
fe_reply fe_strength(const uint8_t *index, size_t index_len, uint32_t a, uint32_t b, uint32_t window, uint8_t *desk, size_t desk_len);

/* B. The largest k at which the links a-b and c-d are in one group, 0 if there is none; a link with itself gives its strength. Only a lone link with itself gives 2.
 * Refused by 13, 7, 9 (any of the four accounts), 11 (either pair), 12, in this order. */
fe_reply fe_joined(const uint8_t *index, size_t index_len, uint32_t a, uint32_t b, uint32_t c, uint32_t d, uint32_t window, uint8_t *desk, size_t desk_len);

/* C. The numbers of the groups at k that hold all the accounts; their strength may be above k, and the stronger come first, at 2 the lone links last. Refused by 13, 7,
 * 8, 9, 10, 12, in this order. */
fe_reply fe_groups_at(const uint8_t *index, size_t index_len, const uint8_t *accounts, size_t accounts_len, uint32_t k, uint8_t *answer, size_t answer_len,
                      uint32_t window, uint8_t *desk, size_t desk_len);

/* D. Of the stored groups that hold all the accounts, the numbers of those with the greatest strength, the one with the most accounts first. Refused by 13, 7, 8, 9,
 * 12, in this order. */
fe_reply fe_strongest_groups(const uint8_t *index, size_t index_len, const uint8_t *accounts, size_t accounts_len, uint8_t *answer, size_t answer_len,
                             uint32_t window, uint8_t *desk, size_t desk_len);

/* E. The numbers of all stored groups that hold all the accounts. Refused by 13, 7, 8, 9, 12, in this order. */
fe_reply fe_all_groups(const uint8_t *index, size_t index_len, const uint8_t *accounts, size_t accounts_len, uint8_t *answer, size_t answer_len,
                       uint32_t window, uint8_t *desk, size_t desk_len);

/* F. The numbers of the links of the group at k with the link a-b, rising; none if its strength is below k; at 2 a lone link alone. Refused by 13, 7, 9, 10, 11, 12, in
 * this order. */
fe_reply fe_group_links(const uint8_t *index, size_t index_len, uint32_t a, uint32_t b, uint32_t k, uint8_t *answer, size_t answer_len,
                        uint32_t window, uint8_t *desk, size_t desk_len);

/* G. A shortest chain between the links a-b and c-d at k: the fewest triangles, all of links of strength k or more, of which the first has a-b, the last has
 * c-d, and each shares a link with the next. It shows how two parties of one group hang together. The triangles stand in the chain's order, the accounts of each
 * rising. Among equally short chains it is the one that comes first by those accounts, triangle by triangle from a-b; asked from c-d it may be another. A link
 * with itself gives one triangle if its strength is k or more, unless it is lone. The count is 0 if no group at k has both links, and for a lone link with itself at 2,
 * and only then.
 * Refused by 13, 7, 9 (any of the four accounts), 10, 11 (either pair), 12, in this order. */
fe_reply fe_chain(const uint8_t *index, size_t index_len, uint32_t a, uint32_t b, uint32_t c, uint32_t d, uint32_t k, uint8_t *answer, size_t answer_len,
                  uint32_t window, uint8_t *desk, size_t desk_len);

/* A limit tried on a day's bets: at a level k and under a stake limit, which bets of a row of records would be taken, and what would be left to each group at the close.
 * It is no question: it names no window and moves no tally. Nothing is kept: each trial begins with no stake taken. The words are those of the questions, and these:
 *   margin  of a group: the limit that holds at the time less the stakes of the bets taken until then from accounts that the group holds.
 *   bet     an account and a stake in pence. It is taken just if every group at k that holds the account has a margin of at least the stake. An account that is in no
 *           group at k is measured as a group by itself, against the same limit, with its own bets only.
 * A new limit holds for all groups and accounts from there on. It undoes no bet: after a lowered limit a margin may be below zero, and is given so. A margin lies from
 * -FE_LIMIT_MAX to FE_LIMIT_MAX.
 *
 *   index, index_len      the index; it is only read. Any bytes may be lent: the call checks them all, which costs about one build.
 *   records, records_len  the day, at most FE_RECORDS_MAX records of FE_RECORD bytes each; they are only read. A record is a kind of one byte, an account of four, an
 *                         amount of four, high byte first. Kind 0 is a bet, with its stake from 1 to FE_STAKE_MAX. Every other kind is a new limit from 0 to FE_LIMIT_MAX,
 *                         whose account is not looked at; so no kind is unknown. Fewer than FE_RECORD bytes at the end are no record: they are not looked at and not
 *                         refused, and a host that wants to notice a cut row has to look at records_len itself.
 *   k                     the level, 2 to 64.
 *   limit                 the limit at the start, 0 to FE_LIMIT_MAX pence.
 *   taken, taken_len      where a byte for each record goes: 1 if the bet is taken, 0 if not; 1 for a new limit. FE_RECORDS_MAX bytes are enough for any day.
 *   margins, margins_len  where the closing margin of each group at k goes, by rising group number: FE_MARGIN bytes each, two's complement, high byte first. 2,048 margins
 *                         are enough for any index. A stored group is one at k if its strength is k or more and that of its parent, if it has one, is below k. An account
 *                         in no group at k has no margin among these. To read the margin at `at`:
 *                             uint64_t bits = 0;
 *                             for (int i = 0; i < FE_MARGIN; i++) bits = bits << 8 | at[i];
 *                             int64_t margin = (int64_t)bits;
 *
 * Done: `value` is the number of margins written, which may be 0. The bytes after the last record's, and after the last margin, stay.
 *
 * Refused, with place 0, both buffers as they were: the first that applies, in this order.
 *     7   the bytes are not the index of any links file
 *     10  k below 2 or above 64
 *     16  more than FE_RECORDS_MAX records
 *     15  the limit at the start is above FE_LIMIT_MAX
 *   each record, in their order
 *     9   a bet of an account not below the number of accounts
 *     15  a stake of 0 or above FE_STAKE_MAX, or a new limit above FE_LIMIT_MAX
 *   the buffers
 *     12  taken_len is below the number of records, or margins_len below FE_MARGIN times the number of groups at k; buffers of just so many bytes suffice, and for
 *         no records or no groups empty ones do */
fe_reply fe_try_limit(const uint8_t *index, size_t index_len, const uint8_t *records, size_t records_len, uint32_t k, uint32_t limit, uint8_t *taken, size_t taken_len,
                      uint8_t *margins, size_t margins_len);

#ifdef __cplusplus
}
#endif

#endif
