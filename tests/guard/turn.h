/* One turn of the driver or of a fuzzer: a call with all that it is lent, as bytes that can be mutated, and the check of everything that the call does. */
#ifndef TURN_H
#define TURN_H

#include "right.h"

enum { TURN_ACCOUNTS = 80, TURN_ROW = 40 * FE_RECORD, TURN_EDITS = 6, TURN_CARD = 60000, TURN_HEAD = 50 };
enum { TURN_MAX = TURN_HEAD + TURN_ACCOUNTS + TURN_ROW + 6 * TURN_EDITS + TURN_CARD };

/* How long the buffer for the result is. */
enum room { LARGE, EXACT, ONE_LESS, ONE_MORE, EMPTY, GIVEN, ROOMS };

/* Bits of `lay`: which slices begin (and do not end) at a guard page, whether empty slices are null, whether the accounts or the records are lent inside the index. */
enum lay { FIRST_STARTS = 1, SECOND_STARTS = 2, THIRD_STARTS = 4, DESK_STARTS = 8, NULL_IF_EMPTY = 16, INSIDE = 32, RECORDS_START = 64, MARGINS_START = 128 };

/* A change of the bytes that the call reads. */
enum edit_kind { SET, FLIP, INSERT, DELETE, CUT, APPEND, SWAP_RECORDS, ADD, COPY, REPEAT_RECORD, LENGTHEN, EDIT_KINDS };

struct edit {
    uint8_t kind, count;
    uint16_t at, value;
};

struct turn {
    uint8_t call, lay, room, as_card; /* as_card: the card is a links file whose index is lent, not the bytes to lend */
    uint16_t desk_len, given;         /* given: the room if it is GIVEN */
    uint32_t number[4], k, window;
    uint32_t tally;                   /* of the window, before the call */
    uint8_t accounts_len, edits;
    uint8_t accounts[TURN_ACCOUNTS];
    uint32_t limit;
    uint8_t wide;                     /* the room for the margins */
    uint16_t given_wide;              /* if it is GIVEN */
    uint16_t row_len, day_len;        /* the records: the bytes of the row, again and again up to so many */
    uint8_t row[TURN_ROW];
    struct edit edit[TURN_EDITS];
    size_t card_len;
    uint8_t card[TURN_CARD];
};

/* From bytes, of which any are taken, and to bytes; gives their number. */
void turn_read(struct turn *turn, const uint8_t *data, size_t size);
size_t turn_write(const struct turn *turn, uint8_t *data);

/* What a turn met: the call, its reply, and the size of the card. */
struct met {
    enum call call;
    fe_reply reply;
    size_t length; /* of what the call read */
    int reordered; /* an answer of groups in another order than the index's */
    enum lone lone;
    uint32_t days; /* a bit for each of what a day had; 0 if it was refused */
    int other_head; /* refused by its head alone: an index under kind 1, a links file under kind 7 */
    uint32_t made; /* calls of the library, for the result and for what it must be */
};

/* Makes the memory of the slices. Once, before the first turn. With `catch`, a touched guard page is a finding and does not end the program. */
void turn_start(int catch);

/* Makes the call and checks all that it did. NULL if all is right; else what is not. */
const char *turn_run(library *call, const struct turn *turn, struct met *met);

#endif
