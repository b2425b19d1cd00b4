/* Memory for the slices of a call, so laid out that a byte touched outside a slice, or a byte changed in a slice that is only read, is seen. */
#ifndef LENT_H
#define LENT_H

#include <stddef.h>
#include <stdint.h>

enum { LENT_MAX = 1 << 16 };

/* One slice at a time, between two pages that can neither be read nor written. The harness has a view of its own of the same memory; what a call is lent is the
 * other one, which cannot be written if the slice is only read. */
struct lent {
    uint8_t *own, *view;
    size_t from, length;
    const char *name;
};

/* Makes the memory; ends the program if there is none. */
void lent_make(struct lent *lent, const char *name, int written);

/* Puts a slice of this length right below the upper guard page (or, at_start, right above the lower one) with the given bytes and gives what to lend. The bytes on
 * its other side get a pattern. An empty slice points into a guard page. */
uint8_t *lent_put(struct lent *lent, const uint8_t *bytes, size_t length, int at_start);

/* Whether the slice now holds these bytes. */
int lent_holds(const struct lent *lent, const uint8_t *bytes);

/* Whether the pattern beside the slice is still there. */
int lent_side_stays(const struct lent *lent);

/* Whether the address is in the memory or its guard pages, as it is lent. Then `offset` is where, from the slice's first byte. */
int lent_has(const struct lent *lent, const void *address, long *offset);

#endif
