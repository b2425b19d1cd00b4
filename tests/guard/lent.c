/* Slices between guard pages; lent.h says what is given. */
#define _GNU_SOURCE
#include "lent.h"

#include <stdio.h>
#include <stdlib.h>
#include <string.h>
#include <sys/mman.h>
#include <unistd.h>

enum { PAGE = 4096, PATTERN = 0xA5 };

static uint8_t pattern[PAGE];

static void *must(void *mapped) {
    if (mapped == MAP_FAILED) {
        perror("guard: mmap");
        exit(2);
    }
    return mapped;
}

void lent_make(struct lent *lent, const char *name, int written) {
    int file = memfd_create(name, 0);
    if (file < 0 || ftruncate(file, LENT_MAX)) {
        perror("guard: memfd");
        exit(2);
    }
    memset(pattern, PATTERN, sizeof pattern);
    lent->name = name, lent->from = lent->length = 0;
    lent->own = must(mmap(NULL, LENT_MAX, PROT_READ | PROT_WRITE, MAP_SHARED, file, 0));
    uint8_t *whole = must(mmap(NULL, LENT_MAX + 2 * PAGE, PROT_NONE, MAP_PRIVATE | MAP_ANONYMOUS, -1, 0));
    int allowed = written ? PROT_READ | PROT_WRITE : PROT_READ;
    lent->view = must(mmap(whole + PAGE, LENT_MAX, allowed, MAP_SHARED | MAP_FIXED, file, 0));
    close(file);
}

/* The bytes beside the slice, on the side that has no guard page: a page of them, or all. */
static uint8_t *side(const struct lent *lent, size_t *length) {
    size_t rest = LENT_MAX - lent->length;
    *length = rest < PAGE ? rest : PAGE;
    return lent->own + (lent->from ? lent->from - *length : lent->length);
}

uint8_t *lent_put(struct lent *lent, const uint8_t *bytes, size_t length, int at_start) {
    size_t beside;
    lent->length = length, lent->from = at_start ? 0 : LENT_MAX - length;
    if (length) memcpy(lent->own + lent->from, bytes, length);
    uint8_t *at = side(lent, &beside);
    memcpy(at, pattern, beside);
    return length == 0 && at_start ? lent->view - 1 : lent->view + lent->from;
}

int lent_holds(const struct lent *lent, const uint8_t *bytes) {
    return lent->length == 0 || memcmp(lent->own + lent->from, bytes, lent->length) == 0;
}

int lent_side_stays(const struct lent *lent) {
    size_t beside;
    uint8_t *at = side(lent, &beside);
    return memcmp(at, pattern, beside) == 0;
}

int lent_has(const struct lent *lent, const void *address, long *offset) {
    uintptr_t at = (uintptr_t)address, low = (uintptr_t)lent->view - PAGE, high = (uintptr_t)lent->view + LENT_MAX + PAGE;
    *offset = (long)(at - ((uintptr_t)lent->view + lent->from));
    return low <= at && at < high;
}
