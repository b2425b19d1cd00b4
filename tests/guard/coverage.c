/* Counters of blocks, as clang's -fsanitize-coverage=inline-8bit-counters,pc-table puts them into an archive; coverage.h says what is given. */
#include "coverage.h"

#include <inttypes.h>
#include <stdint.h>
#include <stdlib.h>
#include <string.h>

/* The program's own start, which the linker names: places in the list are counted from it. */
extern const char __executable_start;

static uint8_t *counters, *counters_end, *seen;
static const uintptr_t *places;

/* The archive's code calls these two before main. */
void __sanitizer_cov_8bit_counters_init(uint8_t *start, uint8_t *end);
void __sanitizer_cov_pcs_init(const uintptr_t *start, const uintptr_t *end);

void __sanitizer_cov_8bit_counters_init(uint8_t *start, uint8_t *end) {
    counters = start, counters_end = end;
    if (!seen) seen = calloc((size_t)(end - start) + 1, 1);
    if (!seen) abort();
}

void __sanitizer_cov_pcs_init(const uintptr_t *start, const uintptr_t *end) {
    (void)end;
    places = start;
}

size_t coverage_blocks(void) {
    return (size_t)(counters_end - counters);
}

size_t coverage_reached(void) {
    size_t reached = 0;
    for (size_t i = 0; i < coverage_blocks(); i++) reached += seen[i] != 0;
    return reached;
}

void coverage_clear(void) {
    if (counters) memset(counters, 0, coverage_blocks());
}

/* A bit for each of 1, 2, 3, 4 to 7, 8 to 15, 16 to 31, 32 to 127 and more. */
static uint8_t class_of(uint8_t count) {
    static const uint8_t LEAST[] = {1, 2, 3, 4, 8, 16, 32, 128};
    int step = 7;
    while (count < LEAST[step]) step--;
    return (uint8_t)(1 << step);
}

size_t coverage_look(void) {
    size_t new = 0;
    for (size_t i = 0; i < coverage_blocks(); i++) {
        if (!counters[i]) continue;
        uint8_t bit = class_of(counters[i]);
        new += !(seen[i] & bit);
        seen[i] |= bit;
    }
    return new;
}

void coverage_list(FILE *to) {
    for (size_t i = 0; i < coverage_blocks(); i++)
        fprintf(to, "%" PRIxPTR " %d\n", places[2 * i] - (uintptr_t)&__executable_start, seen[i] != 0);
}
