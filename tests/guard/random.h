/* Numbers that a seed fixes (splitmix64). */
#ifndef RANDOM_H
#define RANDOM_H

#include <stdint.h>

struct random {
    uint64_t state;
};

static inline uint64_t random_number(struct random *random) {
    uint64_t z = random->state += UINT64_C(0x9E3779B97F4A7C15);
    z = (z ^ (z >> 30)) * UINT64_C(0xBF58476D1CE4E5B9);
    z = (z ^ (z >> 27)) * UINT64_C(0x94D049BB133111EB);
    return z ^ (z >> 31);
}

/* From 0 to limit - 1; 0 if the limit is 0. */
static inline uint32_t random_below(struct random *random, uint64_t limit) {
    return limit ? (uint32_t)(random_number(random) % limit) : 0;
}

#endif
