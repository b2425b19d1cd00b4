/* The same turns for libFuzzer, which keeps and chooses them itself; half of the changes are its own changes of bytes. A finding or a touched guard page ends it. */
#include "draw.h"

#include <stdio.h>
#include <stdlib.h>

int LLVMFuzzerInitialize(int *count, char ***words);
int LLVMFuzzerTestOneInput(const uint8_t *data, size_t size);
size_t LLVMFuzzerCustomMutator(uint8_t *data, size_t size, size_t most, unsigned seed);
size_t LLVMFuzzerMutate(uint8_t *data, size_t size, size_t most);

static struct turn turn, other;

int LLVMFuzzerInitialize(int *count, char ***words) {
    (void)count, (void)words;
    turn_start(0);
    return 0;
}

int LLVMFuzzerTestOneInput(const uint8_t *data, size_t size) {
    struct met met;
    turn_read(&turn, data, size);
    const char *what = turn_run(make_call, &turn, &met);
    if (!what) return 0;
    fprintf(stderr, "FAILED libfuzzer: %s\n", what);
    abort();
}

size_t LLVMFuzzerCustomMutator(uint8_t *data, size_t size, size_t most, unsigned seed) {
    struct random random = {seed};
    if (most < TURN_MAX || random_below(&random, 2)) return LLVMFuzzerMutate(data, size, most);
    draw_fresh(&random, &other);
    if (size < TURN_HEAD) turn = other;
    else turn_read(&turn, data, size);
    draw_change(&random, &turn, &other);
    return turn_write(&turn, data);
}
