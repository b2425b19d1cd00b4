/* Times fe_build of one card: once CARD TURNS prints the least of so many turns, in nanoseconds, or nothing if the card is refused. bench/run links it with two archives, and
 * lets the two programs take turns. */
#include "footballelm.h"
#include <stdio.h>
#include <stdlib.h>
#include <time.h>

static uint8_t links[1 << 20], built[FE_INDEX_MAX];

static long now(void) {
    struct timespec t;
    clock_gettime(CLOCK_MONOTONIC, &t);
    return t.tv_sec * 1000000000L + t.tv_nsec;
}

int main(int count, char **words) {
    if (count != 3) return 2;
    FILE *card = fopen(words[1], "rb");
    if (!card) return 2;
    size_t length = fread(links, 1, sizeof links, card);
    long least = 1L << 62;
    for (int turn = atoi(words[2]); turn > 0; turn--) {
        long from = now();
        fe_reply reply = fe_build(links, length, built, sizeof built);
        long took = now() - from;
        if (reply.refusal != 0) return 0;
        if (took < least) least = took;
    }
    printf("%ld\n", least);
}
