#include "footballelm.h"
#include <stdio.h>

static uint8_t links[FE_LINKS_MAX + 1], built[FE_INDEX_MAX], desk[FE_DESK];

int main(void) {
    size_t length = fread(links, 1, sizeof links, stdin);
    fe_reply build = fe_build(links, length, built, sizeof built);
    if (build.refusal != 0) return printf("refused %u %u\n", build.refusal, build.value), 1;
    fe_reply asked = fe_strength(built, build.value, 2, 3, 0, desk, sizeof desk);
    if (asked.refusal != 0) return printf("refused %u\n", asked.refusal), 1;
    printf("%u bytes, link 2-3 has strength %u, held by %u triangles\n", build.value, asked.value, asked.second);
}
