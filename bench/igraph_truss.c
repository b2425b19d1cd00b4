// Not ours: it came with the design, beside the reference, and is unchanged but for this line.
// Peer: trussness of every link of a links file by igraph, timed. Usage: igraph_truss FILE REPEATS
#include <igraph/igraph.h>
#include <stdio.h>
#include <stdlib.h>
#include <time.h>

static double now(void) {
    struct timespec t;
    clock_gettime(CLOCK_MONOTONIC, &t);
    return t.tv_sec + t.tv_nsec * 1e-9;
}

int main(int argc, char **argv) {
    if (argc < 3) return 2;
    FILE *f = fopen(argv[1], "rb");
    static unsigned char b[1 << 20];
    size_t len = fread(b, 1, sizeof b, f);
    fclose(f);
    if (len < 6) return 2;
    int n = b[1] * 256 + b[2], m = b[3] * 256 + b[4];
    igraph_vector_int_t edges, tr;
    igraph_vector_int_init(&edges, 2 * m);
    igraph_vector_int_init(&tr, 0);
    for (int i = 0; i < m; i++) {
        unsigned char *r = b + 5 + 5 * i;
        VECTOR(edges)[2 * i] = r[1] * 256 + r[2];
        VECTOR(edges)[2 * i + 1] = r[3] * 256 + r[4];
    }
    int reps = atoi(argv[2]);
    double best = 1e9;
    long top = 0;
    for (int r = 0; r < reps; r++) {
        double t = now();
        igraph_t g;
        igraph_create(&g, &edges, n, IGRAPH_UNDIRECTED);
        igraph_trussness(&g, &tr);
        igraph_destroy(&g);
        t = now() - t;
        if (t < best) best = t;
    }
    for (int i = 0; i < m; i++)
        if (VECTOR(tr)[i] > top) top = VECTOR(tr)[i];
    printf("n=%d m=%d top=%ld best_us=%.1f\n", n, m, top, best * 1e6);
    return 0;
}
