// Times the proved solver against the same loop in C (plain.c): 1,024 places and 4,096 edges, a chain listed against the order of the passes among them.
// Prints the times of the fastest rounds and the ratios; exit status 1 if two of them differ in a result.
#include <stddef.h>
#include <stdint.h>
#include <stdio.h>
#include <string.h>
#include <time.h>

enum { PLACES = 1024, EDGES = 4096, ROUNDS = 40 };

// A slice of Rattle is a pointer and a count. An edge is 65,536 times the place that it comes from, and the place that it leads to.
typedef void solver(uint64_t *sets, size_t n, const uint32_t *edges, size_t count);
solver sets_solve_up, plain_solve_pairs, plain_solve_single;

static double seconds(void) {
    struct timespec t;
    clock_gettime(CLOCK_MONOTONIC, &t);
    return (double)t.tv_sec + (double)t.tv_nsec * 1e-9;
}

static uint64_t start[PLACES], a[PLACES], b[PLACES];
static uint32_t edges[EDGES];

int main(void) {
    uint32_t x = 12345;
    for (size_t i = 0; i < PLACES; i++) start[i] = (uint64_t)1 << (i % 63);
    start[0] = (uint64_t)1 << 63;
    // three edges that lead back or stay, then one of the chain, its last edge first
    for (size_t k = 0; k < EDGES; k++) {
        x = x * 1664525u + 1013904223u;
        size_t high = 1 + (x >> 8) % (PLACES - 1);
        x = x * 1664525u + 1013904223u;
        size_t low = (x >> 8) % (high + 1);
        if (k % 4 == 3 && k / 4 < PLACES - 1) {
            high = PLACES - 2 - k / 4;
            low = PLACES - 1 - k / 4;
        }
        edges[k] = (uint32_t)(high * 65536 + low);
    }
    solver *solvers[3] = {sets_solve_up, plain_solve_pairs, plain_solve_single};
    double best[3] = {1e9, 1e9, 1e9};
    for (int r = 0; r < ROUNDS; r++) {
        for (int v = 0; v < 3; v++) {
            memcpy(b, start, sizeof b);
            double t0 = seconds();
            solvers[v](b, PLACES, edges, EDGES);
            double t = seconds() - t0;
            if (t < best[v]) best[v] = t;
            if (v == 0) memcpy(a, b, sizeof a);
            if (memcmp(a, b, sizeof a) != 0) {
                puts("the solvers differ");
                return 1;
            }
        }
    }
    printf("rattle %.3f ms\n", best[0] * 1e3);
    printf("the same loop in C %.3f ms, ratio %.2f\n", best[1] * 1e3, best[0] / best[1]);
    printf("one edge a turn in C %.3f ms, ratio %.2f\n", best[2] * 1e3, best[0] / best[2]);
    return 0;
}
