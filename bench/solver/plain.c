// The solver's loop in C, from the first edge to the last, until nothing changes: as the proved code has it, two edges a turn, and with one edge a turn.
#include <stddef.h>
#include <stdint.h>

static inline int put(uint64_t *sets, size_t n, size_t f, size_t t, int changed) {
    if (t < n) {
        uint64_t old = sets[t];
        if (f < n) {
            uint64_t joined = old | sets[f];
            if (joined != old) {
                sets[t] = joined;
                return 1;
            }
        }
    }
    return changed;
}

static int pass_pairs(uint64_t *sets, size_t n, const uint32_t *edges, size_t count) {
    size_t pairs = count - count % 2, k = 0;
    int changed = 0;
    while (k < pairs) {
        changed = put(sets, n, edges[k] / 65536, edges[k] % 65536, changed);
        changed = put(sets, n, edges[k + 1] / 65536, edges[k + 1] % 65536, changed);
        k += 2;
    }
    if (k < count) return put(sets, n, edges[k] / 65536, edges[k] % 65536, changed);
    return changed;
}

static int pass_single(uint64_t *sets, size_t n, const uint32_t *edges, size_t count) {
    int changed = 0;
    for (size_t k = 0; k < count; k++) changed = put(sets, n, edges[k] / 65536, edges[k] % 65536, changed);
    return changed;
}

void plain_solve_pairs(uint64_t *sets, size_t n, const uint32_t *edges, size_t count) {
    while (pass_pairs(sets, n, edges, count)) {
    }
}

void plain_solve_single(uint64_t *sets, size_t n, const uint32_t *edges, size_t count) {
    while (pass_single(sets, n, edges, count)) {
    }
}
