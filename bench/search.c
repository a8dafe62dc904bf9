// Fills the tables over sets for 20 units by spread and by gradient: the proved search, and the same tables in plain C,
// in turn. The least time of several runs counts for each, and the tables are written once before any of them.
// bench/run builds and runs it.
#include <stdint.h>
#include <stdio.h>
#include <stdlib.h>
#include <string.h>
#include <time.h>

enum { N = 20, SETS = 1 << N, WIDE = 32, RUNS = 5 };

uint64_t searched_by_spread(size_t units, const uint16_t *table, size_t cells, uint64_t *totals, size_t m, uint64_t *counts,
                            size_t k, uint8_t *row, size_t n);
uint64_t searched_by_gradient(size_t units, const uint16_t *table, size_t cells, uint64_t *counts, size_t k, uint8_t *row,
                              size_t n);

static uint16_t mark[N][N];

// Seconds of processor time.
static double now(void) {
    struct timespec t;
    clock_gettime(CLOCK_PROCESS_CPUTIME_ID, &t);
    return t.tv_sec + t.tv_nsec * 1e-9;
}

static double least(double x, double y) { return x < y ? x : y; }

// The tables by spread, from the full set down.
static uint64_t plain_spread(uint64_t *totals, uint64_t *counts) {
    for (uint32_t a = SETS; a-- > 0;) {
        uint64_t best = 0, count = a == SETS - 1;
        int found = 0;
        for (int j = 0; j < N; j++) {
            if (a >> j & 1) continue;
            int64_t d = 0;
            for (int i = 0; i < N; i++) {
                if (i == j) continue;
                d += a >> i & 1 ? mark[j][i] : -(int64_t)mark[j][i];
            }
            uint32_t next = a | 1u << j;
            uint64_t total = (uint64_t)(d * d) + totals[next];
            if (!found || total > best) {
                found = 1;
                best = total;
                count = counts[next];
            } else if (total == best) {
                count += counts[next];
            }
        }
        totals[a] = best;
        counts[a] = count;
    }
    return counts[0];
}

struct grades {
    int32_t signs, rises;
};

static int sign(int x) { return (x > 0) - (x < 0); }

// The same by gradient.
static uint64_t plain_gradient(struct grades *totals, uint64_t *counts) {
    for (uint32_t a = SETS; a-- > 0;) {
        struct grades best = {0, 0};
        uint64_t count = a == SETS - 1;
        int found = 0;
        for (int j = 0; j < N; j++) {
            if (a >> j & 1) continue;
            uint32_t next = a | 1u << j;
            struct grades t = totals[next];
            for (int i = 0; i < N; i++) {
                if (!(a >> i & 1)) continue;
                for (int k = 0; k < N; k++) {
                    if (a >> k & 1 || k == j) continue;
                    int x = mark[i][k] - mark[i][j], y = mark[i][k] - mark[j][k];
                    t.signs += sign(x) + sign(y);
                    t.rises += x + y;
                }
            }
            if (!found || t.signs > best.signs || (t.signs == best.signs && t.rises > best.rises)) {
                found = 1;
                best = t;
                count = counts[next];
            } else if (t.signs == best.signs && t.rises == best.rises) {
                count += counts[next];
            }
        }
        totals[a] = best;
        counts[a] = count;
    }
    return counts[0];
}

static void report(const char *name, double proved, double plain, uint64_t a, uint64_t b) {
    printf("%s: proved %.2f s, plain C %.2f s, ratio %.2f, counts %llu and %llu\n", name, proved, plain, proved / plain,
           (unsigned long long)a, (unsigned long long)b);
}

int main(void) {
    uint16_t *table = calloc(WIDE * WIDE, sizeof *table);
    uint64_t *totals = calloc(SETS, sizeof *totals), *counts = calloc(SETS, sizeof *counts);
    struct grades *grades = calloc(SETS, sizeof *grades);
    uint8_t row[N];
    uint32_t seed = 12345;
    for (int i = 0; i < N; i++)
        for (int j = i + 1; j < N; j++) {
            seed = seed * 1664525u + 1013904223u;
            mark[i][j] = mark[j][i] = table[i * WIDE + j] = (seed >> 8) % 10001;
        }
    memset(totals, 1, SETS * sizeof *totals);
    memset(counts, 1, SETS * sizeof *counts);
    memset(grades, 1, SETS * sizeof *grades);
    uint64_t a = 0, b = 0;
    double proved = 1e9, plain = 1e9;
    for (int run = 0; run < RUNS; run++) {
        double t0 = now();
        a = searched_by_spread(N, table, WIDE * WIDE, totals, SETS, counts, SETS, row, N);
        double t1 = now();
        b = plain_spread(totals, counts);
        double t2 = now();
        proved = least(proved, t1 - t0);
        plain = least(plain, t2 - t1);
    }
    report("spread", proved, plain, a, b);
    proved = plain = 1e9;
    for (int run = 0; run < RUNS; run++) {
        double t0 = now();
        a = searched_by_gradient(N, table, WIDE * WIDE, counts, SETS, row, N);
        double t1 = now();
        b = plain_gradient(grades, counts);
        double t2 = now();
        proved = least(proved, t1 - t0);
        plain = least(plain, t2 - t1);
    }
    report("gradient", proved, plain, a, b);
    return 0;
}
