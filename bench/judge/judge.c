/* Times one judgement of a dense system by the proved judge and by GMP's mpz, on the same numbers in the same run.
   Usage: judge FILE. The file holds, little-endian: a 64-bit row count N, then N(N+1) floats of the system, N of the vector, N tolerances.
   Prints the least and the median time of each in nanoseconds, and both answers: the row, N if accepted. */
#include <gmp.h>
#include <stdint.h>
#include <stdio.h>
#include <stdlib.h>
#include <string.h>
#include <time.h>

/* of the archive: 1000 and more is a refusal, else the row, N if accepted */
extern uint64_t judge_row(const double *system, size_t system_len, const double *vector, size_t vector_len,
                          const double *tolerances, size_t tolerances_len, size_t rows);

/* a float as whole digits times 2^*place units of 2^-1074 */
static void digits_of(mpz_t z, unsigned long *place, double x) {
    uint64_t b;
    memcpy(&b, &x, 8);
    uint64_t field = b >> 52 & 2047, low = b & ((UINT64_C(1) << 52) - 1);
    mpz_set_ui(z, field ? low | UINT64_C(1) << 52 : low);
    if (b >> 63)
        mpz_neg(z, z);
    *place = field ? field - 1 : 0;
}

/* The same sums by mpz: each product of digits shifted to its place and added, the right side taken off, compared with the tolerance. */
static uint64_t mpz_row(const double *m, const double *x, const double *t, size_t n) {
    mpz_t sum, a, b, c;
    mpz_inits(sum, a, b, c, NULL);
    uint64_t row = n;
    for (size_t i = 0; i < n && row == n; i++) {
        unsigned long p, q;
        mpz_set_ui(sum, 0);
        for (size_t j = 0; j < n; j++) {
            digits_of(a, &p, m[i * (n + 1) + j]);
            digits_of(b, &q, x[j]);
            mpz_mul(c, a, b);
            mpz_mul_2exp(c, c, p + q);
            mpz_add(sum, sum, c);
        }
        digits_of(a, &p, m[i * (n + 1) + n]);
        mpz_mul_2exp(a, a, p + 1074);
        mpz_sub(sum, sum, a);
        digits_of(a, &p, t[i]);
        mpz_mul_2exp(a, a, p + 1074);
        if (mpz_cmpabs(sum, a) > 0)
            row = i;
    }
    mpz_clears(sum, a, b, c, NULL);
    return row;
}

static uint64_t now(void) {
    struct timespec t;
    clock_gettime(CLOCK_MONOTONIC, &t);
    return (uint64_t)t.tv_sec * 1000000000 + t.tv_nsec;
}

static int by_size(const void *a, const void *b) {
    uint64_t x = *(const uint64_t *)a, y = *(const uint64_t *)b;
    return x < y ? -1 : x > y;
}

#define ROUNDS 2000

int main(int argc, char **argv) {
    static uint64_t proved[ROUNDS], gmp[ROUNDS];
    static double m[48 * 49], x[48], t[48];
    uint64_t n;
    FILE *f = argc == 2 ? fopen(argv[1], "rb") : NULL;
    if (!f || fread(&n, 8, 1, f) != 1 || n > 48 || fread(m, 8, n * (n + 1), f) != n * (n + 1) || fread(x, 8, n, f) != n ||
        fread(t, 8, n, f) != n) {
        fprintf(stderr, "no such system\n");
        return 1;
    }
    uint64_t r = 0, s = 0;
    for (int k = 0; k < ROUNDS; k++) {
        uint64_t a = now();
        r = judge_row(m, n * (n + 1), x, n, t, n, n);
        uint64_t b = now();
        s = mpz_row(m, x, t, n);
        uint64_t c = now();
        proved[k] = b - a;
        gmp[k] = c - b;
    }
    qsort(proved, ROUNDS, 8, by_size);
    qsort(gmp, ROUNDS, 8, by_size);
    printf("%lu %lu %lu %lu %lu %lu\n", proved[0], proved[ROUNDS / 2], gmp[0], gmp[ROUNDS / 2], r, s);
    return r != s;
}
