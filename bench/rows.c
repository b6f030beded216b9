/* The loops of the kernels on rows of residues and of the insertion into a space, in C. */
#include <stdint.h>
#include <stdio.h>
#include <stdlib.h>
#include <time.h>

static double now(void) {
    struct timespec t;
    clock_gettime(CLOCK_MONOTONIC, &t);
    return t.tv_sec * 1e9 + t.tv_nsec;
}

/* the plain loop */
__attribute__((noinline)) void axpy_plain(uint32_t p, uint32_t c, const uint32_t *row, uint32_t *into, size_t n) {
    for (size_t i = 0; i < n; i++)
        into[i] = (into[i] + c * row[i]) % p;
}

/* the loop with one factor for the quotients, as the library has it */
__attribute__((noinline)) void axpy_factor(uint32_t p, uint32_t c, const uint32_t *restrict row, uint32_t *restrict into, size_t n) {
    uint32_t factor = c * 65536 / p;
    for (size_t i = 0; i < n; i++) {
        uint32_t y = row[i];
        uint32_t rest = c * y - ((factor * y) >> 16) * p;
        rest = rest < rest - p ? rest : rest - p;
        uint32_t sum = into[i] + rest;
        into[i] = sum < sum - p ? sum : sum - p;
    }
}

typedef void (*kernel)(uint32_t, uint32_t, const uint32_t *, uint32_t *, size_t);

static uint32_t *row_of(uint32_t p, size_t n, uint32_t seed) {
    uint32_t *row = malloc((n + 1) * sizeof *row), state = seed;
    for (size_t i = 0; i < n; i++) {
        state = state * 1664525u + 1013904223u;
        row[i] = state / 65536 % p;
    }
    return row;
}

static uint32_t checksum(const uint32_t *row, size_t n) {
    uint32_t sum = 0;
    for (size_t i = 0; i < n; i++)
        sum = sum * 31 + row[i];
    return sum;
}

static uint32_t inverse(uint32_t p, uint32_t a) {
    uint64_t result = 1, power = a;
    for (uint32_t e = p - 2; e; e >>= 1, power = power * power % p)
        if (e & 1)
            result = result * power % p;
    return result;
}

static uint32_t insertions(kernel axpy, uint32_t p, size_t count, size_t n) {
    uint32_t **rows = malloc((count + 1) * sizeof *rows);
    size_t *pivots = malloc((count + 1) * sizeof *pivots), size = 0;
    for (size_t s = 0; s < count; s++) {
        uint32_t *row = row_of(p, n, (uint32_t)s * 40503u);
        for (size_t i = 0; i < size; i++)
            if (row[pivots[i]])
                axpy(p, p - row[pivots[i]], rows[i], row, n);
        size_t q = 0;
        while (q < n && row[q] == 0)
            q++;
        if (q == n) {
            free(row);
            continue;
        }
        uint64_t factor = inverse(p, row[q]);
        for (size_t i = 0; i < n; i++)
            row[i] = row[i] * factor % p;
        for (size_t i = 0; i < size; i++)
            if (rows[i][q])
                axpy(p, p - rows[i][q], row, rows[i], n);
        rows[size] = row;
        pivots[size++] = q;
    }
    uint32_t sum = 0;
    for (size_t i = 0; i < size; i++)
        sum = sum * 31 + checksum(rows[i], n);
    return sum;
}

static void run(const char *name, kernel axpy, uint32_t p, size_t count, size_t n) {
    double start = now();
    uint32_t *row = row_of(p, n, 1), *into = row_of(p, n, 2);
    for (uint32_t c = 0; c < 50 * count; c++)
        axpy(p, c % p, row, into, n);
    uint32_t sum = checksum(into, n);
    double middle = now();
    uint32_t space = insertions(axpy, p, count, n);
    double end = now();
    printf("%s: axpy %u insert %u\n%s: axpy %.0f ns insert %.0f ns\n", name, sum, space, name, middle - start, end - middle);
}

int main(int argc, char **argv) {
    if (argc < 4)
        return 2;
    uint32_t p = atoi(argv[1]);
    size_t count = atoi(argv[2]), n = atoi(argv[3]);
    run("plain", axpy_plain, p, count, n);
    run("factor", axpy_factor, p, count, n);
    return 0;
}
