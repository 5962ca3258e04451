/* Gigabytes a second of the counter of low bytes: the proved counter through the static library, that of an earlier library if one is
 * given, a loop of single bytes and a plain loop that the compiler may turn into wide instructions. Last, a sum of 64-bit numbers: reading once. */
#include "covrith.h"

#include <stdio.h>
#include <stdlib.h>
#include <string.h>
#include <time.h>

enum { ROUNDS = 7 };

/* Of the processor, so that other work on the machine counts little. */
static double seconds(void) {
    struct timespec now;
    clock_gettime(CLOCK_PROCESS_CPUTIME_ID, &now);
    return (double)now.tv_sec + (double)now.tv_nsec * 1e-9;
}

/* There if tools/bench-count was given an earlier library. */
uint64_t covrith_count_before(const uint8_t *trace, size_t trace_len) __attribute__((weak));

static uint64_t __attribute__((noinline, optimize("no-tree-vectorize"))) by_bytes(const uint8_t *s, size_t length) {
    uint64_t count = 0;
    size_t i = 0;
    while (i < length) {
        if (s[i] < 128)
            count += 1;
        i += 1;
    }
    return count;
}

static uint64_t __attribute__((noinline)) plain(const uint8_t *s, size_t length) {
    uint64_t count = 0;
    for (size_t i = 0; i < length; i++)
        count += s[i] < 0x80;
    return count;
}

static uint64_t __attribute__((noinline)) reading(const uint8_t *s, size_t length) {
    uint64_t sum = 0;
    for (size_t i = 0; i < length / 8; i++) {
        uint64_t word;
        memcpy(&word, s + 8 * i, 8);
        sum += word;
    }
    return sum;
}

static int rising(const void *a, const void *b) {
    double x = *(const double *)a, y = *(const double *)b;
    return (x > y) - (x < y);
}

typedef uint64_t counter(const uint8_t *, size_t);

static uint64_t measure(const char *name, counter *count, const uint8_t *s, size_t length, int calls) {
    double rates[ROUNDS];
    uint64_t last = 0;
    for (int i = 0; i < ROUNDS; i++) {
        double begin = seconds();
        for (int k = 0; k < calls; k++)
            last = count(s, length);
        rates[i] = (double)length * calls / (seconds() - begin) * 1e-9;
    }
    qsort(rates, ROUNDS, sizeof rates[0], rising);
    printf("  %-24s %6.2f GB/s (%.2f to %.2f)\n", name, rates[ROUNDS / 2], rates[0], rates[ROUNDS - 1]);
    return last;
}

int main(void) {
    static const struct {
        const char *name;
        size_t length;
        int calls;
    } sizes[] = {{"100 bytes", 100, 2000000}, {"64 KB", 65536, 5000}, {"256 MB", 268435456, 1}};
    size_t most = 268435456;
    uint8_t *bytes = malloc(most);
    if (!bytes)
        return 1;
    uint64_t random = 1;
    for (size_t i = 0; i < most; i++) {
        random = random * 6364136223846793005u + 1442695040888963407u;
        bytes[i] = (uint8_t)(random >> 56);
    }
    for (int i = 0; i < 3; i++) {
        printf("%s\n", sizes[i].name);
        const uint8_t *s = bytes;
        size_t length = sizes[i].length;
        int calls = sizes[i].calls;
        uint64_t words = measure("covrith_count", covrith_count, s, length, calls);
        uint64_t before = covrith_count_before ? measure("the same before", covrith_count_before, s, length, calls) : words;
        uint64_t single = measure("single bytes in C", by_bytes, s, length, calls);
        uint64_t c = measure("plain loop in C", plain, s, length, calls);
        measure("reading once", reading, s, length, calls);
        if (before != words || single != words || c != words)
            return 1;
    }
    free(bytes);
    return 0;
}
