/* Nanoseconds a time, and milliseconds a tape, of tapes of 16 lists of 65,535 times: fixed, spread, curves of 2 and of 24 points. */
#include "covrith.h"

#include <stdio.h>
#include <stdlib.h>
#include <time.h>

enum { TIMES = 65535, ROUNDS = 7, POINTS = 24, ROOM = 3 * COVRITH_LISTS * (TIMES + 1) };

/* The usual curve of the exponential distribution, with mean 1000: u in 65,536ths and time. */
static const double curve[2 * POINTS] = {
    0,     0,    6554,  104,  13107, 222,  19661, 355,  26214, 509,  32768, 690,  39322, 915,  45875, 1200,
    49152, 1380, 52429, 1600, 55050, 1830, 57672, 2120, 58982, 2300, 60293, 2520, 61604, 2810, 62259, 2990,
    62915, 3200, 63570, 3500, 64225, 3900, 64881, 4600, 65208, 5300, 65405, 6200, 65470, 7000, 65536, 8000,
};

static uint8_t tape[ROOM];

/* Of the processor, so that other work on the machine counts little. */
static double seconds(void) {
    struct timespec now;
    clock_gettime(CLOCK_PROCESS_CPUTIME_ID, &now);
    return (double)now.tv_sec + (double)now.tv_nsec * 1e-9;
}

static int rising(const void *a, const void *b) {
    double x = *(const double *)a, y = *(const double *)b;
    return (x > y) - (x < y);
}

static void measure(const char *name, uint32_t kind, const double *numbers, size_t count, uint32_t points) {
    uint32_t lists[4 * COVRITH_LISTS];
    for (int i = 0; i < COVRITH_LISTS; i++) {
        lists[4 * i] = kind;
        lists[4 * i + 1] = TIMES;
        lists[4 * i + 2] = 0;
        lists[4 * i + 3] = points;
    }
    double rounds[ROUNDS];
    uint64_t written = 0;
    for (int i = 0; i < ROUNDS; i++) {
        double begin = seconds();
        if (covrith_make_tape(7, lists, 4 * COVRITH_LISTS, numbers, count, tape, sizeof tape, &written) != 0)
            exit(1);
        rounds[i] = seconds() - begin;
    }
    qsort(rounds, ROUNDS, sizeof rounds[0], rising);
    double per = 1e9 / ((double)COVRITH_LISTS * TIMES);
    printf("%-20s %5.1f ns a time (%.1f to %.1f), %5.1f ms a tape of %llu bytes\n", name, rounds[ROUNDS / 2] * per, rounds[0] * per,
           rounds[ROUNDS - 1] * per, rounds[ROUNDS / 2] * 1e3, (unsigned long long)written);
}

int main(void) {
    double fixed[] = {1000}, spread[] = {1000, 500}, line[] = {0, 0, 1, 2000}, usual[2 * POINTS];
    for (int i = 0; i < POINTS; i++) {
        usual[2 * i] = curve[2 * i] / 65536;
        usual[2 * i + 1] = curve[2 * i + 1];
    }
    measure("fixed", COVRITH_FIXED, fixed, 1, 0);
    measure("spread", COVRITH_SPREAD, spread, 2, 0);
    measure("curve of 2 points", COVRITH_CURVE, line, 4, 2);
    measure("curve of 24 points", COVRITH_CURVE, usual, 2 * POINTS, POINTS);
    return 0;
}
