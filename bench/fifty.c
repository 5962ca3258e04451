/* fifty < CASES: microseconds a run, of the best of several passes over the cases: run and report into a struct; with all records read. */
#define _POSIX_C_SOURCE 200809L
#include "covrith.h"
#include "covrith_report.h"

#include <stdio.h>
#include <stdlib.h>
#include <string.h>
#include <time.h>

enum { MOST_CASES = 1000, PASSES = 40, TRACE_BYTES = 65536 };

static struct {
    uint8_t *model, *tape;
    size_t model_len, tape_len;
} cases[MOST_CASES];
static uint32_t work[COVRITH_WORK_NUMBERS];
static uint8_t trace[TRACE_BYTES], bytes[COVRITH_REPORT_BYTES];
static struct covrith_report report;

static uint8_t *decode(const char *word, size_t *length) {
    *length = strlen(word) / 2;
    uint8_t *memory = malloc(*length + 1);
    for (size_t i = 0; memory && i < *length; i++) {
        unsigned byte = 0;
        sscanf(word + 2 * i, "%2x", &byte);
        memory[i] = (uint8_t)byte;
    }
    return memory;
}

static double now(void) {
    struct timespec time;
    clock_gettime(CLOCK_PROCESS_CPUTIME_ID, &time);
    return (double)time.tv_sec * 1e6 + (double)time.tv_nsec / 1e3;
}

/* One pass over the cases; gives how many records were read. */
static uint64_t pass(size_t count, int reading) {
    uint64_t outcome[8], read = 0;
    for (size_t i = 0; i < count; i++) {
        covrith_run(cases[i].model, cases[i].model_len, cases[i].tape, cases[i].tape_len, 1000000, work, COVRITH_WORK_NUMBERS, trace,
                    TRACE_BYTES, bytes, COVRITH_REPORT_BYTES, outcome);
        if (!covrith_read_report(cases[i].model, cases[i].model_len, bytes, outcome[COVRITH_REPORT_LENGTH], &report))
            abort();
        uint64_t record[5] = {0};
        while (reading && covrith_read_record(trace, outcome[COVRITH_TRACE_BYTES], record[4], record) == 0)
            read++;
    }
    return read;
}

int main(void) {
    char *line = NULL;
    size_t room = 0, count = 0;
    while (count < MOST_CASES && getline(&line, &room, stdin) > 0) {
        const char *model = strtok(line, " \n"), *tape = strtok(NULL, " \n");
        if (!model || !tape)
            return 2;
        cases[count].model = decode(model, &cases[count].model_len);
        cases[count].tape = decode(tape, &cases[count].tape_len);
        count++;
    }
    for (int reading = 0; reading < 2; reading++) {
        double best = 1e30;
        uint64_t read = 0;
        for (int i = 0; i < PASSES; i++) {
            double start = now();
            read = pass(count, reading);
            double taken = now() - start;
            best = taken < best ? taken : best;
        }
        printf("%.2f %llu\n", best / (double)count, (unsigned long long)read);
    }
    return 0;
}
