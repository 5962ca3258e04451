/* Calls with arguments at their limits: reports and models cut at every length, traces cut and damaged, buffers of no length. Each buffer
 * is as long as it is said to be, so that a memory checker sees every byte too far.
 *
 *   cc -Iinclude examples/c/test_report.c target/staticlib/libcovrith.a -o test_report && valgrind ./test_report
 */
#include "covrith.h"
#include "covrith_report.h"

#include <stdio.h>
#include <stdlib.h>
#include <string.h>

#define CHECK(holds)                                            \
    do {                                                        \
        if (!(holds)) {                                         \
            printf("line %d: not so: %s\n", __LINE__, #holds);  \
            exit(1);                                            \
        }                                                       \
    } while (0)

static struct covrith_report report;

/* document 01, the first example */
static const uint8_t MODEL[] = {1, 1, 0, 0, 0, 2, 2, 5, 1, 1, 0, 4, 1, 2, 2, 5, 1, 3, 1};
static const uint8_t TAPE[] = {2, 3, 2, 2, 5, 4};

/* a facility, a storage of 3 units, a queue; clock 300, made 2, ended 0, their fields, and two living */
static const uint8_t FRONT[] = {1, 1, 1, 3, 1};
static const uint8_t REPORT[] = {0x82, 0x2C, 2, 0, 1, 2, 3, 4, 5, 6, 7, 8, 9, 10, 11, 12, 13, 2, 1, 4, 2, 6};

/* The first bytes, in memory of that length. */
static uint8_t *copy(const uint8_t *bytes, size_t length) {
    uint8_t *memory = malloc(length ? length : 1);
    CHECK(memory);
    memcpy(memory, bytes, length);
    return memory;
}

static int reads(const uint8_t *front, size_t front_length, const uint8_t *bytes, size_t length) {
    uint8_t *model = copy(front, front_length), *lent = copy(bytes, length);
    int answer = covrith_read_report(model, front_length, lent, length, &report);
    free(model);
    free(lent);
    return answer;
}

static void reports(void) {
    uint8_t bytes[sizeof REPORT + 1];
    CHECK(reads(FRONT, sizeof FRONT, REPORT, sizeof REPORT));
    CHECK(report.clock == 300 && report.made == 2 && report.ended == 0);
    CHECK(report.facility_count == 1 && report.facilities[0].entries == 1 && report.facilities[0].longest == 5);
    CHECK(report.storage_count == 1 && report.capacities[0] == 3 && report.storages[0].ticks_waited == 9);
    CHECK(report.queue_count == 1 && report.queues[0].content_ticks == 12);
    CHECK(report.living_count == 2 && report.living[1].transaction == 2 && report.living[1].place == 6);
    for (size_t length = 0; length < sizeof REPORT; length++)
        CHECK(!reads(FRONT, sizeof FRONT, REPORT, length));
    for (size_t length = 0; length < sizeof FRONT; length++)
        CHECK(!reads(FRONT, length, REPORT, sizeof REPORT));
    memcpy(bytes, REPORT, sizeof REPORT);
    bytes[sizeof REPORT] = 0;
    CHECK(!reads(FRONT, sizeof FRONT, bytes, sizeof bytes));
    for (size_t at = 0; at < sizeof REPORT; at++) {
        memcpy(bytes, REPORT, sizeof REPORT);
        bytes[at] = 0x80; /* the number has one byte more, or is not in its shortest form */
        CHECK(!reads(FRONT, sizeof FRONT, bytes, sizeof REPORT));
    }
    memset(bytes, 0xFF, sizeof bytes);
    CHECK(!reads(FRONT, sizeof FRONT, bytes, sizeof bytes));
    CHECK(!covrith_end_words(0) && !covrith_refusal_words(30) && !covrith_place_words(0) && !covrith_end_words(UINT64_MAX));
}

static void fronts(void) {
    static const uint8_t wrong[][6] = {{0, 1, 1, 3, 1}, {1, 33, 1, 3, 1}, {1, 1, 33, 3, 1}, {1, 1, 1, 0, 1}, {1, 1, 1, 3, 33}};
    for (size_t i = 0; i < sizeof wrong / sizeof wrong[0]; i++)
        CHECK(!reads(wrong[i], 5, REPORT, sizeof REPORT));
}

/* Runs the first example with buffers of these lengths and gives the refusal. */
static uint64_t refusal(size_t work_length, size_t trace_length, size_t report_length) {
    uint32_t *work = calloc(work_length ? work_length : 1, sizeof *work);
    uint8_t *trace = calloc(trace_length ? trace_length : 1, 1), *bytes = calloc(report_length ? report_length : 1, 1);
    uint64_t outcome[8];
    CHECK(work && trace && bytes);
    covrith_run(MODEL, sizeof MODEL, TAPE, sizeof TAPE, 1000, work, work_length, trace, trace_length, bytes, report_length, outcome);
    free(work);
    free(trace);
    free(bytes);
    return outcome[COVRITH_REFUSAL];
}

static void lengths(void) {
    CHECK(refusal(0, 0, 0) == 1 && refusal(COVRITH_WORK_NUMBERS - 1, 100, COVRITH_REPORT_BYTES) == 1);
    CHECK(refusal(COVRITH_WORK_NUMBERS, 100, 0) == 2 && refusal(COVRITH_WORK_NUMBERS, 100, COVRITH_REPORT_BYTES - 1) == 2);
    for (size_t length = 0; length < 60; length++)
        CHECK(refusal(COVRITH_WORK_NUMBERS, length, COVRITH_REPORT_BYTES) == 0);
}

static void traces(void) {
    static const uint8_t trace[] = {0x82, 0x2C, 1, 1, 0, 0x82, 0x2C, 2, 1, 1};
    for (size_t length = 0; length <= sizeof trace; length++) {
        uint8_t *lent = copy(trace, length);
        uint64_t record[5] = {0};
        uint32_t answer;
        while ((answer = covrith_read_record(lent, length, record[4], record)) == 0)
            ;
        CHECK(answer == (length % 5 ? 31u : 30u) && record[4] == length / 5 * 5);
        CHECK(covrith_read_record(lent, length, SIZE_MAX, record) == 30);
        CHECK(covrith_count(lent, length) <= length);
        free(lent);
    }
    for (size_t length = 0; length < 5; length++) {
        uint8_t *rest = copy(trace, length);
        uint64_t written = 9;
        CHECK(covrith_write_record(rest, length, 300, 1, 1, 0, &written) == 33 && written == 0);
        free(rest);
    }
    /* the longest record, at the last clock, and a clock past it */
    uint8_t longest[12];
    uint64_t written, record[5];
    CHECK(covrith_write_record(longest, 12, UINT64_C(32000000000), 100000000, 256, 1, &written) == 0 && written == 12);
    CHECK(covrith_read_record(longest, 12, 0, record) == 0 && record[0] == UINT64_C(32000000000) && record[4] == 12);
    CHECK(covrith_write_record(longest, 12, UINT64_C(32000000001), 1, 1, 0, &written) == 32 && written == 0);
}

int main(void) {
    reports();
    fronts();
    lengths();
    traces();
    return 0;
}
