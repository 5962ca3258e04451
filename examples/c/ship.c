/* Runs the model of a folder, models/ship-and-tug by itself, and prints its records, its end and its report as runmodel does.
 *
 *   cc -Iinclude examples/c/ship.c target/staticlib/libcovrith.a -o ship && ./ship [FOLDER]
 */
#include "covrith.h"
#include "covrith_report.h"

#include <inttypes.h>
#include <stdio.h>

enum { FILE_BYTES = 65536, TRACE_BYTES = 65536, BUDGET = 1000000 };

static uint8_t model[FILE_BYTES], tape[FILE_BYTES], trace[TRACE_BYTES], bytes[COVRITH_REPORT_BYTES];
static uint32_t work[COVRITH_WORK_NUMBERS];
static struct covrith_report report;

/* The first bytes of FOLDER/NAME, and how many they are. */
static int load(const char *folder, const char *name, uint8_t *to, size_t *length) {
    char path[4096];
    snprintf(path, sizeof path, "%s/%s", folder, name);
    FILE *file = fopen(path, "rb");
    if (!file) {
        perror(path);
        return 0;
    }
    *length = fread(to, 1, FILE_BYTES, file);
    fclose(file);
    return 1;
}

static void print_records(size_t length) {
    uint64_t record[5] = {0}; /* the fifth number is the position */
    while (covrith_read_record(trace, length, record[4], record) == 0)
        printf("%" PRIu64 " %" PRIu64 " %" PRIu64 " %" PRIu64 "\n", record[0], record[1], record[2], record[3]);
}

static void print_servers(char letter, const struct covrith_server *servers, size_t count) {
    for (size_t i = 0; i < count; i++)
        printf("%c %zu %" PRIu64 " %" PRIu64 " %" PRIu64 " %" PRIu64 " %" PRIu64 "\n", letter, i + 1, servers[i].entries,
               servers[i].unit_ticks, servers[i].waits_begun, servers[i].ticks_waited, servers[i].longest);
}

static void print_report(uint64_t end) {
    printf("end %" PRIu64 " %" PRIu64 " %" PRIu64 " %" PRIu64 " %zu\n", end, report.clock, report.made, report.ended,
           report.living_count);
    print_servers('f', report.facilities, report.facility_count);
    print_servers('s', report.storages, report.storage_count);
    for (size_t i = 0; i < report.queue_count; i++)
        printf("q %zu %" PRIu64 " %" PRIu64 " %" PRIu64 "\n", i + 1, report.queues[i].arrivals, report.queues[i].content_ticks,
               report.queues[i].longest);
}

int main(int count, char **words) {
    const char *folder = count > 1 ? words[1] : "models/ship-and-tug";
    size_t model_length, tape_length;
    uint64_t outcome[8];
    if (!load(folder, "model.bin", model, &model_length) || !load(folder, "tape.bin", tape, &tape_length))
        return 2;
    covrith_run(model, model_length, tape, tape_length, BUDGET, work, COVRITH_WORK_NUMBERS, trace, TRACE_BYTES, bytes,
                COVRITH_REPORT_BYTES, outcome);
    if (outcome[COVRITH_REFUSAL]) {
        printf("refused %" PRIu64 "\n", outcome[COVRITH_REFUSAL]);
        fprintf(stderr, "%s\n", covrith_refusal_words(outcome[COVRITH_REFUSAL]));
        return 1;
    }
    if (!covrith_read_report(model, model_length, bytes, outcome[COVRITH_REPORT_LENGTH], &report)) {
        fprintf(stderr, "the report does not read\n");
        return 2;
    }
    print_records(outcome[COVRITH_TRACE_BYTES]);
    print_report(outcome[COVRITH_END]);
    return 0;
}
