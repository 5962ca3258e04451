/* objects < FILE: runs the cases of a file and prints what each gives as a line of JSON. A line of the file has model, tape, budget,
 * and the lengths of work, trace and report; bytes are hexadecimal, `-` for none.
 * objects --words: all ends, refusals and places with their words.
 *
 *   cc -Iinclude examples/c/objects.c target/staticlib/libcovrith.a -o objects
 */
#define _POSIX_C_SOURCE 200809L
#include "covrith.h"
#include "covrith_report.h"

#include <inttypes.h>
#include <stdio.h>
#include <stdlib.h>
#include <string.h>

static struct covrith_report report;

static void print_numbers(const char *before, const char *const *names, const uint64_t *numbers, size_t count) {
    printf("%s{", before);
    for (size_t i = 0; i < count; i++)
        printf("%s\"%s\":%" PRIu64, i ? "," : "", names[i], numbers[i]);
    printf("}");
}

static void print_servers(const char *name, const struct covrith_server *servers, size_t count) {
    static const char *const names[] = {"entries", "unit_ticks", "waits_begun", "ticks_waited", "longest"};
    printf(",\"%s\":[", name);
    for (size_t i = 0; i < count; i++) {
        const uint64_t numbers[] = {servers[i].entries, servers[i].unit_ticks, servers[i].waits_begun, servers[i].ticks_waited,
                                    servers[i].longest};
        print_numbers(i ? "," : "", names, numbers, 5);
    }
    printf("]");
}

static void print_report(void) {
    static const char *const queue_names[] = {"arrivals", "content_ticks", "longest"};
    static const char *const living_names[] = {"transaction", "place"};
    printf("\"report\":{\"clock\":%" PRIu64 ",\"made\":%" PRIu64 ",\"ended\":%" PRIu64, report.clock, report.made, report.ended);
    print_servers("facilities", report.facilities, report.facility_count);
    print_servers("storages", report.storages, report.storage_count);
    printf(",\"queues\":[");
    for (size_t i = 0; i < report.queue_count; i++) {
        const uint64_t numbers[] = {report.queues[i].arrivals, report.queues[i].content_ticks, report.queues[i].longest};
        print_numbers(i ? "," : "", queue_names, numbers, 3);
    }
    printf("],\"living\":[");
    for (size_t i = 0; i < report.living_count; i++) {
        const uint64_t numbers[] = {report.living[i].transaction, report.living[i].place};
        print_numbers(i ? "," : "", living_names, numbers, 2);
    }
    printf("]}");
}

static void print_records(const uint8_t *trace, size_t length) {
    uint64_t record[5] = {0}; /* the fifth number is the position */
    const char *comma = "";
    printf("\"records\":[");
    for (; covrith_read_record(trace, length, record[4], record) == 0; comma = ",")
        printf("%s[%" PRIu64 ",%" PRIu64 ",%" PRIu64 ",%" PRIu64 "]", comma, record[0], record[1], record[2], record[3]);
    printf("],");
}

/* The bytes of a word, in its own memory, and how many they are. */
static uint8_t *bytes(char *word, size_t *length) {
    *length = strcmp(word, "-") ? strlen(word) / 2 : 0;
    for (size_t i = 0; i < *length; i++) {
        unsigned byte = 0;
        sscanf(word + 2 * i, "%2x", &byte);
        ((uint8_t *)word)[i] = (uint8_t)byte;
    }
    return (uint8_t *)word;
}

/* Memory for this many bytes, with an address even for none. */
static void *lend(size_t length) {
    void *memory = calloc(length ? length : 1, 1);
    if (!memory)
        abort();
    return memory;
}

static int run_case(char *words[6]) {
    size_t model_len, tape_len;
    uint8_t *model = bytes(words[0], &model_len), *tape = bytes(words[1], &tape_len);
    uint64_t budget = strtoull(words[2], NULL, 10), outcome[8];
    size_t work_len = strtoull(words[3], NULL, 10), trace_len = strtoull(words[4], NULL, 10), report_len = strtoull(words[5], NULL, 10);
    uint32_t *work = lend(4 * work_len);
    uint8_t *trace = lend(trace_len), *written = lend(report_len);
    int reads = 1;
    covrith_run(model, model_len, tape, tape_len, budget, work, work_len, trace, trace_len, written, report_len, outcome);
    if (outcome[COVRITH_REFUSAL]) {
        printf("{\"refusal\":%" PRIu64 "}\n", outcome[COVRITH_REFUSAL]);
    } else {
        reads = covrith_read_report(model, model_len, written, outcome[COVRITH_REPORT_LENGTH], &report);
        printf("{\"refusal\":0,\"end\":%" PRIu64 ",\"turns\":%" PRIu64 ",\"clock\":%" PRIu64 ",\"made\":%" PRIu64 ",\"ended\":%" PRIu64 ",",
               outcome[COVRITH_END], outcome[COVRITH_TURNS], outcome[COVRITH_CLOCK], outcome[COVRITH_MADE], outcome[COVRITH_ENDED]);
        print_records(trace, outcome[COVRITH_TRACE_BYTES]);
        print_report();
        printf("}\n");
    }
    free(work);
    free(trace);
    free(written);
    return reads;
}

static void print_words(const char *name, const char *(*words)(uint64_t)) {
    for (uint64_t number = 0; number < 256; number++)
        if (words(number))
            printf("%s %" PRIu64 " %s\n", name, number, words(number));
}

int main(int count, char **arguments) {
    char *line = NULL;
    size_t room = 0;
    if (count > 1 && !strcmp(arguments[1], "--words")) {
        print_words("end", covrith_end_words);
        print_words("refusal", covrith_refusal_words);
        print_words("place", covrith_place_words);
        return 0;
    }
    while (getline(&line, &room, stdin) > 0) {
        char *words[6] = {NULL};
        words[0] = strtok(line, " \n");
        for (int i = 1; i < 6 && words[i - 1]; i++)
            words[i] = strtok(NULL, " \n");
        if (!words[5] || !run_case(words)) {
            fprintf(stderr, "no case, or its report does not read\n");
            return 2;
        }
    }
    free(line);
    return 0;
}
