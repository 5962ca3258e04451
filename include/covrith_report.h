/* Covrith: the report of a run by names, and ends, refusals and places in words. Functions of this header alone; nothing to link.
 *
 *   struct covrith_report report;
 *   if (covrith_read_report(model, model_len, bytes, outcome[COVRITH_REPORT_LENGTH], &report))
 *       printf("%llu\n", (unsigned long long)report.facilities[0].ticks_waited);
 */
#ifndef COVRITH_REPORT_H
#define COVRITH_REPORT_H

#include <stddef.h>
#include <stdint.h>

#ifdef __cplusplus
extern "C" {
#endif

/* Limits of document 01, with the editions of document 02, item 12. */
#define COVRITH_MOST_EDITION 2
#define COVRITH_MOST_SERVERS 32 /* facilities, storages and queues, each */
#define COVRITH_MOST_UNITS 65535
#define COVRITH_MOST_LIVING 1024

/* A facility or a storage. */
struct covrith_server {
    uint64_t entries;      /* how often it was entered, with any units */
    uint64_t unit_ticks;   /* units in use, summed over the ticks */
    uint64_t waits_begun;
    uint64_t ticks_waited; /* length of its QL, summed over the ticks */
    uint64_t longest;      /* longest QL before a clock move */
};

struct covrith_queue {
    uint64_t arrivals;
    uint64_t content_ticks; /* content, summed over the ticks */
    uint64_t longest;       /* most content at a clock move */
};

/* A living transaction and its place, a number that covrith_place_words knows. */
struct covrith_living {
    uint64_t transaction;
    uint64_t place;
};

/* Facility 1 is facilities[0]; entries past the counts hold nothing. */
struct covrith_report {
    uint64_t clock, made, ended;
    size_t facility_count, storage_count, queue_count, living_count;
    struct covrith_server facilities[COVRITH_MOST_SERVERS];
    struct covrith_server storages[COVRITH_MOST_SERVERS];
    uint64_t capacities[COVRITH_MOST_SERVERS]; /* of the storages, from the model */
    struct covrith_queue queues[COVRITH_MOST_SERVERS];
    struct covrith_living living[COVRITH_MOST_LIVING];
};

/* Numbers with their words. A new number is a new line; NULL for a number that stands for nothing here. */

static inline const char *covrith_end_words(uint64_t end) {
    switch (end) {
    case 1: return "dry: nobody is moving, and REL and FEL are both empty";
    case 2: return "a TERMINATE brought the counter to 0 or below";
    case 3: return "the budget of turns is used";
    case 4: return "fewer than 12 bytes are left in the trace";
    case 21: return "no living place is free for a new transaction";
    case 22: return "a move time would pass the limit of the clock";
    case 23: return "an ADVANCE found no time left in its list";
    case 24: return "a RELEASE or a RETURN found its facility idle, or a LEAVE found fewer units in use than it frees";
    case 25: return "a DEPART found its queue without content";
    case 26: return "the last serial given is above 99,997,952, or 100,000,000 turns are done";
    case 27: return "a RELEASE by another than the one that seized its facility, or a RETURN by another than the one that preempted it";
    case 28: return "one that still holds a facility would end, at a TERMINATE or an ASSEMBLE";
    default: return NULL;
    }
}

static inline const char *covrith_refusal_words(uint64_t refusal) {
    switch (refusal) {
    case 1: return "the work buffer has fewer than 16,384 32-bit numbers";
    case 2: return "the report buffer has fewer than 10,240 bytes";
    case 3: return "a number of the model is not whole, not in its shortest form or not in size";
    case 4: return "a number of the model is outside its field's range";
    case 5: return "a value passes 64 numbers, four open brackets or two mentions of values";
    case 6: return "bytes follow the model";
    case 7: return "a GENERATE is out of place or named by a target, the last block is neither TERMINATE nor GOTO, "
                   "a value names a block that does not exist, or a group of joined waits is broken";
    case 8: return "a number of the tape is not whole, not in its shortest form or not in size";
    case 9: return "a number of the tape is outside its field's range";
    case 10: return "bytes follow the tape";
    case 31: return "a number of the record is not whole, not in its shortest form or not in size";
    case 32: return "a number of the record is outside its field's range";
    case 33: return "the record does not fit in the rest of the trace";
    case 41: return "the stream is above 511";
    case 42: return "a distribution or a count is outside its rules, or there is a seventeenth";
    case 43: return "the tape needs more bytes than were lent";
    case 51: return "not a trace that is taken, or not the columns of one";
    case 52: return "the output needs more bytes than were lent";
    case 61: return "the editions differ, or a joined count or the counter passes its limit";
    case 62: return "the joined model or tape needs more bytes than were lent";
    default: return NULL;
    }
}

static inline const char *covrith_place_words(uint64_t place) {
    switch (place) {
    case 1: return "QL";
    case 2: return "WEL";
    case 3: return "WSL";
    case 4: return "FEL";
    case 5: return "REL";
    case 6: return "moving";
    case 7: return "gathering";
    case 8: return "interrupted";
    default: return NULL;
    }
}

/* Bytes that are read number by number; `bad` once one did not read. */
struct covrith_numbers {
    const uint8_t *next, *end;
    int bad;
};

/* The next number of at most `most_bytes` bytes, from low to high: groups of seven bits, highest first, the top bit on all bytes but
 * the last, shortest form. 0 where it is not so, and from then on. */
static inline uint64_t covrith_next_number(struct covrith_numbers *from, int most_bytes, uint64_t low, uint64_t high) {
    uint64_t number = 0;
    int at;
    for (at = 0; !from->bad && at < most_bytes && from->next < from->end; at++) {
        uint8_t byte = *from->next++;
        if (at == 0 && byte == 0x80)
            break;
        number = number << 7 | (byte & 0x7F);
        if (byte < 0x80) {
            if (number < low || number > high)
                break;
            return number;
        }
    }
    from->bad = 1;
    return 0;
}

static inline uint64_t covrith_model_number(struct covrith_numbers *from, uint64_t low, uint64_t high) {
    return covrith_next_number(from, 5, low, high);
}

static inline uint64_t covrith_report_number(struct covrith_numbers *from) {
    return covrith_next_number(from, 9, 0, UINT64_MAX);
}

static inline void covrith_next_server(struct covrith_numbers *from, struct covrith_server *to) {
    to->entries = covrith_report_number(from);
    to->unit_ticks = covrith_report_number(from);
    to->waits_begun = covrith_report_number(from);
    to->ticks_waited = covrith_report_number(from);
    to->longest = covrith_report_number(from);
}

/* The front of a model: edition, facilities, storages with their capacities, queues. */
static inline int covrith_read_header(const uint8_t *model, size_t model_len, struct covrith_report *to) {
    struct covrith_numbers from = {model, model + model_len, 0};
    size_t i;
    covrith_model_number(&from, 1, COVRITH_MOST_EDITION);
    to->facility_count = (size_t)covrith_model_number(&from, 0, COVRITH_MOST_SERVERS);
    to->storage_count = (size_t)covrith_model_number(&from, 0, COVRITH_MOST_SERVERS);
    for (i = 0; i < to->storage_count; i++)
        to->capacities[i] = covrith_model_number(&from, 1, COVRITH_MOST_UNITS);
    to->queue_count = (size_t)covrith_model_number(&from, 0, COVRITH_MOST_SERVERS);
    return !from.bad;
}

/* Reads the report of a model: all of its bytes and no more. Answers 1; or 0 where the bytes are no report of that model (or it is none),
 * and then `to` holds nothing of use. No pointer is NULL, also where its length is 0. */
static inline int covrith_read_report(const uint8_t *model, size_t model_len, const uint8_t *report, size_t report_len,
                                      struct covrith_report *to) {
    struct covrith_numbers from = {report, report + report_len, 0};
    size_t i;
    if (!covrith_read_header(model, model_len, to))
        return 0;
    to->clock = covrith_report_number(&from);
    to->made = covrith_report_number(&from);
    to->ended = covrith_report_number(&from);
    for (i = 0; i < to->facility_count; i++)
        covrith_next_server(&from, &to->facilities[i]);
    for (i = 0; i < to->storage_count; i++)
        covrith_next_server(&from, &to->storages[i]);
    for (i = 0; i < to->queue_count; i++) {
        to->queues[i].arrivals = covrith_report_number(&from);
        to->queues[i].content_ticks = covrith_report_number(&from);
        to->queues[i].longest = covrith_report_number(&from);
    }
    to->living_count = (size_t)covrith_next_number(&from, 9, 0, COVRITH_MOST_LIVING);
    for (i = 0; i < to->living_count; i++) {
        to->living[i].transaction = covrith_report_number(&from);
        to->living[i].place = covrith_report_number(&from);
        if (!covrith_place_words(to->living[i].place))
            return 0;
    }
    return !from.bad && from.next == from.end;
}

#ifdef __cplusplus
}
#endif

#endif
