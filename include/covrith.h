/* Covrith: one run of a block model on a tape, the records of its trace, traces by column, streams of random
 * numbers, tapes from distributions, and two models joined to one.
 *
 * Link target/staticlib/libcovrith.a, which `tools/staticlib` writes (x86-64 Linux), or, after `make install`, what
 * `pkg-config --cflags --libs covrith` names.
 *
 * For every function:
 * - a length counts elements of the type that its pointer points to;
 * - no pointer is NULL, also where its length is 0, and each is aligned for its type;
 * - what a function writes to overlaps nothing else that it is given;
 * - nothing is kept after the call: no memory of its own, no state, no locks. Calls on separate buffers
 *   may run at the same time. A run takes some 40 KB of stack.
 */
#ifndef COVRITH_H
#define COVRITH_H

#include <stddef.h>
#include <stdint.h>

#ifdef __cplusplus
extern "C" {
#endif

/* The version of this interface. */
#define COVRITH_VERSION "1.0.0"

/* What a run asks of its buffers. */
#define COVRITH_WORK_NUMBERS 16384 /* 32-bit numbers in the work buffer, at least */
#define COVRITH_REPORT_BYTES 10240 /* bytes in the report buffer, at least */

/* Places in `outcome`. */
enum {
    COVRITH_REFUSAL,      /* 0 for none, else 1..10; then all others are 0 */
    COVRITH_END,          /* 1 dry, 2 counter, 3 budget, 4 trace full, 21..28 */
    COVRITH_CLOCK,
    COVRITH_TURNS,
    COVRITH_MADE,
    COVRITH_ENDED,
    COVRITH_TRACE_BYTES,  /* bytes that the trace begins with */
    COVRITH_REPORT_LENGTH /* bytes that the report begins with */
};

/* Runs a model on a tape for at most `budget` turns and writes trace, report and the eight results.
 *
 * Refusals, in this order: 1 work shorter than 16384; 2 report shorter than 10240; of the model, 3 a number that
 * is not whole, shortest or in size, 4 out of its field's range, 5 a value too large, 6 bytes behind the model,
 * 7 a block out of place or a broken group of joined waits; of the tape, 8 a number, 9 a range, 10 bytes behind it.
 * Numbers of a model end at 4294967295, those of a tape at 34359738367 (8), its times at 10000000000 (9), and the clock at
 * 32000000000 (end 22).
 * A refused run leaves work, trace and report as they were.
 * The report lists the living by rising transaction number.
 * An accepted run leaves the bytes of trace and report behind the lengths in `outcome` as they were; the work
 * buffer then holds nothing of use. What the buffers held before changes nothing.
 *
 * `outcome` points to 8 numbers, all of which are written. */
void covrith_run(const uint8_t *model, size_t model_len,
                 const uint8_t *tape, size_t tape_len,
                 uint64_t budget,
                 uint32_t *work, size_t work_len,
                 uint8_t *trace, size_t trace_len,
                 uint8_t *report, size_t report_len,
                 uint64_t *outcome);

/* Reads the record at a position of a trace.
 *
 * Answers 0 and writes clock, transaction, block, outcome (0 entered, 1 began to wait) and the position of the
 * next record to `record`, which points to 5 numbers; or answers and writes nothing:
 * 30 no more: the position is at or past the end;
 * 31 a number that is not whole, not shortest or above 34359738367;
 * 32 a number out of range, as for covrith_write_record. */
uint32_t covrith_read_record(const uint8_t *trace, size_t trace_len, size_t position, uint64_t *record);

/* Writes one record at the front of the unused rest of a trace.
 *
 * Answers 0 and writes the record's 4 to 12 bytes to `rest` and their number to `written`; or writes nothing to
 * `rest`, 0 to `written`, and answers:
 * 32 a number out of range: clock to 32000000000, transaction 1..100000000, block 1..256, outcome 0..1;
 * 33 the record does not fit in the rest. */
uint32_t covrith_write_record(uint8_t *rest, size_t rest_len,
                              uint64_t clock, uint64_t transaction, uint64_t block, uint64_t outcome,
                              uint64_t *written);

/* How many bytes of a trace are below 80 hexadecimal: of a trace that reads, four for each record. */
uint64_t covrith_count(const uint8_t *trace, size_t trace_len);

/* Streams of the generator of Park and Miller (1988), the same on each machine. The states of a stream are
 * numbers from 1 to 2147483646. */
#define COVRITH_STREAMS 512

/* Where a stream begins.
 *
 * Answers 0 and writes the state before the stream's first step, 16807 to the power 100000 * stream modulo
 * 2147483647, to `state`; or answers 41 for a stream above 511 and writes nothing. */
uint32_t covrith_stream_start(uint32_t stream, uint32_t *state);

/* The state that follows: state * 16807 modulo 2147483647, for every 32-bit state. */
uint32_t covrith_stream_step(uint32_t state);
/* Traces by column: the record count, then all clocks as differences from the clock before (0 at first), then all
 * transactions, then all blocks, then all outcomes, each number as in the trace. A trace is taken if the reader takes
 * it whole, with at most 100000000 records, and its clocks never fall; every trace of a run is such a trace. Columns
 * are taken exactly if some such trace produces them.
 *
 * covrith_columns writes the columns of a trace, covrith_uncolumns the trace of columns. Both answer 0 and write to
 * `out` and the number of bytes to `written`; or write nothing to `out`, 0 to `written`, and answer:
 * 51 not such a trace, or not such columns;
 * 52 the output needs more than `out_len` bytes.
 * Columns need at most trace_len + 4 bytes, a trace at most 2 * columns_len. */
uint32_t covrith_columns(const uint8_t *trace, size_t trace_len, uint8_t *out, size_t out_len, uint64_t *written);
uint32_t covrith_uncolumns(const uint8_t *columns, size_t columns_len, uint8_t *out, size_t out_len, uint64_t *written);

/* Tapes from distributions.
 *
 * For each list of the tape, in order, `lists` has four numbers: its kind (COVRITH_FIXED, COVRITH_SPREAD, COVRITH_CURVE), the count of
 * its times (0 to 65535), the index of its first double in `numbers`, and the number of its points, which is 0 but for a curve.
 * A fixed time has one double, a spread two (mean, half-width), a curve two for each of its 2 to 24 points (u, time).
 * Times, means and halves are multiples of 1/64 from 0 to 1000000; half is at most mean, and mean at most 500000. The u of a curve
 * are multiples of 1/65536 and rise strictly from 0 to 1; its times never fall.
 * The stream runs on through the lists. A fixed time draws nothing, the others draw once for each time: the stream steps, and
 * its new state r gives u = ((r - 1) / 32768) / 65536, the first quotient cut to a whole number. What is written is the whole part of the
 * time, of mean - half + 2 * half * u, or of the line between the two points around u.
 *
 * Answers 0 and writes the tape's bytes to `tape` and their number to `written`; or writes nothing to `tape`, 0 to `written`, and
 * answers, in this order:
 * 41 a stream above 511;
 * 42 a distribution or a count outside these rules, another kind, a double past the end of `numbers`, a length of `lists` that is no
 *    multiple of four, or a seventeenth list;
 * 43 the tape needs more than `tape_len` bytes.
 * What is made is accepted as the tape of every model with that many lists. A tape needs at most 3 bytes for each count and time.
 *
 *     uint32_t lists[] = {COVRITH_SPREAD, 200, 0, 0, COVRITH_CURVE, 200, 2, 3};
 *     double numbers[] = {12.5, 4, 0, 1, 0.5, 3, 1, 10};
 *     uint8_t tape[3 * 402];
 *     uint64_t written;
 *     uint32_t answer = covrith_make_tape(7, lists, 8, numbers, 8, tape, sizeof tape, &written);
 */
#define COVRITH_LISTS 16 /* lists of a tape, at most */

enum { COVRITH_FIXED, COVRITH_SPREAD, COVRITH_CURVE };

uint32_t covrith_make_tape(uint32_t stream, const uint32_t *lists, size_t lists_len, const double *numbers, size_t numbers_len,
                           uint8_t *tape, size_t tape_len, uint64_t *written);

/* Two plants as one model.
 *
 * Joins two pairs of model and tape, both models of one edition: the second's facilities, storages, queues, values, lists and blocks are
 * numbered on after the first's, the counters are added, and the tapes are laid end to end.
 *
 * Answers 0 and writes the joined model to `model`, the joined tape to `tape`, and how many bytes each has to `written`, which points to
 * 2 numbers; or writes nothing to `model` and `tape`, 0 and 0 to `written`, and answers, in this order:
 * 3 to 7 for the first model and 8 to 10 for its tape, then the same for the second model and its tape, as a run refuses them;
 * 61 the editions differ, or a joined count or the counter passes its limit;
 * 62 the joined model needs more than `model_len` bytes, or the joined tape more than `tape_len`.
 * What is joined is accepted by a run. The joined model needs at most model1_len + 2 * model2_len bytes, the joined tape
 * tape1_len + tape2_len.
 *
 * Suppose that neither model has the clock term anywhere, that under edition 2 both or neither have an ENTER or LEAVE of more than one unit, and that the
 * joined run and each run alone end dry. Then the records of either part, with its blocks numbered as before and its transactions by
 * their rank within the part, are those of that part alone.
 */
uint32_t covrith_join(const uint8_t *model1, size_t model1_len, const uint8_t *tape1, size_t tape1_len,
                      const uint8_t *model2, size_t model2_len, const uint8_t *tape2, size_t tape2_len,
                      uint8_t *model, size_t model_len, uint8_t *tape, size_t tape_len, uint64_t *written);

#ifdef __cplusplus
}
#endif

#endif
