/* What the programs beside share: an input of the checking program, read through the library, and lines as ./run has them. */
#ifndef TABLE_H
#define TABLE_H

#include <stdbool.h>

#include "bench.h"

enum { MOST_INPUT = 8192, MOST_PLACES = BENCH_MOST_CELLS + BENCH_MOST_LINKS };

/* The words of a cell in a job. */
enum { WEIGHT = 1, FLOOR = 2, CEILING = 3, CELL_WORDS = 4 };

/* A job and its proposal, whose numbers, values and then multipliers, stand at the places of their terms. A line has 0 columns. The answer is the
 * check's, or for an input without two packs the number and place that the checking program gives; the input has room for a byte too many. */
struct table {
    uint8_t input[MOST_INPUT + 1];
    const uint8_t *job, *proposal;
    size_t job_bytes, proposal_bytes, job_words;
    uint64_t answer[BENCH_ANSWER_WORDS];
    int64_t words[BENCH_MOST_JOB_WORDS];
    int64_t cells, links, columns, tolerance;
    const int64_t *cell;
    const int64_t *link[BENCH_MOST_LINKS];
    int64_t number[MOST_PLACES];
};

/* Reads standard input and its job, whatever stands behind that. False where it cannot be read, and then the answer alone is filled in. */
bool read_job(struct table *t);

/* The same, and then reads the proposal and asks the check. */
bool read_table(struct table *t);

/* False where that is no number of 64 bits in digits alone. */
bool take_digits(const char *digits, uint64_t *number);

/* Writes a number in its shortest form, which has 9 bytes at most, and returns its bytes. */
size_t put_number(uint8_t *out, int64_t number);

/* Writes an input of the checking program to standard output. */
void write_input(const uint8_t *job, size_t job_bytes, const uint8_t *proposal, size_t proposal_bytes);

int64_t places(const struct table *t);
const int64_t *cell_of(const struct table *t, int64_t cell);

/* A line is a field and then what it says. */
void begin_line(const char *field);
void say_place(const struct table *t, int64_t place);

#endif
