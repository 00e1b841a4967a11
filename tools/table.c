/* See table.h. */
#include <inttypes.h>
#include <stdio.h>

#include "table.h"

enum { GRID = 5 };

int64_t places(const struct table *t)
{
    return t->cells + t->links;
}

const int64_t *cell_of(const struct table *t, int64_t cell)
{
    return t->cell + CELL_WORDS * cell;
}

/* ---- the input */

/* False where no number in its shortest form stands there. */
static bool take_number(const uint8_t *bytes, size_t count, size_t *at, int64_t *number)
{
    *number = 0;
    for (int bits = 0; bits < 63 && *at < count; bits += 7) {
        uint8_t byte = bytes[(*at)++];
        *number |= (int64_t)(byte % 128) << bits;
        if (byte < 128)
            return byte > 0 || bits == 0;
    }
    return false;
}

bool take_digits(const char *digits, uint64_t *number)
{
    *number = 0;
    if (*digits == 0)
        return false;
    for (; *digits != 0; digits++) {
        uint64_t digit = (uint64_t)(*digits - '0');
        if (*digits < '0' || *digits > '9' || *number > (UINT64_MAX - digit) / 10)
            return false;
        *number = 10 * *number + digit;
    }
    return true;
}

size_t put_number(uint8_t *out, int64_t number)
{
    size_t bytes = 0;
    for (; number > 127; number /= 128)
        out[bytes++] = (uint8_t)(number % 128 + 128);
    out[bytes++] = (uint8_t)number;
    return bytes;
}

/* The two packs: a length, so many bytes of the job, and the rest. */
static bool find_packs(struct table *t, size_t count)
{
    int64_t length;
    size_t at = 0;
    t->answer[0] = BENCH_UNREADABLE;
    t->answer[1] = count > MOST_INPUT ? MOST_INPUT : 0;
    if (count > MOST_INPUT || !take_number(t->input, count, &at, &length) || (uint64_t)length > count - at)
        return false;
    t->job = t->input + at;
    t->job_bytes = (size_t)length;
    t->proposal = t->job + t->job_bytes;
    t->proposal_bytes = count - at - t->job_bytes;
    return true;
}

/* Where a job's numbers stand among its words (bench.h, PACKS). */
static void find_fields(struct table *t)
{
    const int64_t *word = t->words;
    bool grid = word[3] == GRID;
    t->cells = word[2];
    t->columns = grid ? word[5] : 0;
    word += grid ? 10 : 5;
    t->tolerance = *word++;
    t->cell = word;
    word += CELL_WORDS * t->cells;
    t->links = *word++;
    for (int64_t l = 0; l < t->links; l++) {
        t->link[l] = word;
        word += 2 + 2 * word[0];
    }
}

bool read_job(struct table *t)
{
    if (!find_packs(t, fread(t->input, 1, sizeof t->input, stdin)))
        return false;
    t->job_words = BENCH_PLACE(bench_read(t->job, t->job_bytes, t->words, BENCH_MOST_JOB_WORDS, t->answer, BENCH_ANSWER_WORDS));
    if (t->answer[0] != BENCH_DONE)
        return false;
    find_fields(t);
    return true;
}

bool read_table(struct table *t)
{
    size_t at = 0;
    if (!read_job(t))
        return false;
    bench_check(t->job, t->job_bytes, t->proposal, t->proposal_bytes, t->answer, BENCH_ANSWER_WORDS);
    if (t->answer[0] == BENCH_BAD_PROPOSAL)
        return false;
    for (int64_t place = 0; place < places(t); place++)
        take_number(t->proposal, t->proposal_bytes, &at, &t->number[place]);
    return true;
}

void write_input(const uint8_t *job, size_t job_bytes, const uint8_t *proposal, size_t proposal_bytes)
{
    uint8_t length[9];
    fwrite(length, 1, put_number(length, (int64_t)job_bytes), stdout);
    fwrite(job, 1, job_bytes, stdout);
    fwrite(proposal, 1, proposal_bytes, stdout);
}

/* ---- words */

void begin_line(const char *field)
{
    printf("  %-10s ", field);
}

void say_place(const struct table *t, int64_t place)
{
    if (place >= t->cells)
        printf("link %" PRId64, place - t->cells);
    else if (t->columns == 0)
        printf("cell %" PRId64, place);
    else
        printf("cell %" PRId64 " (row %" PRId64 ", column %" PRId64 ")", place, place / t->columns, place % t->columns);
}
