/* An input of the checking program in reverse, for a society that lists its ages downward (request W-213). The way, which is rows, columns or both, says
 * what runs from the last to the first. A job that is no grid has one column.
 *
 *     reversed WAY          writes the input in reverse; in reverse once more it is the very bytes
 *     reversed WAY words    prints what that does to it
 *     reversed WAY PLACE    prints, of an input in reverse that is refused with 7, 8 or 9 at that place, where that stands in the input as it is
 *
 * That an input in reverse can be read and gets the same number, F and G is proved. One that cannot be read is not reversed. */
#include <inttypes.h>
#include <stdio.h>
#include <stdlib.h>
#include <string.h>

#include "table.h"

enum way { ROWS, COLUMNS, BOTH, WAYS };

/* ---- what moves where */

/* Where a cell stands in reverse, and so too which cell comes to stand where it stood. */
static int64_t turned_cell(const struct table *t, enum way way, int64_t cell)
{
    int64_t columns = t->columns == 0 ? 1 : t->columns, row = cell / columns, column = cell % columns;
    if (way != COLUMNS)
        row = t->cells / columns - 1 - row;
    if (way != ROWS)
        column = columns - 1 - column;
    return row * columns + column;
}

/* Each cell with its crude rate, weight and box. */
static void turn_cells(const struct table *t, enum way way, int64_t *to)
{
    for (int64_t cell = 0; cell < t->cells; cell++)
        memcpy(to + CELL_WORDS * turned_cell(t, way, cell), cell_of(t, cell), CELL_WORDS * sizeof *to);
}

/* Puts a term among the `count` that stand there, behind those of lower cells. */
static void add_term(int64_t *terms, int64_t count, int64_t cell, int64_t coefficient)
{
    int64_t *term = terms + 2 * count;
    for (; term > terms && term[-2] > cell; term -= 2)
        memcpy(term, term - 2, 2 * sizeof *term);
    term[0] = cell;
    term[1] = coefficient;
}

/* The cells of a link have to rise, so its terms may change their order. */
static void turn_link(const struct table *t, enum way way, const int64_t *from, int64_t *to)
{
    for (int64_t m = 0; m < from[0]; m++)
        add_term(to + 1, m, turned_cell(t, way, from[1 + 2 * m]), from[2 + 2 * m]);
}

/* ---- packs */

/* All but cells and terms stays as it is, and links keep their order. */
static size_t pack_job(const struct table *t, enum way way, uint8_t *out)
{
    int64_t words[BENCH_MOST_JOB_WORDS];
    uint64_t answer[BENCH_ANSWER_WORDS];
    memcpy(words, t->words, sizeof words);
    turn_cells(t, way, words + (t->cell - t->words));
    for (int64_t l = 0; l < t->links; l++)
        turn_link(t, way, t->link[l], words + (t->link[l] - t->words));
    return BENCH_PLACE(bench_write(words, t->job_words, out, BENCH_MOST_JOB_BYTES, answer, BENCH_ANSWER_WORDS));
}

/* Multipliers stay where they are, since links do. */
static size_t pack_proposal(const struct table *t, enum way way, uint8_t *out)
{
    size_t bytes = 0;
    for (int64_t place = 0; place < places(t); place++)
        bytes += put_number(out + bytes, t->number[place < t->cells ? turned_cell(t, way, place) : place]);
    return bytes;
}

/* False where the output takes no more. */
static bool write_reversed(const struct table *t, enum way way)
{
    uint8_t job[BENCH_MOST_JOB_BYTES], proposal[BENCH_MOST_PROPOSAL_BYTES];
    size_t job_bytes = pack_job(t, way, job);
    write_input(job, job_bytes, proposal, pack_proposal(t, way, proposal));
    return fflush(stdout) == 0 && !ferror(stdout);
}

/* ---- words */

static void print_words(const struct table *t, enum way way)
{
    static const char *const of_line[WAYS] = {"its cells from the last to the first", "a job that is no grid has one column, so nothing moves",
                                              "its cells from the last to the first"};
    static const char *const of_grid[WAYS] = {"its rows from the last to the first", "its columns from the last to the first",
                                              "its rows and its columns from the last to the first, so every cell"};
    printf("in reverse: %s\n", t->columns == 0 ? of_line[way] : of_grid[way]);
}

/* A link stands behind the cells, but the place of a broken one is its number alone. */
static void print_place(const struct table *t, enum way way, int64_t place)
{
    int64_t at = t->answer[0] == BENCH_LINK_BROKEN ? t->cells + place : place;
    bool cell = at < t->cells;
    char field[24];
    snprintf(field, sizeof field, "%" PRId64, cell ? turned_cell(t, way, at) : place);
    begin_line(field);
    printf("where place %" PRId64 " stands in the input as it is: ", place);
    say_place(t, cell ? turned_cell(t, way, at) : at);
    printf(cell ? "\n" : ", which keeps its number\n");
}

/* ---- arguments */

static enum way way_of(const char *name)
{
    static const char *const names[WAYS] = {"rows", "columns", "both"};
    enum way way = ROWS;
    while (way < WAYS && strcmp(name, names[way]) != 0)
        way++;
    return way;
}

int main(int count, char **arguments)
{
    static struct table table;
    enum way way = count == 2 || count == 3 ? way_of(arguments[1]) : WAYS;
    if (way == WAYS) {
        fprintf(stderr, "reversed: takes rows, columns or both, and then at most one more: words, or a place\n");
        return 1;
    }
    if (!read_table(&table)) {
        fprintf(stderr, "reversed: this input cannot be read, so it is not reversed: it is refused with %" PRIu64 ", place %" PRIu64
                "; ./run FILE says what is wrong there, correct that first\n", table.answer[0], table.answer[1]);
        return 1;
    }
    if (count == 2 && !write_reversed(&table, way)) {
        fprintf(stderr, "reversed: the input in reverse cannot be written; make room and try again\n");
        return 1;
    }
    if (count == 3 && strcmp(arguments[2], "words") == 0)
        print_words(&table, way);
    else if (count == 3)
        print_place(&table, way, strtoll(arguments[2], NULL, 10));
    return 0;
}
