/* How far off the rates of an accepted table can be, for an actuary (request W-208). It reads an input of the checking program that is accepted, with a
 * loss F and a gap G as bench_check tells them. It prints the values, how far off each rate can be at most, and the largest of these with its place. That
 * rests on what is proved: a table that meets the job with a loss of at most F, fractions included, differs from the accepted one in the rate of a cell
 * of positive weight w by at most every whole r for which w*r*r is 4G or more; and no rate leaves its box. */
#include <inttypes.h>
#include <stdio.h>

#include "table.h"

/* Of a value, and so of a distance within a box: 1,000,000 at most. */
enum { MOST_DIGITS = 7 };

/* ---- how far off */

/* The farther end of its box. */
static int64_t by_box(const struct table *t, int64_t cell)
{
    const int64_t *job = cell_of(t, cell);
    int64_t below = t->number[cell] - job[FLOOR], above = job[CEILING] - t->number[cell];
    return below > above ? below : above;
}

/* The least r by the weight where that is less than what the box says. A weight of 0 says nothing, even with a gap of 0. No r that is tried passes the
 * box's, so no product passes 10^15. */
static int64_t reach_of(const struct table *t, int64_t cell, int64_t gap)
{
    int64_t weight = cell_of(t, cell)[WEIGHT], low = 0, high = by_box(t, cell);
    if (weight == 0)
        return high;
    while (low < high) {
        int64_t r = (low + high) / 2;
        if (weight * r * r >= 4 * gap)
            high = r;
        else
            low = r + 1;
    }
    return high;
}

/* The largest of the rates that have at least a weight, at the lowest place of those that are equal. Every job has a positive weight. */
static int64_t largest_of(const struct table *t, const int64_t *reach, int64_t weight)
{
    int64_t largest = -1;
    for (int64_t cell = 0; cell < t->cells; cell++)
        if (cell_of(t, cell)[WEIGHT] >= weight && (largest < 0 || reach[cell] > reach[largest]))
            largest = cell;
    return largest;
}

/* ---- lines */

static void begin_numbers(const int64_t *number, int64_t count)
{
    char field[BENCH_MOST_CELLS * (MOST_DIGITS + 1)];
    int at = 0;
    for (int64_t i = 0; i < count; i++)
        at += snprintf(field + at, sizeof field - (size_t)at, i == 0 ? "%" PRId64 : " %" PRId64, number[i]);
    begin_line(field);
}

/* The numbers of a line, or those of a grid row by row. */
static void print_numbers(const struct table *t, const int64_t *number, const char *what, const char *more)
{
    int64_t columns = t->columns == 0 ? t->cells : t->columns;
    for (int64_t first = 0; first < t->cells; first += columns) {
        begin_numbers(number + first, columns);
        printf("%s", what);
        if (t->columns > 0)
            printf(" of row %" PRId64, first / columns);
        printf("%s\n", more);
    }
}

static void print_rate(const struct table *t, const int64_t *reach, int64_t cell, const char *what, const char *more)
{
    const int64_t *job = cell_of(t, cell);
    begin_numbers(reach + cell, 1);
    printf("%s, at ", what);
    say_place(t, cell);
    if (reach[cell] < by_box(t, cell))
        printf(", by its weight %" PRId64, job[WEIGHT]);
    else
        printf(", by its box %" PRId64 "..%" PRId64 "%s", job[FLOOR], job[CEILING], job[WEIGHT] == 0 ? " alone, since its weight is 0" : "");
    printf("%s\n", more);
}

/* Where a rate without a weight is the farthest, one that has a weight is told too. */
static void print_largest(const struct table *t, const int64_t *reach)
{
    int64_t cell = largest_of(t, reach, 0);
    print_rate(t, reach, cell, "the largest of these", ": no table that meets the job with a loss of at most F differs from this one by more in any rate");
    if (cell_of(t, cell)[WEIGHT] == 0)
        print_rate(t, reach, largest_of(t, reach, 1), "the largest of those with a weight above 0", "");
}

int main(void)
{
    static struct table table;
    int64_t reach[BENCH_MOST_CELLS], gap;
    if (!read_table(&table) || table.answer[0] != BENCH_DONE) {
        fprintf(stderr, "rates: there is no accepted table here\n");
        return 1;
    }
    gap = (int64_t)table.answer[3];
    for (int64_t cell = 0; cell < table.cells; cell++)
        reach[cell] = reach_of(&table, cell, gap);
    print_numbers(&table, table.number, "values", "");
    print_numbers(&table, reach, "how far off each rate", " can be, at most");
    print_largest(&table, reach);
    return 0;
}
