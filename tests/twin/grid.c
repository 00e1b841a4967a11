/* The factor and the solutions of a grid (document 02, W-205): document 01's steps with z the order down times the columns, over the whole band.
 * Compile with -ffp-contract=off, as house.c. */
#include "parts.h"

static int64_t first_of_band(const struct twin_grid_factor *f, int64_t j)
{
    return j > f->band ? j - f->band : 0;
}

/* Row j of A, at row[b] its entry b cells before j. Each is whole and small, so the sum of its two parts is exact. */
static void matrix_row(const struct twin_job *job, int64_t band, int64_t j, double *row)
{
    int64_t at_row = j / job->columns, at_column = j % job->columns;
    for (int64_t b = 0; b <= band; b++)
        row[b] = 0.0;
    row[0] = (double)job->w[j];
    for (int64_t m = 0; m <= job->down && m <= at_row; m++)
        row[m * job->columns] += (double)(job->constant * twin_product(job->down, job->rows, at_row, at_row - m));
    for (int64_t m = 0; m <= job->across && m <= at_column; m++)
        row[m] += (double)(job->second * twin_product(job->across, job->columns, at_column, at_column - m));
}

/* Row j of the factor, in the place of row j of A, and its pivot; false if the pivot is thin. The product of L(j,m) and d(m) is made once
 * for all the entries that it goes into. */
static bool factor_row(struct twin_grid_factor *f, int64_t j)
{
    int64_t first = first_of_band(f, j);
    double *row = f->below[j], scaled[MOST_BAND + 1], pivot = row[0];
    for (int64_t i = first; i < j; i++) {
        const double *above = f->below[i];
        double rest = row[j - i];
        for (int64_t m = first; m < i; m++)
            rest -= scaled[j - m] * above[i - m];
        row[j - i] = rest / f->pivot[i];
        scaled[j - i] = row[j - i] * f->pivot[i];
    }
    for (int64_t m = first; m < j; m++)
        pivot -= scaled[j - m] * row[j - m];
    f->pivot[j] = pivot;
    return pivot > 1.0 / 1024.0;
}

struct twin_answer twin_factor_grid(const struct twin_job *job, struct twin_grid_factor *f)
{
    if (job->columns > MOST_COLUMNS)
        return twin_plain(20, 0);
    f->band = job->down * job->columns;
    for (int64_t j = 0; j < job->cells; j++) {
        matrix_row(job, f->band, j, f->below[j]);
        if (!factor_row(f, j))
            return twin_plain(10, (uint64_t)j);
    }
    return twin_plain(0, 0);
}

void twin_solve_grid(const struct twin_job *job, const struct twin_grid_factor *f, double *v)
{
    int64_t n = job->cells;
    for (int64_t j = 0; j < n; j++) {
        double rest = v[j];
        for (int64_t m = first_of_band(f, j); m < j; m++)
            rest -= f->below[j][j - m] * v[m];
        v[j] = rest;
    }
    for (int64_t j = 0; j < n; j++)
        v[j] = v[j] / f->pivot[j];
    for (int64_t j = n - 1; j >= 0; j--) {
        double rest = v[j];
        for (int64_t m = j + 1; m < n && m <= j + f->band; m++)
            rest -= f->below[m][m - j] * v[m];
        v[j] = rest;
    }
}
