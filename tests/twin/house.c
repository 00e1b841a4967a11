/* The house proposal (document 01): (W + kK'K)v = Wu in f64, each operation rounded once and in the paper's order. The factor and the solutions of a line
 * are here, those of a grid in grid.c.
 * Compile with -ffp-contract=off: a fused multiplication and subtraction would round once instead of twice. */
#include "parts.h"

/* Over every difference that uses both cells, i at most j. */
static inline int64_t product(int64_t order, int64_t length, int64_t j, int64_t i)
{
    const int64_t *s = twin_row[order];
    int64_t first = j > order ? j - order : 0;
    int64_t last = i < length - order - 1 ? i : length - order - 1;
    int64_t sum = 0;
    for (int64_t p = first; p <= last; p++)
        sum += s[i - p] * s[j - p];
    return sum;
}

int64_t twin_product(int64_t order, int64_t length, int64_t j, int64_t i)
{
    return product(order, length, j, i);
}

/* A(j, i) for i at most j and at most the order away from it: whole, and exact as a double. */
static double entry(const struct twin_job *job, int64_t j, int64_t i)
{
    return (double)((i == j ? job->w[j] : 0) + job->constant * product(job->down, job->cells, j, i));
}

static int64_t first_of_band(const struct twin_job *job, int64_t j)
{
    return j > job->down ? j - job->down : 0;
}

/* Row j of the factor and its pivot; false if the pivot is thin. */
static bool factor_row(const struct twin_job *job, struct twin_line_factor *f, int64_t j)
{
    int64_t first = first_of_band(job, j);
    double *row = f->below[j];
    for (int64_t i = first; i < j; i++) {
        double rest = entry(job, j, i);
        for (int64_t m = first; m < i; m++)
            rest -= (row[j - m] * f->pivot[m]) * f->below[i][i - m];
        row[j - i] = rest / f->pivot[i];
    }
    double pivot = entry(job, j, j);
    for (int64_t m = first; m < j; m++)
        pivot -= (row[j - m] * f->pivot[m]) * row[j - m];
    f->pivot[j] = pivot;
    return pivot > 1.0 / 1024.0;
}

static struct twin_answer factor_line(const struct twin_job *job, struct twin_line_factor *f)
{
    for (int64_t j = 0; j < job->cells; j++)
        if (!factor_row(job, f, j))
            return twin_plain(10, (uint64_t)j);
    return twin_plain(0, 0);
}

static void solve_line(const struct twin_job *job, const struct twin_line_factor *f, double *v)
{
    int64_t n = job->cells, z = job->down;
    for (int64_t j = 0; j < n; j++) {
        double rest = v[j];
        for (int64_t m = first_of_band(job, j); m < j; m++)
            rest -= f->below[j][j - m] * v[m];
        v[j] = rest;
    }
    for (int64_t j = 0; j < n; j++)
        v[j] = v[j] / f->pivot[j];
    for (int64_t j = n - 1; j >= 0; j--) {
        double rest = v[j];
        for (int64_t m = j + 1; m < n && m <= j + z; m++)
            rest -= f->below[m][m - j] * v[m];
        v[j] = rest;
    }
}

struct twin_answer twin_factor(const struct twin_job *job, union twin_factor *f)
{
    return job->order_field == GRID ? twin_factor_grid(job, &f->grid) : factor_line(job, &f->line);
}

void twin_solve(const struct twin_job *job, const union twin_factor *f, double *v)
{
    if (job->order_field == GRID)
        twin_solve_grid(job, &f->grid, v);
    else
        solve_line(job, &f->line, v);
}

void twin_house_values(const struct twin_job *job, const union twin_factor *f, double *v)
{
    for (int64_t j = 0; j < job->cells; j++)
        v[j] = (double)(job->w[j] * job->u[j]);
    twin_solve(job, f, v);
}

/* The whole number nearest to v within the box, halves up. v less its whole part is exact. */
int64_t twin_rounded(double v, int64_t lo, int64_t hi)
{
    if (!(v > (double)lo))
        return lo;
    if (!(v < (double)hi))
        return hi;
    int64_t down = (int64_t)v;
    return v - (double)down >= 0.5 ? down + 1 : down;
}

struct twin_answer twin_house(const struct twin_job *job, int64_t *value)
{
    union twin_factor f;
    double v[MOST_CELLS];
    struct twin_answer a = twin_factor(job, &f);
    if (a.number != 0)
        return a;
    twin_house_values(job, &f, v);
    for (int64_t j = 0; j < job->cells; j++)
        value[j] = twin_rounded(v[j], job->lo[j], job->hi[j]);
    return a;
}
