/* Loss and residuals (document 01, "Loss and gap"; of grids document 02, W-205). */
#include "parts.h"

const int64_t twin_row[MOST_ORDER + 1][MOST_ORDER + 1] = {
    {0}, {-1, 1}, {1, -2, 1}, {-1, 3, -3, 1}, {1, -4, 6, -4, 1},
};

/* A run of differences: one starts at each of `starts` cells in turn and takes cells that lie `stride` apart. */
struct run {
    int64_t starts, order, stride, constant;
};

/* Down the columns the starts go on over the rows' ends, since each difference stays in its start's column. */
static struct run down_columns(const struct twin_job *job)
{
    struct run run = {job->cells - job->down * job->columns, job->down, job->columns, job->constant};
    return run;
}

/* Along one row. A line has no such differences. */
static struct run along_row(const struct twin_job *job)
{
    struct run run = {job->columns - job->across, job->across, 1, job->second};
    return run;
}

/* The difference that starts at the first of these values. */
static int64_t difference(const struct run *run, const int64_t *v)
{
    const int64_t *s = twin_row[run->order];
    int64_t sum = 0;
    for (int64_t m = 0; m <= run->order; m++)
        sum += s[m] * v[m * run->stride];
    return sum;
}

static int64_t roughness(const struct run *run, const int64_t *v)
{
    int64_t sum = 0;
    for (int64_t i = 0; i < run->starts; i++) {
        int64_t d = difference(run, v + i);
        sum += d * d;
    }
    return run->constant * sum;
}

/* At most 7.6e18, so 64 bits are enough: the two constants of a grid are together at most 1,000. */
int64_t twin_loss(const struct twin_job *job, const struct twin_table *table)
{
    struct run down = down_columns(job), along = along_row(job);
    int64_t sum = roughness(&down, table->value);
    for (int64_t i = 0; i < job->cells; i++) {
        int64_t away = table->value[i] - job->u[i];
        sum += job->w[i] * away * away;
    }
    for (int64_t row = 0; row < job->cells && along.starts > 0; row += job->columns)
        sum += roughness(&along, table->value + row);
    return sum;
}

/* Gives each difference back to the cells that it uses. */
static void give_back(const struct run *run, const int64_t *v, int64_t *residual)
{
    const int64_t *s = twin_row[run->order];
    for (int64_t i = 0; i < run->starts; i++) {
        int64_t d = 2 * run->constant * difference(run, v + i);
        for (int64_t m = 0; m <= run->order; m++)
            residual[i + m * run->stride] += d * s[m];
    }
}

void twin_residuals(const struct twin_job *job, const struct twin_table *table, int64_t *residual)
{
    struct run down = down_columns(job), along = along_row(job);
    for (int64_t i = 0; i < job->cells; i++)
        residual[i] = 2 * job->w[i] * (table->value[i] - job->u[i]);
    give_back(&down, table->value, residual);
    for (int64_t row = 0; row < job->cells && along.starts > 0; row += job->columns)
        give_back(&along, table->value + row, residual + row);
    for (int64_t l = 0; l < job->links; l++) {
        const struct twin_link *link = &job->link[l];
        for (int64_t t = 0; t < link->terms; t++)
            residual[link->cell[t]] += table->multiplier[l] * link->coefficient[t];
    }
}
