/* See corrections.h. */
#include "corrections.h"
#include "shapes.h"

static int64_t smaller(int64_t a, int64_t b) { return a < b ? a : b; }
static int64_t larger(int64_t a, int64_t b) { return a > b ? a : b; }

/* Up to three exposures: crude rates by a little or by much, and weights. */
static void mend_exposures(struct random *r, struct twin_job *job)
{
    for (int64_t left = random_between(r, 1, 3); left > 0; left--) {
        int64_t i = random_below(r, job->cells);
        if (random_chance(r, 40))
            job->w[i] = random_chance(r, 30) ? 0 : random_between(r, 1, 1000);
        else if (random_chance(r, 60))
            job->u[i] = smaller(larger(job->u[i] + random_between(r, -9, 9), 0), MOST_VALUE);
        else
            job->u[i] = random_between(r, 0, MOST_VALUE);
    }
    shape_add_weights(job);
}

/* A box that ends at the kept value, or just beside it. */
static void mend_box(struct random *r, struct draft *d)
{
    int64_t i = random_below(r, d->job.cells), v = d->table.value[i], *lo = &d->job.lo[i], *hi = &d->job.hi[i];
    if (random_chance(r, 50)) {
        *lo = smaller(v + random_below(r, 2), MOST_VALUE);
        *hi = larger(*lo, *hi);
    } else {
        *hi = larger(v - random_below(r, 2), 0);
        *lo = smaller(*lo, *hi);
    }
}

/* A bound that the kept values just reach or just pass, or a link turned round with such a bound. */
static void mend_link(struct random *r, struct draft *d)
{
    if (d->job.links == 0)
        return;
    struct twin_link *link = &d->job.link[random_below(r, d->job.links)];
    if (random_chance(r, 30))
        for (int64_t t = 0; t < link->terms; t++)
            link->coefficient[t] = -link->coefficient[t];
    link->bound = draft_sum(link, &d->table) + random_between(r, -1, 1);
}

static void mend_constants(struct random *r, struct twin_job *job)
{
    if (shape_is_grid(job))
        job->second = random_between(r, 1, 999);
    job->constant = random_between(r, 1, 1000 - job->second);
}

/* The columns of some grid of so many cells, or 1 if there is none. */
static int64_t some_columns(struct random *r, int64_t cells)
{
    int64_t found = 1, seen = 0;
    for (int64_t columns = 2; 2 * columns <= cells; columns++)
        if (cells % columns == 0 && random_below(r, ++seen) == 0)
            found = columns;
    return found;
}

/* Another shape of the same cells: a grid where there is one, or a line of any order. */
static void mend_shape(struct random *r, struct twin_job *job)
{
    int64_t columns = some_columns(r, job->cells), rows = job->cells / columns;
    if (columns > 1 && random_chance(r, 70)) {
        int64_t down = shape_draw_order(r, rows);
        shape_grid(job, rows, columns, down, shape_draw_order(r, columns));
    } else {
        shape_line(job, job->cells, shape_draw_order(r, job->cells));
    }
    mend_constants(r, job);
    shape_add_weights(job);
}

/* A tolerance below the kept table's gap, if it has any. */
static void tighten(struct random *r, struct draft *d)
{
    int64_t gap = draft_gap(d);
    d->job.tolerance = gap == 0 ? 0 : random_chance(r, 50) ? gap - 1 : random_below(r, gap);
}

void correct_job(struct random *r, struct draft *d)
{
    switch (random_below(r, 9)) {
    case 0:
    case 1: mend_exposures(r, &d->job); break;
    case 2: mend_box(r, d); break;
    case 3: mend_link(r, d); break;
    case 4: mend_constants(r, &d->job); break;
    case 5: mend_shape(r, &d->job); break;
    case 6: draft_settle(r, d); return;
    default: tighten(r, d); return;
    }
    if (random_chance(r, 60))
        draft_settle(r, d);
}

/* A row more, like the last one. A row of a line is a cell. */
static void add_row(struct twin_job *job)
{
    for (int64_t i = job->cells; i < job->cells + job->columns; i++) {
        job->u[i] = job->u[i - job->columns];
        job->w[i] = job->w[i - job->columns];
        job->lo[i] = job->lo[i - job->columns];
        job->hi[i] = job->hi[i - job->columns];
    }
    job->rows++;
    job->cells += job->columns;
}

/* A row less, of a job without links that has one to spare. */
static void drop_row(struct twin_job *job)
{
    job->rows--;
    job->cells -= job->columns;
    shape_add_weights(job);
}

static void add_link(struct twin_job *job)
{
    struct twin_link link = {1, {0}, {1}, MOST_VALUE};
    job->link[job->links++] = link;
}

void correct_counts(struct random *r, struct twin_job *job)
{
    bool shorter = job->links == 0 && job->rows > 2 && job->rows > job->down + 1, longer = job->cells + job->columns <= MOST_CELLS;
    bool of_cells = random_chance(r, 50);
    if (of_cells && shorter && random_chance(r, 60))
        drop_row(job);
    else if (of_cells && longer)
        add_row(job);
    else if (job->links == MOST_LINKS || (job->links > 0 && random_chance(r, 50)))
        job->links--;
    else
        add_link(job);
}

void correct_name(struct random *r, struct twin_job *job)
{
    if (random_chance(r, 50))
        job->society = (job->society + random_between(r, 1, SOCIETIES - 1)) % SOCIETIES;
    else
        job->number = random_chance(r, 50) ? random_below(r, 6) : job->number ^ (int64_t)1 << random_below(r, 32);
}
