/* See extremes.h. */
#include "extremes.h"
#include "grids.h"
#include "shapes.h"

static const int64_t MOST_BOUND = 1000000000;

static void add_link(struct draft *d, int64_t cell, int64_t coefficient, int64_t bound, int64_t multiplier)
{
    struct twin_link link = {1, {cell}, {coefficient}, bound};
    d->table.multiplier[d->job.links] = multiplier;
    d->job.link[d->job.links++] = link;
}

/* A flat table equal to its crude rates has no residual but that of its tight links. */
void extreme_residual(struct random *r, struct draft *d)
{
    struct twin_job *job = &d->job;
    int64_t sign = random_chance(r, 50) ? 1 : -1, level = 500000 + sign * random_between(r, -1, 4);
    int64_t cell = random_below(r, job->cells);
    for (int64_t i = 0; i < job->cells; i++) {
        job->u[i] = d->table.value[i] = level;
        job->w[i] = 1000;
        job->lo[i] = random_below(r, 3);
        job->hi[i] = MOST_VALUE - random_below(r, 3);
    }
    job->links = 0;
    add_link(d, cell, 10 * sign, 10 * sign * level, 200000000 - random_chance(r, 20));
    if (random_chance(r, 40))
        add_link(d, cell, sign, sign * level, random_between(r, 0, 11));
    if (random_chance(r, 20))
        add_link(d, cell, -sign, -sign * level, random_between(r, 0, 11));
}

/* Link terms alone make the gap, over a table of zeros at its floor. A sum in 64 bits would look small, or negative. */
void extreme_gap(struct random *r, struct draft *d)
{
    struct twin_job *job = &d->job;
    uint64_t most = (uint64_t)MOST_BOUND;
    uint64_t left = random_chance(r, 50) ? UINT64_MAX : INT64_MAX;
    for (int64_t i = 0; i < job->cells; i++) {
        job->u[i] = d->table.value[i] = job->lo[i] = 0;
        job->w[i] = 1;
        job->hi[i] = MOST_VALUE;
    }
    job->links = 0;
    left -= (uint64_t)random_below(r, 3);
    while (left > 0) {
        uint64_t multiplier = left / most > most ? most : left / most;
        uint64_t bound = multiplier > 0 ? most : left;
        multiplier = multiplier > 0 ? multiplier : 1;
        add_link(d, random_below(r, job->cells), 1, (int64_t)bound, (int64_t)multiplier);
        left -= multiplier * bound;
    }
    add_link(d, random_below(r, job->cells), 1, random_below(r, 2000), 1);
}

void extreme_loss(struct random *r, struct draft *d)
{
    struct twin_job *job = &d->job;
    if (shape_is_grid(job)) {
        grid_largest(r, job);
    } else {
        int64_t cells = random_between(r, 80, 120);
        shape_line(job, cells, random_between(r, 3, 4));
        job->constant = 1000 - random_below(r, 3);
    }
    for (int64_t i = 0; i < job->cells; i++) {
        job->u[i] = random_below(r, 2) * MOST_VALUE;
        job->w[i] = 1000;
        job->lo[i] = 0;
        job->hi[i] = MOST_VALUE;
        d->table.value[i] = (i / job->columns + i % job->columns) % 2 * MOST_VALUE;
    }
}

/* The weights stand in the first cells alone, which makes pivots too small, or far apart: between them a value hangs on differences only. */
static void line_pivots(struct random *r, struct twin_job *job)
{
    int64_t apart = random_chance(r, 50) ? random_between(r, 8, 40) : MOST_CELLS;
    int64_t cells = random_chance(r, 60) ? random_between(r, 60, 120) : random_between(r, 6, 40);
    shape_line(job, cells, random_chance(r, 60) ? 4 : random_between(r, 1, 4));
    job->constant = random_chance(r, 60) ? 1000 : random_between(r, 100, 1000);
    for (int64_t i = 0; i < job->cells; i++) {
        job->u[i] = random_between(r, MOST_VALUE / 3, MOST_VALUE / 3 * 2);
        job->w[i] = i % apart == 0 || (apart < MOST_CELLS && i == job->cells - 1) ? random_between(r, 1, 3) : 0;
        job->lo[i] = 0;
        job->hi[i] = MOST_VALUE;
    }
    shape_add_weights(job);
}

void extreme_pivots(struct random *r, struct twin_job *job)
{
    if (shape_is_grid(job))
        grid_pivots(r, job);
    else
        line_pivots(r, job);
}

/* Few cells with small weights and a small constant: the exact values are fractions with small denominators. */
static void small_fractions(struct random *r, struct twin_job *job)
{
    int64_t cells = random_between(r, 2, 5);
    shape_line(job, cells, random_between(r, 1, cells > 3 ? 3 : cells - 1));
    job->constant = random_between(r, 1, 8);
    for (int64_t i = 0; i < job->cells; i++) {
        job->u[i] = random_below(r, 1000);
        job->w[i] = random_between(r, 1, 12);
    }
}

/* Every other cell has a weight, and those lie on a line: the line is the exact answer, and it passes the other cells at a half. */
static void on_a_line(struct random *r, struct twin_job *job)
{
    int64_t start = random_below(r, 400000), slope = 2 * random_below(r, 2000) + 1, most = random_chance(r, 50) ? 3 : 1000;
    int64_t order = random_between(r, 2, 4);
    shape_line(job, random_between(r, 2 * order, random_chance(r, 50) ? 20 : 110), order);
    for (int64_t i = 0; i < job->cells; i++) {
        job->u[i] = i % 2 == 0 ? start + slope * i / 2 : random_below(r, 1000);
        job->w[i] = i % 2 == 0 ? random_between(r, 1, most) : 0;
    }
}

void extreme_halves(struct random *r, struct twin_job *job)
{
    if (shape_is_grid(job))
        grid_halves(r, job);
    else if (random_chance(r, 50))
        small_fractions(r, job);
    else
        on_a_line(r, job);
    for (int64_t i = 0; i < job->cells; i++) {
        job->lo[i] = 0;
        job->hi[i] = MOST_VALUE;
    }
}
