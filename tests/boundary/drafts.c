/* Jobs of every shape with tables that meet them. The table is planted first and the links are drawn around it, so that acceptance is common;
 * many tables are near the best one, so that gaps are small and a wrong one shows. */
#include "drafts.h"
#include "extremes.h"
#include "shapes.h"
#include "ties.h"

#include <string.h>

static const int64_t MOST_TOLERANCE = 1000000000000000;

static int64_t smaller(int64_t a, int64_t b) { return a < b ? a : b; }
static int64_t larger(int64_t a, int64_t b) { return a > b ? a : b; }
static int64_t within(int64_t x, int64_t low, int64_t high) { return smaller(larger(x, low), high); }

int64_t draft_society(struct random *r)
{
    return random_chance(r, 70) ? random_below(r, 2) * (SOCIETIES - 1) : random_below(r, SOCIETIES);
}

/* About a third of all jobs are grids. */
static void draw_header(struct random *r, struct twin_job *job)
{
    static const int64_t numbers[] = {6, 127, 128, 16384, 4294967295};
    job->society = draft_society(r);
    job->number = random_chance(r, 80) ? random_below(r, 6) : random_between(r, 0, numbers[random_below(r, 5)]);
    if (random_chance(r, 34))
        shape_draw_grid(r, job);
    else
        shape_draw_line(r, job);
    job->tolerance = MOST_TOLERANCE;
    job->links = 0;
}

static void draw_box(struct random *r, int64_t scale, int style, int64_t u, int64_t *lo, int64_t *hi)
{
    *lo = 0;
    *hi = style == 0 ? MOST_VALUE : scale;
    if (style == 1) {
        *lo = within(u - random_below(r, 4), 0, MOST_VALUE);
        *hi = within(u + random_below(r, 4), 0, MOST_VALUE);
    } else if (style == 2) {
        *lo = random_between(r, 0, scale);
        *hi = random_between(r, *lo, scale);
    } else if (style == 3) {
        *lo = *hi = random_between(r, 0, scale);
    }
}

/* Crude rates, weights and boxes of one scale and style, with cells of other styles among them. */
static void draw_cells(struct random *r, struct twin_job *job)
{
    static const int64_t scales[] = {3, 30, 1000, MOST_VALUE};
    static const int64_t weights[] = {1, 4, 1000};
    int64_t scale = scales[random_below(r, 4)], most_weight = weights[random_below(r, 3)];
    int style = (int)random_below(r, 5);
    int none = random_chance(r, 40) ? 40 : 0;
    for (int64_t i = 0; i < job->cells; i++) {
        job->u[i] = random_chance(r, 5) ? random_below(r, 2) * scale : random_between(r, 0, scale);
        job->w[i] = random_chance(r, none) ? 0 : random_chance(r, 10) ? most_weight : random_between(r, 1, most_weight);
        draw_box(r, scale, random_chance(r, 10) ? (int)random_below(r, 5) : style, job->u[i], &job->lo[i], &job->hi[i]);
    }
    shape_add_weights(job);
}

static void plant_table(struct random *r, struct draft *d)
{
    struct twin_job *job = &d->job;
    int64_t style = random_below(r, 6), level = random_below(r, MOST_VALUE + 1);
    if (style <= 1 && twin_house(job, d->table.value).number != 0)
        style = 2;
    for (int64_t i = 0; i < job->cells; i++) {
        int64_t *v = &d->table.value[i];
        if (style == 1)
            *v = within(*v + random_between(r, -2, 2), job->lo[i], job->hi[i]);
        if (style == 2)
            *v = within(job->u[i], job->lo[i], job->hi[i]);
        if (style == 3)
            *v = random_between(r, job->lo[i], job->hi[i]);
        if (style == 4)
            *v = within(level, job->lo[i], job->hi[i]);
        if (style == 5)
            *v = i % 2 == 0 ? job->lo[i] : job->hi[i];
    }
}

int64_t draft_sum(const struct twin_link *link, const struct twin_table *table)
{
    int64_t sum = 0;
    for (int64_t t = 0; t < link->terms; t++)
        sum += link->coefficient[t] * table->value[link->cell[t]];
    return sum;
}

static void draw_terms(struct random *r, int64_t cells, int64_t terms, struct twin_link *link)
{
    int64_t cell = -1;
    link->terms = terms;
    for (int64_t t = 0; t < terms; t++) {
        int64_t last = cells - terms + t;
        cell = random_chance(r, 50) ? smaller(cell + 1 + random_below(r, 2), last) : random_between(r, cell + 1, last);
        link->cell[t] = cell;
        do
            link->coefficient[t] = random_chance(r, 50) ? random_between(r, -1, 1) : random_between(r, -10, 10);
        while (link->coefficient[t] == 0);
    }
}

/* Bound and multiplier of a link: mostly tight, and with room only seldom a large multiplier. */
static void draw_bound(struct random *r, struct twin_link *link, const struct twin_table *table, int style, int64_t *multiplier)
{
    static const int64_t most[] = {1, 5, 1000, MOST_MULTIPLIER};
    int64_t sum = draft_sum(link, table);
    int64_t slack = random_chance(r, 65) ? 0 : random_chance(r, 60) ? random_between(r, 1, 9) : random_between(r, 0, 1000000000 - sum);
    link->bound = sum + slack;
    *multiplier = random_below(r, most[style] + 1);
    if (random_chance(r, 10))
        *multiplier = most[style];
    if (random_chance(r, 30) || (slack > 9 && random_chance(r, 80)))
        *multiplier = 0;
}

static void draw_links(struct random *r, struct draft *d, int64_t links, int64_t terms)
{
    struct twin_job *job = &d->job;
    int style = (int)random_below(r, 4);
    job->links = links;
    for (int64_t l = 0; l < links; l++) {
        draw_terms(r, job->cells, terms ? terms : random_between(r, 1, smaller(4, job->cells)), &job->link[l]);
        draw_bound(r, &job->link[l], &d->table, style, &d->table.multiplier[l]);
    }
}

/* Moves boxes up to the table where the residual pushes against them, so that box terms vanish and large residuals are accepted. */
static void close_boxes(struct random *r, struct draft *d, int percent)
{
    int64_t residual[MOST_CELLS];
    twin_residuals(&d->job, &d->table, residual);
    for (int64_t i = 0; i < d->job.cells; i++) {
        if (!random_chance(r, percent))
            continue;
        if (residual[i] > 0)
            d->job.lo[i] = d->table.value[i];
        if (residual[i] < 0)
            d->job.hi[i] = d->table.value[i];
    }
}

int64_t draft_gap(struct draft *d)
{
    d->job.tolerance = MOST_TOLERANCE;
    struct twin_answer a = twin_judge(&d->job, &d->table);
    return a.number == 0 ? (int64_t)a.gap : MOST_TOLERANCE;
}

void draft_settle(struct random *r, struct draft *d)
{
    int64_t gap = draft_gap(d);
    int64_t way = random_below(r, 10);
    if (way < 5)
        d->job.tolerance = gap;
    else if (way < 7)
        d->job.tolerance = within(gap + (way == 5 ? 1 : -1), 0, MOST_TOLERANCE);
    else if (way == 7)
        d->job.tolerance = random_between(r, 0, MOST_TOLERANCE);
}

/* How many links, and how many terms each has if not any number. */
static void draw_counts(struct random *r, const struct twin_job *job, int64_t *links, int64_t *terms)
{
    *links = random_chance(r, 40) ? 0 : random_chance(r, 85) ? random_between(r, 1, 4) : random_between(r, 5, 20);
    *terms = 0;
    if (job->cells == MOST_CELLS) {
        *links = MOST_LINKS;
        *terms = random_chance(r, 70) ? MOST_TERMS : 0;
    }
}

void draft_make(struct random *r, struct draft *d)
{
    int64_t kind = random_below(r, 108), links, terms;
    draw_header(r, &d->job);
    if (kind >= 100) {
        ties_make(r, d);
        return;
    }
    if (kind < 4) {
        extreme_residual(r, d);
    } else if (kind == 4) {
        extreme_gap(r, d);
    } else {
        if (kind < 18)
            extreme_pivots(r, &d->job);
        else if (kind > 92)
            extreme_halves(r, &d->job);
        else
            draw_cells(r, &d->job);
        plant_table(r, d);
        if (kind == 18)
            extreme_loss(r, d);
        draw_counts(r, &d->job, &links, &terms);
        draw_links(r, d, links, terms);
        if (kind >= 18 && kind <= 92)
            close_boxes(r, d, kind == 18 || random_chance(r, 50) ? 100 : random_chance(r, 50) ? 90 : 20);
    }
    draft_settle(r, d);
}

/* Numbers for the header that is drawn: as many bytes as they can have, and a table that is accepted. */
static void fill_draft(struct random *r, struct draft *d)
{
    struct twin_job *job = &d->job;
    for (int64_t i = 0; i < job->cells; i++) {
        job->u[i] = random_between(r, 100000, MOST_VALUE);
        job->w[i] = random_between(r, 128, 1000);
        job->lo[i] = random_between(r, 0, 20000);
        job->hi[i] = MOST_VALUE;
    }
    twin_house(job, d->table.value);
    draw_links(r, d, MOST_LINKS, MOST_TERMS);
    for (int64_t l = 0; l < job->links; l++) {
        job->link[l].bound = draft_sum(&job->link[l], &d->table);
        d->table.multiplier[l] = random_between(r, 0, MOST_MULTIPLIER);
    }
    close_boxes(r, d, 100);
}

void draft_full(struct random *r, int64_t order_field, struct draft *d)
{
    draw_header(r, &d->job);
    shape_line(&d->job, MOST_CELLS, order_field);
    fill_draft(r, d);
}

void draft_full_grid(struct random *r, int64_t columns, int64_t down, int64_t across, struct draft *d)
{
    draw_header(r, &d->job);
    shape_grid(&d->job, MOST_CELLS / columns, columns, down, across);
    d->job.second = 500;
    d->job.constant = 500;
    fill_draft(r, d);
}

/* The place of 3, 4 or 7: a cell that can be broken in that way, if there is one. */
static void break_cell(struct random *r, struct draft *d, int way)
{
    struct twin_job *job = &d->job;
    int64_t i = random_below(r, job->cells);
    if (way == 0 && job->hi[i] < MOST_VALUE)
        job->lo[i] = random_chance(r, 50) ? job->hi[i] + 1 : random_between(r, job->hi[i] + 1, MOST_VALUE);
    if (way == 1)
        shape_starve(r, job);
    if (way == 2 && job->lo[i] > 0)
        d->table.value[i] = random_chance(r, 50) ? job->lo[i] - 1 : random_below(r, job->lo[i]);
    if (way == 3 && job->hi[i] < MOST_VALUE)
        d->table.value[i] = random_chance(r, 50) ? job->hi[i] + 1 : random_between(r, job->hi[i] + 1, MOST_VALUE);
}

static void break_link(struct random *r, struct draft *d, int way)
{
    if (d->job.links == 0)
        return;
    struct twin_link *link = &d->job.link[random_below(r, d->job.links)];
    int64_t t = random_below(r, link->terms);
    if (way == 4)
        link->coefficient[t] = 0;
    if (way == 5 && t > 0)
        link->cell[t] = random_chance(r, 50) ? link->cell[t - 1] : random_below(r, link->cell[t - 1] + 1);
    if (way == 5 && random_chance(r, 30))
        link->coefficient[t] = random_chance(r, 50) ? 11 : -11;
    if (way == 6)
        link->bound = draft_sum(link, &d->table) - (random_chance(r, 60) ? 1 : random_between(r, 1, 100000));
}

void draft_break(struct random *r, struct draft *d)
{
    int way = (int)random_below(r, shape_is_grid(&d->job) ? 11 : 8);
    if (way == 7)
        d->job.tolerance = random_below(r, d->job.tolerance + 1);
    else if (way > 7)
        shape_break(r, &d->job);
    else if (way < 4)
        break_cell(r, d, way);
    else
        break_link(r, d, way);
}
