/* See ties.h. A flat table at its crude rates has no residual but that of its links. */
#include "ties.h"
#include "shapes.h"

static const int64_t MOST_BOUND = 1000000000;

/* What the terms are made of. A residual of `multiplier` in a cell of this weight, as far from its floor or ceiling as `distance`, has a square as
 * large as its box term: both are 4 times the weight times the distance squared. So is the term of a link with that multiplier and a room of
 * `distance`. */
struct unit {
    int64_t weight, distance, multiplier;
};

static struct unit draw_unit(struct random *r)
{
    int64_t weight = random_between(r, 1, random_chance(r, 80) ? 3 : 1000), distance = random_between(r, 1, random_chance(r, 80) ? 3 : 1000);
    struct unit unit = {weight, distance, 4 * weight * distance};
    return unit;
}

/* The distance itself, one off, none, or far. */
static int64_t draw_reach(struct random *r, const struct unit *unit)
{
    const int64_t some[] = {unit->distance, unit->distance, unit->distance - 1, unit->distance + 1, 0, 9 * unit->distance, 9 * unit->distance};
    return some[random_below(r, 7)];
}

static void draw_cell(struct random *r, struct draft *d, const struct unit *unit, int64_t level, int64_t i)
{
    const int64_t weights[] = {unit->weight, unit->weight, unit->weight, 0, 0, 1000};
    d->job.u[i] = d->table.value[i] = level;
    d->job.w[i] = weights[random_below(r, 6)];
    d->job.lo[i] = level - draw_reach(r, unit);
    d->job.hi[i] = level + draw_reach(r, unit);
}

static void add_link(struct draft *d, int64_t cell, int64_t coefficient, int64_t room, int64_t multiplier)
{
    struct twin_link link = {1, {cell}, {coefficient}, coefficient * d->table.value[cell] + room};
    d->table.multiplier[d->job.links] = multiplier;
    d->job.link[d->job.links++] = link;
}

static void draw_link(struct random *r, struct draft *d, const struct unit *unit)
{
    int64_t m = unit->multiplier;
    const int64_t multipliers[] = {m, m, m, m - 1, m + 1, 2 * m, 0}, rooms[] = {unit->distance, unit->distance, unit->distance + 1, 0, 0};
    int64_t cell = random_below(r, d->job.cells), coefficient = random_chance(r, 50) ? 1 : -1, room = rooms[random_below(r, 5)];
    add_link(d, cell, coefficient, room, multipliers[random_below(r, 7)]);
}

static void draw_few(struct random *r, struct draft *d)
{
    struct unit unit = draw_unit(r);
    int64_t level = random_between(r, 10000, MOST_VALUE - 10000);
    for (int64_t i = 0; i < d->job.cells; i++)
        draw_cell(r, d, &unit, level, i);
    shape_add_weights(&d->job);
    for (int64_t left = random_between(r, 1, random_chance(r, 80) ? 6 : 30); left > 0; left--)
        draw_link(r, d, &unit);
}

/* Terms of links alone, near 10^18 and so near each other that an f64 does not tell them apart: each is 10^18 less a small square. */
static void draw_wide(struct random *r, struct draft *d)
{
    for (int64_t i = 0; i < d->job.cells; i++) {
        d->job.u[i] = d->table.value[i] = d->job.lo[i] = d->job.hi[i] = random_below(r, 4);
        d->job.w[i] = 1;
    }
    for (int64_t left = random_between(r, 2, 12); left > 0; left--) {
        int64_t cell = random_below(r, d->job.cells), v = d->table.value[cell];
        add_link(d, cell, -1, MOST_BOUND + v, MOST_MULTIPLIER - v);
    }
}

/* Terms of cells, up to 1.6*10^18: all the links there can be pull at two cells, which stand as far from the end of their boxes as can be. */
static void draw_high(struct random *r, struct draft *d)
{
    int64_t level = random_below(r, 2) * MOST_VALUE, coefficient = level == 0 ? -10 : 10, share = random_below(r, 101);
    for (int64_t i = 0; i < d->job.cells; i++) {
        d->job.u[i] = d->table.value[i] = level;
        d->job.w[i] = random_between(r, 1, 1000);
        d->job.lo[i] = 0;
        d->job.hi[i] = MOST_VALUE;
    }
    while (d->job.links < MOST_LINKS) {
        int64_t cell = random_chance(r, (int)share) ? 0 : d->job.cells - 1;
        add_link(d, cell, coefficient, 0, MOST_MULTIPLIER - random_below(r, 2));
    }
}

/* The terms from the first on, so many of them, together. The wide ones are more than any tolerance. */
static int64_t total_of(const struct draft *d, int64_t places)
{
    static int64_t words[TERM_WORDS * (MOST_CELLS + MOST_LINKS)];
    int64_t total = 0;
    twin_put_terms(&d->job, &d->table, words);
    for (int64_t place = 0; place < places && total <= d->job.tolerance; place++)
        total += words[TERM_WORDS * place];
    return total < d->job.tolerance ? total : d->job.tolerance;
}

/* A tolerance that the total reaches at the first place, at the last or at any, or passes there. */
static void settle(struct random *r, struct draft *d)
{
    int64_t places = d->job.cells + d->job.links;
    int64_t upto = random_chance(r, 25) ? 1 : random_chance(r, 70) ? places : random_between(r, 1, places);
    int64_t total = total_of(d, upto);
    d->job.tolerance = random_chance(r, 50) && total > 0 ? total - 1 : total;
}

void ties_make(struct random *r, struct draft *d)
{
    int64_t way = random_below(r, 20);
    if (way < 18)
        draw_few(r, d);
    else if (way == 18)
        draw_wide(r, d);
    else
        draw_high(r, d);
    settle(r, d);
}
