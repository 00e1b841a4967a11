/* See grids.h. */
#include "grids.h"
#include "shapes.h"

static int64_t smaller(int64_t a, int64_t b) { return a < b ? a : b; }

static void draw_constants(struct random *r, struct twin_job *job, int64_t total)
{
    job->second = random_chance(r, 30) ? 1 : random_chance(r, 30) ? total - 1 : random_between(r, 1, total - 1);
    job->constant = total - job->second;
}

void grid_largest(struct random *r, struct twin_job *job)
{
    static const int64_t some[] = {2, 4, 10, 12, 15, 30};
    int64_t columns = some[random_below(r, 6)];
    int64_t rows = MOST_CELLS / columns - random_below(r, 2);
    shape_grid(job, rows, columns, smaller(MOST_ORDER, rows - 1), smaller(MOST_ORDER, columns - 1));
    draw_constants(r, job, 1000 - random_below(r, 3));
}

/* The long way, down or across, positive weights stand far apart or in the first cells alone; the short way in each cell or every other. */
void grid_pivots(struct random *r, struct twin_job *job)
{
    bool wide = random_chance(r, 25), upright = !wide && random_chance(r, 60);
    int64_t columns = wide ? random_between(r, 13, 24) : upright ? random_between(r, 2, 4) : random_between(r, 5, 12);
    int64_t rows = upright ? random_between(r, 8, random_chance(r, 80) ? 16 : 30) : random_between(r, 2, 4);
    int64_t far = random_chance(r, 40) ? random_between(r, 4, 12) : MOST_CELLS, near = random_between(r, 1, 2);
    int64_t step_down = upright ? far : near, step_across = upright ? near : far;
    int64_t down = shape_draw_order(r, rows);
    shape_grid(job, rows, columns, down, shape_draw_order(r, columns));
    draw_constants(r, job, random_chance(r, 60) ? 1000 : random_between(r, 100, 1000));
    for (int64_t i = 0; i < job->cells; i++) {
        job->u[i] = random_between(r, MOST_VALUE / 3, MOST_VALUE / 3 * 2);
        job->w[i] = i / columns % step_down == 0 && i % columns % step_across == 0 ? random_between(r, 1, 3) : 0;
        job->lo[i] = 0;
        job->hi[i] = MOST_VALUE;
    }
    shape_add_weights(job);
}

static void small_fractions(struct random *r, struct twin_job *job)
{
    int64_t rows = random_between(r, 2, 3), columns = random_between(r, 2, 3);
    int64_t down = random_between(r, 1, rows - 1);
    shape_grid(job, rows, columns, down, random_between(r, 1, columns - 1));
    job->constant = random_between(r, 1, 8);
    job->second = random_between(r, 1, 8);
    for (int64_t i = 0; i < job->cells; i++) {
        job->u[i] = random_below(r, 1000);
        job->w[i] = random_between(r, 1, 12);
    }
}

/* Both slopes are odd, so a cell lies at a half where row and column are not both odd or both even. */
static void on_a_plane(struct random *r, struct twin_job *job)
{
    int64_t start = random_below(r, 400000), most = random_chance(r, 50) ? 3 : 1000;
    int64_t slope_down = 2 * random_below(r, 2000) + 1, slope_across = 2 * random_below(r, 2000) + 1;
    int64_t rows = random_between(r, 3, 8), columns = random_between(r, 4, 8);
    shape_grid(job, rows, columns, 2, random_between(r, 2, columns / 2));
    for (int64_t i = 0; i < job->cells; i++) {
        int64_t halves = slope_down * (i / columns) + slope_across * (i % columns);
        job->u[i] = halves % 2 == 0 ? start + halves / 2 : random_below(r, 1000);
        job->w[i] = halves % 2 == 0 ? random_between(r, 1, most) : 0;
    }
}

void grid_halves(struct random *r, struct twin_job *job)
{
    if (random_chance(r, 50))
        small_fractions(r, job);
    else
        on_a_plane(r, job);
}
