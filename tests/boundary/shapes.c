/* See shapes.h. */
#include "shapes.h"

static int64_t smaller(int64_t a, int64_t b) { return a < b ? a : b; }

void shape_line(struct twin_job *job, int64_t cells, int64_t order_field)
{
    job->cells = job->rows = cells;
    job->columns = job->across = 1;
    job->order_field = order_field;
    job->down = order_field == 0 ? 2 : order_field;
    job->second = 0;
}

void shape_grid(struct twin_job *job, int64_t rows, int64_t columns, int64_t down, int64_t across)
{
    job->cells = rows * columns;
    job->rows = rows;
    job->columns = columns;
    job->order_field = GRID;
    job->down = down;
    job->across = across;
}

void shape_draw_line(struct random *r, struct twin_job *job)
{
    int64_t size = random_below(r, 1000);
    int64_t cells = size < 500 ? random_between(r, 2, 5) : size < 850 ? random_between(r, 6, 12) : size < 960 ? random_between(r, 13, 40)
                  : size < 985 ? random_between(r, 41, 120) : 120;
    do
        shape_line(job, cells, random_below(r, 5));
    while (job->down >= cells);
    job->constant = random_chance(r, 50) ? random_between(r, 1, 4) : random_chance(r, 50) ? 1000 : random_between(r, 1, 1000);
}

int64_t shape_draw_order(struct random *r, int64_t length)
{
    int64_t most = smaller(MOST_ORDER, length - 1);
    return random_chance(r, 40) ? most : random_between(r, 1, most);
}

/* A constant up to a limit: small, the limit itself, or any. */
static int64_t draw_constant(struct random *r, int64_t most)
{
    return random_chance(r, 50) ? smaller(random_between(r, 1, 4), most) : random_chance(r, 50) ? most : random_between(r, 1, most);
}

/* The limits of columns and rows of a grid, and how many of a thousand grids have them. */
static const struct extent {
    int64_t share, least_columns, most_columns, least_rows, most_rows;
} EXTENTS[] = {
    {430, 2, 4, 2, 4},  {290, 2, 6, 2, 8},   {130, 13, 16, 2, 4}, {40, 17, 60, 2, 7}, {60, 12, 12, 2, 4},
    {35, 2, 12, 2, 60}, {6, 12, 12, 10, 10}, {3, 2, 2, 60, 60},   {3, 60, 60, 2, 2},  {3, 10, 10, 12, 12},
};

void shape_draw_grid(struct random *r, struct twin_job *job)
{
    const struct extent *e = EXTENTS;
    for (int64_t share = random_below(r, 1000); share >= e->share; e++)
        share -= e->share;
    int64_t columns = random_between(r, e->least_columns, e->most_columns);
    int64_t rows = random_between(r, e->least_rows, smaller(e->most_rows, MOST_CELLS / columns));
    int64_t down = shape_draw_order(r, rows);
    shape_grid(job, rows, columns, down, shape_draw_order(r, columns));
    job->second = draw_constant(r, 999);
    job->constant = draw_constant(r, 1000 - job->second);
}

static int64_t positive_in_row(const struct twin_job *job, int64_t row)
{
    int64_t positive = 0;
    for (int64_t i = row * job->columns; i < (row + 1) * job->columns; i++)
        positive += job->w[i] > 0;
    return positive;
}

static void add_in_row(struct twin_job *job, int64_t row)
{
    for (int64_t i = row * job->columns, missing = job->across - positive_in_row(job, row); missing > 0; i++)
        if (job->w[i] == 0) {
            job->w[i] = 1;
            missing--;
        }
}

void shape_add_weights(struct twin_job *job)
{
    int64_t enough = 0;
    for (int64_t row = 0; row < job->rows; row++)
        enough += positive_in_row(job, row) >= job->across;
    for (int64_t row = 0; enough < job->down; row++)
        if (positive_in_row(job, row) < job->across) {
            add_in_row(job, row);
            enough++;
        }
}

/* Keeps so many positive weights of a row, and makes zeros positive for that if `fill`. */
static void keep_in_row(struct twin_job *job, int64_t row, int64_t kept, bool fill)
{
    for (int64_t i = row * job->columns; i < (row + 1) * job->columns; i++) {
        if (fill && job->w[i] == 0)
            job->w[i] = 1;
        if (job->w[i] > 0 && kept-- <= 0)
            job->w[i] = 0;
    }
}

/* Whether rows and columns are still those of the cells: a shape is not broken twice, nor starved when it is broken. */
static bool is_whole(const struct twin_job *job)
{
    return job->rows <= job->cells && job->columns <= job->cells && job->rows * job->columns == job->cells;
}

void shape_starve(struct random *r, struct twin_job *job)
{
    if (!is_whole(job))
        return;
    int64_t enough = random_chance(r, 60) ? job->down - 1 : random_below(r, job->down);
    bool fill = random_chance(r, 60);
    for (int64_t row = 0; row < job->rows; row++) {
        bool has_enough = enough > 0 && (job->rows - row <= enough || random_chance(r, 50));
        enough -= has_enough;
        keep_in_row(job, row, has_enough ? job->columns : fill ? job->across - 1 : random_below(r, job->across), fill);
    }
}

/* Another factor for a product that comes out the same in 64 bits (if 4 divides the other one) or in 32, or merely a vast one. */
static int64_t wrapping(struct random *r, int64_t factor, int64_t other)
{
    const int64_t quarter = INT64_MAX / 2 + 1;
    if (other % 4 == 0 && random_chance(r, 70))
        return factor + quarter / (other % 8 == 0 ? 2 : 1);
    return random_chance(r, 50) ? factor + 4294967296 : random_chance(r, 50) ? INT64_MAX : quarter;
}

static void exchange(int64_t *a, int64_t *b)
{
    int64_t was = *a;
    *a = *b;
    *b = was;
}

void shape_break(struct random *r, struct twin_job *job)
{
    if (!is_whole(job))
        return;
    switch (random_below(r, 10)) {
    case 0: job->rows += random_chance(r, 50) ? 1 : random_below(r, job->cells); break;
    case 1: exchange(&job->rows, &job->columns); break;
    case 2: job->rows = wrapping(r, job->rows, job->columns); break;
    case 3: job->columns = wrapping(r, job->columns, job->rows); break;
    case 4: job->down = job->rows; break;
    case 5: job->across = job->columns; break;
    case 6: job->constant = 1001 - job->second; break;
    case 7: job->second = 1001 - job->constant; break;
    case 8: job->second = 1000; break;
    default:
        job->columns = random_chance(r, 50) ? 1 : job->cells;
        job->rows = job->cells / job->columns;
        break;
    }
}
