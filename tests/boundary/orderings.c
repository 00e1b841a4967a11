/* See orderings.h. */
#include "orderings.h"
#include "extremes.h"
#include "halves.h"
#include "shapes.h"

#include <string.h>

static const int64_t MOST_TOLERANCE = 1000000000000000;

/* The work of a pass above which links are taken away, and above which only few passes are made. */
enum { MOST_WORK = 4000, LITTLE_WORK = 300, FEW_LINKS = 12 };

static int64_t smaller(int64_t a, int64_t b) { return a < b ? a : b; }

static int64_t work_of_link(const struct twin_job *job)
{
    return job->cells * job->down * job->columns;
}

void ordering_lighten(struct twin_job *job)
{
    int64_t most = MOST_WORK / work_of_link(job);
    job->links = smaller(job->links, most > 0 ? most : 1);
}

/* Every third is a grid, and of those some have 12 columns. */
static void draw_shape(struct random *r, struct twin_job *job)
{
    memset(job, 0, sizeof *job);
    job->society = draft_society(r);
    job->number = random_below(r, 6);
    if (random_chance(r, 34)) {
        int64_t columns = random_chance(r, 5) ? MOST_COLUMNS : random_between(r, 2, 4);
        int64_t rows = random_between(r, 2, columns > 4 ? 2 : 4);
        int64_t down = shape_draw_order(r, rows);
        shape_grid(job, rows, columns, down, shape_draw_order(r, columns));
    } else {
        int64_t cells = random_chance(r, 60) ? random_between(r, 2, 6) : random_between(r, 7, 14);
        shape_line(job, cells, shape_draw_order(r, cells));
    }
    job->constant = random_chance(r, 60) ? random_between(r, 1, 4) : random_between(r, 1, 500);
    if (shape_is_grid(job))
        job->second = random_chance(r, 60) ? random_between(r, 1, 4) : random_between(r, 1, 500);
}

/* Crude rates that go up and down, in boxes that seldom matter. */
static void draw_cells(struct random *r, struct twin_job *job)
{
    static const int64_t scales[] = {30, 1000, MOST_VALUE};
    int64_t scale = scales[random_below(r, 3)], most_weight = random_chance(r, 60) ? 3 : 1000;
    bool tight = random_chance(r, 15);
    for (int64_t i = 0; i < job->cells; i++) {
        job->u[i] = random_between(r, 0, scale);
        job->w[i] = random_chance(r, 10) ? 0 : random_between(r, 1, most_weight);
        job->lo[i] = tight && random_chance(r, 40) ? random_between(r, 0, job->u[i]) : 0;
        job->hi[i] = tight && random_chance(r, 40) ? random_between(r, job->u[i], MOST_VALUE) : MOST_VALUE;
    }
    shape_add_weights(job);
}

static struct twin_link *add_link(struct twin_job *job, int64_t bound)
{
    struct twin_link *link = &job->link[job->links++];
    memset(link, 0, sizeof *link);
    link->bound = bound;
    return link;
}

static void add_term(struct twin_link *link, int64_t cell, int64_t coefficient)
{
    link->cell[link->terms] = cell;
    link->coefficient[link->terms++] = coefficient;
}

/* Orderings of neighbours, rising or falling: along the line, or along the rows of a grid or down its columns. */
static void order_cells(struct random *r, struct twin_job *job)
{
    int64_t sign = random_chance(r, 50) ? 1 : -1, step = random_chance(r, 50) ? 1 : job->columns;
    for (int64_t i = 0; i + step < job->cells && job->links < FEW_LINKS; i++) {
        if (random_chance(r, 15) || (step == 1 && job->columns > 1 && i % job->columns == job->columns - 1))
            continue;
        struct twin_link *link = add_link(job, random_chance(r, 80) ? 0 : random_between(r, -3, 3));
        add_term(link, i, sign);
        add_term(link, i + step, -sign);
    }
}

/* Rates bent one way: of three neighbours the middle one at least, or at most, the mean of the others. */
static void bend_cells(struct random *r, struct twin_job *job)
{
    int64_t sign = random_chance(r, 50) ? 1 : -1;
    for (int64_t i = 0; i + 2 < job->cells && job->links < FEW_LINKS; i += random_between(r, 1, 2)) {
        struct twin_link *link = add_link(job, 0);
        add_term(link, i, sign);
        add_term(link, i + 1, -2 * sign);
        add_term(link, i + 2, sign);
    }
}

/* Links of any terms, each below the sum that the house's table has, or at it. */
static void press_cells(struct random *r, struct twin_job *job)
{
    struct twin_table house;
    if (twin_house(job, house.value).number != 0)
        return;
    int64_t depth = random_chance(r, 50) ? 10 : 1000;
    for (int64_t left = random_between(r, 1, random_chance(r, 80) ? 4 : FEW_LINKS); left > 0; left--) {
        struct twin_link *link = add_link(job, 0);
        int64_t terms = random_between(r, 1, smaller(random_chance(r, 50) ? 1 : MOST_TERMS, job->cells));
        for (int64_t t = 0, cell = -1; t < terms; t++) {
            int64_t coefficient = random_between(r, 1, random_chance(r, 60) ? 1 : 10);
            cell = random_between(r, cell + 1, job->cells - terms + t);
            add_term(link, cell, random_chance(r, 50) ? coefficient : -coefficient);
        }
        link->bound = draft_sum(link, &house) - (random_chance(r, 20) ? 0 : random_below(r, depth));
    }
}

/* Weights and crude rates as large as can be, and cells held down at the floor: multipliers about 2*10^9, more than is allowed. A ceiling there takes up
 * what is cut off. */
static void hold_cells(struct random *r, struct twin_job *job)
{
    int64_t kept_down = random_between(r, 1, smaller(3, job->cells));
    for (int64_t i = 0; i < job->cells; i++) {
        job->u[i] = MOST_VALUE - random_below(r, 3);
        job->w[i] = 1000 - random_below(r, 600);
        job->lo[i] = 0;
        job->hi[i] = i < kept_down && random_chance(r, 60) ? 0 : MOST_VALUE;
    }
    for (int64_t i = 0; i < kept_down; i++) {
        struct twin_link *link = add_link(job, random_chance(r, 70) ? 0 : random_below(r, MOST_VALUE / 2));
        add_term(link, i, random_chance(r, 70) ? 1 : random_between(r, 1, 10));
    }
}

/* Two links that no table meets. */
static void contradict(struct random *r, struct twin_job *job)
{
    int64_t cell = random_below(r, job->cells), level = random_below(r, 1000);
    add_term(add_link(job, level), cell, 1);
    add_term(add_link(job, -level - random_between(r, 1, 50)), cell, -1);
}

static void draw_links(struct random *r, struct twin_job *job)
{
    int64_t way = random_below(r, 100);
    if (way < 35)
        order_cells(r, job);
    else if (way < 45)
        bend_cells(r, job);
    else if (way < 80)
        press_cells(r, job);
    else if (way < 92)
        hold_cells(r, job);
    else if (way < 95)
        contradict(r, job);
    if (way >= 95 && random_chance(r, 50))
        order_cells(r, job);
}

/* The gap of the table after each pass, from the first on; or the most where a link is broken or the gap above every tolerance. */
static bool gaps_of(struct twin_job *job, int64_t passes, int64_t *gaps)
{
    struct twin_passes p;
    struct twin_table table;
    job->tolerance = MOST_TOLERANCE;
    if (twin_begin_passes(job, NULL, &p).number != 0)
        return false;
    for (int64_t i = 1; i <= passes; i++) {
        twin_make_pass(job, &p);
        twin_rounded_table(job, &p, &table);
        struct twin_answer a = twin_judge(job, &table);
        gaps[i] = a.number == 0 ? (int64_t)a.gap : MOST_TOLERANCE + 1;
    }
    return true;
}

/* The passes whose gap is below that of all before them: each is the first accepted, if its gap is the tolerance. */
static int64_t lowest_passes(const int64_t *gaps, int64_t passes, int64_t *first)
{
    int64_t count = 0, least = MOST_TOLERANCE + 1;
    for (int64_t i = 1; i <= passes; i++)
        if (gaps[i] < least) {
            least = gaps[i];
            first[count++] = i;
        }
    return count;
}

/* The passes that are made beforehand: what each one's gap is, and which are the first at some tolerance. */
static int64_t gap[MOST_PASSES + 1], lowest[MOST_PASSES];

/* Sets the tolerance for one of so many lowest passes: its gap, what is just too little for the pass before, or one less than it needs. */
static int64_t settle(struct random *r, struct twin_job *job, int64_t count)
{
    int64_t way = random_below(r, 10);
    if (count == 0) {
        job->tolerance = random_chance(r, 50) ? MOST_TOLERANCE : random_below(r, 100);
        return 0;
    }
    int64_t at = random_chance(r, 50) ? count - 1 : random_below(r, count);
    job->tolerance = gap[lowest[at]];
    if (way < 2 && at > 0)
        job->tolerance = gap[lowest[at - 1]] - 1;
    if (way < 8 || job->tolerance == 0)
        return lowest[at];
    job->tolerance -= 1;
    return at + 1 < count ? lowest[at + 1] : 0;
}

static void draw_ordering(struct random *r, struct twin_job *job)
{
    draw_shape(r, job);
    draw_cells(r, job);
    if (random_chance(r, 6))
        extreme_pivots(r, job);
    draw_links(r, job);
    ordering_lighten(job);
}

/* Few cells with small constants, so that what the halves are made of is small too. */
static bool draw_half(struct random *r, struct draft *d)
{
    struct twin_job *job = &d->job;
    memset(job, 0, sizeof *job);
    job->society = draft_society(r);
    if (random_chance(r, 34)) {
        shape_grid(job, 2, random_between(r, 2, 3), 1, 1);
        job->second = random_between(r, 1, 3);
    } else {
        int64_t cells = random_between(r, 2, 5);
        shape_line(job, cells, random_between(r, 1, smaller(2, cells - 1)));
    }
    job->constant = random_between(r, 1, 3);
    return halves_make(r, d);
}

/* A job that is accepted at its first pass or at none has mostly to give way to another. */
int64_t ordering_make(struct random *r, struct draft *d)
{
    int64_t count = 0, tries = random_chance(r, 20) ? 1 : 4;
    memset(&d->table, 0, sizeof d->table);
    if (random_chance(r, 30) && draw_half(r, d))
        return 1;
    while (count < 2 && tries-- > 0) {
        draw_ordering(r, &d->job);
        bool little = work_of_link(&d->job) * d->job.links <= LITTLE_WORK;
        int64_t passes = little && random_chance(r, 20) ? MOST_PASSES : random_chance(r, 40) ? 20 : 5;
        count = gaps_of(&d->job, passes, gap) ? lowest_passes(gap, passes, lowest) : 0;
    }
    return settle(r, &d->job, count);
}

/* Four links of a full job pull, the first and the last among them; the others have room. */
static const int64_t PULLING[] = {0, 1, 130, MOST_LINKS - 1};
enum { PULLS = 4, APART = 30 };

/* Each has cells of its own. */
static void press_full(struct random *r, struct twin_job *job)
{
    struct twin_table house;
    twin_house(job, house.value);
    for (int64_t l = 0; l < job->links; l++)
        job->link[l].bound = draft_sum(&job->link[l], &house) + MOST_VALUE;
    for (int64_t i = 0; i < PULLS; i++) {
        struct twin_link *link = &job->link[PULLING[i]];
        for (int64_t t = 0; t < MOST_TERMS; t++)
            link->cell[t] = APART * i + 3 * t;
        link->bound = draft_sum(link, &house) - random_between(r, 1, 1000);
    }
}

/* The cells of the links that pull are held so far down, or up, that rounding does not break them. The passes do not see boxes. */
static void hold_full(struct twin_job *job)
{
    struct twin_passes p;
    if (twin_begin_passes(job, NULL, &p).number == 0)
        twin_make_pass(job, &p);
    for (int64_t i = 0; i < PULLS; i++)
        for (int64_t t = 0; t < MOST_TERMS; t++) {
            int64_t cell = APART * i + 3 * t, value = twin_rounded(p.value[cell], 0, MOST_VALUE);
            if (job->link[PULLING[i]].coefficient[t] > 0)
                job->hi[cell] = value - APART;
            else
                job->lo[cell] = value + APART;
        }
}

void ordering_full(struct random *r, bool grid, struct draft *d)
{
    if (grid)
        draft_full_grid(r, MOST_COLUMNS, MOST_ORDER, MOST_ORDER, d);
    else
        draft_full(r, MOST_ORDER, d);
    for (int64_t i = 0; i < d->job.cells; i++) {
        d->job.lo[i] = 0;
        d->job.hi[i] = MOST_VALUE;
    }
    d->job.tolerance = MOST_TOLERANCE;
    press_full(r, &d->job);
    hold_full(&d->job);
}

uint64_t ordering_passes(struct random *r, const struct twin_job *job, int64_t first)
{
    static const uint64_t few[] = {1, 2, 3, 5};
    static const uint64_t odd[] = {0, 0, MOST_PASSES + 1, MOST_PASSES + 1, MOST_PASSES + 2, 256, 257, 4294967297, INT64_MAX, UINT64_MAX};
    int64_t way = random_below(r, 20);
    bool little = work_of_link(job) * job->links <= LITTLE_WORK;
    if (random_chance(r, 4))
        return odd[random_below(r, 10)];
    if (way == 0 && (little || first > 0))
        return MOST_PASSES;
    if (first == 0 || way < 5)
        return few[random_below(r, 4)];
    return (uint64_t)(way < 14 ? first : way < 17 && first > 1 ? first - 1 : smaller(first + 1, MOST_PASSES));
}
