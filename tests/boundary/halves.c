/* See halves.h. With all crude rates at one level U the house's values are U too. With Y = adj(A)a for a link's coefficients a, and N = a.Y, the first
 * pass takes e*Y(i)/N from the value of cell i, and gives the multiplier 2*e*det(A)/N, where e is what the link's sum is above its bound. All of these
 * are whole, and so an e can be found for which one of them is a half. */
#include "halves.h"
#include "shapes.h"

#include <string.h>

enum { MOST_SIDE = 6 };
static const int64_t MOST_TOLERANCE = 1000000000000000, MOST_EXCESS = 200000, ROOM = 60;

static int64_t size(int64_t a) { return a < 0 ? -a : a; }

static int64_t divisor(int64_t a, int64_t b)
{
    while (b != 0) {
        int64_t rest = a % b;
        a = b;
        b = rest;
    }
    return size(a);
}

/* A, by the residuals of a table that is 1 in one cell, where all crude rates are 0; and the right side in a column more. */
static void matrix_of(const struct twin_job *job, const struct twin_link *link, int64_t m[MOST_SIDE][MOST_SIDE + 1])
{
    struct twin_job plain = *job;
    memset(plain.u, 0, sizeof plain.u);
    plain.links = 0;
    for (int64_t i = 0; i < job->cells; i++) {
        struct twin_table unit = {{0}, {0}};
        int64_t residual[MOST_CELLS];
        unit.value[i] = 1;
        twin_residuals(&plain, &unit, residual);
        for (int64_t j = 0; j < job->cells; j++)
            m[j][i] = residual[j] / 2;
        m[i][job->cells] = 0;
    }
    for (int64_t t = 0; t < link->terms; t++)
        m[link->cell[t]][job->cells] = link->coefficient[t];
}

/* Whole elimination after Bareiss, over every row but the pivot's own: at its end the diagonal has the determinant, and the last column Y. The numbers of
 * six cells with small weights and constants fit 64 bits. */
static int64_t solve_whole(int64_t n, int64_t m[MOST_SIDE][MOST_SIDE + 1], int64_t *y)
{
    int64_t before = 1;
    for (int64_t k = 0; k < n; k++) {
        int64_t pivot = m[k][k];
        if (pivot == 0)
            return 0;
        for (int64_t j = 0; j < n; j++) {
            int64_t first = m[j][k];
            for (int64_t i = 0; i <= n && j != k; i++)
                m[j][i] = (m[j][i] * pivot - first * m[k][i]) / before;
        }
        before = pivot;
    }
    for (int64_t j = 0; j < n; j++)
        y[j] = m[j][n];
    return before;
}

static void draw_link(struct random *r, struct twin_job *job)
{
    struct twin_link *link = &job->link[0];
    int64_t most = job->cells < MOST_TERMS ? job->cells : MOST_TERMS;
    memset(link, 0, sizeof *link);
    link->terms = random_chance(r, 60) ? most : random_between(r, 1, most);
    for (int64_t t = 0, cell = -1; t < link->terms; t++) {
        int64_t coefficient = random_between(r, 1, random_chance(r, 30) ? 1 : 10);
        cell = random_between(r, cell + 1, job->cells - link->terms + t);
        link->cell[t] = cell;
        link->coefficient[t] = random_chance(r, 50) ? coefficient : -coefficient;
    }
    job->links = 1;
}

/* An e, above 0, for which e*part/whole is a half; or 0 if there is none that is small. */
static int64_t excess_of(struct random *r, int64_t part, int64_t whole)
{
    int64_t common = divisor(2 * part, whole);
    if (part == 0 || whole <= 0 || 2 * part / common % 2 == 0 || whole / common > MOST_EXCESS)
        return 0;
    int64_t odd = 2 * random_below(r, 8) + 1;
    return whole / common * odd <= MOST_EXCESS ? whole / common * odd : whole / common;
}

/* Boxes as wide as can be, but that the link's other cells are held so far down, or up where the coefficient is below 0, that rounding cannot break it. */
static void draw_boxes(struct twin_job *job, int64_t half_cell, const double *value)
{
    for (int64_t i = 0; i < job->cells; i++) {
        job->lo[i] = 0;
        job->hi[i] = MOST_VALUE;
    }
    for (int64_t t = 0; t < job->link[0].terms; t++) {
        int64_t i = job->link[0].cell[t], whole = twin_rounded(value[i], 0, MOST_VALUE);
        if (i == half_cell)
            continue;
        if (job->link[0].coefficient[t] > 0)
            job->hi[i] = whole > ROOM ? whole - ROOM : 0;
        else
            job->lo[i] = whole < MOST_VALUE - ROOM ? whole + ROOM : MOST_VALUE;
    }
}

static int64_t level_for(struct random *r, int64_t fall)
{
    int64_t least = fall > 0 ? fall + 1 : 0;
    return least + (random_chance(r, 60) ? random_below(r, 3) : random_below(r, MOST_VALUE / 2));
}

/* Sets level and bound for that excess, and boxes by what the first pass leaves. */
static void plant_half(struct twin_job *job, int64_t level, int64_t excess, int64_t half_cell)
{
    struct twin_passes p;
    int64_t sum = 0;
    for (int64_t i = 0; i < job->cells; i++)
        job->u[i] = level;
    for (int64_t t = 0; t < job->link[0].terms; t++)
        sum += job->link[0].coefficient[t] * level;
    job->link[0].bound = sum - excess;
    if (twin_begin_passes(job, NULL, &p).number == 0)
        twin_make_pass(job, &p);
    draw_boxes(job, half_cell, p.value);
}

bool halves_make(struct random *r, struct draft *d)
{
    struct twin_job *job = &d->job;
    int64_t m[MOST_SIDE][MOST_SIDE + 1];
    int64_t y[MOST_SIDE], sum = 0, cell = random_below(r, job->cells + 1);
    for (int64_t i = 0; i < job->cells; i++)
        job->w[i] = random_between(r, 1, 5);
    draw_link(r, job);
    matrix_of(job, &job->link[0], m);
    int64_t determinant = solve_whole(job->cells, m, y);
    for (int64_t t = 0; t < job->link[0].terms; t++)
        sum += job->link[0].coefficient[t] * y[job->link[0].cell[t]];
    int64_t excess = excess_of(r, cell < job->cells ? y[cell] : 2 * determinant, sum);
    if (determinant == 0 || excess == 0)
        return false;
    plant_half(job, level_for(r, cell < job->cells ? excess * y[cell] / sum : 1000), excess, cell);
    job->tolerance = MOST_TOLERANCE;
    return true;
}
