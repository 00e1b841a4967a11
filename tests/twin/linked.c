/* The proposal that honours links (document 02, W-207): Hildreth's method in f64, one multiplier improved at a time, links in rising order, each operation
 * rounded once. Compile with -ffp-contract=off, as house.c. */
#include "parts.h"

/* A link's coefficients times the numbers in its cells: of the values its sum, of its own solution c. */
static double times(const struct twin_link *link, const double *v)
{
    double sum = 0.0;
    for (int64_t t = 0; t < link->terms; t++)
        sum += (double)link->coefficient[t] * v[link->cell[t]];
    return sum;
}

/* The solution of the house's equation with the link's coefficients on the right side. */
static void solve_for(const struct twin_job *job, const union twin_factor *f, const struct twin_link *link, double *x)
{
    for (int64_t i = 0; i < job->cells; i++)
        x[i] = 0.0;
    for (int64_t t = 0; t < link->terms; t++)
        x[link->cell[t]] = (double)link->coefficient[t];
    twin_solve(job, f, x);
}

/* "The larger of 0 and itself plus 2(s-b)/c"; what is no number gives 0. "The values then fall by half the multiplier's change times that solution." */
static void improve(const struct twin_job *job, struct twin_passes *p, int64_t l, const double *x)
{
    const struct twin_link *link = &job->link[l];
    double c = times(link, x), e = times(link, p->value) - (double)link->bound;
    double larger = p->multiplier[l] + (2.0 * e) / c;
    if (!(larger > 0.0))
        larger = 0.0;
    double half = 0.5 * (larger - p->multiplier[l]);
    for (int64_t i = 0; i < job->cells; i++)
        p->value[i] -= half * x[i];
    p->multiplier[l] = larger;
}

void twin_make_pass(const struct twin_job *job, struct twin_passes *p)
{
    double x[MOST_CELLS];
    for (int64_t l = 0; l < job->links; l++) {
        if (!p->kept)
            solve_for(job, &p->factor, &job->link[l], x);
        improve(job, p, l, p->kept ? p->kept[l] : x);
    }
}

struct twin_answer twin_begin_passes(const struct twin_job *job, double (*kept)[MOST_CELLS], struct twin_passes *p)
{
    struct twin_answer a = twin_factor(job, &p->factor);
    p->kept = kept;
    if (a.number != 0)
        return a;
    twin_house_values(job, &p->factor, p->value);
    for (int64_t l = 0; l < job->links; l++) {
        p->multiplier[l] = 0.0;
        if (kept)
            solve_for(job, &p->factor, &job->link[l], kept[l]);
    }
    return a;
}

void twin_rounded_table(const struct twin_job *job, const struct twin_passes *p, struct twin_table *table)
{
    for (int64_t i = 0; i < job->cells; i++)
        table->value[i] = twin_rounded(p->value[i], job->lo[i], job->hi[i]);
    for (int64_t l = 0; l < job->links; l++)
        table->multiplier[l] = twin_rounded(p->multiplier[l], 0, MOST_MULTIPLIER);
}

/* There is no pass 0, so a job without links answers count 1 or 14. */
struct twin_answer twin_linked(const struct twin_job *job, uint64_t passes, double (*kept)[MOST_CELLS], struct twin_table *table)
{
    struct twin_passes p;
    struct twin_answer a = twin_begin_passes(job, kept, &p);
    if (a.number != 0)
        return a;
    for (uint64_t count = 1; count <= passes; count++) {
        twin_make_pass(job, &p);
        twin_rounded_table(job, &p, table);
        if (twin_judge(job, table).number == 0) {
            a.loss = count;
            return a;
        }
    }
    return twin_plain(14, passes);
}
