/* The terms of the gap (document 01, "Loss and gap"; the largest of them and what supplied each document 02, W-202): what each cell and each link adds,
 * the check's refusals 7, 8 and 9, and the list of all terms. */
#include "parts.h"

/* The gap may pass 64 bits; here it is added up whole and only then compared with the tolerance. */
__extension__ typedef __int128 wide;

static const int64_t SQUARE_LIMIT = 2000000000;

/* One term, the residual of its cell, or 0 of a link, and what supplied it. */
struct term {
    int64_t term, residual;
    enum twin_side side;
};

/* "The smaller of the box term and r^2/(4w) rounded up", and "the box if they tie". A residual is below 2e12 and a value at most 1e6, so a box term fits
 * 64 bits. */
static inline struct term cell_term(const struct twin_job *job, const struct twin_table *table, int64_t r, int64_t i)
{
    struct term box = {0, r, BY_BOX};
    if (r > 0)
        box.term = r * (table->value[i] - job->lo[i]);
    if (r < 0)
        box.term = -r * (job->hi[i] - table->value[i]);
    if (job->w[i] == 0 || r < -SQUARE_LIMIT || r > SQUARE_LIMIT)
        return box;
    struct term square = {(r * r + 4 * job->w[i] - 1) / (4 * job->w[i]), r, BY_WEIGHT};
    return square.term < box.term ? square : box;
}

static int64_t room(const struct twin_link *link, const struct twin_table *table)
{
    int64_t sum = 0;
    for (int64_t t = 0; t < link->terms; t++)
        sum += link->coefficient[t] * table->value[link->cell[t]];
    return link->bound - sum;
}

static inline struct term link_term(const struct twin_job *job, const struct twin_table *table, int64_t l)
{
    struct term link = {table->multiplier[l] * room(&job->link[l], table), 0, BY_LINK};
    return link;
}

/* The gap so far, and the first of its largest terms. No term is negative for a table that meets the job. */
struct tally {
    wide gap;
    int64_t largest, place;
};

static inline void count(struct tally *tally, int64_t term, int64_t place)
{
    tally->gap += term;
    if (term > tally->largest) {
        tally->largest = term;
        tally->place = place;
    }
}

/* "A cell's number, or n plus the link's number, the lowest place if several are equal": of all terms, also of those behind where the total passed the
 * tolerance. */
static struct tally tally_of(const struct twin_job *job, const struct twin_table *table)
{
    int64_t residual[MOST_CELLS];
    struct tally tally = {0, 0, 0};
    twin_residuals(job, table, residual);
    for (int64_t i = 0; i < job->cells; i++)
        count(&tally, cell_term(job, table, residual[i], i).term, i);
    for (int64_t l = 0; l < job->links; l++)
        count(&tally, link_term(job, table, l).term, job->cells + l);
    return tally;
}

struct twin_answer twin_meets(const struct twin_job *job, const struct twin_table *table)
{
    for (int64_t i = 0; i < job->cells; i++)
        if (table->value[i] < job->lo[i] || table->value[i] > job->hi[i])
            return twin_plain(7, (uint64_t)i);
    for (int64_t l = 0; l < job->links; l++)
        if (room(&job->link[l], table) < 0)
            return twin_plain(8, (uint64_t)l);
    return twin_plain(0, 0);
}

struct twin_answer twin_judge(const struct twin_job *job, const struct twin_table *table)
{
    struct twin_answer answer = twin_meets(job, table);
    if (answer.number != 0)
        return answer;
    struct tally tally = tally_of(job, table);
    if (tally.gap > job->tolerance)
        return twin_plain(9, (uint64_t)tally.place);
    answer.loss = (uint64_t)twin_loss(job, table);
    answer.gap = (uint64_t)tally.gap;
    return answer;
}

static void put_term(struct term term, int64_t *out)
{
    out[0] = term.term;
    out[1] = term.residual;
    out[2] = term.side;
}

void twin_put_terms(const struct twin_job *job, const struct twin_table *table, int64_t *out)
{
    int64_t residual[MOST_CELLS];
    twin_residuals(job, table, residual);
    for (int64_t i = 0; i < job->cells; i++)
        put_term(cell_term(job, table, residual[i], i), out + TERM_WORDS * i);
    for (int64_t l = 0; l < job->links; l++)
        put_term(link_term(job, table, l), out + TERM_WORDS * (job->cells + l));
}
