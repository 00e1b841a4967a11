/* See turned.h. */
#include "turned.h"

int64_t turned_cell(const struct twin_job *job, enum way way, int64_t cell)
{
    int64_t row = cell / job->columns, column = cell % job->columns;
    if (way != COLUMNS_ALONE)
        row = job->rows - 1 - row;
    if (way != ROWS_ALONE)
        column = job->columns - 1 - column;
    return row * job->columns + column;
}

/* Numbers of which each cell has one. */
static void turn_numbers(const struct twin_job *job, enum way way, const int64_t *from, int64_t *to)
{
    for (int64_t i = 0; i < job->cells; i++)
        to[i] = from[turned_cell(job, way, i)];
}

/* Adds a term behind those of the lower cells. */
static void add_term(struct twin_link *link, int64_t cell, int64_t coefficient)
{
    int64_t t = link->terms++;
    for (; t > 0 && link->cell[t - 1] > cell; t--) {
        link->cell[t] = link->cell[t - 1];
        link->coefficient[t] = link->coefficient[t - 1];
    }
    link->cell[t] = cell;
    link->coefficient[t] = coefficient;
}

static void turn_link(const struct twin_job *job, enum way way, const struct twin_link *from, struct twin_link *to)
{
    to->terms = 0;
    for (int64_t t = 0; t < from->terms; t++)
        add_term(to, turned_cell(job, way, from->cell[t]), from->coefficient[t]);
}

void turned_draft(const struct draft *draft, enum way way, struct draft *turned)
{
    const struct twin_job *job = &draft->job;
    *turned = *draft;
    turn_numbers(job, way, job->u, turned->job.u);
    turn_numbers(job, way, job->w, turned->job.w);
    turn_numbers(job, way, job->lo, turned->job.lo);
    turn_numbers(job, way, job->hi, turned->job.hi);
    turn_numbers(job, way, draft->table.value, turned->table.value);
    for (int64_t l = 0; l < job->links; l++)
        turn_link(job, way, &job->link[l], &turned->job.link[l]);
}
