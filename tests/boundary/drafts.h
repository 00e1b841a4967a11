/* Drafts: a job with a table that meets it, made at random; and breaking one rule of a draft. */
#ifndef DRAFTS_H
#define DRAFTS_H

#include "../twin/parts.h"
#include "random.h"

struct draft {
    struct twin_job job;
    struct twin_table table;
};

/* A society: the first and the last more often than others, so that some get many calls. */
int64_t draft_society(struct random *r);

/* A draft that the check accepts, or refuses with 9 alone. Its tolerance is often its gap, or one off. */
void draft_make(struct random *r, struct draft *draft);

/* The largest draft in every count: 120 cells, 160 links of 4 terms, accepted, of this order field. */
void draft_full(struct random *r, int64_t order_field, struct draft *draft);

/* The same of a grid of so many columns and these orders. */
void draft_full_grid(struct random *r, int64_t columns, int64_t down, int64_t across, struct draft *draft);

/* Sets the largest tolerance and answers the gap of the draft's table, or that tolerance if the check refuses it. */
int64_t draft_gap(struct draft *draft);

/* Sets the tolerance: the gap of the draft's table, one off, any other, or the largest. */
void draft_settle(struct random *r, struct draft *draft);

/* A link's sum over a table's values. */
int64_t draft_sum(const struct twin_link *link, const struct twin_table *table);

/* Breaks one rule that is about more than one number: refusals 3, 4, 5, 7, 8 or 9, where the draft has room for it, and 2 of a grid. */
void draft_break(struct random *r, struct draft *draft);

#endif
