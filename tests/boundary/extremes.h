/* Drafts at the ends of the ranges, where 64 bits, the square's limit or an f64 come to their own limits. Each takes a header that is drawn. */
#ifndef EXTREMES_H
#define EXTREMES_H

#include "drafts.h"

/* A residual at or about plus or minus 2,000,000,000, where the square and the box term are both about 10^15. */
void extreme_residual(struct random *r, struct draft *draft);

/* A gap of 2^63 or 2^64, a little less or a little more. */
void extreme_gap(struct random *r, struct draft *draft);

/* A table that goes up and down as far as it can: the largest loss. */
void extreme_loss(struct random *r, struct draft *draft);

/* Few weights in a long table: the house proposal's pivots are small, or too small, and its values feel every rounding. */
void extreme_pivots(struct random *r, struct twin_job *job);

/* Values of the house proposal that are half a unit off a whole one, or would be if nothing were rounded. */
void extreme_halves(struct random *r, struct twin_job *job);

#endif
