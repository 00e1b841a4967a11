/* Leading rows of a shelf, and counts for a clearing: eight counts of slots that are allowed, or that are not in one of several ways. */
#ifndef ROWS_H
#define ROWS_H

#include "../twin/parts.h"
#include "random.h"

/* Counts that are allowed: often 1, 2, 10 or 16 slots for a society that the drafts often name, and often all slots. */
void row_allowed(struct random *r, uint32_t *row);

/* The first society that no other has more slots than. */
int64_t row_longest(const uint32_t *row);

/* Makes allowed counts into some that are not: a count or several out of 1 to 16, any words, or a total just above the most or far above it. */
void row_spoil(struct random *r, uint32_t *row);

#endif
