/* Shapes of jobs: a line of an order, or a grid of rows and columns with two orders and two constants; and the positive weights that a shape
 * needs. */
#ifndef SHAPES_H
#define SHAPES_H

#include "../twin/parts.h"
#include "random.h"

static inline bool shape_is_grid(const struct twin_job *job) { return job->order_field == GRID; }

/* Makes the job a line, or a grid. Its constants are left to the caller, but that a line has no second one. */
void shape_line(struct twin_job *job, int64_t cells, int64_t order_field);
void shape_grid(struct twin_job *job, int64_t rows, int64_t columns, int64_t down, int64_t across);

/* A line or a grid at random, with its constants. A grid may be too wide for the house. */
void shape_draw_line(struct random *r, struct twin_job *job);
void shape_draw_grid(struct random *r, struct twin_job *job);

/* An order for so many cells. */
int64_t shape_draw_order(struct random *r, int64_t length);

/* Adds positive weights until there are enough of them (refusal 4). */
void shape_add_weights(struct twin_job *job);

/* Takes positive weights away until there are too few, but so that a looser rule would often find enough: the rows that still have enough may be
 * full, and the others just short. */
void shape_starve(struct random *r, struct twin_job *job);

/* Breaks one field of a grid, or the rule between two (refusal 2). */
void shape_break(struct random *r, struct twin_job *job);

#endif
