/* Extreme jobs of grids: those of extremes.h that a grid makes in its own way. Each takes a header that is drawn. */
#ifndef GRIDS_H
#define GRIDS_H

#include "../twin/parts.h"
#include "random.h"

/* A large grid whose constants come to 1,000. */
void grid_largest(struct random *r, struct twin_job *job);

/* Weights in the first rows or the first columns alone, or in rows and columns far apart. */
void grid_pivots(struct random *r, struct twin_job *job);

/* Few cells with small weights and constants, or every other cell on a plane that passes the rest at a half. */
void grid_halves(struct random *r, struct twin_job *job);

#endif
