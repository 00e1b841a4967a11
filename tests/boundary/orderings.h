/* Drafts for proposals that honour links: jobs whose links the house's table breaks, with tolerances at which some pass is the first that is accepted; and
 * how many passes to allow. The passes are made beforehand, by the twin, so no job may make them long. */
#ifndef ORDERINGS_H
#define ORDERINGS_H

#include "drafts.h"

/* Makes such a job in the draft and answers the first pass that is accepted, or 0 if that is not known. The draft has no table of its own: all is 0. */
int64_t ordering_make(struct random *r, struct draft *draft);

/* One that is as large as can be: a line of the highest order, or a grid of 10 by 12. One of its first passes is accepted. */
void ordering_full(struct random *r, bool grid, struct draft *draft);

/* Takes links away from any draft until its passes are short. */
void ordering_lighten(struct twin_job *job);

/* Passes to allow where this one is the first accepted, or none is known: as many, one off, few, all, or a number that is not allowed. */
uint64_t ordering_passes(struct random *r, const struct twin_job *job, int64_t first);

#endif
