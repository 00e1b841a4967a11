/* Jobs of one link whose first pass leaves a value or the multiplier half a unit off a whole one, if nothing were rounded: which way it goes tells the
 * order of the operations. */
#ifndef HALVES_H
#define HALVES_H

#include "drafts.h"

/* Gives the draft, which has a small shape with its constants, such crude rates, weights, boxes and a link, and the largest tolerance. The first pass is
 * accepted. Answers false where no half was found; then the job is any. */
bool halves_make(struct random *r, struct draft *draft);

#endif
