/* Corrections: the job of a kept table as its society may send it again. The draft's table is the kept one and stays. */
#ifndef CORRECTIONS_H
#define CORRECTIONS_H

#include "drafts.h"

/* Mends crude rates, weights, boxes, a link, constants, the shape or the tolerance alone. The job stays allowed, with as many cells and links;
 * the check of the table gives 0, 7, 8 or 9. */
void correct_job(struct random *r, struct draft *draft);

/* Another count of cells or of links. */
void correct_counts(struct random *r, struct twin_job *job);

/* Another society or another job number. */
void correct_name(struct random *r, struct twin_job *job);

#endif
