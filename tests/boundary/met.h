/* What the drafts written in reverse have met (document 02, W-213): the numbers of the check, places that moved, orders of a link's terms, and shapes. */
#ifndef MET_H
#define MET_H

#include "turned.h"

extern const char *const way_names[WAYS];

/* Counts a draft that is turned, once for all ways. */
void met_shape(const struct twin_job *job);

/* Counts the draft turned so: the number that both checks gave, and their places. */
void met_turned(const struct twin_job *job, enum way way, uint64_t number, uint64_t place, uint64_t turned_place);

void met_print(void);

/* Answers 1 and says what is missing if some of it was never met, or what was met that cannot be. */
int met_judge(void);

#endif
