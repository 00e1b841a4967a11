/* What proposals that honour links have met (document 02, W-207): the count of passes made, the passes given where none was accepted or the number was not
 * allowed, jobs without links and as large as can be, and multipliers at their limit. */
#ifndef PASSES_H
#define PASSES_H

#include "calls.h"

/* Counts the call, which returned `said` and left its output and its answer so. */
void passes_note(const struct call *call, uint64_t said, const void *out, const uint64_t *answer);

void passes_print(void);

/* Answers 1 and says what is missing if some of it was never met. */
int passes_judge(void);

#endif
