/* What the calls on a shelf have met of counts of slots (document 02, W-209): every place of 22 at every call, and full spans, short and long. */
#ifndef REACHED_H
#define REACHED_H

#include "calls.h"

/* Counts the call, which returned `said` and left its first slice so. */
void reached_note(const struct call *call, uint64_t said, const void *after);

void reached_print(void);

/* Answers 1 and says what is missing if some of it was never met. */
int reached_judge(void);

#endif
