/* What refusal 9 has met, and lists of terms whose total is above the tolerance (document 02, W-202): what supplied the largest term, which other terms
 * were equal to it, and where the total passed the tolerance. */
#ifndef NINES_H
#define NINES_H

#include "calls.h"

/* Counts the call, which returned `said`. */
void nines_note(const struct call *call, uint64_t said);

void nines_print(void);

/* Answers 1 and says what is missing if some of it was never met. */
int nines_judge(void);

#endif
