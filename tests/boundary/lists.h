/* Comma lists for random calls (document 02, W-201): good ones, ones at the edges of what is allowed, and damaged ones, with the numbers that an import
 * or an export takes beside them. */
#ifndef LISTS_H
#define LISTS_H

#include "calls.h"
#include "numbers.h"

enum { MOST_RATES = 130 };

/* The numbers of an import: most of them allowed. */
void list_numbers(struct random *r, uint64_t number[IMPORT_NUMBERS]);

/* A claims list, with exposures that make weights about 0, 1 and 1,000 for the divisor; or a table. About every second is damaged, some of them twice. */
void list_claims(struct random *r, uint64_t divisor, struct bytes *out);
void list_table(struct random *r, struct bytes *out);

/* The rates of an export, at most MOST_RATES, and its first age. The answer is their count. */
size_t list_rates(struct random *r, uint32_t *rates, uint64_t *first_age);

#endif
