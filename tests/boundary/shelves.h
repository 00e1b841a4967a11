/* Shelves for scenes: cleared ones, ones of any words behind the leading row, and kept slots that are spoilt; and what was kept under which name.
 * A shelf's leading row is allowed wherever one is taken. */
#ifndef SHELVES_H
#define SHELVES_H

#include "numbers.h"

/* Job numbers below this are common, so many that every society's slots get full. */
enum { JOB_NUMBERS = 40 };

/* The words of a shelf of version 2 and of version 3 of bench.h, which are refused. */
enum { SHELF_WORDS_2 = 4032, SHELF_WORDS_3 = 9184 };

/* A cleared shelf, or any words, with some counts. The words behind the last span are any words. */
void shelf_begin(struct random *r, uint32_t *shelf);

/* Some slot of the society, the lower ones more often. */
uint32_t *shelf_slot(struct random *r, uint32_t *shelf, uint32_t society);

/* Spoils the slot that has the society's job, if there is one: one or two of its words, or another slot of that society by a copy of it. */
void shelf_spoil(struct random *r, uint32_t *shelf, uint32_t society, uint32_t job);

/* Remembers what was kept from these packs. The draft that was last kept under a name is recalled, or a null pointer: some are lost. */
void shelf_remember(const struct bytes *job, const struct bytes *proposal);
const struct draft *shelf_recall(uint32_t society, uint32_t job);

#endif
