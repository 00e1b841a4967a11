/* One call with its slices, made on both sides (the bench and the twin) with the same memory, and compared byte by byte. */
#ifndef CALLS_H
#define CALLS_H

#include "lent.h"

enum function { CHECK, TERMS, PROPOSE, LINKED, KEEP, FETCH, FORGET, CLEAR, READ, WRITE, IMPORT, EXPORT, RATES, FUNCTIONS };

/* The numbers that an import takes beside its list, in their order. */
enum import_number { DIVISOR, SOCIETY, JOB, ORDER, CONSTANT, TOLERANCE, FLOOR, CEILING, IMPORT_NUMBERS };

/* The slices stand in the order of the call's own; the last is the answer slice. The counts of a clearing, an array, stand among them. `grid` if its
 * job, before any damage, is a grid. Only a proposal that honours links takes passes, only forget society and job by themselves; only import has
 * numbers, and only export a first age. */
struct call {
    enum function function;
    bool grid;
    int slices;
    struct slice slice[MOST_SLICES];
    uint32_t society, job;
    uint64_t passes, number[IMPORT_NUMBERS], first_age;
};

extern const char *const call_names[FUNCTIONS];

/* Makes the call on both sides, and a proposal that honours links once more with the twin's kept solutions. `said` gets what each returned; the answer
 * is what differs or was touched, or a null pointer. */
const char *call_both(const struct call *call, uint64_t said[SIDES]);

/* Prints the call, what both sides answered, and every slice as it was before, for a person to make it again. */
void call_report(const struct call *call, const uint64_t said[SIDES]);

#endif
