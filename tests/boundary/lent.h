/* The memory that a call is lent: each slice in a region of its own between two pages that nobody may touch, once for each side. */
#ifndef LENT_H
#define LENT_H

#include <stdbool.h>
#include <stddef.h>
#include <stdint.h>

enum { MOST_SLICES = 4, SIDES = 2 };

/* Where a slice lies in its region: with guard bytes on both sides, or flush against the page after it or before it. */
enum lie { MIDDLE, END, START };

/* One slice of a call: what it holds before the call, and whether the call may write it. */
struct slice {
    const void *content;
    size_t count, width;
    bool writable;
};

void lent_open(enum lie lie);

/* Lays the slice out for a side and answers its address. */
void *lent_lay(int side, int index, const struct slice *slice);
void *lent_at(int side, int index, const struct slice *slice);

/* Whether the bytes around the slice are as they were laid. */
bool lent_guarded(int side, int index, const struct slice *slice);

#endif
