/* A seeded sequence of numbers, the same on every machine, so that a mismatch can be made again from its seed.
 * No expression draws twice without an order between the two draws. */
#ifndef RANDOM_H
#define RANDOM_H

#include <stdbool.h>
#include <stdint.h>

struct random {
    uint64_t state;
};

static inline uint64_t random_next(struct random *r)
{
    uint64_t x = r->state += 0x9E3779B97F4A7C15u;
    x = (x ^ (x >> 30)) * 0xBF58476D1CE4E5B9u;
    x = (x ^ (x >> 27)) * 0x94D049BB133111EBu;
    return x ^ (x >> 31);
}

/* 0 to limit - 1. */
static inline int64_t random_below(struct random *r, int64_t limit)
{
    return (int64_t)(random_next(r) % (uint64_t)limit);
}

static inline int64_t random_between(struct random *r, int64_t low, int64_t high)
{
    return low + random_below(r, high - low + 1);
}

static inline bool random_chance(struct random *r, int percent)
{
    return random_below(r, 100) < percent;
}

#endif
