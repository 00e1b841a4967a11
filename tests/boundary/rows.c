/* See rows.h. */
#include "rows.h"
#include "drafts.h"

static uint32_t total_of(const uint32_t *row)
{
    uint32_t total = 0;
    for (int s = 0; s < SOCIETIES; s++)
        total += row[s];
    return total;
}

/* Adds slots one by one, each to some society that has not the most, until there are so many. */
static void add_slots(struct random *r, uint32_t *row, uint32_t total)
{
    while (total_of(row) < total) {
        uint32_t *count = &row[random_below(r, SOCIETIES)];
        *count += *count < MOST_SLOTS;
    }
}

static void same_for_all(uint32_t *row, uint32_t count)
{
    for (int s = 0; s < SOCIETIES; s++)
        row[s] = count;
}

/* The request's own: ten for two societies, two for the others. */
static void ten_ten_two(struct random *r, uint32_t *row)
{
    same_for_all(row, 2);
    row[random_below(r, SOCIETIES - 1)] = 10;
    row[SOCIETIES - 1] = 10;
}

void row_allowed(struct random *r, uint32_t *row)
{
    static const uint32_t some[] = {1, 2, 10, MOST_SLOTS, MOST_SLOTS};
    int64_t way = random_below(r, 10);
    same_for_all(row, 1);
    if (way == 0) {
        same_for_all(row, ALL_SLOTS / SOCIETIES);
    } else if (way == 1) {
        ten_ten_two(r, row);
    } else if (way > 2) {
        int64_t society = draft_society(r);
        row[society] = some[random_below(r, 5)];
        add_slots(r, row, random_chance(r, 40) ? ALL_SLOTS : (uint32_t)random_between(r, total_of(row), ALL_SLOTS));
    }
}

int64_t row_longest(const uint32_t *row)
{
    int64_t longest = 0;
    for (int64_t s = 1; s < SOCIETIES; s++)
        if (row[s] > row[longest])
            longest = s;
    return longest;
}

/* A count out of 1 to 16. Some look allowed in their low bits, as a sign, or as part of a sum. */
static uint32_t odd_count(struct random *r, uint32_t count)
{
    const uint32_t some[] = {0, 0, MOST_SLOTS + 1, MOST_SLOTS + 1, MOST_SLOTS + 2, ALL_SLOTS, 256, 256 + count, 65536 + count,
                             (uint32_t)INT32_MAX + 1, (uint32_t)INT32_MAX + 1 + count, UINT32_MAX, UINT32_MAX - count};
    return random_chance(r, 10) ? (uint32_t)random_next(r) | MOST_SLOTS * 2 : some[random_below(r, 13)];
}

static void spoil_one(struct random *r, uint32_t *row)
{
    uint32_t *count = &row[random_below(r, SOCIETIES)];
    *count = odd_count(r, *count % MOST_SLOTS);
}

void row_spoil(struct random *r, uint32_t *row)
{
    int64_t way = random_below(r, 20);
    if (way < 3)
        add_slots(r, row, (uint32_t)random_between(r, ALL_SLOTS + 1, SOCIETIES * MOST_SLOTS));
    else if (way == 3)
        add_slots(r, row, (uint32_t)random_between(r, ALL_SLOTS + 1, ALL_SLOTS + 8));
    else if (way < 6)
        add_slots(r, row, ALL_SLOTS + 1);
    else if (way == 6)
        for (int s = 0; s < SOCIETIES; s++)
            row[s] = odd_count(r, (uint32_t)random_below(r, MOST_SLOTS));
    if (way < 2 || way > 6)
        spoil_one(r, row);
    if (way > 16)
        spoil_one(r, row);
}
