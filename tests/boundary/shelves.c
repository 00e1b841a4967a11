/* See shelves.h. */
#include "shelves.h"
#include "rows.h"

#include <string.h>

enum { REMEMBERED = 64 };

/* Drafts by society and by the job number's rest. One without cells was never kept. */
static struct draft remembered[SOCIETIES][REMEMBERED];

/* Words about the limits of what stands there, or any. */
static uint32_t odd_word(struct random *r, const uint32_t *some, int64_t count)
{
    return random_chance(r, 15) ? (uint32_t)random_next(r) : some[random_below(r, count)];
}

static uint32_t odd_cells(struct random *r)
{
    static const uint32_t some[] = {0, 1, 2, 3, 4, 119, MOST_CELLS, MOST_CELLS + 1, UINT32_MAX};
    return odd_word(r, some, 9);
}

static uint32_t odd_links(struct random *r, uint32_t links)
{
    const uint32_t some[] = {0, links + 1, links - 1, links + 256, links + 65536, MOST_LINKS, MOST_LINKS + 1, UINT32_MAX};
    return odd_word(r, some, 8);
}

static uint32_t odd_value(struct random *r, uint32_t value)
{
    const uint32_t some[] = {0, value + 1, value - 1, MOST_VALUE, MOST_VALUE + 1, MOST_VALUE + 1, (uint32_t)INT32_MAX + 1, UINT32_MAX};
    return odd_word(r, some, 8);
}

static uint32_t odd_multiplier(struct random *r, uint32_t multiplier)
{
    const uint32_t some[] = {0, multiplier + 1, multiplier - 1, MOST_VALUE + 1, MOST_MULTIPLIER, MOST_MULTIPLIER + 1, (uint32_t)INT32_MAX + 1,
                             UINT32_MAX};
    return odd_word(r, some, 8);
}

/* A slot of any words, mostly with a plausible count of cells and of links and one of a few jobs; often with numbers that are allowed. */
static void garbage_slot(struct random *r, uint32_t *slot)
{
    bool allowed = random_chance(r, 50);
    for (int64_t i = 0; i < SLOT_WORDS; i++)
        slot[i] = (uint32_t)random_next(r);
    for (int64_t i = AT_VALUES; i < SLOT_WORDS && allowed; i++)
        slot[i] = (uint32_t)random_below(r, i < AT_MULTIPLIERS && random_chance(r, 50) ? 1000 : MOST_VALUE + 1);
    if (random_chance(r, 95))
        slot[AT_CELLS] = random_chance(r, 60) ? odd_cells(r) : (uint32_t)random_between(r, 2, MOST_CELLS);
    if (random_chance(r, 90))
        slot[AT_JOB] = (uint32_t)random_below(r, random_chance(r, 50) ? 6 : JOB_NUMBERS);
    if (random_chance(r, 90))
        slot[AT_LINKS] = random_chance(r, 60) ? 0 : odd_links(r, 1);
}

/* Slots that begin elsewhere than behind the row are those of another layout. */
void shelf_begin(struct random *r, uint32_t *shelf)
{
    uint32_t row[ROW_WORDS];
    int64_t first = random_chance(r, 80) ? ROW_WORDS : random_below(r, ROW_WORDS);
    for (int64_t slot = 0; slot < ALL_SLOTS; slot++)
        garbage_slot(r, shelf + first + slot * SLOT_WORDS);
    row_allowed(r, row);
    if (random_chance(r, 60))
        twin_begin(shelf, row);
    else
        memcpy(shelf, row, sizeof row);
}

uint32_t *shelf_slot(struct random *r, uint32_t *shelf, uint32_t society)
{
    int64_t slots = random_between(r, 1, shelf[society]);
    return shelf + twin_start(shelf, society) + random_below(r, slots) * SLOT_WORDS;
}

/* Some word of those from `from` to `to`, if there are any: one that the kept counts use, or one that they leave unused. */
static uint32_t *some_word(struct random *r, uint32_t *slot, int64_t from, int64_t to)
{
    return from < to ? slot + random_between(r, from, to - 1) : slot + AT_LOSS;
}

static int64_t values_end(const uint32_t *slot)
{
    return AT_VALUES + (slot[AT_CELLS] < MOST_CELLS ? slot[AT_CELLS] : MOST_CELLS);
}

static int64_t multipliers_end(const uint32_t *slot)
{
    return AT_MULTIPLIERS + (slot[AT_LINKS] < MOST_LINKS ? slot[AT_LINKS] : MOST_LINKS);
}

static void spoil_word(struct random *r, uint32_t *slot)
{
    uint32_t *word;
    switch (random_below(r, 12)) {
    case 0: slot[AT_CELLS] = random_chance(r, 50) ? slot[AT_CELLS] + 1 : odd_cells(r); break;
    case 1: slot[AT_JOB] ^= 1u << random_below(r, 32); break;
    case 2:
    case 3: slot[AT_LINKS] = odd_links(r, slot[AT_LINKS]); break;
    case 4: *some_word(r, slot, AT_LOSS, AT_LINKS) = (uint32_t)random_next(r); break;
    case 5: *some_word(r, slot, values_end(slot), AT_MULTIPLIERS) = (uint32_t)random_next(r); break;
    case 6: *some_word(r, slot, multipliers_end(slot), SLOT_WORDS) = (uint32_t)random_next(r); break;
    case 7:
    case 8:
        word = some_word(r, slot, AT_VALUES, values_end(slot));
        *word = odd_value(r, *word);
        break;
    default:
        word = some_word(r, slot, AT_MULTIPLIERS, multipliers_end(slot));
        *word = odd_multiplier(r, *word);
        break;
    }
}

/* Another slot of the society has the job too, mostly in other words. */
static void duplicate(struct random *r, uint32_t *shelf, uint32_t society, const uint32_t *slot)
{
    uint32_t *other = shelf_slot(r, shelf, society);
    memmove(other, slot, SLOT_WORDS * sizeof *slot);
    if (random_chance(r, 80))
        spoil_word(r, other);
}

void shelf_spoil(struct random *r, uint32_t *shelf, uint32_t society, uint32_t job)
{
    const uint32_t *found = twin_find(shelf, society, job);
    if (!found)
        return;
    uint32_t *slot = shelf + (found - shelf);
    if (random_chance(r, 25)) {
        duplicate(r, shelf, society, slot);
        return;
    }
    spoil_word(r, slot);
    if (random_chance(r, 30))
        spoil_word(r, slot);
}

void shelf_remember(const struct bytes *job, const struct bytes *proposal)
{
    static struct draft kept;
    twin_read_job(job->at, job->count, &kept.job);
    twin_read_proposal(proposal->at, proposal->count, &kept.job, &kept.table);
    remembered[kept.job.society][kept.job.number % REMEMBERED] = kept;
}

const struct draft *shelf_recall(uint32_t society, uint32_t job)
{
    const struct draft *d = &remembered[society][job % REMEMBERED];
    return d->job.cells > 0 && d->job.number == job ? d : NULL;
}
