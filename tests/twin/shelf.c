/* The shelf (document 01; the words of a slot and what fetch asks of them document 02, W-203; the leading row W-209): eight societies, each with its
 * own count of slots, on lent words that may hold anything. */
#include "parts.h"

#include <string.h>

/* "Place the lowest wrong society, or 8 for the total": every count is tested before the total is. */
struct twin_answer twin_counts(const uint32_t *counts)
{
    uint32_t total = 0;
    for (uint32_t society = 0; society < SOCIETIES; society++) {
        if (counts[society] < 1 || counts[society] > MOST_SLOTS)
            return twin_plain(22, society);
        total += counts[society];
    }
    return total > ALL_SLOTS ? twin_plain(22, SOCIETIES) : twin_plain(0, 0);
}

/* "Places follow in society order", behind the leading row. */
size_t twin_start(const uint32_t *shelf, uint32_t society)
{
    size_t before = 0;
    for (uint32_t s = 0; s < society; s++)
        before += shelf[s];
    return ROW_WORDS + before * SLOT_WORDS;
}

static uint32_t *slot_at(uint32_t *shelf, uint32_t society, uint32_t slot)
{
    return shelf + twin_start(shelf, society) + slot * SLOT_WORDS;
}

static uint32_t *last_slot(uint32_t *shelf, uint32_t society)
{
    return slot_at(shelf, society, shelf[society] - 1);
}

static bool is_empty(const uint32_t *slot)
{
    return slot[AT_CELLS] < 2 || slot[AT_CELLS] > MOST_CELLS;
}

const uint32_t *twin_find(const uint32_t *shelf, uint32_t society, uint32_t job)
{
    const uint32_t *slot = shelf + twin_start(shelf, society);
    for (uint32_t s = 0; s < shelf[society]; s++, slot += SLOT_WORDS)
        if (!is_empty(slot) && slot[AT_JOB] == job)
            return slot;
    return NULL;
}

/* "12 also when the kept cell or link count differs from the job's": a kept link count above 160 differs from every job's. */
const uint32_t *twin_find_for(const uint32_t *shelf, const struct twin_job *job)
{
    const uint32_t *slot = twin_find(shelf, (uint32_t)job->society, (uint32_t)job->number);
    if (!slot || slot[AT_CELLS] != job->cells || slot[AT_LINKS] != job->links)
        return NULL;
    return slot;
}

/* "6 for a kept number not allowed, place its word within the place": the values first, and no word that the job's counts leave unused. */
struct twin_answer twin_take_table(const uint32_t *slot, const struct twin_job *job, struct twin_table *table)
{
    for (int64_t i = 0; i < job->cells; i++) {
        table->value[i] = slot[AT_VALUES + i];
        if (table->value[i] > MOST_VALUE)
            return twin_plain(6, (uint64_t)(AT_VALUES + i));
    }
    for (int64_t l = 0; l < job->links; l++) {
        table->multiplier[l] = slot[AT_MULTIPLIERS + l];
        if (table->multiplier[l] > MOST_MULTIPLIER)
            return twin_plain(6, (uint64_t)(AT_MULTIPLIERS + l));
    }
    return twin_plain(0, 0);
}

/* Moves the society's slots after this one down by one. The last stays as it was. */
static void move_down(uint32_t *shelf, uint32_t society, uint32_t *slot)
{
    memmove(slot, slot + SLOT_WORDS, (size_t)(last_slot(shelf, society) - slot) * sizeof *slot);
}

/* Where a table goes: its job's slot, else the lowest empty one, else the last, after the others have moved. */
static uint32_t *slot_for(uint32_t *shelf, uint32_t society, uint32_t job)
{
    const uint32_t *found = twin_find(shelf, society, job);
    if (found)
        return shelf + (found - shelf);
    for (uint32_t s = 0; s < shelf[society]; s++)
        if (is_empty(slot_at(shelf, society, s)))
            return slot_at(shelf, society, s);
    move_down(shelf, society, slot_at(shelf, society, 0));
    return last_slot(shelf, society);
}

static void put_wide(uint32_t *low_and_high, uint64_t value)
{
    low_and_high[0] = (uint32_t)value;
    low_and_high[1] = (uint32_t)(value >> 32);
}

void twin_put_table(uint32_t *shelf, const struct twin_job *job, const struct twin_table *table, uint64_t loss, uint64_t gap)
{
    uint32_t *slot = slot_for(shelf, (uint32_t)job->society, (uint32_t)job->number);
    memset(slot, 0, SLOT_WORDS * sizeof *slot);
    slot[AT_CELLS] = (uint32_t)job->cells;
    slot[AT_JOB] = (uint32_t)job->number;
    put_wide(slot + AT_LOSS, loss);
    put_wide(slot + AT_GAP, gap);
    slot[AT_LINKS] = (uint32_t)job->links;
    for (int64_t i = 0; i < job->cells; i++)
        slot[AT_VALUES + i] = (uint32_t)table->value[i];
    for (int64_t l = 0; l < job->links; l++)
        slot[AT_MULTIPLIERS + l] = (uint32_t)table->multiplier[l];
}

bool twin_remove(uint32_t *shelf, uint32_t society, uint32_t job)
{
    const uint32_t *found = twin_find(shelf, society, job);
    if (!found)
        return false;
    move_down(shelf, society, shelf + (found - shelf));
    memset(last_slot(shelf, society), 0, SLOT_WORDS * sizeof *shelf);
    return true;
}

/* Clearing "alone takes and sets the counts"; "the rest of it is never touched". */
void twin_begin(uint32_t *shelf, const uint32_t *counts)
{
    memcpy(shelf, counts, ROW_WORDS * sizeof *shelf);
    memset(shelf + ROW_WORDS, 0, (twin_start(shelf, SOCIETIES) - ROW_WORDS) * sizeof *shelf);
}
