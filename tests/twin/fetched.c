/* Fetches worked by hand (document 02, W-203): document 01's example with its link, kept with the multiplier 2, and jobs that differ from it in one
 * number. */
#include "parts.h"
#include "tables.h"
#include "twin.h"

#include <string.h>

/* Three cells with crude rates 0 5 0, weights 1, boxes 0..100, order 2, constant 1, tolerance 2, and the link -v0+v1 <= 0. */
static const uint8_t JOB[] = {3, 7, 3, 2, 1, 2, 0, 1, 0, 100, 5, 1, 0, 100, 0, 1, 0, 100, 1, 2, 0, 1, 1, 2, 0};
static uint32_t shelf[SHELF_WORDS];

/* Society 3's first slot where each society has four: behind the leading row and twelve slots. */
static uint32_t *const slot = shelf + 8 + 12 * 287;

/* What the slot holds where the society has no other table: F 15, G 0, one link, v 2 2 1 and the multiplier 2. */
static void slot_is_kept(void)
{
    const uint32_t counts[] = {4, 4, 4, 4, 4, 4, 4, 4};
    const uint8_t proposal[] = {2, 2, 1, 2};
    uint32_t expected[SLOT_WORDS] = {3, 7, 15, 0, 0, 0, 1, 2, 2, 1};
    uint64_t answer[ANSWER_WORDS];
    expected[127] = 2;
    expect(sizeof expected == 287 * 4 && sizeof shelf == 9192 * 4, "287 words of a slot, 9,192 of a shelf");
    expect(twin_clear(shelf, 9192, counts, answer, 4) == 0, "the shelf is cleared");
    expect(twin_keep(shelf, 9192, JOB, sizeof JOB, proposal, 4, answer, 4) == 0, "the table is kept");
    expect(memcmp(slot, expected, sizeof expected) == 0, "the words of its slot");
}

/* One byte of the job or one word of the slot is changed. The residuals are 0; with crude rate 6 that of cell 1 is -2 (term 1), with weight 2 that of
 * cell 0 is 4 (term 16/8), with multiplier 0 those of cells 0 and 1 are 2 and -2 (terms 1 and 1). With bound 2 the link's term is 2*2,
 * and its place 3 + 0. */
static const struct changed {
    const char *what;
    size_t byte, word;
    uint8_t byte_to;
    uint32_t word_to;
    uint64_t number, place, loss, gap;
} CHANGED[] = {
    {"as it was", 0, 0, 3, 3, 0, 3, 15, 0},
    {"crude rate 6 in cell 1", 10, 0, 6, 3, 0, 3, 22, 1},
    {"weight 2 in cell 0, tolerance 2", 7, 0, 2, 3, 0, 3, 19, 2},
    {"ceiling 1 in cell 1", 13, 0, 1, 3, 7, 1, 0, 0},
    {"bound -1", 24, 0, 1, 3, 8, 0, 0, 0},
    {"bound 2", 24, 0, 4, 3, 9, 3, 0, 0},
    {"society 2", 0, 0, 2, 3, 12, 0, 0, 0},
    {"society 8", 0, 0, 8, 3, 2, 0, 0, 0},
    {"a kept multiplier of 0", 0, 127, 3, 0, 0, 3, 15, 2},
    {"a kept multiplier of 10^9 + 1", 0, 127, 3, 1000000001, 6, 127, 0, 0},
    {"a kept value of 1,000,001", 0, 9, 3, 1000001, 6, 9, 0, 0},
    {"a kept link count of 161", 0, 6, 3, 161, 12, 0, 0, 0},
    {"a kept cell count of 4", 0, 0, 3, 4, 12, 0, 0, 0},
};

void fetched_tables(void)
{
    uint8_t job[sizeof JOB];
    uint32_t out[3];
    uint64_t answer[ANSWER_WORDS];
    slot_is_kept();
    for (size_t i = 0; i < sizeof CHANGED / sizeof *CHANGED; i++) {
        const struct changed *c = &CHANGED[i];
        uint32_t was = slot[c->word];
        memcpy(job, JOB, sizeof JOB);
        job[c->byte] = c->byte_to;
        slot[c->word] = c->word_to;
        uint64_t said = twin_fetch(shelf, 9192, job, sizeof job, out, 3, answer, 4);
        expect(said == 32 * c->place + c->number && answer[2] == c->loss && answer[3] == c->gap, c->what);
        slot[c->word] = was;
    }
    expect(twin_fetch(shelf, 9192, JOB, sizeof JOB, out, 2, answer, 4) == 32 * 3 + 13, "room for two values");
    expect(twin_fetch(shelf, 4032, JOB, sizeof JOB, out, 3, answer, 4) == 32 * 9192 + 13, "a shelf of 4,032 words");
    expect(twin_fetch(shelf, 9184, JOB, sizeof JOB, out, 3, answer, 4) == 32 * 9192 + 13, "a shelf of 9,184 words");
}
