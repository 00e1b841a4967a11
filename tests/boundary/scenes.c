/* See scenes.h. The twin is asked beforehand how much room an output needs, so that lengths can be exact or one short. */
#include "scenes.h"
#include "../twin/twin.h"
#include "corrections.h"
#include "lists.h"
#include "orderings.h"
#include "rows.h"
#include "shapes.h"
#include "shelves.h"

#include <string.h>

/* The draft that is in use: `drawn`, for a fetch `asked`, for a proposal that honours links `ordered`, or a broken copy of it. */
static struct draft drawn, asked, ordered, broken;
static const struct draft *draft = &drawn;
static struct numbers list;
static struct bytes job_pack, proposal_pack, text;
static struct words job_words;
static uint32_t shelf[SHELF_WORDS + 8];
static uint64_t noise[8192];
static bool begun;

/* Room for a job made of a list, and for a list made of a table. */
enum { MOST_LIST_ROOM = 4096 };

/* The counts of a clearing, and the shelf's own row while one that is not allowed stands in its place for a call. */
static uint32_t counts[SOCIETIES], own_row[ROW_WORDS];
static bool row_is_spoilt;

/* Proposals that honour links so far. Lines and grids as large as can be take long, so only few of the calls have one. */
static int64_t linked_calls;
enum { FULL_EACH = 100, FULL_LAST = 600 };

/* Calls that are left of a stretch in which one society keeps many tables: its slots get full, however many they are. */
static int64_t filling, filled_society;

/* What outputs and answer slices hold before a call: any words. */
static const void *some_noise(struct random *r)
{
    return noise + random_below(r, 4096);
}

static void lend(struct call *c, const void *content, size_t count, size_t width, bool writable)
{
    struct slice slice = {content, count, width, writable};
    c->slice[c->slices++] = slice;
}

/* Clear, which is seldom called, gets a wrong answer slice and a wrong shelf more often; the calls on lists a wrong answer slice. */
static void lend_answer(struct random *r, struct call *c)
{
    static const size_t odd[] = {0, 3, 5, 8};
    size_t count = random_chance(r, c->function == CLEAR ? 15 : c->function >= IMPORT ? 6 : 3) ? odd[random_below(r, 4)] : ANSWER_WORDS;
    lend(c, some_noise(r), count, sizeof(uint64_t), true);
}

static void lend_shelf(struct random *r, struct call *c)
{
    const size_t odd[] = {0, ROW_WORDS, twin_start(shelf, SOCIETIES), SHELF_WORDS_2, SHELF_WORDS_3, SHELF_WORDS - 1, SHELF_WORDS + 1};
    size_t count = random_chance(r, c->function == CLEAR ? 30 : 3) ? odd[random_below(r, 7)] : SHELF_WORDS;
    lend(c, shelf, count, sizeof *shelf, c->function != FETCH);
}

/* The counts that a clearing is handed: every other time some that are not allowed. */
static void lend_counts(struct random *r, struct call *c)
{
    row_allowed(r, counts);
    if (random_chance(r, 50))
        row_spoil(r, counts);
    lend(c, counts, SOCIETIES, sizeof *counts, false);
}

/* For this call alone the shelf has a row that is not allowed. Forget and clear, which are seldom called, get one more often. */
static void spoil_row(struct random *r, enum function function)
{
    row_is_spoilt = random_chance(r, function == FORGET || function == CLEAR ? 20 : 6);
    if (!row_is_spoilt)
        return;
    memcpy(own_row, shelf, sizeof own_row);
    row_spoil(r, shelf);
}

/* An output where `needed` elements would be written (0: the call is refused before). */
static void lend_output(struct random *r, struct call *c, uint64_t needed, size_t most, size_t width)
{
    int64_t way = random_below(r, 10);
    size_t count = way < 4 ? needed : way < 5 ? needed + 1 : way < 7 && needed > 0 ? needed - 1 : way < 9 ? most
                 : (size_t)random_below(r, (int64_t)most + 40);
    lend(c, some_noise(r), count, width, true);
}

static void break_draft(struct random *r)
{
    broken = *draft;
    draft = &broken;
    draft_break(r, &broken);
    if (random_chance(r, 15))
        draft_break(r, &broken);
}

/* The draft's job pack: whole, with a broken rule, or damaged; now and then twice, so that the order of refusals shows. */
static void draw_job(struct random *r, const struct draft *of)
{
    bool rule = random_chance(r, 22), number = !rule && random_chance(r, 28);
    draft = of;
    if (rule)
        break_draft(r);
    numbers_of_job(&draft->job, &list);
    if (number)
        numbers_spoil_pack(r, &list, &job_pack);
    else
        numbers_pack(&list, &job_pack);
    if ((rule || number) && random_chance(r, 15))
        bytes_spoil(r, &job_pack);
}

/* The proposal for the job just drawn: the planted table, the house's own, or a damaged one. */
static void draw_proposal(struct random *r)
{
    numbers_of_proposal(draft, &list);
    if (random_chance(r, 15)) {
        uint64_t answer[ANSWER_WORDS];
        proposal_pack.count = twin_propose(job_pack.at, job_pack.count, proposal_pack.at, MOST_BYTES, answer, ANSWER_WORDS) / 32;
        if (answer[0] == 0)
            return;
    }
    if (random_chance(r, 20))
        numbers_spoil_pack(r, &list, &proposal_pack);
    else
        numbers_pack(&list, &proposal_pack);
    if (random_chance(r, 3))
        bytes_spoil(r, &proposal_pack);
}

static void draw_words(struct random *r)
{
    draft = &drawn;
    if (random_chance(r, 25))
        break_draft(r);
    numbers_of_job(&draft->job, &list);
    numbers_words(&list, &job_words);
    if (random_chance(r, 40))
        words_spoil(r, &list, &job_words);
    if (random_chance(r, 8))
        words_spoil(r, &list, &job_words);
}

/* A society and a job number: those of kept tables as often as others. */
static void draw_key(struct random *r, struct call *c)
{
    c->society = (uint32_t)draft_society(r);
    c->job = (uint32_t)random_below(r, 6);
    if (random_chance(r, 70))
        c->job = shelf_slot(r, shelf, c->society)[AT_JOB];
}

/* What to forget: now and then of a society that there is not. */
static void draw_forgotten(struct random *r, struct call *c)
{
    static const uint32_t odd[] = {SOCIETIES, SOCIETIES + 1, 32, UINT32_MAX};
    draw_key(r, c);
    if (random_chance(r, 8))
        c->society = odd[random_below(r, 4)];
}

/* Something that is kept and remembered, or a null pointer where a few tries find nothing. */
static const struct draft *some_kept(struct random *r, struct call *c)
{
    for (int tries = 0; tries < 8; tries++) {
        draw_key(r, c);
        const struct draft *kept = shelf_recall(c->society, c->job);
        if (kept && twin_find(shelf, c->society, c->job))
            return kept;
    }
    return NULL;
}

/* The job to fetch for: a kept table's own as it was, corrected, with other counts or under another name; or the one that is drawn. */
static void draw_asked(struct random *r, struct call *c)
{
    const struct draft *kept = some_kept(r, c);
    int64_t way = random_below(r, 10);
    asked = kept && random_chance(r, 95) ? *kept : drawn;
    if (way < 5)
        correct_job(r, &asked);
    else if (way == 5)
        correct_counts(r, &asked.job);
    else if (way == 6)
        correct_name(r, &asked.job);
    draw_job(r, &asked);
    if (random_chance(r, 15))
        shelf_spoil(r, shelf, (uint32_t)asked.job.society, (uint32_t)asked.job.number);
}

static void lend_job(struct call *c)
{
    c->grid = shape_is_grid(&draft->job);
    lend(c, job_pack.at, job_pack.count, 1, false);
}

/* A job pack and a proposal for it: check, terms and keep take both. */
static void lend_packs(struct random *r, struct call *c)
{
    draw_job(r, &drawn);
    draw_proposal(r);
    lend_job(c);
    lend(c, proposal_pack.at, proposal_pack.count, 1, false);
}

/* What the twin wrote into ample room, by what it returned. */
static uint64_t written(uint64_t said) { return said % 32 == 0 ? said / 32 : 0; }

static void lend_terms(struct random *r, struct call *c)
{
    int64_t room[TERM_WORDS * (MOST_CELLS + MOST_LINKS)];
    uint64_t answer[ANSWER_WORDS];
    size_t most = sizeof room / sizeof *room;
    uint64_t said = twin_terms(job_pack.at, job_pack.count, proposal_pack.at, proposal_pack.count, room, most, answer, ANSWER_WORDS);
    lend_output(r, c, written(said), most, sizeof *room);
}

/* The draft for a proposal that honours links, with the first pass that is accepted or 0. */
static int64_t draw_ordered(struct random *r)
{
    linked_calls++;
    if (linked_calls % FULL_EACH == 0 && linked_calls <= FULL_LAST) {
        ordering_full(r, linked_calls / FULL_EACH % 2 == 0, &ordered);
        return 0;
    }
    if (random_chance(r, 75))
        return ordering_make(r, &ordered);
    ordered = drawn;
    ordering_lighten(&ordered.job);
    return 0;
}

static void lend_linked(struct random *r, struct call *c)
{
    uint8_t room[2000];
    uint64_t answer[ANSWER_WORDS];
    int64_t first = draw_ordered(r);
    bool full = ordered.job.links == MOST_LINKS;
    if (full) {
        draft = &ordered;
        numbers_of_job(&ordered.job, &list);
        numbers_pack(&list, &job_pack);
    } else {
        draw_job(r, &ordered);
    }
    lend_job(c);
    c->passes = full ? 2 : ordering_passes(r, &ordered.job, first);
    uint64_t said = twin_propose_linked(job_pack.at, job_pack.count, c->passes, room, sizeof room, answer, ANSWER_WORDS);
    lend_output(r, c, written(said), 1160, 1);
}

/* Check, terms, both proposals, read and write: the calls without a shelf. */
static void pack_call(struct random *r, struct call *c)
{
    static uint64_t room[MOST_NUMBERS], answer[ANSWER_WORDS];
    uint64_t said;
    if (c->function == WRITE) {
        draw_words(r);
        said = twin_write(job_words.at, job_words.count, (uint8_t *)room, sizeof room, answer, ANSWER_WORDS);
        c->grid = shape_is_grid(&draft->job);
        lend(c, job_words.at, job_words.count, sizeof(int64_t), false);
        lend_output(r, c, written(said), 3586, 1);
    } else if (c->function == CHECK) {
        lend_packs(r, c);
    } else if (c->function == TERMS) {
        lend_packs(r, c);
        lend_terms(r, c);
    } else if (c->function == LINKED) {
        lend_linked(r, c);
    } else if (c->function == PROPOSE) {
        draw_job(r, &drawn);
        lend_job(c);
        said = twin_propose(job_pack.at, job_pack.count, (uint8_t *)room, sizeof room, answer, ANSWER_WORDS);
        lend_output(r, c, written(said), 520, 1);
    } else {
        draw_job(r, &drawn);
        lend_job(c);
        said = twin_read(job_pack.at, job_pack.count, (int64_t *)room, MOST_NUMBERS, answer, ANSWER_WORDS);
        lend_output(r, c, written(said), 2092, sizeof(int64_t));
    }
}

/* An import of a claims list, an export, or a table read back. They know no draft and no shelf. */
static void list_call(struct random *r, struct call *c)
{
    static uint32_t rates[MOST_RATES];
    static uint8_t room[MOST_LIST_ROOM];
    uint32_t values[MOST_CELLS];
    uint64_t answer[ANSWER_WORDS], *n = c->number, said;
    if (c->function == IMPORT) {
        list_numbers(r, n);
        list_claims(r, n[DIVISOR], &text);
        lend(c, text.at, text.count, 1, false);
        said = twin_import(text.at, text.count, n[DIVISOR], n[SOCIETY], n[JOB], n[ORDER], n[CONSTANT], n[TOLERANCE], n[FLOOR], n[CEILING],
                           room, sizeof room, answer, ANSWER_WORDS);
        lend_output(r, c, written(said), 1339, 1);
    } else if (c->function == EXPORT) {
        size_t count = list_rates(r, rates, &c->first_age);
        lend(c, rates, count, sizeof *rates, false);
        said = twin_export(rates, count, c->first_age, room, sizeof room, answer, ANSWER_WORDS);
        lend_output(r, c, written(said), 2651, 1);
    } else {
        list_table(r, &text);
        lend(c, text.at, text.count, 1, false);
        said = twin_rates(text.at, text.count, values, MOST_CELLS, answer, ANSWER_WORDS);
        lend_output(r, c, written(said), MOST_CELLS, sizeof *values);
    }
}

/* Keep, fetch, forget and clear. */
static void shelf_call(struct random *r, struct call *c)
{
    static uint32_t room[MOST_CELLS];
    uint64_t answer[ANSWER_WORDS];
    lend_shelf(r, c);
    if (c->function == KEEP) {
        lend_packs(r, c);
    } else if (c->function == FETCH) {
        draw_asked(r, c);
        lend_job(c);
        uint64_t said = twin_fetch(shelf, SHELF_WORDS, job_pack.at, job_pack.count, room, MOST_CELLS, answer, ANSWER_WORDS);
        lend_output(r, c, written(said), MOST_CELLS, sizeof(uint32_t));
    } else if (c->function == FORGET) {
        draw_forgotten(r, c);
    } else {
        lend_counts(r, c);
    }
    spoil_row(r, c->function);
}

/* The draft for the next calls. While a society's slots are filled, each call has another job of that society; about every third is kept. */
static void next_draft(struct random *r)
{
    if (filling == 0 && random_below(r, 500) == 0) {
        filling = 5 * MOST_SLOTS;
        filled_society = random_chance(r, 60) ? row_longest(shelf) : draft_society(r);
    }
    if (!begun || filling > 0 || random_chance(r, 25))
        draft_make(r, &drawn);
    if (filling > 0) {
        drawn.job.society = filled_society;
        drawn.job.number = random_below(r, JOB_NUMBERS);
        filling--;
    }
}

/* The shelf for the next calls: as the last call has left it, another one, or the same words under other counts. */
static void next_shelf(struct random *r)
{
    if (!begun || random_below(r, 800) == 0)
        shelf_begin(r, shelf);
    else if (random_below(r, 800) == 0)
        row_allowed(r, shelf);
}

static enum function next_function(struct random *r)
{
    static const struct { enum function function; int share; } shares[] = {
        {CHECK, 150}, {TERMS, 100}, {PROPOSE, 135}, {LINKED, 100}, {KEEP, 215}, {FETCH, 180}, {FORGET, 42}, {CLEAR, 22}, {READ, 74}, {WRITE, 98},
        {IMPORT, 80}, {EXPORT, 25}, {RATES, 40},
    };
    int64_t share = random_below(r, 1261);
    size_t f = 0;
    for (; share >= shares[f].share; f++)
        share -= shares[f].share;
    return filling > 0 && random_chance(r, 80) ? KEEP : shares[f].function;
}

void scene_call(struct random *r, struct call *c)
{
    for (size_t i = 0; !begun && i < sizeof noise / sizeof *noise; i++)
        noise[i] = random_next(r);
    next_draft(r);
    next_shelf(r);
    begun = true;
    memset(c, 0, sizeof *c);
    c->function = next_function(r);
    if (c->function >= KEEP && c->function <= CLEAR)
        shelf_call(r, c);
    else if (c->function >= IMPORT)
        list_call(r, c);
    else
        pack_call(r, c);
    lend_answer(r, c);
}

void scene_shelf(const struct call *c, uint64_t said, const void *after)
{
    if (c->function >= KEEP && c->function <= CLEAR && c->slice[0].count == SHELF_WORDS)
        memcpy(shelf, after, sizeof *shelf * SHELF_WORDS);
    if (row_is_spoilt && !(c->function == CLEAR && said == 0))
        memcpy(shelf, own_row, sizeof own_row);
    row_is_spoilt = false;
    if (c->function == KEEP && said == 0)
        shelf_remember(&job_pack, &proposal_pack);
}
