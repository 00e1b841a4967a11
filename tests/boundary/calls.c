/* See calls.h. */
#include "calls.h"
#include "../../include/bench.h"
#include "../twin/twin.h"

#include <inttypes.h>
#include <stdio.h>
#include <string.h>

const char *const call_names[FUNCTIONS] = {"check", "terms", "propose", "linked", "keep", "fetch", "forget", "clear", "read", "write",
                                              "import", "export", "rates"};

static const uint64_t NOT_RETURNED = UINT64_MAX;

/* The longest output and answer slice that a proposal is lent. */
enum { MOST_OUTPUT = 4096, MOST_ANSWER = 8 };

static uint64_t on_bench(const struct call *c, void *const *p)
{
    const struct slice *s = c->slice;
    const uint64_t *n = c->number;
    switch (c->function) {
    case CHECK: return bench_check(p[0], s[0].count, p[1], s[1].count, p[2], s[2].count);
    case TERMS: return bench_terms(p[0], s[0].count, p[1], s[1].count, p[2], s[2].count, p[3], s[3].count);
    case PROPOSE: return bench_propose(p[0], s[0].count, p[1], s[1].count, p[2], s[2].count);
    case LINKED: return bench_propose_linked(p[0], s[0].count, c->passes, p[1], s[1].count, p[2], s[2].count);
    case KEEP: return bench_keep(p[0], s[0].count, p[1], s[1].count, p[2], s[2].count, p[3], s[3].count);
    case FETCH: return bench_fetch(p[0], s[0].count, p[1], s[1].count, p[2], s[2].count, p[3], s[3].count);
    case FORGET: return bench_forget(p[0], s[0].count, c->society, c->job, p[1], s[1].count);
    case CLEAR: return bench_clear(p[0], s[0].count, p[1], p[2], s[2].count);
    case READ: return bench_read(p[0], s[0].count, p[1], s[1].count, p[2], s[2].count);
    case WRITE: return bench_write(p[0], s[0].count, p[1], s[1].count, p[2], s[2].count);
    case IMPORT:
        return bench_import(p[0], s[0].count, n[DIVISOR], n[SOCIETY], n[JOB], n[ORDER], n[CONSTANT], n[TOLERANCE], n[FLOOR], n[CEILING],
                             p[1], s[1].count, p[2], s[2].count);
    case EXPORT: return bench_export(p[0], s[0].count, c->first_age, p[1], s[1].count, p[2], s[2].count);
    default: return bench_rates(p[0], s[0].count, p[1], s[1].count, p[2], s[2].count);
    }
}

static uint64_t on_twin(const struct call *c, void *const *p)
{
    const struct slice *s = c->slice;
    const uint64_t *n = c->number;
    switch (c->function) {
    case CHECK: return twin_check(p[0], s[0].count, p[1], s[1].count, p[2], s[2].count);
    case TERMS: return twin_terms(p[0], s[0].count, p[1], s[1].count, p[2], s[2].count, p[3], s[3].count);
    case PROPOSE: return twin_propose(p[0], s[0].count, p[1], s[1].count, p[2], s[2].count);
    case LINKED: return twin_propose_linked(p[0], s[0].count, c->passes, p[1], s[1].count, p[2], s[2].count);
    case KEEP: return twin_keep(p[0], s[0].count, p[1], s[1].count, p[2], s[2].count, p[3], s[3].count);
    case FETCH: return twin_fetch(p[0], s[0].count, p[1], s[1].count, p[2], s[2].count, p[3], s[3].count);
    case FORGET: return twin_forget(p[0], s[0].count, c->society, c->job, p[1], s[1].count);
    case CLEAR: return twin_clear(p[0], s[0].count, p[1], p[2], s[2].count);
    case READ: return twin_read(p[0], s[0].count, p[1], s[1].count, p[2], s[2].count);
    case WRITE: return twin_write(p[0], s[0].count, p[1], s[1].count, p[2], s[2].count);
    case IMPORT:
        return twin_import(p[0], s[0].count, n[DIVISOR], n[SOCIETY], n[JOB], n[ORDER], n[CONSTANT], n[TOLERANCE], n[FLOOR], n[CEILING],
                            p[1], s[1].count, p[2], s[2].count);
    case EXPORT: return twin_export(p[0], s[0].count, c->first_age, p[1], s[1].count, p[2], s[2].count);
    default: return twin_rates(p[0], s[0].count, p[1], s[1].count, p[2], s[2].count);
    }
}

/* Whether this call, having returned `said`, may have changed the slice at all. */
static bool may_change(const struct call *c, int index, uint64_t said)
{
    if (index == c->slices - 1)
        return c->slice[index].count == BENCH_ANSWER_WORDS;
    return c->slice[index].writable && BENCH_NUMBER(said) == BENCH_DONE;
}

static const char *compare_slice(const struct call *c, int index, const uint64_t *said)
{
    const struct slice *s = &c->slice[index];
    size_t bytes = s->count * s->width;
    for (int side = 0; side < SIDES; side++) {
        if (!lent_guarded(side, index, s))
            return "bytes outside a slice were written";
        if (!may_change(c, index, said[side]) && memcmp(lent_at(side, index, s), s->content, bytes) != 0)
            return "a slice changed that may not change";
    }
    return memcmp(lent_at(0, index, s), lent_at(1, index, s), bytes) != 0 ? "a slice differs" : NULL;
}

/* A right answer slice begins with the number and the place that were returned. */
static bool answer_agrees(const struct call *c, int side, uint64_t said)
{
    const struct slice *s = &c->slice[c->slices - 1];
    const uint64_t *answer = lent_at(side, c->slices - 1, s);
    return s->count != BENCH_ANSWER_WORDS || (answer[0] == BENCH_NUMBER(said) && answer[1] == BENCH_PLACE(said));
}

/* Whether the way that keeps the links' solutions says and writes what the twin's other way has, which `said` and left its slices so. */
static bool kept_agrees(const struct call *c, uint64_t said)
{
    static uint8_t out[MOST_OUTPUT];
    uint64_t answer[MOST_ANSWER];
    const struct slice *job = &c->slice[0], *room = &c->slice[1], *words = &c->slice[2];
    if (room->count > sizeof out || words->count > MOST_ANSWER)
        return false;
    memcpy(out, room->content, room->count);
    memcpy(answer, words->content, words->count * sizeof *answer);
    return twin_propose_kept(job->content, job->count, c->passes, out, room->count, answer, words->count) == said
        && memcmp(out, lent_at(1, 1, room), room->count) == 0 && memcmp(answer, lent_at(1, 2, words), words->count * sizeof *answer) == 0;
}

const char *call_both(const struct call *c, uint64_t said[SIDES])
{
    const char *wrong = NULL;
    void *p[SIDES][MOST_SLICES] = {{0}};
    for (int side = 0; side < SIDES; side++) {
        said[side] = NOT_RETURNED;
        for (int i = 0; i < c->slices; i++)
            p[side][i] = lent_lay(side, i, &c->slice[i]);
    }
    said[0] = on_bench(c, p[0]);
    said[1] = on_twin(c, p[1]);
    for (int i = 0; i < c->slices && !wrong; i++)
        wrong = compare_slice(c, i, said);
    for (int side = 0; side < SIDES && !wrong; side++)
        if (!answer_agrees(c, side, said[side]))
            wrong = "the answer slice is not what was returned";
    if (c->function == LINKED && !wrong && !kept_agrees(c, said[1]))
        wrong = "the twin's two ways differ";
    return said[0] != said[1] ? "the returned numbers differ" : wrong;
}

/* A slice as it was before, if `whole`, and the bytes in which the two sides differ now. */
static void print_slice(const struct call *c, int index, bool whole)
{
    const struct slice *s = &c->slice[index];
    const uint8_t *before = s->content, *bench = lent_at(0, index, s), *twin = lent_at(1, index, s);
    size_t bytes = s->count * s->width;
    printf("  slice %d, %zu elements of %zu bytes%s:", index, s->count, s->width, s->writable ? ", lent to write" : "");
    if (whole)
        for (size_t i = 0; i < bytes; i++)
            printf(" %02X", before[i]);
    for (size_t i = 0, told = 0; i < bytes && told < 16; i++)
        if (bench[i] != twin[i] && ++told)
            printf("\n    byte %zu: was %02X, bench %02X, twin %02X", i, before[i], bench[i], twin[i]);
    printf("\n");
}

/* The words of a shelf that are not 0, since most are. */
static void print_shelf(const struct slice *s)
{
    const uint32_t *word = s->content;
    printf("  shelf before, words that are not 0 (index:word):");
    for (size_t i = 0; i < s->count; i++)
        if (word[i] != 0)
            printf(" %zu:%" PRIu32, i, word[i]);
    printf("\n");
}

static void print_answer(const struct call *c, int side, uint64_t said)
{
    const struct slice *s = &c->slice[c->slices - 1];
    const uint64_t *answer = lent_at(side, c->slices - 1, s);
    printf("  %s ", side == 0 ? "bench" : "twin ");
    if (said == NOT_RETURNED)
        printf("has not returned; answer");
    else
        printf("returned number %" PRIu64 ", place %" PRIu64 "; answer", BENCH_NUMBER(said), BENCH_PLACE(said));
    for (size_t i = 0; i < s->count; i++)
        printf(" %" PRIu64, answer[i]);
    printf("\n");
}

static void print_numbers(const uint64_t *number)
{
    printf("  divisor, society, job, order, constant, tolerance, floor, ceiling:");
    for (int i = 0; i < IMPORT_NUMBERS; i++)
        printf(" %" PRIu64, number[i]);
    printf("\n");
}

void call_report(const struct call *c, const uint64_t said[SIDES])
{
    bool has_shelf = c->function >= KEEP && c->function <= CLEAR;
    printf("  %s, society %" PRIu32 ", job %" PRIu32 "\n", call_names[c->function], c->society, c->job);
    if (c->function == IMPORT)
        print_numbers(c->number);
    if (c->function == LINKED)
        printf("  passes %" PRIu64 "\n", c->passes);
    if (c->function == EXPORT)
        printf("  first age %" PRIu64 "\n", c->first_age);
    for (int side = 0; side < SIDES; side++)
        print_answer(c, side, said[side]);
    if (has_shelf)
        print_shelf(&c->slice[0]);
    for (int i = 0; i < c->slices; i++)
        print_slice(c, i, !c->slice[i].writable && !(has_shelf && i == 0));
}
