/* See passes.h. */
#include "passes.h"
#include "../../include/bench.h"
#include "../twin/parts.h"

#include <inttypes.h>
#include <stdio.h>

enum { SHAPES = 2 };

/* What a call can be. The first six are the counts of passes made: 1, 2, 3, and so many at least. Those of 14 and 21 are by the passes given. */
enum kind {
    ONE, TWO, THREE, FOUR, TEN, FIFTY, ALL_GIVEN, LIMITED, NO_LINKS, NO_LINKS_14, ONE_14, SOME_14, MOST_14, NONE_21, ABOVE_21, FAR_21, FULL, KINDS
};
static const char *const KIND_NAMES[KINDS] = {"1", "2", "3", "4-9", "10-49", "50-200", "given", "10^9", "no l", "no l14", "14:1", "14", "14:200",
                                              "21:0", "21:201", "21:far", "full"};

/* Long work is seldom drawn, so these need to be met by lines and grids together only. */
static bool is_seldom(int kind) { return kind == TEN || kind == FIFTY || kind == MOST_14 || kind == NO_LINKS_14 || kind == LIMITED || kind == FAR_21; }

static uint64_t met[SHAPES][KINDS];

static enum kind kind_of_count(uint64_t count)
{
    return count < 4 ? (enum kind)(ONE + count - 1) : count < 10 ? FOUR : count < 50 ? TEN : FIFTY;
}

static bool has_limited(const struct twin_job *job, const void *out, size_t bytes)
{
    struct twin_table table;
    bool limited = false;
    if (twin_read_proposal(out, bytes, job, &table).number != 0)
        return false;
    for (int64_t l = 0; l < job->links; l++)
        limited = limited || table.multiplier[l] == MOST_MULTIPLIER;
    return limited;
}

static void note_read(const struct call *c, const struct twin_job *job, uint64_t said, const void *out, const uint64_t *answer, uint64_t *kinds)
{
    bool none = BENCH_NUMBER(said) == BENCH_NO_PASS_ACCEPTED, done = BENCH_NUMBER(said) == BENCH_DONE;
    if (done) {
        kinds[kind_of_count(answer[2])]++;
        kinds[ALL_GIVEN] += answer[2] == c->passes;
        kinds[LIMITED] += has_limited(job, out, BENCH_PLACE(said));
        kinds[NO_LINKS] += job->links == 0;
        kinds[FULL] += job->links == MOST_LINKS && job->cells == MOST_CELLS && (!c->grid || job->columns == MOST_COLUMNS);
    }
    if (none) {
        kinds[NO_LINKS_14] += job->links == 0;
        kinds[c->passes == 1 ? ONE_14 : c->passes == MOST_PASSES ? MOST_14 : SOME_14]++;
    }
}

void passes_note(const struct call *c, uint64_t said, const void *out, const uint64_t *answer)
{
    struct twin_job job;
    uint64_t *kinds = met[c->grid];
    if (c->function != LINKED)
        return;
    if (BENCH_NUMBER(said) == BENCH_BAD_PASSES)
        kinds[c->passes == 0 ? NONE_21 : c->passes == MOST_PASSES + 1 ? ABOVE_21 : FAR_21]++;
    else if (twin_read_job(c->slice[0].content, c->slice[0].count, &job).number == 0)
        note_read(c, &job, said, out, answer, kinds);
}

void passes_print(void)
{
    printf("%-8s", "passes");
    for (int kind = 0; kind < KINDS; kind++)
        printf("%7s", KIND_NAMES[kind]);
    for (int shape = 0; shape < SHAPES; shape++) {
        printf("\n%-8s", shape == 1 ? "grids" : "lines");
        for (int kind = 0; kind < KINDS; kind++)
            printf("%7" PRIu64, met[shape][kind]);
    }
    printf("\n");
}

int passes_judge(void)
{
    int missing = 0;
    for (int kind = 0; kind < KINDS; kind++)
        for (int shape = 0; shape < SHAPES; shape++)
            if (met[shape][kind] == 0 && !(is_seldom(kind) && met[1 - shape][kind] > 0))
                missing = printf("FAILED  no proposal for %s met '%s'\n", shape == 1 ? "grids" : "lines", KIND_NAMES[kind]);
    return missing != 0;
}
