/* See reached.h. */
#include "reached.h"
#include "../../include/bench.h"
#include "../twin/parts.h"

#include <inttypes.h>
#include <stdio.h>

enum { PLACES = SOCIETIES + 1 };

/* How often each call gave 22 with each place; and by a society's count of slots how often a keep dropped its oldest table, and how often a forget moved
 * a later one down. */
static uint64_t places[FUNCTIONS][PLACES], drops[MOST_SLOTS + 1], moves[MOST_SLOTS + 1];

/* The counts that must have been met; one slot alone has nothing to move down. */
static const int COUNTS[] = {1, 2, 10, MOST_SLOTS};

/* Whether the table in the society's first slot is kept nowhere any more. */
static bool has_dropped(const uint32_t *before, const uint32_t *after, uint32_t society)
{
    const uint32_t *first = before + twin_start(before, society);
    return twin_find(before, society, first[AT_JOB]) == first && !twin_find(after, society, first[AT_JOB]);
}

/* Whether the slot of the job has become another that is not empty. */
static bool has_moved(const uint32_t *before, const uint32_t *after, uint32_t society, uint32_t job)
{
    const uint32_t *slot = after + (twin_find(before, society, job) - before);
    return twin_find(after, society, slot[AT_JOB]) == slot;
}

void reached_note(const struct call *c, uint64_t said, const void *after)
{
    const uint32_t *before = c->slice[0].content;
    if (BENCH_NUMBER(said) == BENCH_BAD_COUNTS)
        places[c->function][BENCH_PLACE(said)]++;
    if (said == BENCH_DONE && c->function == KEEP)
        for (uint32_t society = 0; society < SOCIETIES; society++)
            drops[before[society]] += has_dropped(before, after, society);
    if (said == BENCH_DONE && c->function == FORGET)
        moves[before[c->society]] += has_moved(before, after, c->society, c->job);
}

static void print_counted(const char *what, const uint64_t *counted, int from, int to)
{
    printf("%-8s", what);
    for (int i = from; i < to; i++)
        printf("%7" PRIu64, counted[i]);
    printf("\n");
}

void reached_print(void)
{
    printf("22 with place 0 to %d\n", PLACES - 1);
    for (int f = KEEP; f <= CLEAR; f++)
        print_counted(call_names[f], places[f], 0, PLACES);
    printf("tables dropped by keep and moved by forget, of 1 to %d slots\n", MOST_SLOTS);
    print_counted("dropped", drops, 1, MOST_SLOTS + 1);
    print_counted("moved", moves, 1, MOST_SLOTS + 1);
}

int reached_judge(void)
{
    int missing = 0;
    for (int f = KEEP; f <= CLEAR; f++)
        for (int place = 0; place < PLACES; place++)
            if (places[f][place] == 0)
                missing = printf("FAILED  %s never gave 22 with place %d\n", call_names[f], place);
    for (size_t i = 0; i < sizeof COUNTS / sizeof *COUNTS; i++) {
        if (drops[COUNTS[i]] == 0)
            missing = printf("FAILED  no table was dropped from %d slots\n", COUNTS[i]);
        if (COUNTS[i] > 1 && moves[COUNTS[i]] == 0)
            missing = printf("FAILED  no table moved down in %d slots\n", COUNTS[i]);
    }
    return missing != 0;
}
