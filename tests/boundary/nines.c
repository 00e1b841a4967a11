/* See nines.h. */
#include "nines.h"
#include "../../include/bench.h"
#include "../twin/parts.h"

#include <inttypes.h>
#include <stdio.h>

enum { SHAPES = 2 };
static const char *const shape_names[SHAPES] = {"lines", "grids"};

/* What a list of terms can be. The first three are the sides of the largest term. `BEHIND`: it stands behind the place where the total passed. */
enum kind { BOX = BY_BOX, WEIGHT = BY_WEIGHT, LINK = BY_LINK, TWO_CELLS, CELL_AND_LINK, TWO_LINKS, AT_FIRST, AT_LAST, BEHIND, KINDS };
static const char *const KIND_NAMES[KINDS] = {"box", "weight", "link", "2 cell", "c + l", "2 link", "first", "last", "behind"};

/* How often each call met each kind, for lines and for grids. */
static uint64_t met[SHAPES][FUNCTIONS][KINDS];

/* A job's terms, with what they are held to. */
struct list {
    int64_t cells, places, tolerance, words[TERM_WORDS * (MOST_CELLS + MOST_LINKS)];
};

static int64_t term_at(const struct list *list, int64_t place)
{
    return list->words[TERM_WORDS * place];
}

static int64_t largest_of(const struct list *list)
{
    int64_t largest = 0;
    for (int64_t place = 1; place < list->places; place++)
        if (term_at(list, place) > term_at(list, largest))
            largest = place;
    return largest;
}

/* How many terms are as large as the largest, of those from `from` to `to`. */
static int64_t equals(const struct list *list, int64_t largest, int64_t from, int64_t to)
{
    int64_t count = 0;
    for (int64_t place = from; place < to; place++)
        count += term_at(list, place) == term_at(list, largest);
    return count;
}

/* The place at which the total passes the tolerance, or the count of places. */
static int64_t passed_at(const struct list *list)
{
    int64_t place = 0, left = list->tolerance;
    while (place < list->places && term_at(list, place) <= left)
        left -= term_at(list, place++);
    return place;
}

static void note_list(const struct list *list, uint64_t *kinds)
{
    int64_t passed = passed_at(list), largest = largest_of(list);
    int64_t cells = equals(list, largest, 0, list->cells), links = equals(list, largest, list->cells, list->places);
    if (passed == list->places)
        return;
    kinds[list->words[TERM_WORDS * largest + 2]]++;
    kinds[TWO_CELLS] += cells > 1;
    kinds[CELL_AND_LINK] += cells > 0 && links > 0;
    kinds[TWO_LINKS] += cells == 0 && links > 1;
    kinds[AT_FIRST] += passed == 0;
    kinds[AT_LAST] += passed == list->places - 1;
    kinds[BEHIND] += largest > passed;
}

/* The terms of the table that the call was about: that of its packs, or the kept one. */
static void list_of(const struct call *c, struct list *list)
{
    static struct twin_job job;
    static struct twin_table table;
    const struct slice *job_pack = &c->slice[c->function == KEEP || c->function == FETCH], *proposal = job_pack + 1;
    twin_read_job(job_pack->content, job_pack->count, &job);
    if (c->function == FETCH)
        twin_take_table(twin_find_for(c->slice[0].content, &job), &job, &table);
    else
        twin_read_proposal(proposal->content, proposal->count, &job, &table);
    list->cells = job.cells;
    list->places = job.cells + job.links;
    list->tolerance = job.tolerance;
    twin_put_terms(&job, &table, list->words);
}

void nines_note(const struct call *c, uint64_t said)
{
    static struct list list;
    if (BENCH_NUMBER(said) == BENCH_GAP_ABOVE_TOLERANCE || (c->function == TERMS && BENCH_NUMBER(said) == BENCH_DONE)) {
        list_of(c, &list);
        note_list(&list, met[c->grid][c->function]);
    }
}

static bool is_noted(int function)
{
    return function == CHECK || function == TERMS || function == KEEP || function == FETCH;
}

static void print_shape(int shape)
{
    printf("%-8s", shape_names[shape]);
    for (int kind = 0; kind < KINDS; kind++)
        printf("%7s", KIND_NAMES[kind]);
    printf("\n");
    for (int f = 0; f < FUNCTIONS; f++) {
        if (!is_noted(f))
            continue;
        printf("%-8s", call_names[f]);
        for (int kind = 0; kind < KINDS; kind++)
            printf("%7" PRIu64, met[shape][f][kind]);
        printf("\n");
    }
}

void nines_print(void)
{
    printf("gaps above the tolerance: what supplied the largest term, terms as large as it, and where the total passed\n");
    print_shape(0);
    print_shape(1);
}

/* At every call each side has supplied the largest term, and at some call each of the others was met. */
static int judge_shape(int shape)
{
    int missing = 0;
    for (int kind = 0; kind < KINDS; kind++) {
        uint64_t calls = 0;
        for (int f = 0; f < FUNCTIONS; f++) {
            calls += met[shape][f][kind];
            if (is_noted(f) && kind <= LINK && met[shape][f][kind] == 0)
                missing = printf("FAILED  %s of %s never met '%s'\n", call_names[f], shape_names[shape], KIND_NAMES[kind]);
        }
        if (calls == 0)
            missing = printf("FAILED  no call of %s met '%s'\n", shape_names[shape], KIND_NAMES[kind]);
    }
    return missing != 0;
}

int nines_judge(void)
{
    return judge_shape(0) | judge_shape(1);
}
