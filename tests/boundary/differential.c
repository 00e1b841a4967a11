/* The bench against the twin: random calls with the same memory, compared in what they return and in every lent byte.
 * Arguments: the seed, the count of calls, and `end` or `start` if slices shall lie flush against a page that nobody may touch.
 * It ends with 1 at the first mismatch, or if a call never ended in some number that it can give, of 13 in one of the lengths, of 22 in one of the
 * places, if no span of some count of slots was ever full, if no gap above the tolerance had its largest term in some kind of place, or if proposals that
 * honour links never met some count of passes. */
#define _POSIX_C_SOURCE 200809L
#include "calls.h"
#include "../../include/bench.h"
#include "nines.h"
#include "passes.h"
#include "reached.h"
#include "scenes.h"

#include <inttypes.h>
#include <signal.h>
#include <stdio.h>
#include <stdlib.h>
#include <string.h>

enum { SHAPES = 2 };

/* What a call can end in: a number, or of 13 what it was for, since each of the three lengths has a test of its own. */
enum outcome { WRONG_ANSWER = 13, WRONG_SHELF = 32, SHORT_ROOM, OUTCOMES };

/* How often each call ended in each outcome, for lines and for grids. Calls without a job stand with the lines. */
static uint64_t tally[SHAPES][FUNCTIONS][OUTCOMES];

static enum outcome outcome_of(const struct call *c, uint64_t said)
{
    bool has_shelf = c->function >= KEEP && c->function <= CLEAR;
    if (BENCH_NUMBER(said) != BENCH_WRONG_LENGTH)
        return (enum outcome)BENCH_NUMBER(said);
    if (c->slice[c->slices - 1].count != BENCH_ANSWER_WORDS)
        return WRONG_ANSWER;
    return has_shelf && c->slice[0].count != BENCH_SHELF_WORDS ? WRONG_SHELF : SHORT_ROOM;
}

/* The outcomes that each call can have, as bits. A fetch never gives 11, and terms never 9. Every call on a shelf gives 22. */
static uint64_t bit(int outcome) { return (uint64_t)1 << outcome; }
static uint64_t possible(int shape, int function)
{
    const uint64_t pack = 0x3F, meets = 0x1FF, check = 0x3FF, answer = bit(WRONG_ANSWER), shelf = bit(WRONG_SHELF) | bit(22), room = bit(SHORT_ROOM);
    bool grid = shape == 1;
    switch (function) {
    case CHECK: return check | answer;
    case TERMS: return meets | answer | room;
    case KEEP: return check | answer | shelf;
    case LINKED: return pack | bit(10) | bit(14) | bit(21) | answer | room | (grid ? bit(20) : 0);
    case PROPOSE: return pack | bit(10) | answer | room | (grid ? bit(20) : 0);
    case FETCH: return check | bit(12) | answer | shelf | room;
    case FORGET: return grid ? 0 : bit(0) | bit(11) | bit(12) | answer | shelf;
    case CLEAR: return grid ? 0 : bit(0) | answer | shelf;
    case IMPORT: return grid ? 0 : bit(0) | bit(2) | bit(3) | bit(4) | bit(16) | bit(17) | bit(18) | bit(19) | answer | room;
    case EXPORT: return grid ? 0 : bit(0) | bit(2) | answer | room;
    case RATES: return grid ? 0 : bit(0) | bit(2) | bit(16) | bit(17) | answer | room;
    default: return pack | answer | room;
    }
}

/* Whether some call can end so: only those outcomes have a column. */
static bool is_given(int outcome)
{
    uint64_t all = 0;
    for (int f = 0; f < FUNCTIONS; f++)
        all |= possible(1, f) | possible(0, f);
    return all >> outcome & 1;
}

static const char *outcome_name(int outcome)
{
    static char name[16];
    snprintf(name, sizeof name, "%d", outcome);
    return outcome == WRONG_ANSWER ? "13 ans" : outcome == WRONG_SHELF ? "13 shf" : outcome == SHORT_ROOM ? "13 out" : name;
}

static void print_row(int shape, int function)
{
    uint64_t calls = 0;
    printf("%-8s", call_names[function]);
    for (int outcome = 0; outcome < OUTCOMES; outcome++) {
        calls += tally[shape][function][outcome];
        if (possible(shape, function) >> outcome & 1)
            printf("%7" PRIu64, tally[shape][function][outcome]);
        else if (is_given(outcome))
            printf("%7s", "-");
    }
    printf("%9" PRIu64 "\n", calls);
}

static void print_tally(int shape)
{
    printf("%-8s", shape == 1 ? "grids" : "lines");
    for (int outcome = 0; outcome < OUTCOMES; outcome++)
        if (is_given(outcome))
            printf("%7s", outcome_name(outcome));
    printf("%9s\n", "calls");
    for (int f = 0; f < FUNCTIONS; f++)
        if (possible(shape, f) != 0)
            print_row(shape, f);
}

/* Every possible outcome was had, and no other. A damaged order field makes no wide grid of a line: its pack lacks a grid's five numbers. */
static int judge_tally(int shape)
{
    int wrong = 0;
    for (int f = 0; f < FUNCTIONS; f++)
        for (int outcome = 0; outcome < OUTCOMES; outcome++) {
            bool can = possible(shape, f) >> outcome & 1;
            if (can != (tally[shape][f][outcome] > 0)) {
                printf("FAILED  %s of %s %s %s\n", call_names[f], shape == 1 ? "grids" : "lines", can ? "never gave" : "gave", outcome_name(outcome));
                wrong = 1;
            }
        }
    return wrong;
}

/* The call that is under way, for the report of a call that never returned. */
static struct call call;
static uint64_t said[SIDES], seed, number_of_call;

static void mismatch(const char *wrong)
{
    printf("MISMATCH  seed %" PRIu64 ", call %" PRIu64 ": %s\n", seed, number_of_call, wrong);
    call_report(&call, said);
    fflush(stdout);
}

/* A guard page was touched, or the processor stopped the call in another way. */
static void stopped(int signal)
{
    (void)signal;
    mismatch("the call was stopped by a signal");
    _Exit(1);
}

static int run(uint64_t count)
{
    struct random random = {seed};
    for (uint64_t i = 0; i < count; i++) {
        number_of_call = i;
        scene_call(&random, &call);
        const char *wrong = call_both(&call, said);
        if (wrong) {
            mismatch(wrong);
            return 1;
        }
        const void *after = lent_at(0, 0, &call.slice[0]);
        tally[call.grid][call.function][outcome_of(&call, said[0])]++;
        reached_note(&call, said[0], after);
        nines_note(&call, said[0]);
        passes_note(&call, said[0], lent_at(0, 1, &call.slice[1]), lent_at(0, call.slices - 1, &call.slice[call.slices - 1]));
        scene_shelf(&call, said[0], after);
    }
    print_tally(0);
    print_tally(1);
    reached_print();
    nines_print();
    passes_print();
    return judge_tally(0) | judge_tally(1) | reached_judge() | nines_judge() | passes_judge();
}

int main(int argc, char **argv)
{
    if (argc < 3 || argc > 4) {
        fprintf(stderr, "usage: differential SEED COUNT [end|start]\n");
        return 2;
    }
    lent_open(argc == 3 ? MIDDLE : strcmp(argv[3], "end") == 0 ? END : START);
    signal(SIGSEGV, stopped);
    signal(SIGBUS, stopped);
    signal(SIGFPE, stopped);
    signal(SIGILL, stopped);
    seed = strtoull(argv[1], NULL, 10);
    return run(strtoull(argv[2], NULL, 10));
}
