/* How long each call of the bench takes beside the twin's, and how much stack it uses. Both sides run in turns in one program, on the same input;
 * the median of the rounds counts. The argument says where it runs. With the argument `stack` it measures the stack alone. It ends with 1 if
 * a call uses more stack than include/bench.h says of lines, or of grids. */
#define _DEFAULT_SOURCE
#include "../include/bench.h"
#include "boundary/calls.h"
#include "boundary/numbers.h"
#include "boundary/orderings.h"
#include "twin/twin.h"

#include <stdio.h>
#include <stdlib.h>
#include <string.h>
#include <time.h>
#include <ucontext.h>

/* A call that takes long, in nanoseconds, has few rounds. */
enum { ROUNDS = 15, FEW_ROUNDS = 3, LONG = 20000000, STACK_BYTES = 1 << 20, PAINT = 0xC5 };

/* The bench, the twin, and for proposals that honour links the twin's way that keeps the solutions. */
enum { BENCH, TWIN, KEPT, WAYS };

/* What all calls of one input work on. The shelf has these counts of slots. The table's society has all its slots full, the table in the first, and
 * `span` is what they hold. */
static struct draft draft;
static struct numbers list;
static struct bytes job, proposal;
static struct words words;
static uint32_t counts[SOCIETIES], shelf[SHELF_WORDS], span[MOST_SLOTS * SLOT_WORDS], values[MOST_CELLS];
static uint64_t answer[ANSWER_WORDS];
static int64_t word_room[BENCH_MOST_JOB_WORDS];
static uint8_t byte_room[BENCH_MOST_JOB_BYTES];

/* The job of a proposal that honours links, and its passes. */
static struct draft linked;
static struct bytes linked_job;
static uint64_t passes;

/* Lists of as many lines as the table has cells: claims, and rates with their list. Import takes these numbers. */
static struct bytes claims, table;
static uint32_t rates[MOST_CELLS];
static const struct twin_claims_job given = {100, 3, 7, 2, 1, 0, 0, MOST_VALUE};
enum { FIRST_AGE = 16 };

static uint32_t *own_span(void) { return shelf + twin_start(counts, (uint32_t)draft.job.society); }
static size_t own_words(void) { return counts[draft.job.society] * SLOT_WORDS; }

/* forget finds its table put back before every call; the time of that is in both sides' time. */
static void put_back(void)
{
    memcpy(own_span(), span, own_words() * sizeof *span);
}

static uint64_t on_bench(enum function function)
{
    uint32_t society = (uint32_t)draft.job.society, number = (uint32_t)draft.job.number;
    switch (function) {
    case CHECK: return bench_check(job.at, job.count, proposal.at, proposal.count, answer, ANSWER_WORDS);
    case TERMS: return bench_terms(job.at, job.count, proposal.at, proposal.count, word_room, BENCH_MOST_JOB_WORDS, answer, ANSWER_WORDS);
    case PROPOSE: return bench_propose(job.at, job.count, byte_room, sizeof byte_room, answer, ANSWER_WORDS);
    case LINKED: return bench_propose_linked(linked_job.at, linked_job.count, passes, byte_room, sizeof byte_room, answer, ANSWER_WORDS);
    case KEEP: return bench_keep(shelf, SHELF_WORDS, job.at, job.count, proposal.at, proposal.count, answer, ANSWER_WORDS);
    case FETCH: return bench_fetch(shelf, SHELF_WORDS, job.at, job.count, values, MOST_CELLS, answer, ANSWER_WORDS);
    case FORGET: return put_back(), bench_forget(shelf, SHELF_WORDS, society, number, answer, ANSWER_WORDS);
    case CLEAR: return bench_clear(shelf, SHELF_WORDS, counts, answer, ANSWER_WORDS);
    case READ: return bench_read(job.at, job.count, word_room, BENCH_MOST_JOB_WORDS, answer, ANSWER_WORDS);
    case WRITE: return bench_write(words.at, words.count, byte_room, sizeof byte_room, answer, ANSWER_WORDS);
    case IMPORT:
        return bench_import(claims.at, claims.count, given.divisor, given.society, given.number, given.order, given.constant, given.tolerance, given.floor,
                          given.ceiling, byte_room, sizeof byte_room, answer, ANSWER_WORDS);
    case EXPORT: return bench_export(rates, (size_t)draft.job.cells, FIRST_AGE, byte_room, sizeof byte_room, answer, ANSWER_WORDS);
    default: return bench_rates(table.at, table.count, values, MOST_CELLS, answer, ANSWER_WORDS);
    }
}

static uint64_t on_twin(enum function function)
{
    uint32_t society = (uint32_t)draft.job.society, number = (uint32_t)draft.job.number;
    switch (function) {
    case CHECK: return twin_check(job.at, job.count, proposal.at, proposal.count, answer, ANSWER_WORDS);
    case TERMS: return twin_terms(job.at, job.count, proposal.at, proposal.count, word_room, BENCH_MOST_JOB_WORDS, answer, ANSWER_WORDS);
    case PROPOSE: return twin_propose(job.at, job.count, byte_room, sizeof byte_room, answer, ANSWER_WORDS);
    case LINKED: return twin_propose_linked(linked_job.at, linked_job.count, passes, byte_room, sizeof byte_room, answer, ANSWER_WORDS);
    case KEEP: return twin_keep(shelf, SHELF_WORDS, job.at, job.count, proposal.at, proposal.count, answer, ANSWER_WORDS);
    case FETCH: return twin_fetch(shelf, SHELF_WORDS, job.at, job.count, values, MOST_CELLS, answer, ANSWER_WORDS);
    case FORGET: return put_back(), twin_forget(shelf, SHELF_WORDS, society, number, answer, ANSWER_WORDS);
    case CLEAR: return twin_clear(shelf, SHELF_WORDS, counts, answer, ANSWER_WORDS);
    case READ: return twin_read(job.at, job.count, word_room, BENCH_MOST_JOB_WORDS, answer, ANSWER_WORDS);
    case WRITE: return twin_write(words.at, words.count, byte_room, sizeof byte_room, answer, ANSWER_WORDS);
    case IMPORT:
        return twin_import(claims.at, claims.count, given.divisor, given.society, given.number, given.order, given.constant, given.tolerance, given.floor,
                         given.ceiling, byte_room, sizeof byte_room, answer, ANSWER_WORDS);
    case EXPORT: return twin_export(rates, (size_t)draft.job.cells, FIRST_AGE, byte_room, sizeof byte_room, answer, ANSWER_WORDS);
    default: return twin_rates(table.at, table.count, values, MOST_CELLS, answer, ANSWER_WORDS);
    }
}

static uint64_t on_side(int side, enum function function)
{
    if (side == KEPT)
        return twin_propose_kept(linked_job.at, linked_job.count, passes, byte_room, sizeof byte_room, answer, ANSWER_WORDS);
    return side == BENCH ? on_bench(function) : on_twin(function);
}

/* So many slots for the table's society and for another, and so many for each of the rest. */
static void use_counts(uint32_t two, uint32_t others)
{
    for (int s = 0; s < SOCIETIES; s++)
        counts[s] = others;
    counts[draft.job.society] = counts[(draft.job.society + 1) % SOCIETIES] = two;
}

/* The slots after the first get the same table under other numbers. */
static void fill_span(void)
{
    for (size_t at = SLOT_WORDS; at < own_words(); at += SLOT_WORDS) {
        memcpy(span + at, span, SLOT_WORDS * sizeof *span);
        span[at + AT_JOB] = span[at + AT_JOB - SLOT_WORDS] + 1;
    }
}

/* Exposures of four to seven digits and deaths of one to four; rates as they are in practice. */
static void use_lists(void)
{
    claims.count = (size_t)sprintf((char *)claims.at, "age,exposure,deaths\r\n");
    for (int i = 0; i < (int)draft.job.cells; i++) {
        int exposure = 4321 + 71 * i * i, deaths = 3 + i * i / 2;
        claims.count += (size_t)sprintf((char *)claims.at + claims.count, "%d,%d,%d\r\n", FIRST_AGE + i, exposure, deaths);
        rates[i] = (uint32_t)(600 + 60 * i * i);
    }
    table.count = twin_export(rates, (size_t)draft.job.cells, FIRST_AGE, table.at, sizeof table.at, answer, ANSWER_WORDS) / 32;
}

static void use_draft(uint32_t two, uint32_t others)
{
    use_counts(two, others);
    use_lists();
    numbers_of_job(&draft.job, &list);
    numbers_pack(&list, &job);
    numbers_words(&list, &words);
    numbers_of_proposal(&draft, &list);
    numbers_pack(&list, &proposal);
    if (on_twin(CLEAR) != 0 || on_twin(KEEP) != 0) {
        printf("FAILED  the input is not accepted\n");
        exit(1);
    }
    memcpy(span, own_span(), SLOT_WORDS * sizeof *span);
    fill_span();
    put_back();
}

static void use_four(void) { use_draft(4, 4); }
static void use_ten(void) { use_draft(10, 2); }

/* Document 01's worked example. */
static void use_small(void)
{
    const uint8_t pack[] = {3, 7, 3, 2, 1, 0, 0, 1, 0, 100, 7, 1, 0, 100, 0, 1, 0, 100, 0};
    const int64_t v[] = {2, 3, 2};
    twin_read_job(pack, sizeof pack, &draft.job);
    memcpy(draft.table.value, v, sizeof v);
    use_four();
}

static void use_full(int64_t order)
{
    struct random random = {(uint64_t)order};
    draft_full(&random, order, &draft);
    use_four();
}

static void use_full_grid(int64_t columns, int64_t down, int64_t across)
{
    struct random random = {(uint64_t)columns};
    draft_full_grid(&random, columns, down, across, &draft);
    use_four();
}

static void use_linked(int64_t tolerance, uint64_t allowed)
{
    linked.job.tolerance = tolerance;
    numbers_of_job(&linked.job, &list);
    numbers_pack(&list, &linked_job);
    passes = allowed;
}

/* Document 01's u 0 5 0 with its link. */
static void use_small_linked(void)
{
    const uint8_t pack[] = {3, 7, 3, 2, 1, 0, 0, 1, 0, 100, 5, 1, 0, 100, 0, 1, 0, 100, 1, 2, 0, 1, 1, 2, 0};
    twin_read_job(pack, sizeof pack, &linked.job);
    use_linked(0, 1);
}

/* A job as large as can be, of which one of the first passes is accepted. */
static void use_accepted(bool grid)
{
    struct random random = {7};
    ordering_full(&random, grid, &linked);
    use_linked(linked.job.tolerance, 5);
}

/* The processor's time, so that other programs on the machine count less. */
static double now(void)
{
    struct timespec t;
    clock_gettime(CLOCK_PROCESS_CPUTIME_ID, &t);
    return (double)t.tv_sec * 1e9 + (double)t.tv_nsec;
}

static double time_of(int side, enum function function, int calls)
{
    double start = now();
    for (int i = 0; i < calls; i++)
        on_side(side, function);
    return (now() - start) / calls;
}

static int by_size(const void *a, const void *b)
{
    double x = *(const double *)a, y = *(const double *)b;
    return (x > y) - (x < y);
}

static double median_of(double *times, int rounds)
{
    qsort(times, (size_t)rounds, sizeof *times, by_size);
    return times[rounds / 2];
}

/* Each way's time, and the bench's over that of each. */
struct timing {
    double time[WAYS], ratio[WAYS];
};

/* The first so many ways in turns, each round beginning with another. */
static struct timing time_ways(enum function function, int ways)
{
    double times[WAYS][ROUNDS], ratios[WAYS][ROUNDS];
    struct timing timing = {{0}, {0}};
    int calls = 1;
    while (calls < 1 << 20 && time_of(TWIN, function, calls) * calls < 2e6)
        calls *= 2;
    int rounds = time_of(TWIN, function, calls) > LONG ? FEW_ROUNDS : ROUNDS;
    for (int round = 0; round < rounds; round++) {
        for (int turn = 0; turn < ways; turn++)
            times[(turn + round) % ways][round] = time_of((turn + round) % ways, function, calls);
        for (int way = 0; way < ways; way++)
            ratios[way][round] = times[BENCH][round] / times[way][round];
    }
    for (int way = 0; way < ways; way++) {
        timing.time[way] = median_of(times[way], rounds);
        timing.ratio[way] = median_of(ratios[way], rounds);
    }
    return timing;
}

/* The call that runs on the painted stack: none if `function` is FUNCTIONS. */
static ucontext_t back, there;
static int painted_side;
static enum function painted_function;

static void painted(void)
{
    if (painted_function != FUNCTIONS)
        on_side(painted_side, painted_function);
}

/* How far down a call has written on a stack that was painted before. */
static size_t stack_of(int side, enum function function)
{
    static uint8_t stack[STACK_BYTES];
    size_t clean = 0;
    painted_side = side;
    painted_function = function;
    memset(stack, PAINT, sizeof stack);
    getcontext(&there);
    there.uc_stack.ss_sp = stack;
    there.uc_stack.ss_size = sizeof stack;
    there.uc_link = &back;
    makecontext(&there, painted, 0);
    swapcontext(&back, &there);
    while (clean < sizeof stack && stack[clean] == PAINT)
        clean++;
    return sizeof stack - clean;
}

/* All ways must do the same work, or their times cannot be compared. They end in this number. */
static void same_work(enum function function, const char *input, int ways, uint64_t number)
{
    for (int way = 0; way < ways; way++) {
        put_back();
        uint64_t said = on_side(way, function);
        if (said % 32 != number || said != on_twin(function)) {
            printf("FAILED  %s on %s: the bench and its twin answer differently, or otherwise than they should\n", call_names[function], input);
            exit(1);
        }
    }
    put_back();
}

/* The most stack that each call of the bench has used, on lines and on grids. */
static size_t most_stack[2][FUNCTIONS];

static void note_stack(enum function function, size_t bytes)
{
    const struct twin_job *of = function == LINKED ? &linked.job : &draft.job;
    size_t *most = &most_stack[of->order_field == GRID][function];
    *most = bytes > *most ? bytes : *most;
}

/* Whether that is as include/bench.h says. */
static bool stack_within(void)
{
    bool within = true;
    printf("%-9s%12s%12s\n", "stack", "lines", "grids");
    for (int f = 0; f < FUNCTIONS; f++) {
        printf("%-9s%12zu%12zu\n", call_names[f], most_stack[0][f], most_stack[1][f]);
        within = within && most_stack[0][f] <= BENCH_LINE_STACK_BYTES && most_stack[1][f] <= BENCH_STACK_BYTES;
    }
    printf("%-9s%12d%12d\n", "at most", BENCH_LINE_STACK_BYTES, BENCH_STACK_BYTES);
    if (!within)
        printf("FAILED  a call uses more stack than that\n");
    return within;
}

static void print_line(const char *call, const char *input, const struct timing *timing, int way, size_t bench, size_t other)
{
    printf("%-9s%-16s%12.0f%12.0f%8.2f%12zu%12zu\n", call, input, timing->time[BENCH], timing->time[way], timing->ratio[way], bench, other);
}

static size_t stack_above(size_t none, int way, enum function function)
{
    put_back();
    size_t bytes = stack_of(way, function) - none;
    put_back();
    return bytes;
}

/* A line of the table for each call from `first` to `last` on the input that is in use, but for proposals that honour links. */
static void measure_some(const char *input, bool stack_alone, int first, int last)
{
    size_t none = stack_of(BENCH, FUNCTIONS);
    for (int f = first; f <= last; f++) {
        enum function function = (enum function)f;
        struct timing timing = {{0}, {0}};
        if (function == LINKED)
            continue;
        same_work(function, input, SIDES, BENCH_DONE);
        if (!stack_alone)
            timing = time_ways(function, SIDES);
        size_t bench = stack_above(none, BENCH, function);
        note_stack(function, bench);
        print_line(call_names[f], input, &timing, TWIN, bench, stack_above(none, TWIN, function));
    }
}

/* The same for a proposal that honours links, beside the twin and, in a line more, beside its way that keeps the solutions. More passes need no more
 * stack, so that is measured with few. */
static void measure_linked(const char *input, bool stack_alone, int ways, uint64_t number)
{
    struct timing timing = {{0}, {0}};
    size_t none = stack_of(BENCH, FUNCTIONS), stack[WAYS];
    uint64_t few = passes < 5 ? passes : 5;
    passes = stack_alone ? few : passes;
    same_work(LINKED, input, ways, number);
    if (!stack_alone)
        timing = time_ways(LINKED, ways);
    passes = few;
    for (int way = 0; way < ways; way++)
        stack[way] = stack_above(none, way, LINKED);
    note_stack(LINKED, stack[BENCH]);
    print_line("linked", input, &timing, TWIN, stack[BENCH], stack[TWIN]);
    if (ways > KEPT)
        print_line("  kept", input, &timing, KEPT, stack[BENCH], stack[KEPT]);
}

/* Full jobs with tolerance 0, of which no pass is accepted; full ones of which an early pass is; and a small one. */
static void measure_proposals(bool stack_alone)
{
    struct random four = {4}, two = {2}, grid = {12};
    draft_full(&four, 4, &linked);
    use_linked(0, MOST_PASSES);
    measure_linked("order 4, 200", stack_alone, WAYS, BENCH_NO_PASS_ACCEPTED);
    draft_full(&two, 2, &linked);
    use_linked(0, 1);
    measure_linked("order 2, 1", stack_alone, SIDES, BENCH_NO_PASS_ACCEPTED);
    use_accepted(false);
    measure_linked("order 4, done", stack_alone, SIDES, BENCH_DONE);
    use_small_linked();
    measure_linked("n 3, done", stack_alone, SIDES, BENCH_DONE);
    draft_full_grid(&grid, MOST_COLUMNS, 4, 4, &linked);
    use_linked(0, MOST_PASSES);
    measure_linked("10x12, 200", stack_alone, WAYS, BENCH_NO_PASS_ACCEPTED);
    use_accepted(true);
    measure_linked("10x12, done", stack_alone, SIDES, BENCH_DONE);
}

/* Every call where each society has four slots, then those on a shelf where two have ten and the others two. Lists are measured here alone: they know
 * neither orders nor grids. */
static void measure(const char *input, const char *with_ten, bool stack_alone)
{
    measure_some(input, stack_alone, 0, FUNCTIONS - 1);
    use_ten();
    measure_some(with_ten, stack_alone, KEEP, CLEAR);
}

int main(int argc, char **argv)
{
    bool stack_alone = argc > 1 && strcmp(argv[1], "stack") == 0;
    printf("%s\n", argc > 1 ? argv[1] : "somewhere");
    printf("Processor time in nanoseconds a call, the median of %d rounds in turns, or of %d where a call takes long; stack in bytes. forget includes\n"
           "putting its table back. linked is told with its passes, or done if one of the first is accepted; kept: the twin keeps the links' solutions.\n",
           ROUNDS, FEW_ROUNDS);
    printf("%-9s%-16s%12s%12s%8s%12s%12s\n", "call", "input", "bench", "twin", "ratio", "stack", "twin's");
    use_full(4);
    measure("full, order 4", "full, ten slots", stack_alone);
    use_full(2);
    measure_some("full, order 2", stack_alone, 0, WRITE);
    use_small();
    measure("n 3", "n 3, ten slots", stack_alone);
    use_full_grid(12, 4, 4);
    measure_some("grid 10x12", stack_alone, 0, WRITE);
    use_full_grid(2, 2, 1);
    measure_some("grid 60x2", stack_alone, 0, WRITE);
    measure_proposals(stack_alone);
    return stack_within() ? 0 : 1;
}
