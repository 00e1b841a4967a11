/* Drafts written in reverse (document 02, W-213): random drafts are checked by the bench as they are and turned in each way, and the answers compared.
 * Nothing stands beside the bench here: what it says of a draft is held to what it says of the turned one.
 * Arguments: the seed and the count of drafts. It ends with 1 at the first mismatch, or if a number, a moved place, an order of a link's terms or a shape
 * was never met in some way. */
#include "../../include/bench.h"
#include "met.h"
#include "numbers.h"
#include "shapes.h"

#include <inttypes.h>
#include <stdio.h>
#include <stdlib.h>
#include <string.h>

/* A draft, its packs, and what the bench answers to them: to the check, and to reading the job's numbers into room enough and into too little. The terms are
 * listed where the table meets the job. */
struct asked {
    struct draft draft;
    struct bytes job, proposal;
    uint64_t number, place, loss, gap, read, read_short;
    bool listed;
    int64_t terms[BENCH_MOST_TERM_WORDS];
};

static struct asked plain, turned;

static void write_packs(const struct draft *d, struct bytes *job, struct bytes *proposal)
{
    static struct numbers list;
    numbers_of_job(&d->job, &list);
    numbers_pack(&list, job);
    numbers_of_proposal(d, &list);
    numbers_pack(&list, proposal);
}

static bool meets(const struct asked *s)
{
    return s->number == BENCH_DONE || s->number == BENCH_GAP_ABOVE_TOLERANCE;
}

static bool list_terms(struct asked *s)
{
    uint64_t answer[BENCH_ANSWER_WORDS];
    uint64_t said = bench_terms(s->job.at, s->job.count, s->proposal.at, s->proposal.count, s->terms, BENCH_MOST_TERM_WORDS, answer, BENCH_ANSWER_WORDS);
    return BENCH_NUMBER(said) == BENCH_DONE;
}

static uint64_t read_numbers(const struct asked *s, size_t room)
{
    static int64_t words[BENCH_MOST_JOB_WORDS];
    uint64_t answer[BENCH_ANSWER_WORDS];
    return bench_read(s->job.at, s->job.count, words, room, answer, BENCH_ANSWER_WORDS);
}

static void ask(struct asked *s)
{
    uint64_t answer[BENCH_ANSWER_WORDS];
    write_packs(&s->draft, &s->job, &s->proposal);
    bench_check(s->job.at, s->job.count, s->proposal.at, s->proposal.count, answer, BENCH_ANSWER_WORDS);
    s->number = answer[0];
    s->place = answer[1];
    s->loss = answer[2];
    s->gap = answer[3];
    s->read = read_numbers(s, BENCH_MOST_JOB_WORDS);
    s->read_short = read_numbers(s, 1);
    s->listed = meets(s) && list_terms(s);
}

/* The places of the terms: cells, then links. */
static int64_t places(void)
{
    return plain.draft.job.cells + plain.draft.job.links;
}

/* A place of the draft as it is, where it stands once the draft is turned: links keep theirs. */
static int64_t turned_place(enum way way, int64_t place)
{
    return place < plain.draft.job.cells ? turned_cell(&plain.draft.job, way, place) : place;
}

/* The lowest place whose term, residual or side is another once the draft is turned, or the count of places. */
static int64_t other_term(enum way way)
{
    int64_t place = 0;
    while (place < places()
           && memcmp(plain.terms + TERM_WORDS * place, turned.terms + TERM_WORDS * turned_place(way, place), TERM_WORDS * sizeof *plain.terms) == 0)
        place++;
    return place;
}

static bool is_outside(int64_t cell)
{
    const struct twin_job *job = &plain.draft.job;
    int64_t v = plain.draft.table.value[cell];
    return v < job->lo[cell] || v > job->hi[cell];
}

/* The lowest turned cell of those outside their boxes: the place of 7. */
static int64_t lowest_outside(enum way way)
{
    int64_t lowest = plain.draft.job.cells;
    for (int64_t i = 0; i < plain.draft.job.cells; i++)
        if (is_outside(i) && turned_place(way, i) < lowest)
            lowest = turned_place(way, i);
    return lowest;
}

/* The lowest turned place of those with the largest term: the place of 9. */
static int64_t largest_term(enum way way)
{
    int64_t most = -1, lowest = 0;
    for (int64_t i = 0; i < places(); i++) {
        int64_t term = plain.terms[TERM_WORDS * i], place = turned_place(way, i);
        if (term > most || (term == most && place < lowest)) {
            most = term;
            lowest = place;
        }
    }
    return lowest;
}

static uint64_t expected_place(enum way way)
{
    if (plain.number == BENCH_OUTSIDE_BOX)
        return (uint64_t)lowest_outside(way);
    if (plain.number == BENCH_GAP_ABOVE_TOLERANCE)
        return (uint64_t)largest_term(way);
    return plain.place;
}

/* Whether the turned packs, read and turned once more, are the very bytes of the packs as they are. */
static bool turns_back(enum way way)
{
    static struct draft read, back;
    static struct bytes job, proposal;
    if (twin_read_job(turned.job.at, turned.job.count, &read.job).number != 0
        || twin_read_proposal(turned.proposal.at, turned.proposal.count, &read.job, &read.table).number != 0)
        return false;
    turned_draft(&read, way, &back);
    write_packs(&back, &job, &proposal);
    return job.count == plain.job.count && proposal.count == plain.proposal.count && memcmp(job.at, plain.job.at, job.count) == 0
        && memcmp(proposal.at, plain.proposal.at, proposal.count) == 0;
}

/* What is wrong with the draft turned so, or a null pointer. A job that is refused with 4 is not read to its end, so it cannot be turned back. */
static const char *wrong_in(enum way way)
{
    turned_draft(&plain.draft, way, &turned.draft);
    ask(&turned);
    if (turned.number != plain.number)
        return "the numbers differ";
    if (turned.loss != plain.loss || turned.gap != plain.gap)
        return "loss or gap differ";
    if (turned.read != plain.read || turned.read_short != plain.read_short)
        return "reading the job's numbers answers otherwise";
    if (plain.listed != meets(&plain) || turned.listed != meets(&turned))
        return "the terms of the gap are not listed";
    if (plain.listed && other_term(way) < places())
        return "the terms of the gap differ";
    if (turned.place != expected_place(way))
        return "the turned draft has a wrong place";
    if (plain.number != BENCH_FEW_WEIGHTS && !turns_back(way))
        return "turned twice, the packs have other bytes";
    return NULL;
}

static void print_bytes(const char *what, const struct bytes *bytes)
{
    printf("    %s:", what);
    for (size_t i = 0; i < bytes->count; i++)
        printf(" %02X", bytes->at[i]);
    printf("\n");
}

static void print_asked(const char *which, const struct asked *s)
{
    printf("  %s: number %" PRIu64 ", place %" PRIu64 ", loss %" PRIu64 ", gap %" PRIu64 "\n", which, s->number, s->place, s->loss, s->gap);
    print_bytes("job pack", &s->job);
    print_bytes("proposal pack", &s->proposal);
}

static void print_term(const char *which, const struct asked *s, int64_t place)
{
    const int64_t *words = s->terms + TERM_WORDS * place;
    printf("  %s: place %" PRId64 " has term %" PRId64 ", residual %" PRId64 ", side %" PRId64 "\n", which, place, words[0], words[1], words[2]);
}

static int mismatch(uint64_t seed, uint64_t number, enum way way, const char *wrong)
{
    printf("MISMATCH  seed %" PRIu64 ", draft %" PRIu64 ": %s: %s\n", seed, number, way_names[way], wrong);
    print_asked("as it is", &plain);
    print_asked("turned", &turned);
    if (plain.listed && turned.listed && other_term(way) < places()) {
        print_term("as it is", &plain, other_term(way));
        print_term("turned", &turned, turned_place(way, other_term(way)));
    }
    return 1;
}

/* Full size, which other drafts seldom have, with links of four terms; the house, which plants the table, takes 12 columns. */
static void draw_full(struct random *r, struct draft *d)
{
    static const int64_t some[] = {2, 3, 4, 5, 6, 8, 10, 12};
    int64_t columns = some[random_below(r, 8)], down = shape_draw_order(r, MOST_CELLS / columns);
    if (random_chance(r, 50))
        draft_full(r, random_below(r, GRID), d);
    else
        draft_full_grid(r, columns, down, shape_draw_order(r, columns), d);
}

/* Some are broken more than once, so that several cells lie outside their boxes or several links are broken. */
static void draw(struct random *r, struct draft *d)
{
    if (random_chance(r, 1))
        draw_full(r, d);
    else
        draft_make(r, d);
    if (random_chance(r, 50))
        for (int64_t left = random_between(r, 1, 3); left > 0; left--)
            draft_break(r, d);
}

/* W-213 is about packs that can be read; of others only a job with too few positive weights is turned, which is read as far as that. */
static bool is_turned(uint64_t number)
{
    return number == BENCH_DONE || number == BENCH_FEW_WEIGHTS || number >= BENCH_OUTSIDE_BOX;
}

/* The draft in each way: answers 1 and reports at the first mismatch. */
static int turn_each_way(uint64_t seed, uint64_t number)
{
    met_shape(&plain.draft.job);
    for (int way = 0; way < WAYS; way++) {
        const char *wrong = wrong_in((enum way)way);
        if (wrong)
            return mismatch(seed, number, (enum way)way, wrong);
        met_turned(&plain.draft.job, (enum way)way, plain.number, plain.place, turned.place);
    }
    return 0;
}

/* Where the cells of a line of four and of a grid of three rows and two columns go, by hand. The answers alone do not tell rows from columns. */
static const struct mapped {
    int64_t rows, columns;
    enum way way;
    int64_t cell[6];
} MAPPED[] = {
    {4, 1, ROWS_ALONE, {3, 2, 1, 0}},       {4, 1, COLUMNS_ALONE, {0, 1, 2, 3}},       {4, 1, BOTH_TOGETHER, {3, 2, 1, 0}},
    {3, 2, ROWS_ALONE, {4, 5, 2, 3, 0, 1}}, {3, 2, COLUMNS_ALONE, {1, 0, 3, 2, 5, 4}}, {3, 2, BOTH_TOGETHER, {5, 4, 3, 2, 1, 0}},
};

static bool is_mapped(const struct mapped *m)
{
    const struct twin_job job = {.cells = m->rows * m->columns, .rows = m->rows, .columns = m->columns};
    for (int64_t i = 0; i < job.cells; i++)
        if (turned_cell(&job, m->way, i) != m->cell[i])
            return false;
    return true;
}

static int judge_maps(void)
{
    for (size_t i = 0; i < sizeof MAPPED / sizeof *MAPPED; i++)
        if (!is_mapped(&MAPPED[i])) {
            printf("MISMATCH  by hand, map %zu: %s: a cell goes elsewhere\n", i, way_names[MAPPED[i].way]);
            return 1;
        }
    return 0;
}

static int run(uint64_t seed, uint64_t count)
{
    struct random random = {seed};
    uint64_t left_out = 0;
    for (uint64_t i = 0; i < count; i++) {
        draw(&random, &plain.draft);
        ask(&plain);
        if (!is_turned(plain.number))
            left_out++;
        else if (turn_each_way(seed, i) != 0)
            return 1;
    }
    met_print();
    printf("%" PRIu64 " drafts, of which %" PRIu64 " are refused with 1, 2, 3, 5 or 6 and not turned\n", count, left_out);
    return met_judge() | judge_maps();
}

int main(int argc, char **argv)
{
    if (argc != 3) {
        fprintf(stderr, "usage: reversed SEED COUNT\n");
        return 2;
    }
    return run(strtoull(argv[1], NULL, 10), strtoull(argv[2], NULL, 10));
}
