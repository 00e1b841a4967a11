/* What holds a table back, for an actuary to act on. `terms PLACE` reads an input of the checking program that was refused with 9 and that place. It
 * prints the gap and its largest terms, each with its share and what to do about it. It vouches for nothing itself: a change that it names was tried
 * alone, and the gap that it names is what bench_terms told then. */
#include <inttypes.h>
#include <stdio.h>
#include <stdlib.h>

#include "table.h"

/* The gap may pass 64 bits. */
__extension__ typedef unsigned __int128 wide;

enum { MOST_MULTIPLIER = 1000000000, SHOWN = 5 };

/* The words of a place among the terms. */
enum { TERM = 0, RESIDUAL = 1, SIDE = 2, TERM_WORDS = 3 };

/* A table that is held back, and what its gap is made of. */
struct held {
    struct table table;
    int64_t term[BENCH_MOST_TERM_WORDS];
    wide gap;
};

static const int64_t *term_of(const struct held *h, int64_t place)
{
    return h->term + TERM_WORDS * place;
}

static int64_t least(int64_t a, int64_t b)
{
    return a < b ? a : b;
}

/* ---- what the library tells */

/* The terms of a proposal pack and their sum, or false for a pack that it refuses. */
static bool ask(const struct table *t, const uint8_t *pack, size_t bytes, int64_t *term, wide *gap)
{
    uint64_t answer[BENCH_ANSWER_WORDS];
    uint64_t said = bench_terms(t->job, t->job_bytes, pack, bytes, term, BENCH_MOST_TERM_WORDS, answer, BENCH_ANSWER_WORDS);
    if (BENCH_NUMBER(said) != BENCH_DONE)
        return false;
    *gap = 0;
    for (int64_t place = 0; place < places(t); place++)
        *gap += (wide)term[TERM_WORDS * place + TERM];
    return true;
}

/* Whether the gap is below `most` once one number alone is moved; if so, it becomes `most`. */
static bool smaller_with(struct table *t, int64_t place, int64_t step, wide *most)
{
    uint8_t pack[BENCH_MOST_PROPOSAL_BYTES];
    int64_t term[BENCH_MOST_TERM_WORDS];
    size_t bytes = 0;
    wide gap;
    t->number[place] += step;
    for (int64_t i = 0; i < places(t); i++)
        bytes += put_number(pack + bytes, t->number[i]);
    t->number[place] -= step;
    if (!ask(t, pack, bytes, term, &gap) || gap >= *most)
        return false;
    *most = gap;
    return true;
}

/* A change of one number, and the gap once it is made. */
struct change {
    int64_t now, then;
    wide gap;
};

/* The best that a number alone can do on its way: of steps by 1, by 2 and so on doubled, and by the whole way. False where none makes the gap smaller. */
static bool find_change(struct held *h, int64_t place, bool down, int64_t way, struct change *change)
{
    int64_t now = h->table.number[place];
    change->now = change->then = now;
    change->gap = h->gap;
    for (int64_t step = 1; step <= way; step = step < way ? least(2 * step, way) : way + 1)
        if (smaller_with(&h->table, place, down ? -step : step, &change->gap))
            change->then = down ? now - step : now + step;
    return change->then != now;
}

/* ---- links */

static int64_t coefficient(const struct table *t, int64_t link, int64_t cell)
{
    const int64_t *word = t->link[link];
    for (int64_t m = 0; m < word[0]; m++)
        if (word[1 + 2 * m] == cell)
            return word[2 + 2 * m];
    return 0;
}

static int64_t bound_of(const struct table *t, int64_t link)
{
    return t->link[link][1 + 2 * t->link[link][0]];
}

static int64_t sum_of(const struct table *t, int64_t link)
{
    const int64_t *word = t->link[link];
    int64_t sum = 0;
    for (int64_t m = 0; m < word[0]; m++)
        sum += word[2 + 2 * m] * t->number[word[1 + 2 * m]];
    return sum;
}

/* How far a link lets a value go before it breaks, if that way leads there at all; else `most`. */
static int64_t let_go(const struct table *t, int64_t link, int64_t cell, bool down, int64_t most)
{
    int64_t c = coefficient(t, link, cell);
    return c != 0 && (c < 0) == down ? least(most, (bound_of(t, link) - sum_of(t, link)) / llabs(c)) : most;
}

/* The lowest link that lets a value not even go by 1, or -1. */
static int64_t holding_link(const struct table *t, int64_t cell, bool down)
{
    for (int64_t l = 0; l < t->links; l++)
        if (let_go(t, l, cell, down, 1) == 0)
            return l;
    return -1;
}

/* ---- how far to go */

/* How far a value can go in its box before a link breaks. */
static int64_t free_way(const struct table *t, int64_t cell, bool down)
{
    const int64_t *job = cell_of(t, cell);
    int64_t way = down ? t->number[cell] - job[FLOOR] : job[CEILING] - t->number[cell];
    for (int64_t l = 0; l < t->links; l++)
        way = let_go(t, l, cell, down, way);
    return way;
}

/* How far a value should go against its residual: as far as it can, or less where its weight alone asks for less. */
static int64_t value_way(const struct held *h, int64_t cell)
{
    const int64_t *term = term_of(h, cell);
    int64_t way = free_way(&h->table, cell, term[RESIDUAL] > 0);
    return term[SIDE] == BENCH_BY_BOX ? way : least(way, (llabs(term[RESIDUAL]) - 1) / (2 * cell_of(&h->table, cell)[WEIGHT]) + 1);
}

/* How far a multiplier should go, raised or lowered, to bring the residual of a cell with this coefficient to 0. */
static int64_t multiplier_way(const struct table *t, int64_t link, bool down, int64_t residual, int64_t c)
{
    int64_t now = t->number[t->cells + link];
    return least(down ? now : MOST_MULTIPLIER - now, (llabs(residual) - 1) / llabs(c) + 1);
}

/* ---- words */

static const char *wide_text(wide number, char text[40])
{
    char *at = text + 39;
    *at = 0;
    do
        *--at = (char)('0' + (int)(number % 10));
    while ((number /= 10) > 0);
    return at;
}

/* What parts a term from what can be done about it, and that from what can be done instead. */
static void say_or(int *said)
{
    printf((*said)++ == 0 ? "; " : ", or ");
}

static const char *verb(bool down)
{
    return down ? "lower" : "raise";
}

static void say_gap(const struct change *change)
{
    char text[40];
    printf(", where the gap is %s", wide_text(change->gap, text));
}

static void say_value(const struct table *t, int64_t cell, bool down, int64_t then)
{
    printf("%s its value %" PRId64 " towards ", verb(down), t->number[cell]);
    if (then == cell_of(t, cell)[down ? FLOOR : CEILING])
        printf(down ? "its floor " : "its ceiling ");
    printf("%" PRId64, then);
}

/* The first link whose multiplier helps, raised or lowered against the cell's residual. One that is raised has to hold the value where it is: a link
 * with room for a step of the value has no say in it. */
static void say_multiplier(struct held *h, int64_t cell, bool down, int *said)
{
    const struct table *t = &h->table;
    int64_t residual = term_of(h, cell)[RESIDUAL];
    struct change change;
    for (int64_t l = 0; l < t->links; l++) {
        int64_t c = coefficient(t, l, cell);
        if (c == 0 || ((residual > 0) == (c > 0)) != down || (!down && let_go(t, l, cell, residual > 0, 1) > 0))
            continue;
        if (!find_change(h, t->cells + l, down, multiplier_way(t, l, down, residual, c), &change))
            continue;
        say_or(said);
        printf("%s the multiplier %" PRId64 " of link %" PRId64 " towards %" PRId64, verb(down), change.now, l, change.then);
        say_gap(&change);
        return;
    }
}

static void advise_cell(struct held *h, int64_t cell)
{
    const struct table *t = &h->table;
    bool down = term_of(h, cell)[RESIDUAL] > 0;
    int64_t way = value_way(h, cell);
    struct change change;
    int said = 0;
    if (find_change(h, cell, down, way, &change)) {
        say_or(&said);
        say_value(t, cell, down, change.then);
        say_gap(&change);
    }
    say_multiplier(h, cell, false, &said);
    say_multiplier(h, cell, true, &said);
    if (said == 0 && way == 0) {
        printf("; its value %" PRId64 " is %s, but link %" PRId64 " holds it", change.now, down ? "high" : "low", holding_link(t, cell, down));
    } else if (said == 0) {
        say_or(&said);
        say_value(t, cell, down, down ? change.now - way : change.now + way);
        printf(" with others: alone it makes the gap no smaller");
    }
}

/* The first of a link's cells whose value helps on its way to the bound. */
static void say_nearer(struct held *h, int64_t link, int *said)
{
    const struct table *t = &h->table;
    const int64_t *word = t->link[link];
    struct change change;
    for (int64_t m = 0; m < word[0]; m++) {
        int64_t cell = word[1 + 2 * m];
        bool down = word[2 + 2 * m] < 0;
        if (!find_change(h, cell, down, free_way(t, cell, down), &change))
            continue;
        say_or(said);
        printf("%s the value %" PRId64 " of ", verb(down), change.now);
        say_place(t, cell);
        printf(" towards %" PRId64, change.then);
        say_gap(&change);
        return;
    }
}

static void advise_link(struct held *h, int64_t link)
{
    const struct table *t = &h->table;
    int64_t place = t->cells + link, now = t->number[place];
    struct change change;
    int said = 0;
    printf(", its multiplier %" PRId64 " times the room between its sum %" PRId64 " and its bound %" PRId64, now, sum_of(t, link), bound_of(t, link));
    if (find_change(h, place, true, now, &change)) {
        say_or(&said);
        printf("lower the multiplier towards %" PRId64, change.then);
        say_gap(&change);
    }
    say_nearer(h, link, &said);
    if (said == 0)
        printf("; lower the multiplier or raise the sum with others: alone they make the gap no smaller");
}

/* ---- lines */

/* A share of the gap in percent, to the nearest tenth. */
static void begin_share(wide part, wide gap)
{
    char field[32];
    unsigned tenths = (unsigned)((2000 * part + gap) / (2 * gap));
    snprintf(field, sizeof field, "%u.%u %%", tenths / 10, tenths % 10);
    begin_line(field);
}

static void print_term(struct held *h, int64_t place)
{
    const int64_t *term = term_of(h, place);
    begin_share((wide)term[TERM], h->gap);
    say_place(&h->table, place);
    printf(": %" PRId64, term[TERM]);
    if (term[SIDE] == BENCH_BY_LINK) {
        advise_link(h, place - h->table.cells);
    } else {
        printf(term[SIDE] == BENCH_BY_BOX ? ", by its box" : ", by its weight");
        advise_cell(h, place);
    }
    printf("\n");
}

/* The largest terms above 0, the lowest place first where several are equal, and the others together. */
static void print_terms(struct held *h)
{
    bool shown[MOST_PLACES] = {false};
    wide rest = h->gap;
    int others = 0;
    for (int count = 0; count < SHOWN && rest > 0; count++) {
        int64_t largest = -1;
        for (int64_t place = 0; place < places(&h->table); place++)
            if (!shown[place] && (largest < 0 || term_of(h, place)[TERM] > term_of(h, largest)[TERM]))
                largest = place;
        print_term(h, largest);
        shown[largest] = true;
        rest -= (wide)term_of(h, largest)[TERM];
    }
    for (int64_t place = 0; place < places(&h->table); place++)
        others += !shown[place] && term_of(h, place)[TERM] > 0;
    if (others > 0) {
        begin_share(rest, h->gap);
        printf(others == 1 ? "1 further term\n" : "%d further terms, together\n", others);
    }
}

int main(int count, char **arguments)
{
    static struct held held;
    const struct table *t = &held.table;
    char text[40];
    if (count != 2 || !read_table(&held.table) || !ask(t, t->proposal, t->proposal_bytes, held.term, &held.gap)) {
        fprintf(stderr, "terms: there is no table here whose gap can be told\n");
        return 1;
    }
    begin_line(arguments[1]);
    printf("place: the largest term of the gap: ");
    say_place(t, strtoll(arguments[1], NULL, 10));
    printf("\n");
    begin_line(wide_text(held.gap, text));
    printf("gap G, the sum of its terms; the tolerance T is %" PRId64 "; each change below was tried alone\n", t->tolerance);
    print_terms(&held);
    return 0;
}
