/* Counts of slots worked by hand (document 02, W-209): rows that are allowed and rows that are not, where the spans lie, what a clearing leaves, and
 * which table a full society loses. */
#include "parts.h"
#include "tables.h"
#include "twin.h"

#include <string.h>

static uint32_t shelf[SHELF_WORDS];
static uint64_t answer[ANSWER_WORDS];

/* Document 01's worked example. Its society and its number are set for each call. */
static uint8_t job[] = {3, 7, 3, 2, 1, 0, 0, 1, 0, 100, 7, 1, 0, 100, 0, 1, 0, 100, 0};

/* A row of counts, and what every call says of it. */
static const struct row {
    const char *what;
    uint32_t counts[8];
    uint64_t number, place;
} ROWS[] = {
    {"one slot each", {1, 1, 1, 1, 1, 1, 1, 1}, 0, 0},
    {"four slots each, 32 in all", {4, 4, 4, 4, 4, 4, 4, 4}, 0, 0},
    {"sixteen and ten, 32 in all", {16, 10, 1, 1, 1, 1, 1, 1}, 0, 0},
    {"sixteen for the last", {2, 2, 2, 2, 2, 2, 2, 16}, 0, 0},
    {"ten, ten and two, and two for each of the five others", {10, 10, 2, 2, 2, 2, 2, 2}, 0, 0},
    {"ten, ten and two, and four for each of the five others: 42", {10, 10, 2, 4, 4, 4, 4, 4}, 22, 8},
    {"33 in all", {4, 4, 4, 4, 4, 4, 4, 5}, 22, 8},
    {"128 in all", {16, 16, 16, 16, 16, 16, 16, 16}, 22, 8},
    {"no slot for society 0", {0, 4, 4, 4, 4, 4, 4, 4}, 22, 0},
    {"no slot for society 7", {4, 4, 4, 4, 4, 4, 4, 0}, 22, 7},
    {"seventeen slots for society 7", {1, 1, 1, 1, 1, 1, 1, 17}, 22, 7},
    {"seventeen slots for society 3", {1, 1, 1, 17, 1, 1, 1, 1}, 22, 3},
    {"no slot for society 2 and seventeen for society 5", {1, 1, 0, 1, 1, 17, 1, 1}, 22, 2},
    {"no slot for anyone", {0, 0, 0, 0, 0, 0, 0, 0}, 22, 0},
    {"a total above 32, then no slot for society 6", {16, 16, 16, 1, 1, 1, 0, 1}, 22, 6},
    {"2^32 - 1 slots for society 4", {1, 1, 1, 1, 4294967295, 1, 1, 1}, 22, 4},
    {"2^31 slots for societies 5 and 6, which 32 bits add to 0", {1, 1, 1, 1, 1, 2147483648, 2147483648, 1}, 22, 5},
    {"260 slots, whose low byte is 4", {4, 260, 4, 4, 4, 4, 4, 4}, 22, 1},
    {"65,540 slots, whose low 16 bits are 4", {4, 4, 4, 4, 4, 4, 65540, 4}, 22, 6},
};

static void name_job(uint8_t society, uint8_t number)
{
    job[0] = society;
    job[1] = number;
}

static uint64_t clear(const uint32_t *counts)
{
    return twin_clear(shelf, 9192, counts, answer, 4);
}

static uint64_t keep(uint8_t society, uint8_t number)
{
    const uint8_t proposal[] = {2, 3, 2};
    name_job(society, number);
    return twin_keep(shelf, 9192, job, sizeof job, proposal, 3, answer, 4);
}

static uint64_t fetch(uint8_t society, uint8_t number)
{
    uint32_t out[3];
    name_job(society, number);
    return twin_fetch(shelf, 9192, job, sizeof job, out, 3, answer, 4);
}

static uint64_t forget(uint32_t society, uint32_t number)
{
    return twin_forget(shelf, 9192, society, number, answer, 4);
}

/* Every word of the shelf becomes `mark`, so that what a call leaves can be told from what it zeroes. */
static void mark_all(uint32_t mark)
{
    for (size_t i = 0; i < SHELF_WORDS; i++)
        shelf[i] = mark;
}

/* How many words from `from` on have the mark, up to the first that has not. */
static size_t run_of(uint32_t mark, size_t from)
{
    size_t end = from;
    while (end < SHELF_WORDS && shelf[end] == mark)
        end++;
    return end - from;
}

/* A row is judged alike at a clearing, where it is handed in, and at every other call, which finds it. */
static void rows(void)
{
    for (size_t i = 0; i < sizeof ROWS / sizeof *ROWS; i++) {
        const struct row *c = &ROWS[i];
        uint64_t refusal = 32 * c->place + c->number;
        mark_all(9);
        expect(clear(c->counts) == refusal, c->what);
        expect(c->number == 0 || run_of(9, 0) == 9192, "a refused clearing leaves every word");
        memcpy(shelf, c->counts, sizeof c->counts);
        expect(keep(0, 7) == refusal, c->what);
        expect(fetch(0, 7) == (c->number ? refusal : 3 * 32), c->what);
        expect(forget(0, 7) == refusal, c->what);
    }
}

/* The order of refusals: the answer slice, the shelf's length, the counts, then what the job pack or the society is refused for. */
static void order(void)
{
    const uint32_t wrong[] = {1, 1, 1, 1, 1, 0, 1, 1}, right[] = {1, 1, 1, 1, 1, 1, 1, 1};
    const uint8_t none[] = {0};
    mark_all(9);
    memcpy(shelf, wrong, sizeof wrong);
    expect(twin_clear(shelf, 9191, wrong, answer, 3) == 32 * 4 + 13, "the answer slice before the shelf's length");
    expect(twin_clear(shelf, 9184, wrong, answer, 4) == 32 * 9192 + 13, "the shelf's length before the counts handed in");
    expect(twin_forget(shelf, 9184, 8, 0, answer, 4) == 32 * 9192 + 13, "the shelf's length before the counts found");
    expect(twin_keep(shelf, 9192, none, 0, none, 0, answer, 4) == 32 * 5 + 22, "22 before an unreadable job pack at keep");
    expect(twin_fetch(shelf, 9192, none, 0, shelf, 0, answer, 4) == 32 * 5 + 22, "22 before an unreadable job pack at fetch");
    expect(forget(8, 0) == 32 * 5 + 22, "22 before 11");
    expect(clear(right) == 0, "a clearing does not look at the counts that it finds");
    expect(forget(8, 0) == 11, "then 11");
}

/* Counts 3 1 2 5 1 1 4 2: society s begins behind the row and the slots before it. */
static void starts(void)
{
    static const size_t words[] = {8, 869, 1156, 1730, 3165, 3452, 3739, 4887};
    const uint32_t counts[] = {3, 1, 2, 5, 1, 1, 4, 2};
    mark_all(9);
    expect(clear(counts) == 0, "counts 3 1 2 5 1 1 4 2");
    expect(memcmp(shelf, counts, sizeof counts) == 0, "a clearing sets the counts");
    expect(run_of(0, 8) == 19 * 287, "and zeroes 19 slots");
    expect(run_of(9, 8 + 19 * 287) == 13 * 287, "the room of 13 slots behind them stays");
    for (uint8_t society = 0; society < 8; society++) {
        expect(keep(society, 40) == 0, "a table is kept");
        expect(shelf[words[society]] == 3 && shelf[words[society] + 1] == 40, "at the start of its society's span");
    }
    expect(memcmp(shelf, counts, sizeof counts) == 0, "the row stays");
    expect(run_of(9, 8 + 19 * 287) == 13 * 287, "and what is behind the last span");
}

/* A society keeps as many tables as its count, drops the oldest, and moves no word of its neighbours. */
static void pushes(uint32_t slots)
{
    uint32_t counts[] = {1, 1, slots, 1, 1, 1, 1, 1};
    mark_all(9);
    clear(counts);
    keep(1, 50);
    keep(3, 51);
    for (uint8_t number = 0; number <= slots; number++)
        expect(keep(2, number) == 0, "one table more than there are slots");
    expect(fetch(2, 0) == 12, "the oldest is gone");
    for (uint8_t number = 1; number <= slots; number++)
        expect(fetch(2, number) == 3 * 32, "the others are there");
    for (uint32_t slot = 0; slot < slots; slot++)
        expect(shelf[8 + (2 + slot) * 287 + 1] == slot + 1, "in the order in which they were kept");
    expect(fetch(1, 50) == 3 * 32 && fetch(3, 51) == 3 * 32, "the neighbours' are there");
    expect(forget(2, 1) == 0 && run_of(0, 8 + (1 + slots) * 287) == 287, "a forgotten table leaves the last slot empty, and that alone");
    expect(slots == 1 || shelf[8 + 2 * 287 + 1] == 2, "and the next oldest in the first");
    expect(memcmp(shelf, counts, sizeof counts) == 0, "no call but a clearing changes a count");
    expect(run_of(9, 8 + (7 + slots) * 287) == (25 - slots) * 287, "what is behind the last span stays");
}

/* A clearing to other counts begins anew: every society's list is empty, also where the words stay. */
static void begins_anew(void)
{
    const uint32_t many[] = {1, 1, 1, 1, 1, 1, 10, 16}, few[] = {2, 1, 1, 1, 1, 1, 1, 1};
    mark_all(9);
    clear(many);
    keep(0, 60);
    keep(7, 61);
    size_t kept = 8 + 16 * 287;
    expect(shelf[kept] == 3 && shelf[kept + 1] == 61, "society 7 behind sixteen slots");
    expect(clear(few) == 0 && memcmp(shelf, few, sizeof few) == 0, "cleared to fewer slots");
    expect(fetch(0, 60) == 12 && fetch(7, 61) == 12, "nothing is kept then");
    expect(shelf[kept] == 3 && shelf[kept + 1] == 61, "but the words behind the last span stay");
    expect(clear(many) == 0 && fetch(7, 61) == 12 && run_of(0, 8) == 32 * 287, "and are zeroed once they lie in a span again");
}

void counts_tables(void)
{
    rows();
    order();
    starts();
    pushes(1);
    pushes(2);
    pushes(16);
    begins_anew();
}
