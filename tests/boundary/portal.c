/* A caller as the portal is one: it knows bench.h and nothing else. It makes each call, reads each answer, and meets each refusal with the place
 * that the table of numbers gives. */
#include "bench.h"

#include <stdio.h>
#include <string.h>

/* Proposals that honour links came with version 7. */
#if BENCH_VERSION < 7
#error "include/bench.h is older than this caller"
#endif

static int passed, failed;
static uint64_t answer[BENCH_ANSWER_WORDS];
static uint32_t shelf[BENCH_SHELF_WORDS];

/* Four slots for each society, as all had before version 4. They fill the shelf. */
static const uint32_t FOUR[BENCH_SOCIETIES] = {4, 4, 4, 4, 4, 4, 4, 4};

/* Three cells with crude rates 0 7 0, weights 1, boxes 0..100, order 2, constant 1, tolerance 0, no links: document 01's worked example. */
static const uint8_t JOB[] = {3, 7, 3, 2, 1, 0, 0, 1, 0, 100, 7, 1, 0, 100, 0, 1, 0, 100, 0};
static const uint8_t PROPOSAL[] = {2, 3, 2};

/* The same with crude rates 0 5 0, tolerance 100, order field 0, and two links: -v0+v1 <= 0 and v2 <= 50. */
static const uint8_t LINKED[] = {3, 7, 3, 0, 1, 100, 0, 1, 0, 100, 5, 1, 0, 100, 0, 1, 0, 100, 2, 2, 0, 1, 1, 2, 0, 1, 2, 2, 100};
static const int64_t LINKED_WORDS[] = {3, 7, 3, 0, 1, 100, 0, 1, 0, 100, 5, 1, 0, 100, 0, 1, 0, 100, 2, 2, 0, -1, 1, 1, 0, 1, 2, 1, 50};

/* A select table of two rows and two columns: orders 1 and 1, second constant 2, constant 1, tolerance 0, crude rates 14 2 and 7 9, weights 1,
 * boxes 0..100. The differences of 9 7 and 8 8 are -1 1 down and -2 0 across, and every residual is 0: F = 52 + 1*2 + 2*4 = 62, G = 0. */
static const uint8_t SELECT[] = {3, 8, 4, 5, 2, 2, 1, 1, 2, 1, 0, 14, 1, 0, 100, 2, 1, 0, 100, 7, 1, 0, 100, 9, 1, 0, 100, 0};
static const uint8_t SELECT_PROPOSAL[] = {9, 7, 8, 8};

/* Document 01's u 0 5 0 with its link -v0 + v1 <= 0 and tolerance 0: the house's 10/7 15/7 10/7 less -4/7 1/7 3/7, multiplier 2. */
static const uint8_t ORDERED[] = {3, 7, 3, 2, 1, 0, 0, 1, 0, 100, 5, 1, 0, 100, 0, 1, 0, 100, 1, 2, 0, 1, 1, 2, 0};
static const uint8_t ORDERED_PROPOSAL[] = {2, 2, 1, 2};

/* Two cells of order 1, crude rates 30 30, weights and constant 1, and the links v0 <= 21, v1 <= 12. After pass p the values are 21 - 27/4^p and 12, the
 * multipliers 27/4^(p-1) and 54 - 54/4^p: pass 2 gives 19 12 with 7 51, F 494 and G 1 + 1 + 2*7; pass 3 gives 21 12 with 2 53, F 486 and G 1 + 1; pass 4
 * gives 21 12 with 0 54 and G 0. Pass 1 has a gap above 27*7. */
static const uint8_t PULLED[] = {3, 7, 2, 1, 1, 0, 30, 1, 0, 100, 30, 1, 0, 100, 2, 1, 0, 2, 42, 1, 1, 2, 24};

/* SELECT with the link v0 - v3 <= -7. Its solution is 4/15 1/15 -1/15 -4/15, its c 8/15, and v0 - v3 is 1: the multiplier is 2*8*15/8, and 15 times the
 * solution taken from 9 7 and 8 8 leaves 5 6 and 9 12. F = 81 + 16 + 4 + 9 + (16 + 36) + 2*(1 + 9) = 182, and every residual is 0. */
static const uint8_t SELECT_LINKED[] = {3, 8, 4, 5, 2, 2, 1, 1, 2, 1, 0, 14, 1, 0, 100, 2, 1, 0, 100, 7, 1, 0, 100, 9, 1, 0, 100, 1, 2, 0, 2, 3, 1, 13};
static const uint8_t SELECT_LINKED_PROPOSAL[] = {5, 6, 9, 12, 30};

static void expect(int holds, const char *what)
{
    passed += holds != 0;
    failed += !holds;
    if (!holds)
        printf("FAILED  %s\n", what);
}

/* Whether what was returned and what stands in the answer slice are this number and place, and F and G are these. */
static int answers(uint64_t said, uint64_t number, uint64_t place, uint64_t loss, uint64_t gap)
{
    int holds = said == 32 * place + number && BENCH_NUMBER(said) == number && BENCH_PLACE(said) == place && answer[0] == number
             && answer[1] == place && answer[2] == loss && answer[3] == gap;
    memset(answer, 0xEE, sizeof answer);
    return holds;
}

static void expect_answer(uint64_t said, uint64_t number, uint64_t place, uint64_t loss, uint64_t gap, const char *what)
{
    int holds = answers(said, number, place, loss, gap);
    expect(holds, what);
    if (!holds)
        printf("        returned number %d, place %d\n", (int)BENCH_NUMBER(said), (int)BENCH_PLACE(said));
}

static uint64_t check(const uint8_t *job, size_t job_bytes, const uint8_t *proposal, size_t proposal_bytes)
{
    return bench_check(job, job_bytes, proposal, proposal_bytes, answer, BENCH_ANSWER_WORDS);
}

static uint64_t terms(const uint8_t *job, size_t job_bytes, const uint8_t *proposal, size_t proposal_bytes, int64_t *out, size_t words)
{
    return bench_terms(job, job_bytes, proposal, proposal_bytes, out, words, answer, BENCH_ANSWER_WORDS);
}

static uint64_t linked(const uint8_t *job, size_t job_bytes, uint64_t passes, uint8_t *out, size_t bytes)
{
    return bench_propose_linked(job, job_bytes, passes, out, bytes, answer, BENCH_ANSWER_WORDS);
}

static uint64_t keep(const uint8_t *job, size_t job_bytes, const uint8_t *proposal, size_t proposal_bytes)
{
    return bench_keep(shelf, BENCH_SHELF_WORDS, job, job_bytes, proposal, proposal_bytes, answer, BENCH_ANSWER_WORDS);
}

static uint64_t fetch(const uint8_t *job, size_t job_bytes, uint32_t *out, size_t words)
{
    return bench_fetch(shelf, BENCH_SHELF_WORDS, job, job_bytes, out, words, answer, BENCH_ANSWER_WORDS);
}

static uint64_t forget(uint32_t society, uint32_t job)
{
    return bench_forget(shelf, BENCH_SHELF_WORDS, society, job, answer, BENCH_ANSWER_WORDS);
}

static uint64_t clear_to(const uint32_t *counts)
{
    return bench_clear(shelf, BENCH_SHELF_WORDS, counts, answer, BENCH_ANSWER_WORDS);
}

static void clear(void)
{
    clear_to(FOUR);
}

/* Whether the row has these counts and every word from `from` to `to` is `word`. */
static int shelf_is(const uint32_t *counts, size_t from, size_t to, uint32_t word)
{
    int same = memcmp(shelf, counts, BENCH_SOCIETIES * sizeof *counts) == 0;
    for (size_t i = from; i < to; i++)
        same = same && shelf[i] == word;
    return same;
}

/* Where each society has four slots, a shelf that is empty. */
static int shelf_is_empty(void)
{
    return shelf_is(FOUR, BENCH_SOCIETIES, BENCH_SHELF_WORDS, 0);
}

static void checks(void)
{
    const uint8_t multiplier[] = {2, 2, 1, 2, 0}, none[] = {2, 2, 1, 0, 0}, off[] = {2, 3, 3};
    uint8_t tolerant[sizeof JOB];
    memcpy(tolerant, JOB, sizeof JOB);
    tolerant[5] = 9;
    expect_answer(check(JOB, sizeof JOB, PROPOSAL, 3), BENCH_DONE, 0, 28, 0, "the worked example is accepted");
    expect_answer(check(tolerant, sizeof JOB, off, 3), BENCH_DONE, 0, 30, 9, "a gap as large as the tolerance is accepted");
    expect_answer(check(LINKED, sizeof LINKED, multiplier, 5), BENCH_DONE, 0, 15, 0, "a link with its multiplier closes the gap");
    expect_answer(check(LINKED, sizeof LINKED, none, 5), BENCH_DONE, 0, 15, 2, "without the multiplier the gap is 2");
}

static void shelf_is_kept(void)
{
    uint8_t other[sizeof JOB];
    uint32_t out[5] = {9, 9, 9, 9, 9};
    memset(shelf, 0xFF, sizeof shelf);
    expect_answer(clear_to(FOUR), BENCH_DONE, 0, 0, 0, "clear");
    expect(shelf_is_empty(), "clearing sets the counts, and every word of the spans to 0");
    expect_answer(keep(JOB, sizeof JOB, PROPOSAL, 3), BENCH_DONE, 0, 28, 0, "keep");
    expect_answer(fetch(JOB, sizeof JOB, out, 5), BENCH_DONE, 3, 28, 0, "fetch gives the count of values, F and G");
    expect(out[0] == 2 && out[1] == 3 && out[2] == 2 && out[3] == 9 && out[4] == 9, "fetch writes three values and no more");
    memcpy(other, JOB, sizeof JOB);
    other[0] = 2;
    expect_answer(fetch(other, sizeof other, out, 5), BENCH_NOTHING_KEPT, 0, 0, 0, "another society has no such table");
    expect_answer(forget(3, 7), BENCH_DONE, 0, 0, 0, "forget");
    expect_answer(fetch(JOB, sizeof JOB, out, 5), BENCH_NOTHING_KEPT, 0, 0, 0, "what is forgotten cannot be fetched");
    expect(shelf_is_empty(), "forgetting the only table leaves a cleared shelf");
}

/* The worked example's job under another society and number. */
static uint64_t fetch_named(uint8_t society, uint8_t number)
{
    uint8_t job[sizeof JOB];
    uint32_t out[3];
    memcpy(job, JOB, sizeof JOB);
    job[0] = society;
    job[1] = number;
    return fetch(job, sizeof job, out, 3);
}

/* A fifth table pushes out the oldest of its society, and a neighbour's stays. */
static void shelf_is_full(void)
{
    uint8_t job[sizeof JOB];
    memcpy(job, JOB, sizeof JOB);
    clear();
    for (uint8_t number = 0; number < 5; number++) {
        job[0] = 5;
        job[1] = number;
        expect_answer(keep(job, sizeof job, PROPOSAL, 3), BENCH_DONE, 0, 28, 0, "one of five tables is kept");
        job[0] = 6;
        job[1] = 0;
        keep(job, sizeof job, PROPOSAL, 3);
    }
    expect_answer(fetch_named(5, 0), BENCH_NOTHING_KEPT, 0, 0, 0, "the oldest is gone");
    expect_answer(fetch_named(5, 1), BENCH_DONE, 3, 28, 0, "the second oldest is there");
    expect_answer(fetch_named(5, 4), BENCH_DONE, 3, 28, 0, "the newest is there");
    expect_answer(fetch_named(6, 0), BENCH_DONE, 3, 28, 0, "the neighbour's is there");
}

static void proposals(void)
{
    uint8_t out[BENCH_MOST_HOUSE_BYTES];
    memset(out, 0xEE, sizeof out);
    expect_answer(bench_propose(JOB, sizeof JOB, out, sizeof out, answer, BENCH_ANSWER_WORDS), BENCH_DONE, 3, 0, 0, "propose");
    expect(out[0] == 2 && out[1] == 3 && out[2] == 2 && out[3] == 0xEE, "the house proposal is 2 3 2, and nothing is written after it");
    expect_answer(check(JOB, sizeof JOB, out, 3), BENCH_DONE, 0, 28, 0, "the house proposal is accepted");
}

/* The room that proposals which honour links are lent, and what it holds before. */
enum { LINKED_ROOM = 16, SPARE = 0xEE };

/* Whether the room has these bytes and is otherwise as it was; it is then made so again. */
static int wrote(uint8_t *out, const uint8_t *pack, size_t bytes)
{
    int same = bytes == 0 || memcmp(out, pack, bytes) == 0;
    for (size_t i = bytes; i < LINKED_ROOM; i++)
        same = same && out[i] == SPARE;
    memset(out, SPARE, LINKED_ROOM);
    return same;
}

/* A job by name, with the proposal that is the first accepted: after so many passes, with this F and G. */
struct worked {
    const char *what;
    const uint8_t *job;
    size_t bytes;
    const uint8_t *pack;
    size_t pack_bytes;
    uint64_t count, loss, gap;
};

/* Every number of passes that may be given: 14 below the count, and from there on always the same pack, with the same count. Check and keep accept it. */
static void honours_links(const struct worked *w)
{
    uint8_t out[LINKED_ROOM];
    int refused = 1, same = 1;
    memset(out, SPARE, sizeof out);
    for (uint64_t passes = 1; passes < w->count; passes++) {
        refused = refused && answers(linked(w->job, w->bytes, passes, out, sizeof out), BENCH_NO_PASS_ACCEPTED, passes, 0, 0);
        refused = wrote(out, NULL, 0) && refused;
    }
    for (uint64_t passes = w->count; passes <= BENCH_MOST_PASSES; passes++) {
        same = same && answers(linked(w->job, w->bytes, passes, out, sizeof out), BENCH_DONE, w->pack_bytes, w->count, 0);
        same = wrote(out, w->pack, w->pack_bytes) && same;
    }
    expect(refused, w->what);
    expect(same, w->what);
    linked(w->job, w->bytes, w->count, out, w->pack_bytes);
    expect_answer(check(w->job, w->bytes, out, w->pack_bytes), BENCH_DONE, 0, w->loss, w->gap, w->what);
    clear();
    expect_answer(keep(w->job, w->bytes, out, w->pack_bytes), BENCH_DONE, 0, w->loss, w->gap, w->what);
}

/* PULLED with this tolerance. */
static void honours_pulled(const char *what, uint8_t tolerance, const uint8_t *pack, uint64_t count, uint64_t loss, uint64_t gap)
{
    uint8_t job[sizeof PULLED];
    memcpy(job, PULLED, sizeof PULLED);
    job[5] = tolerance;
    const struct worked w = {what, job, sizeof job, pack, 4, count, loss, gap};
    honours_links(&w);
}

static void linked_proposals(void)
{
    const uint8_t second[] = {19, 12, 7, 51}, third[] = {21, 12, 2, 53}, fourth[] = {21, 12, 0, 54}, two_links[] = {2, 2, 1, 2, 0};
    const struct worked cases[] = {
        {"u 0 5 0 with its link", ORDERED, sizeof ORDERED, ORDERED_PROPOSAL, 4, 1, 15, 0},
        {"the same with a link more, which has room", LINKED, sizeof LINKED, two_links, 5, 1, 15, 0},
        {"a select table with a link", SELECT_LINKED, sizeof SELECT_LINKED, SELECT_LINKED_PROPOSAL, 5, 1, 182, 0},
        {"the worked example, which has no links", JOB, sizeof JOB, PROPOSAL, 3, 1, 28, 0},
        {"a select table without links", SELECT, sizeof SELECT, SELECT_PROPOSAL, 4, 1, 62, 0},
    };
    for (size_t i = 0; i < sizeof cases / sizeof *cases; i++)
        honours_links(&cases[i]);
    honours_pulled("tolerance 0: four passes", 0, fourth, 4, 486, 0);
    honours_pulled("tolerance 1: four passes", 1, fourth, 4, 486, 0);
    honours_pulled("tolerance 2: three passes", 2, third, 3, 486, 2);
    honours_pulled("tolerance 15: three passes", 15, third, 3, 486, 2);
    honours_pulled("tolerance 16: two passes", 16, second, 2, 494, 16);
}

/* Two cells of order 1 with crude rates 10^6 and weights 1,000, cell 0 in the box 0..0, and the link v0 <= 0, whose multiplier would be above 2*10^9:
 * it is limited to 10^9. The other value is 10^9/1001. F = 1000*10^12 + 1000*999^2 + 999,001^2; the residual of cell 1 is 2, and its term 1. */
static void limited_multiplier(void)
{
    const int64_t words[] = {3, 7, 2, 1, 1, 1, 1000000, 1000, 0, 0, 1000000, 1000, 0, 1000000, 1, 1, 0, 1, 0};
    const uint8_t proposal[] = {0, 0xD9, 0xFC, 0x3C, 0x80, 0x94, 0xEB, 0xDC, 0x03};
    uint8_t pack[64];
    size_t bytes = (size_t)BENCH_PLACE(bench_write(words, sizeof words / sizeof *words, pack, sizeof pack, answer, BENCH_ANSWER_WORDS));
    const struct worked w = {"a multiplier at its limit", pack, bytes, proposal, sizeof proposal, 1, 1000999000999001, 1};
    honours_links(&w);
}

/* Each refusal in its order, and nothing written by any. Of u 0 1 0 without links the house's table is 0 0 0, whose gap is 1. */
static void linked_refusals(void)
{
    static const uint64_t wrong[] = {0, 201, 256, 4294967297, 9223372036854775808u, UINT64_MAX};
    const uint8_t cut[] = {3, 7};
    uint8_t out[LINKED_ROOM], job[sizeof JOB];
    memset(out, SPARE, sizeof out);
    for (size_t i = 0; i < sizeof wrong / sizeof *wrong; i++) {
        expect_answer(linked(ORDERED, sizeof ORDERED, wrong[i], out, sizeof out), BENCH_BAD_PASSES, 0, 0, 0, "passes that are not allowed");
        expect_answer(linked(cut, sizeof cut, wrong[i], out, 0), BENCH_BAD_PASSES, 0, 0, 0, "passes come before the job pack");
        uint64_t said = bench_propose_linked(ORDERED, sizeof ORDERED, wrong[i], out, sizeof out, answer, 3);
        expect(said == 32 * 4 + 13, "and the answer slice before passes");
    }
    expect_answer(linked(cut, sizeof cut, 1, out, 0), BENCH_UNREADABLE, 2, 0, 0, "a pack cut off");
    expect_answer(linked(ORDERED, sizeof ORDERED, 200, out, 3), BENCH_WRONG_LENGTH, 4, 0, 0, "room one byte short");
    expect_answer(linked(ORDERED, sizeof ORDERED, 1, out, 0), BENCH_WRONG_LENGTH, 4, 0, 0, "no room");
    expect_answer(linked(PULLED, sizeof PULLED, 3, out, 0), BENCH_NO_PASS_ACCEPTED, 3, 0, 0, "14 comes before room");
    expect_answer(linked(PULLED, sizeof PULLED, 4, out, 3), BENCH_WRONG_LENGTH, 4, 0, 0, "room one byte short after four passes");
    memcpy(job, JOB, sizeof JOB);
    job[10] = 1;
    expect_answer(linked(job, sizeof job, 1, out, sizeof out), BENCH_NO_PASS_ACCEPTED, 1, 0, 0, "no links and a gap above the tolerance");
    expect_answer(linked(job, sizeof job, 200, out, sizeof out), BENCH_NO_PASS_ACCEPTED, 200, 0, 0, "with the number given for its place");
    expect(wrote(out, NULL, 0), "refused proposals write nothing");
    expect_answer(linked(ORDERED, sizeof ORDERED, 1, out, 4), BENCH_DONE, 4, 1, 0, "room for all and no more");
    expect(wrote(out, ORDERED_PROPOSAL, 4), "is enough");
}

static void round_trip(void)
{
    const size_t count = sizeof LINKED_WORDS / sizeof *LINKED_WORDS;
    int64_t words[BENCH_MOST_JOB_WORDS];
    uint8_t out[BENCH_MOST_JOB_BYTES];
    memset(words, 0, sizeof words);
    memset(out, 0xEE, sizeof out);
    expect_answer(bench_read(LINKED, sizeof LINKED, words, BENCH_MOST_JOB_WORDS, answer, BENCH_ANSWER_WORDS), BENCH_DONE, count, 0, 0, "read");
    expect(memcmp(words, LINKED_WORDS, sizeof LINKED_WORDS) == 0, "the numbers in pack order, with their signs");
    expect_answer(bench_write(words, count, out, sizeof out, answer, BENCH_ANSWER_WORDS), BENCH_DONE, sizeof LINKED, 0, 0, "write");
    expect(memcmp(out, LINKED, sizeof LINKED) == 0 && out[sizeof LINKED] == 0xEE, "writing what was read gives the same bytes and no more");
}

/* A select table from its pack to the shelf and back. */
static void select_table(void)
{
    int64_t words[BENCH_MOST_JOB_WORDS];
    uint8_t pack[BENCH_MOST_JOB_BYTES], out[BENCH_MOST_HOUSE_BYTES];
    uint32_t values[BENCH_MOST_VALUES];
    int same = 1;
    memset(out, 0xEE, sizeof out);
    uint64_t said = bench_read(SELECT, sizeof SELECT, words, BENCH_MOST_JOB_WORDS, answer, BENCH_ANSWER_WORDS);
    expect_answer(said, BENCH_DONE, sizeof SELECT, 0, 0, "a select table is read");
    for (size_t i = 0; i < sizeof SELECT; i++)
        same = same && words[i] == SELECT[i];
    expect(same, "with rows, columns, orders and second constant among its numbers");
    said = bench_write(words, sizeof SELECT, pack, sizeof pack, answer, BENCH_ANSWER_WORDS);
    expect_answer(said, BENCH_DONE, sizeof SELECT, 0, 0, "a select table is written");
    expect(memcmp(pack, SELECT, sizeof SELECT) == 0, "as the same bytes");
    said = bench_propose(SELECT, sizeof SELECT, out, sizeof out, answer, BENCH_ANSWER_WORDS);
    expect_answer(said, BENCH_DONE, 4, 0, 0, "a select table is proposed");
    expect(memcmp(out, SELECT_PROPOSAL, 4) == 0 && out[4] == 0xEE, "the house proposal is 9 7 and 8 8");
    expect_answer(check(SELECT, sizeof SELECT, out, 4), BENCH_DONE, 0, 62, 0, "a select table is accepted");
    clear();
    expect_answer(keep(SELECT, sizeof SELECT, out, 4), BENCH_DONE, 0, 62, 0, "a select table is kept");
    expect_answer(fetch(SELECT, sizeof SELECT, values, BENCH_MOST_VALUES), BENCH_DONE, 4, 62, 0, "a select table is fetched");
    expect(values[0] == 9 && values[1] == 7 && values[2] == 8 && values[3] == 8, "row by row");
}

/* LINKED with v 3 2 1 and the multipliers 3 2. There is no difference, so the residuals are 6 - 3, -6 + 3 and 2 + 2. The square of cell 0 is 9/4
 * rounded up and less than 3*3, that of cell 1 less than 3*98; in cell 2 both sides are 4. The links have room 1 and 49: G is 3 + 3 + 4 + 3 + 98. */
static const uint8_t HELD_BACK[] = {3, 2, 1, 3, 2};
static const int64_t HELD_BACK_TERMS[] = {3, 3, 1, 3, -3, 1, 4, 4, 0, 3, 0, 2, 98, 0, 2};

/* A list of terms, of a table that the check refuses, and in room of every kind. */
static void terms_are_listed(void)
{
    enum { WORDS = 15, ROOM = 17 };
    int64_t out[ROOM], untouched[ROOM];
    memset(untouched, 0xEE, sizeof untouched);
    memcpy(out, untouched, sizeof out);
    expect_answer(check(LINKED, sizeof LINKED, HELD_BACK, 5), BENCH_GAP_ABOVE_TOLERANCE, 4, 0, 0, "a table that link 1 holds back");
    expect_answer(terms(LINKED, sizeof LINKED, HELD_BACK, 5, out, WORDS - 1), BENCH_WRONG_LENGTH, WORDS, 0, 0, "a list into one word less");
    expect_answer(terms(LINKED, sizeof LINKED, HELD_BACK, 5, out, 0), BENCH_WRONG_LENGTH, WORDS, 0, 0, "a list into no words");
    expect(bench_terms(LINKED, sizeof LINKED, HELD_BACK, 5, out, ROOM, answer, 3) == 32 * 4 + 13, "a list with an answer slice of three words");
    expect(memcmp(out, untouched, sizeof out) == 0, "refused lists write no word");
    expect_answer(terms(LINKED, sizeof LINKED, HELD_BACK, 5, out, WORDS), BENCH_DONE, WORDS, 0, 0, "a list into as many words");
    expect(memcmp(out, HELD_BACK_TERMS, sizeof HELD_BACK_TERMS) == 0, "term, residual and side of each cell, then of each link");
    memcpy(out, untouched, sizeof out);
    expect_answer(terms(LINKED, sizeof LINKED, HELD_BACK, 5, out, ROOM), BENCH_DONE, WORDS, 0, 0, "a list into two words more");
    expect(memcmp(out, HELD_BACK_TERMS, sizeof HELD_BACK_TERMS) == 0, "the same list");
    expect(memcmp(out + WORDS, untouched, (ROOM - WORDS) * sizeof *out) == 0, "the words behind it stay");
}

/* A table that the check accepts is listed too; of the select table with constant 2 the residuals are 2 -2 -2 2, and so its terms 1 each. Without a
 * weight in cell 1 the worked example has a residual of 8 there, from its difference alone, and the box supplies the term 8*3. */
static void other_lists(void)
{
    const int64_t best[9] = {0}, square[] = {1, 2, 1, 1, -2, 1, 1, -2, 1, 1, 2, 1}, weightless[] = {0, 0, 0, 24, 8, 0, 0, 0, 0};
    uint8_t select[sizeof SELECT], job[sizeof JOB];
    int64_t out[12];
    expect_answer(terms(JOB, sizeof JOB, PROPOSAL, 3, out, 12), BENCH_DONE, 9, 0, 0, "a list of the worked example");
    expect(memcmp(out, best, sizeof best) == 0, "has no residual, which counts as the box's");
    memcpy(select, SELECT, sizeof SELECT);
    select[9] = 2;
    expect_answer(terms(select, sizeof select, SELECT_PROPOSAL, 4, out, 12), BENCH_DONE, 12, 0, 0, "a list of a select table");
    expect(memcmp(out, square, sizeof square) == 0, "row by row");
    memcpy(job, JOB, sizeof JOB);
    job[11] = 0;
    expect_answer(terms(job, sizeof job, PROPOSAL, 3, out, 12), BENCH_DONE, 9, 0, 0, "a list without a weight in cell 1");
    expect(memcmp(out, weightless, sizeof weightless) == 0, "the box supplies the term there");
}

/* The limit of the square: of two cells with values and crude rates 1,000,000 and weights 1,000 the first has ten times the multiplier of its tight
 * link for a residual. At 2,000,000,000 the weight supplies 10^15, half of what the box would; beyond that the box does. */
static void residual_limit(void)
{
    const int64_t words[] = {3, 7, 2, 1, 1, 0, 1000000, 1000, 0, 1000000, 1000000, 1000, 0, 1000000, 1, 1, 0, 10, 10000000};
    const uint8_t at[] = {0xC0, 0x84, 0x3D, 0xC0, 0x84, 0x3D, 0x80, 0x84, 0xAF, 0x5F};
    const uint8_t beyond[] = {0xC0, 0x84, 0x3D, 0xC0, 0x84, 0x3D, 0x81, 0x84, 0xAF, 0x5F};
    uint8_t pack[64];
    int64_t out[9];
    size_t bytes = (size_t)BENCH_PLACE(bench_write(words, sizeof words / sizeof *words, pack, sizeof pack, answer, BENCH_ANSWER_WORDS));
    expect_answer(terms(pack, bytes, at, sizeof at, out, 9), BENCH_DONE, 9, 0, 0, "a residual of 2,000,000,000");
    expect(out[0] == 1000000000000000 && out[1] == 2000000000 && out[2] == 1, "the weight supplies the term");
    expect_answer(terms(pack, bytes, beyond, sizeof beyond, out, 9), BENCH_DONE, 9, 0, 0, "a residual of 2,000,000,010");
    expect(out[0] == 2000000010000000 && out[1] == 2000000010 && out[2] == 0, "the box supplies the term");
    expect(out[6] == 0 && out[7] == 0 && out[8] == 2, "a tight link has no term");
}

/* The words of a slot: n, job, F and G in two words each, the count of links; then the values, then the multipliers. */
enum { SLOT_WORDS = 287, AT_LINKS = 6, AT_VALUES = 7, AT_MULTIPLIERS = 127 };

/* Where each society has four slots, the word at which a slot begins. */
static size_t slot_at(size_t society, size_t slot)
{
    return BENCH_SOCIETIES + (4 * society + slot) * SLOT_WORDS;
}

/* LINKED with the table 2 2 1 and the multipliers 2 0, of which document 01 gives F 15 and G 0. */
static void keep_linked(void)
{
    const uint8_t proposal[] = {2, 2, 1, 2, 0};
    clear();
    expect_answer(keep(LINKED, sizeof LINKED, proposal, 5), BENCH_DONE, 0, 15, 0, "a table with multipliers is kept");
}

static void slot_words(void)
{
    uint32_t expected[SLOT_WORDS] = {3, 7, 15, 0, 0, 0, 2, 2, 2, 1};
    keep_linked();
    expected[AT_MULTIPLIERS] = 2;
    expect(memcmp(shelf + slot_at(3, 0), expected, sizeof expected) == 0, "the words of a slot");
    memset(shelf + slot_at(3, 0), 0, sizeof expected);
    expect(shelf_is_empty(), "keep writes to one slot alone");
}

/* Fetches with a copy of the pack in which one byte is mended. */
static uint64_t fetch_mended(const uint8_t *job, size_t bytes, size_t at, uint8_t to, uint32_t *out, size_t words)
{
    uint8_t pack[64];
    memcpy(pack, job, bytes);
    pack[at] = to;
    return fetch(pack, bytes, out, words);
}

/* The society mends two exposures of the worked example: weights 2 in cells 0 and 2. For 2 3 2 the residuals are then 4 0 4, whose terms are 2 each:
 * F = 2*4 + 16 + 2*4 + 4 = 36, G = 4. */
static void corrected_job(void)
{
    uint8_t job[sizeof JOB];
    uint32_t out[5] = {9, 9, 9, 9, 9};
    clear();
    keep(JOB, sizeof JOB, PROPOSAL, 3);
    memcpy(job, JOB, sizeof JOB);
    job[7] = job[15] = 2;
    expect_answer(fetch(job, sizeof job, out, 0), BENCH_GAP_ABOVE_TOLERANCE, 0, 0, 0, "a corrected job does not fetch last week's table");
    job[5] = 3;
    expect_answer(fetch(job, sizeof job, out, 5), BENCH_GAP_ABOVE_TOLERANCE, 0, 0, 0, "nor with a tolerance one too small");
    expect(out[0] == 9 && out[1] == 9 && out[2] == 9, "and nothing of it is written");
    job[5] = 4;
    expect_answer(fetch(job, sizeof job, out, 2), BENCH_WRONG_LENGTH, 3, 0, 0, "room is asked for once the table is accepted");
    expect_answer(fetch(job, sizeof job, out, 4), BENCH_DONE, 3, 36, 4, "with tolerance 4 it does, with other F and G");
    expect(out[0] == 2 && out[1] == 3 && out[2] == 2 && out[3] == 9 && out[4] == 9, "the kept values and no more");
    expect_answer(check(job, sizeof job, PROPOSAL, 3), BENCH_DONE, 0, 36, 4, "the check gives the same F and G");
    expect_answer(fetch(JOB, sizeof JOB, out, 3), BENCH_DONE, 3, 28, 0, "the job as it was still fetches");
    expect_answer(fetch_mended(JOB, sizeof JOB, 13, 2, out, 3), BENCH_OUTSIDE_BOX, 1, 0, 0, "ceiling 2 in cell 1");
    expect_answer(fetch_mended(JOB, sizeof JOB, 16, 3, out, 3), BENCH_OUTSIDE_BOX, 2, 0, 0, "floor 3 in cell 2");
    expect_answer(forget(3, 7), BENCH_DONE, 0, 0, 0, "a table that was refused can be forgotten");
}

/* With room 1 at link 0 its multiplier 2 adds 2 to the gap; the residuals stay 0. */
static void corrected_links(void)
{
    uint32_t out[3];
    keep_linked();
    expect_answer(fetch(LINKED, sizeof LINKED, out, 3), BENCH_DONE, 3, 15, 0, "the multipliers are kept");
    expect_answer(fetch_mended(LINKED, sizeof LINKED, 24, 2, out, 3), BENCH_DONE, 3, 15, 2, "a bound of 1 for link 0");
    expect_answer(fetch_mended(LINKED, sizeof LINKED, 24, 1, out, 3), BENCH_LINK_BROKEN, 0, 0, 0, "a bound of -1 for link 0");
    expect_answer(fetch_mended(LINKED, sizeof LINKED, 28, 0, out, 3), BENCH_LINK_BROKEN, 1, 0, 0, "a bound of 0 for link 1");
    expect_answer(fetch(JOB, sizeof JOB, out, 3), BENCH_NOTHING_KEPT, 0, 0, 0, "the same job without links");
    clear();
    keep(JOB, sizeof JOB, PROPOSAL, 3);
    expect_answer(fetch(LINKED, sizeof LINKED, out, 3), BENCH_NOTHING_KEPT, 0, 0, 0, "the same job with links");
}

/* The place of 9 at check, keep and fetch. With the multipliers 3 1 the residual of cell 2 is 3, and so are both its sides; link 1 has the term 49:
 * F = 9 + 9 + 1, G = 3 + 3 + 3 + 3 + 49. With v2 <= 1 the other four terms are the largest, and the lowest cell has the place. */
static void largest_terms(void)
{
    const uint8_t proposal[] = {3, 2, 1, 3, 1};
    uint8_t job[sizeof LINKED];
    uint32_t out[3] = {9, 9, 9};
    clear();
    expect_answer(keep(LINKED, sizeof LINKED, HELD_BACK, 5), BENCH_GAP_ABOVE_TOLERANCE, 4, 0, 0, "keep names link 1 as 3 + 1");
    expect(shelf_is_empty(), "and keeps nothing");
    expect_answer(keep(LINKED, sizeof LINKED, proposal, 5), BENCH_DONE, 0, 19, 61, "a gap of 61 is kept, with place 0");
    memcpy(job, LINKED, sizeof LINKED);
    for (job[5] = 0; job[5] < 61; job[5]++) {
        expect_answer(check(job, sizeof job, proposal, 5), BENCH_GAP_ABOVE_TOLERANCE, 4, 0, 0, "check names link 1 whatever the tolerance is");
        expect_answer(fetch(job, sizeof job, out, 3), BENCH_GAP_ABOVE_TOLERANCE, 4, 0, 0, "and so does fetch");
    }
    expect(out[0] == 9, "and writes no value");
    job[28] = 2;
    for (job[5] = 0; job[5] < 12; job[5]++) {
        expect_answer(check(job, sizeof job, proposal, 5), BENCH_GAP_ABOVE_TOLERANCE, 0, 0, 0, "the lowest of equal places");
        expect_answer(fetch(job, sizeof job, out, 3), BENCH_GAP_ABOVE_TOLERANCE, 0, 0, 0, "the lowest of equal places at fetch");
    }
    expect_answer(fetch(job, sizeof job, out, 3), BENCH_DONE, 3, 19, 12, "a tolerance of 12 is enough");
}

/* SELECT's cells as a line of order 1 and tolerance 18. The differences of 9 7 8 8 are -2 1 0, the residuals -6 4 4 -2: F = 52 + 5 = 57 and
 * G = 9 + 4 + 4 + 1 = 18. */
static void line_and_grid(void)
{
    const uint8_t line[] = {3, 8, 4, 1, 1, 18, 14, 1, 0, 100, 2, 1, 0, 100, 7, 1, 0, 100, 9, 1, 0, 100, 0};
    const uint8_t longer[] = {3, 8, 5, 1, 1, 18, 14, 1, 0, 100, 2, 1, 0, 100, 7, 1, 0, 100, 9, 1, 0, 100, 9, 1, 0, 100, 0};
    uint32_t out[5];
    clear();
    expect_answer(keep(line, sizeof line, SELECT_PROPOSAL, 4), BENCH_DONE, 0, 57, 18, "a line is kept");
    expect_answer(fetch(SELECT, sizeof SELECT, out, 4), BENCH_DONE, 4, 62, 0, "and fetched for a grid of as many cells");
    expect_answer(fetch_mended(line, sizeof line, 5, 17, out, 4), BENCH_GAP_ABOVE_TOLERANCE, 0, 0, 0, "the line with tolerance 17");
    expect_answer(fetch(longer, sizeof longer, out, 5), BENCH_NOTHING_KEPT, 0, 0, 0, "a line of one cell more");
    keep(SELECT, sizeof SELECT, SELECT_PROPOSAL, 4);
    expect_answer(fetch(line, sizeof line, out, 4), BENCH_DONE, 4, 57, 18, "a grid is fetched for a line");
    expect_answer(fetch_mended(SELECT, sizeof SELECT, 9, 2, out, 4), BENCH_GAP_ABOVE_TOLERANCE, 0, 0, 0, "the grid with constant 2");
}

/* One word of LINKED's slot is spoilt, and put back after the fetch. */
static void spoilt_words(void)
{
    static const struct { const char *what; size_t word; uint32_t to; uint64_t number, place, loss, gap; } cases[] = {
        {"a kept value of 1,000,001 in cell 1", AT_VALUES + 1, 1000001, BENCH_BAD_PROPOSAL, 8, 0, 0},
        {"a kept value of 1,000,000 in cell 1", AT_VALUES + 1, 1000000, BENCH_OUTSIDE_BOX, 1, 0, 0},
        {"a kept multiplier of 10^9 + 1 at link 0", AT_MULTIPLIERS, 1000000001, BENCH_BAD_PROPOSAL, 127, 0, 0},
        {"a kept multiplier of 10^9 + 1 at link 1", AT_MULTIPLIERS + 1, 1000000001, BENCH_BAD_PROPOSAL, 128, 0, 0},
        {"a kept multiplier of 10^9 at link 1", AT_MULTIPLIERS + 1, 1000000000, BENCH_GAP_ABOVE_TOLERANCE, 4, 0, 0},
        {"a kept multiplier of 0 at link 0", AT_MULTIPLIERS, 0, BENCH_DONE, 3, 15, 2},
        {"a value that no cell has", AT_VALUES + 3, 4294967295, BENCH_DONE, 3, 15, 0},
        {"a multiplier that no link has", AT_MULTIPLIERS + 2, 4294967295, BENCH_DONE, 3, 15, 0},
        {"another kept loss", 2, 16, BENCH_DONE, 3, 15, 0},
        {"a kept gap above the tolerance", 5, 1, BENCH_DONE, 3, 15, 0},
        {"n 121", 0, 121, BENCH_NOTHING_KEPT, 0, 0, 0},
        {"n 2", 0, 2, BENCH_NOTHING_KEPT, 0, 0, 0},
        {"another job", 1, 8, BENCH_NOTHING_KEPT, 0, 0, 0},
        {"a link count of 161", AT_LINKS, 161, BENCH_NOTHING_KEPT, 0, 0, 0},
        {"a link count of 258", AT_LINKS, 258, BENCH_NOTHING_KEPT, 0, 0, 0},
    };
    uint32_t out[3];
    keep_linked();
    for (size_t i = 0; i < sizeof cases / sizeof *cases; i++) {
        uint32_t *word = &shelf[slot_at(3, 0) + cases[i].word], was = *word;
        *word = cases[i].to;
        expect_answer(fetch(LINKED, sizeof LINKED, out, 3), cases[i].number, cases[i].place, cases[i].loss, cases[i].gap, cases[i].what);
        *word = was;
    }
    shelf[slot_at(3, 0) + AT_VALUES + 2] = shelf[slot_at(3, 0) + AT_MULTIPLIERS] = 4294967295;
    expect_answer(fetch(LINKED, sizeof LINKED, out, 0), BENCH_BAD_PROPOSAL, 9, 0, 0, "values are tested before multipliers");
}

/* Two slots have the job: the lower one is it, whatever its counts. */
static void duplicate_slots(void)
{
    uint32_t out[3];
    keep_linked();
    memcpy(shelf + slot_at(3, 2), shelf + slot_at(3, 0), SLOT_WORDS * sizeof *shelf);
    shelf[slot_at(3, 2) + AT_MULTIPLIERS] = 0;
    expect_answer(fetch(LINKED, sizeof LINKED, out, 3), BENCH_DONE, 3, 15, 0, "the lower slot is fetched");
    shelf[slot_at(3, 0) + AT_LINKS] = 1;
    expect_answer(fetch(LINKED, sizeof LINKED, out, 3), BENCH_NOTHING_KEPT, 0, 0, 0, "also if its count of links differs");
    shelf[slot_at(3, 0)] = 0;
    expect_answer(fetch(LINKED, sizeof LINKED, out, 3), BENCH_DONE, 3, 15, 2, "but not if it is empty");
}

/* Refusals of a job pack: one byte of JOB, LINKED or SELECT is changed, or its length. */
struct damaged {
    const char *what;
    const uint8_t *pack;
    size_t bytes, at;
    uint8_t to;
    uint64_t number, place;
};

static void job_refusals(void)
{
    const struct damaged cases[] = {
        {"an empty pack", JOB, 0, 0, 3, 1, 0},
        {"a pack cut off before the tolerance", JOB, 5, 0, 3, 1, 5},
        {"an overlong link count", JOB, sizeof JOB, 18, 0x80, 1, 18},
        {"a spare byte", LINKED, sizeof LINKED, 18, 1, 1, 25},
        {"society 8", JOB, sizeof JOB, 0, 8, 2, 0},
        {"n 2 with the house order 2", LINKED, sizeof LINKED, 2, 2, 2, 3},
        {"constant 0", JOB, sizeof JOB, 4, 0, 2, 4},
        {"floor 101 above ceiling 100 in cell 1", JOB, sizeof JOB, 12, 101, 3, 1},
        {"a coefficient 0 in link 1", LINKED, sizeof LINKED, 27, 0, 5, 1},
        {"cells of link 0 not rising", LINKED, sizeof LINKED, 22, 0, 5, 0},
        {"order field 6", SELECT, sizeof SELECT, 3, 6, 2, 3},
        {"one row", SELECT, sizeof SELECT, 4, 1, 2, 4},
        {"three rows for four cells", SELECT, sizeof SELECT, 4, 3, 2, 5},
        {"one column", SELECT, sizeof SELECT, 5, 1, 2, 5},
        {"an order down as large as the rows", SELECT, sizeof SELECT, 6, 2, 2, 6},
        {"an order across as large as the columns", SELECT, sizeof SELECT, 7, 2, 2, 7},
        {"second constant 0", SELECT, sizeof SELECT, 8, 0, 2, 8},
        {"constant 0 of a grid", SELECT, sizeof SELECT, 9, 0, 2, 9},
        {"a select table cut off before its columns", SELECT, 5, 0, 3, 1, 5},
    };
    uint8_t pack[64], out[BENCH_MOST_HOUSE_BYTES];
    uint32_t no_words[1];
    int64_t list[1];
    clear();
    keep(JOB, sizeof JOB, PROPOSAL, 3);
    for (size_t i = 0; i < sizeof cases / sizeof *cases; i++) {
        const struct damaged *c = &cases[i];
        memcpy(pack, c->pack, c->bytes);
        pack[c->at] = c->to;
        expect_answer(check(pack, c->bytes, PROPOSAL, 3), c->number, c->place, 0, 0, c->what);
        expect_answer(terms(pack, c->bytes, PROPOSAL, 0, list, 0), c->number, c->place, 0, 0, c->what);
        expect_answer(bench_propose(pack, c->bytes, out, sizeof out, answer, BENCH_ANSWER_WORDS), c->number, c->place, 0, 0, c->what);
        expect_answer(linked(pack, c->bytes, 200, out, sizeof out), c->number, c->place, 0, 0, c->what);
        expect_answer(linked(pack, c->bytes, 201, out, sizeof out), BENCH_BAD_PASSES, 0, 0, 0, "201 passes, whatever the pack has");
        expect_answer(keep(pack, c->bytes, PROPOSAL, 3), c->number, c->place, 0, 0, c->what);
        expect_answer(fetch(pack, c->bytes, no_words, 0), c->number, c->place, 0, 0, c->what);
    }
}

static void weight_refusals(void)
{
    uint8_t pack[sizeof LINKED];
    uint32_t no_words[1];
    int64_t list[1];
    memcpy(pack, LINKED, sizeof LINKED);
    pack[7] = pack[11] = 0;
    expect_answer(check(pack, sizeof LINKED, PROPOSAL, 3), BENCH_FEW_WEIGHTS, 0, 0, 0, "one positive weight where the order is 2");
    expect_answer(terms(pack, sizeof LINKED, PROPOSAL, 0, list, 0), BENCH_FEW_WEIGHTS, 0, 0, 0, "one positive weight for a list of terms");
    expect_answer(fetch(pack, sizeof LINKED, no_words, 0), BENCH_FEW_WEIGHTS, 0, 0, 0, "one positive weight at a fetch");
}

/* The check and the list of terms refuse a proposal alike, whatever room the list has. */
static void expect_both(const uint8_t *job, size_t job_bytes, const uint8_t *proposal, size_t bytes, uint64_t number, uint64_t place, const char *what)
{
    int64_t list[18] = {-7};
    expect_answer(check(job, job_bytes, proposal, bytes), number, place, 0, 0, what);
    expect_answer(terms(job, job_bytes, proposal, bytes, list, 18), number, place, 0, 0, what);
    expect_answer(terms(job, job_bytes, proposal, bytes, list, 0), number, place, 0, 0, what);
    expect(list[0] == -7, "a refused list writes no word");
}

static void proposal_refusals(void)
{
    const uint8_t cut[] = {2, 3}, spare[] = {2, 3, 2, 0}, above[] = {2, 0xC1, 0x84, 0x3D, 2}, outside[] = {2, 3, 101};
    const uint8_t broken[] = {2, 3, 1, 2, 0}, off[] = {2, 3, 3};
    expect_both(JOB, sizeof JOB, cut, 2, BENCH_BAD_PROPOSAL, 2, "a proposal cut off");
    expect_both(JOB, sizeof JOB, spare, 4, BENCH_BAD_PROPOSAL, 3, "a spare byte after a proposal");
    expect_both(JOB, sizeof JOB, above, 5, BENCH_BAD_PROPOSAL, 1, "a value of 1,000,001");
    expect_both(JOB, sizeof JOB, outside, 3, BENCH_OUTSIDE_BOX, 2, "a value above its ceiling");
    expect_both(LINKED, sizeof LINKED, broken, 5, BENCH_LINK_BROKEN, 0, "a broken link");
    expect_answer(check(JOB, sizeof JOB, off, 3), BENCH_GAP_ABOVE_TOLERANCE, 1, 0, 0, "a gap above the tolerance, with the terms 1 4 4");
}

/* n 120, order 2, k 1,000, weight 1 in cells 0 and 1 only, made with the writer. */
static void thin_refusal(void)
{
    static int64_t words[BENCH_MOST_JOB_WORDS];
    uint8_t pack[BENCH_MOST_JOB_BYTES], out[BENCH_MOST_HOUSE_BYTES];
    const int64_t header[] = {0, 0, 120, 2, 1000, 0};
    memcpy(words, header, sizeof header);
    words[7] = words[11] = 1;
    uint64_t said = bench_write(words, 7 + 4 * 120, pack, sizeof pack, answer, BENCH_ANSWER_WORDS);
    expect_answer(said, BENCH_DONE, 488, 0, 0, "the thin job is written");
    said = bench_propose(pack, 488, out, sizeof out, answer, BENCH_ANSWER_WORDS);
    expect_answer(said, BENCH_TOO_THIN, 119, 0, 0, "data too thin at cell 119");
    expect_answer(linked(pack, 488, 1, out, 0), BENCH_TOO_THIN, 119, 0, 0, "also for a proposal that honours links");
}

/* A grid of two rows, weights 1, made with the writer; the answer is its pack's bytes. */
static size_t two_rows(int64_t columns, uint8_t *pack, size_t bytes)
{
    int64_t words[12 + 4 * BENCH_MOST_CELLS] = {0};
    const int64_t header[] = {0, 0, 2 * columns, 5, 2, columns, 1, 4, 999, 1, 0};
    memcpy(words, header, sizeof header);
    for (int64_t i = 0; i < 2 * columns; i++) {
        words[11 + 4 * i] = words[14 + 4 * i] = 50;
        words[12 + 4 * i] = 1;
    }
    return (size_t)BENCH_PLACE(bench_write(words, (size_t)(12 + 8 * columns), pack, bytes, answer, BENCH_ANSWER_WORDS));
}

static void wide_refusal(void)
{
    uint8_t pack[BENCH_MOST_JOB_BYTES], out[BENCH_MOST_HOUSE_BYTES];
    size_t bytes = two_rows(12, pack, sizeof pack);
    uint64_t said = bench_propose(pack, bytes, out, sizeof out, answer, BENCH_ANSWER_WORDS);
    expect_answer(said, BENCH_DONE, 24, 0, 0, "12 columns are not too wide");
    bytes = two_rows(13, pack, sizeof pack);
    expect_answer(bench_propose(pack, bytes, out, 0, answer, BENCH_ANSWER_WORDS), BENCH_GRID_TOO_WIDE, 0, 0, 0, "13 columns are too wide");
    expect_answer(linked(pack, bytes, 200, out, 0), BENCH_GRID_TOO_WIDE, 0, 0, 0, "for either house proposal");
    memset(out, 50, 26);
    expect_answer(check(pack, bytes, out, 26), BENCH_DONE, 0, 0, 0, "but not for the check");
    pack[bytes] = 0;
    said = bench_propose(pack, bytes + 1, out, sizeof out, answer, BENCH_ANSWER_WORDS);
    expect_answer(said, BENCH_UNREADABLE, bytes, 0, 0, "a spare byte comes before the width");
    expect_answer(linked(pack, bytes + 1, 200, out, sizeof out), BENCH_UNREADABLE, bytes, 0, 0, "for either house proposal");
    for (size_t i = 0; i < 13; i++)
        pack[13 + 4 * i] = pack[13 + 4 * (i + 13)] = i < 3;
    said = bench_propose(pack, bytes, out, sizeof out, answer, BENCH_ANSWER_WORDS);
    expect_answer(said, BENCH_FEW_WEIGHTS, 0, 0, 0, "no row with four positive weights where the order across is 4");
}

/* The numbers of a job that has the most cells and links, each with as many bytes as it can have; the answer is their count. */
static size_t largest_words(const int64_t *header, size_t at, int64_t *words)
{
    memcpy(words, header, at * sizeof *header);
    for (int i = 0; i < BENCH_MOST_CELLS; i++, at += 4) {
        words[at] = words[at + 2] = words[at + 3] = 1000000;
        words[at + 1] = 1000;
    }
    words[at++] = BENCH_MOST_LINKS;
    for (int l = 0; l < BENCH_MOST_LINKS; l++, at += 10) {
        const int64_t link[] = {4, 116, 10, 117, -10, 118, 10, 119, -10, 1000000000};
        memcpy(words + at, link, sizeof link);
    }
    return at;
}

/* The proposal of the most bytes: 120 values of 1,000,000 and 160 multipliers of 10^9. */
static void largest_proposal(uint8_t *proposal)
{
    const uint8_t million[] = {0xC0, 0x84, 0x3D}, milliard[] = {0x80, 0x94, 0xEB, 0xDC, 0x03};
    for (int i = 0; i < BENCH_MOST_CELLS; i++)
        memcpy(proposal + 3 * i, million, 3);
    for (int l = 0; l < BENCH_MOST_LINKS; l++)
        memcpy(proposal + 360 + 5 * l, milliard, 5);
}

/* The largest job: the lengths that bench.h names are reached, and one byte less is too few. Its links leave so much room that multipliers
 * of 10^9 make a vast gap: 9 says that the proposal was read whole. The links' terms are equal, so its place is that of link 0. */
static void largest_job(void)
{
    static int64_t words[BENCH_MOST_JOB_WORDS], again[BENCH_MOST_JOB_WORDS];
    static uint8_t pack[BENCH_MOST_JOB_BYTES], proposal[BENCH_MOST_PROPOSAL_BYTES + 1], out[BENCH_MOST_HOUSE_BYTES];
    uint8_t house[BENCH_MOST_HOUSE_BYTES];
    const int64_t header[] = {7, 4294967295, 120, 5, 10, 12, 4, 4, 500, 500, 1000000000000000};
    size_t at = largest_words(header, 11, words);
    largest_proposal(proposal);
    uint64_t said = bench_write(words, at, pack, BENCH_MOST_JOB_BYTES - 1, answer, BENCH_ANSWER_WORDS);
    expect_answer(said, BENCH_WRONG_LENGTH, BENCH_MOST_JOB_BYTES, 0, 0, "the largest job needs all bytes");
    said = bench_write(words, at, pack, BENCH_MOST_JOB_BYTES, answer, BENCH_ANSWER_WORDS);
    expect_answer(said, BENCH_DONE, BENCH_MOST_JOB_BYTES, 0, 0, "the largest job is written");
    said = bench_read(pack, sizeof pack, again, BENCH_MOST_JOB_WORDS, answer, BENCH_ANSWER_WORDS);
    expect_answer(said, BENCH_DONE, BENCH_MOST_JOB_WORDS, 0, 0, "the largest job is read");
    expect(at == BENCH_MOST_JOB_WORDS && memcmp(words, again, sizeof words) == 0, "with the same numbers");
    said = bench_propose(pack, sizeof pack, out, BENCH_MOST_HOUSE_BYTES, answer, BENCH_ANSWER_WORDS);
    expect_answer(said, BENCH_DONE, BENCH_MOST_HOUSE_BYTES, 0, 0, "the largest house proposal");
    memcpy(house, out, sizeof out);
    memset(out, SPARE, sizeof out);
    said = linked(pack, sizeof pack, 200, out, sizeof out);
    expect_answer(said, BENCH_DONE, sizeof out, 1, 0, "links with so much room are honoured by the house's table");
    expect(memcmp(out, house, sizeof out) == 0, "with all multipliers 0");
    said = check(pack, sizeof pack, proposal, BENCH_MOST_PROPOSAL_BYTES);
    expect_answer(said, BENCH_GAP_ABOVE_TOLERANCE, BENCH_MOST_CELLS, 0, 0, "the largest proposal is read");
    said = check(pack, sizeof pack, proposal, BENCH_MOST_PROPOSAL_BYTES + 1);
    expect_answer(said, BENCH_BAD_PROPOSAL, BENCH_MOST_PROPOSAL_BYTES, 0, 0, "and nothing may follow it");
}

/* The largest job with floors 0. The residuals of cells 116 to 119 are 160 times 10 times 10^9, above 0 and below in turn: two terms of 1.6*10^18, and
 * none where the value stands at its ceiling. Each link has 10^18. Every term fits 64 bits, and their total passes them. */
static void widest_list(void)
{
    static int64_t words[BENCH_MOST_JOB_WORDS], out[3 * (BENCH_MOST_CELLS + BENCH_MOST_LINKS)], expected[3 * (BENCH_MOST_CELLS + BENCH_MOST_LINKS)];
    static uint8_t pack[BENCH_MOST_JOB_BYTES], proposal[BENCH_MOST_PROPOSAL_BYTES];
    const int64_t header[] = {7, 4294967295, 120, 5, 10, 12, 4, 4, 500, 500, 1000000000000000}, link[] = {1000000000000000000, 0, 2};
    const int64_t above[] = {1600000000000000000, 1600000000000, 0}, below[] = {0, -1600000000000, 0};
    const size_t most = sizeof out / sizeof *out;
    size_t at = largest_words(header, 11, words);
    for (int i = 0; i < BENCH_MOST_CELLS; i++)
        words[11 + 4 * i + 2] = 0;
    for (int i = 116; i < BENCH_MOST_CELLS; i++)
        memcpy(expected + 3 * i, i % 2 == 0 ? above : below, sizeof above);
    for (int l = 0; l < BENCH_MOST_LINKS; l++)
        memcpy(expected + 3 * (BENCH_MOST_CELLS + l), link, sizeof link);
    size_t bytes = (size_t)BENCH_PLACE(bench_write(words, at, pack, sizeof pack, answer, BENCH_ANSWER_WORDS));
    largest_proposal(proposal);
    expect_answer(check(pack, bytes, proposal, sizeof proposal), BENCH_GAP_ABOVE_TOLERANCE, 116, 0, 0, "the widest gap");
    expect_answer(terms(pack, bytes, proposal, sizeof proposal, out, most - 1), BENCH_WRONG_LENGTH, most, 0, 0, "the longest list into one word less");
    expect_answer(terms(pack, bytes, proposal, sizeof proposal, out, most), BENCH_DONE, most, 0, 0, "the longest list");
    expect(memcmp(out, expected, sizeof out) == 0, "terms that pass 64 bits only together");
}

static void largest_line(void)
{
    static int64_t words[BENCH_MOST_JOB_WORDS];
    static uint8_t pack[BENCH_MOST_JOB_BYTES];
    const int64_t header[] = {7, 4294967295, 120, 4, 1000, 1000000000000000};
    size_t at = largest_words(header, 6, words);
    uint64_t said = bench_write(words, at, pack, sizeof pack, answer, BENCH_ANSWER_WORDS);
    expect_answer(said, BENCH_DONE, 3580, 0, 0, "the largest job that is no grid has 3,580 bytes");
}

static void shelf_refusals(void)
{
    uint32_t out[3] = {9, 9, 9};
    clear();
    keep(JOB, sizeof JOB, PROPOSAL, 3);
    expect_answer(fetch_named(8, 7), BENCH_NOT_ALLOWED, 0, 0, 0, "fetch for society 8 is a job that is not allowed");
    expect_answer(forget(8, 7), BENCH_NO_SUCH_SOCIETY, 0, 0, 0, "forget for society 8");
    expect_answer(fetch_named(3, 8), BENCH_NOTHING_KEPT, 0, 0, 0, "fetch of a job that is not kept");
    expect_answer(forget(3, 8), BENCH_NOTHING_KEPT, 0, 0, 0, "forget of a job that is not kept");
    expect_answer(fetch(JOB, sizeof JOB, out, 2), BENCH_WRONG_LENGTH, 3, 0, 0, "fetch into two words");
    expect(out[0] == 9 && out[1] == 9 && out[2] == 9, "refused fetches write no value");
    expect_answer(bench_clear(shelf, BENCH_SHELF_WORDS - 1, FOUR, answer, BENCH_ANSWER_WORDS), BENCH_WRONG_LENGTH, BENCH_SHELF_WORDS, 0, 0,
                  "a shelf one word short");
    expect(shelf[slot_at(3, 0)] == 3, "a refused clear clears nothing");
}

/* The request's own counts (document 02, W-209): ten for societies 1 and 4, and two for each other. */
static const uint32_t TEN_TEN_TWO[BENCH_SOCIETIES] = {2, 10, 2, 2, 10, 2, 2, 2};

/* Keeps the worked example's table under numbers from 0 on, so many of them. */
static void keep_many(uint8_t society, uint8_t tables)
{
    uint8_t job[sizeof JOB];
    memcpy(job, JOB, sizeof JOB);
    job[0] = society;
    for (job[1] = 0; job[1] < tables; job[1]++)
        expect_answer(keep(job, sizeof job, PROPOSAL, 3), BENCH_DONE, 0, 28, 0, "one of many tables is kept");
}

/* A society that kept one table more than it has slots has lost the first and no other. */
static void keeps_its_count(uint8_t society, uint8_t slots)
{
    keep_many(society, slots + 1);
    expect_answer(fetch_named(society, 0), BENCH_NOTHING_KEPT, 0, 0, 0, "the oldest is gone");
    for (uint8_t number = 1; number <= slots; number++)
        expect_answer(fetch_named(society, number), BENCH_DONE, 3, 28, 0, "as many are there as the society has slots");
}

static void more_room(void)
{
    expect_answer(clear_to(TEN_TEN_TWO), BENCH_DONE, 0, 0, 0, "ten, ten and two");
    expect(shelf_is(TEN_TEN_TWO, BENCH_SOCIETIES, BENCH_SHELF_WORDS, 0), "clearing sets the counts");
    for (uint8_t society = 0; society < BENCH_SOCIETIES; society++)
        keeps_its_count(society, (uint8_t)TEN_TEN_TWO[society]);
    for (uint8_t society = 0; society < BENCH_SOCIETIES; society++)
        expect_answer(fetch_named(society, 1), BENCH_DONE, 3, 28, 0, "no society's keeps have dropped another's table");
    expect(shelf[582] == 3 && shelf[583] == 1 && shelf[3452] == 3 && shelf[3453] == 1, "societies 1 and 2 begin where bench.h says");
    expect_answer(forget(4, 5), BENCH_DONE, 0, 0, 0, "one of ten is forgotten");
    expect_answer(fetch_named(4, 10), BENCH_DONE, 3, 28, 0, "the last of ten has moved down");
    expect_answer(fetch_named(5, 1), BENCH_DONE, 3, 28, 0, "and the next society's first table has not");
    expect(memcmp(shelf, TEN_TEN_TWO, sizeof TEN_TEN_TWO) == 0, "keep, fetch and forget leave the counts");
}

/* A single slot has the last table kept; and what is behind the last span stays, at a clearing too. */
static void one_slot_each(void)
{
    const uint32_t one[BENCH_SOCIETIES] = {1, 1, 1, 1, 1, 1, 1, 1};
    const size_t end = BENCH_SOCIETIES + BENCH_SOCIETIES * SLOT_WORDS;
    memset(shelf, 0xFF, sizeof shelf);
    expect_answer(clear_to(one), BENCH_DONE, 0, 0, 0, "one slot each");
    expect(shelf_is(one, BENCH_SOCIETIES, end, 0), "clearing sets the spans to 0");
    for (uint8_t society = 0; society < BENCH_SOCIETIES; society++)
        keeps_its_count(society, 1);
    expect_answer(forget(7, 1), BENCH_DONE, 0, 0, 0, "the only table is forgotten");
    expect(shelf_is(one, end, BENCH_SHELF_WORDS, 0xFFFFFFFF), "no call writes behind the last span");
}

/* Other counts mean a shelf that is empty for every society, and one that must be filled anew. */
static void other_counts(void)
{
    clear();
    keep(JOB, sizeof JOB, PROPOSAL, 3);
    expect_answer(clear_to(TEN_TEN_TWO), BENCH_DONE, 0, 0, 0, "a clearing to other counts");
    expect_answer(fetch_named(3, 7), BENCH_NOTHING_KEPT, 0, 0, 0, "empties every society");
}

/* Every call on the shelf refuses these counts alike, before all that it would refuse otherwise, and nothing changes. */
static void expect_refused(const uint32_t *counts, uint64_t place, const char *what)
{
    uint32_t out[3] = {9, 9, 9};
    memset(shelf, 0, sizeof shelf);
    expect_answer(clear_to(counts), BENCH_BAD_COUNTS, place, 0, 0, what);
    expect(shelf[0] == 0 && shelf[BENCH_SOCIETIES - 1] == 0, "a refused clear sets no count");
    memcpy(shelf, counts, BENCH_SOCIETIES * sizeof *counts);
    expect_answer(keep(JOB, sizeof JOB, PROPOSAL, 3), BENCH_BAD_COUNTS, place, 0, 0, what);
    expect_answer(keep(JOB, 0, PROPOSAL, 3), BENCH_BAD_COUNTS, place, 0, 0, "22 before a job pack that is refused");
    expect_answer(fetch(JOB, sizeof JOB, out, 3), BENCH_BAD_COUNTS, place, 0, 0, what);
    expect_answer(fetch(JOB, 0, out, 3), BENCH_BAD_COUNTS, place, 0, 0, "22 before a job pack that is refused at fetch");
    expect_answer(forget(3, 7), BENCH_BAD_COUNTS, place, 0, 0, what);
    expect_answer(forget(8, 7), BENCH_BAD_COUNTS, place, 0, 0, "22 before 11");
    expect(shelf_is(counts, BENCH_SOCIETIES, BENCH_SHELF_WORDS, 0) && out[0] == 9, "a refusal changes nothing");
}

static void count_refusals(void)
{
    static const struct { const char *what; uint32_t counts[BENCH_SOCIETIES]; uint64_t place; } cases[] = {
        {"no slot for society 0", {0, 4, 4, 4, 4, 4, 4, 4}, 0},
        {"seventeen slots for society 7", {1, 1, 1, 1, 1, 1, 1, 17}, 7},
        {"two counts that are wrong", {1, 1, 17, 1, 0, 1, 1, 1}, 2},
        {"2^32 - 1 slots for society 3", {1, 1, 1, 4294967295, 1, 1, 1, 1}, 3},
        {"ten, ten and two, with four for each other society", {4, 10, 4, 4, 10, 2, 4, 4}, 8},
        {"33 in all", {4, 4, 4, 4, 5, 4, 4, 4}, 8},
        {"a wrong count behind a total above 32", {16, 16, 16, 16, 16, 16, 16, 0}, 7},
        {"a shelf of zeros, which was never cleared", {0, 0, 0, 0, 0, 0, 0, 0}, 0},
    };
    for (size_t i = 0; i < sizeof cases / sizeof *cases; i++)
        expect_refused(cases[i].counts, cases[i].place, cases[i].what);
}

/* A shelf of an older version is no shelf, before all else: also one whose words would make a row that is not allowed. */
static void old_shelf(size_t old_words)
{
    enum { PLACE = 9192 };
    static uint32_t old[BENCH_SHELF_WORDS];
    const uint32_t wrong[BENCH_SOCIETIES] = {0};
    uint32_t out[3];
    size_t changed = 0;
    for (size_t i = 0; i < BENCH_SHELF_WORDS; i++)
        old[i] = 99;
    uint64_t said = bench_keep(old, old_words, JOB, sizeof JOB, PROPOSAL, 3, answer, BENCH_ANSWER_WORDS);
    expect_answer(said, BENCH_WRONG_LENGTH, PLACE, 0, 0, "keep on a shelf of an older version");
    said = bench_fetch(old, old_words, JOB, 0, out, 3, answer, BENCH_ANSWER_WORDS);
    expect_answer(said, BENCH_WRONG_LENGTH, PLACE, 0, 0, "fetch from a shelf of an older version");
    said = bench_forget(old, old_words, 8, 7, answer, BENCH_ANSWER_WORDS);
    expect_answer(said, BENCH_WRONG_LENGTH, PLACE, 0, 0, "forget on a shelf of an older version");
    said = bench_clear(old, old_words, wrong, answer, BENCH_ANSWER_WORDS);
    expect_answer(said, BENCH_WRONG_LENGTH, PLACE, 0, 0, "clear on a shelf of an older version, before its counts are tested");
    for (size_t i = 0; i < BENCH_SHELF_WORDS; i++)
        changed += old[i] != 99;
    expect(changed == 0, "a shelf of an older version stays as it was");
}

static void length_refusals(void)
{
    const uint8_t mark = 0xEE;
    uint8_t out[BENCH_MOST_JOB_BYTES];
    int64_t words[4];
    memset(answer, mark, sizeof answer);
    uint64_t said = bench_check(JOB, sizeof JOB, PROPOSAL, 3, answer, 3), untouched;
    memset(&untouched, mark, sizeof untouched);
    expect(said == 32 * 4 + 13, "an answer slice of three words: 13, place 4");
    expect(answer[0] == untouched && answer[1] == untouched && answer[2] == untouched, "a wrong answer slice is not written");
    memset(out, mark, sizeof out);
    expect_answer(bench_propose(JOB, sizeof JOB, out, 2, answer, BENCH_ANSWER_WORDS), BENCH_WRONG_LENGTH, 3, 0, 0, "propose into two bytes");
    expect_answer(bench_write(LINKED_WORDS, 29, out, 28, answer, BENCH_ANSWER_WORDS), BENCH_WRONG_LENGTH, 29, 0, 0, "write into 28 bytes");
    expect(out[0] == mark && out[1] == mark, "refused outputs stay as they were");
    expect_answer(bench_read(JOB, sizeof JOB, words, 4, answer, BENCH_ANSWER_WORDS), BENCH_WRONG_LENGTH, 19, 0, 0, "read into four words");
    expect_answer(bench_write(LINKED_WORDS, 0, out, 28, answer, BENCH_ANSWER_WORDS), BENCH_UNREADABLE, 0, 0, 0, "no words to write");
    words[0] = -1;
    expect_answer(bench_write(words, 1, out, 28, answer, BENCH_ANSWER_WORDS), BENCH_NOT_ALLOWED, 0, 0, 0, "society -1");
}

/* What a society sends: crude rates 7,000 and 1,500 with weights 10 and 20, and an age without exposure. The portal gives divisor 100, society 3, job 7,
 * order 2, constant 1, tolerance 0 and the box 0..100,000. */
#define CLAIMS_HEADER "age,exposure,deaths\r\n"
#define TABLE_HEADER "age,rate\r\n"
static const char CLAIMS[] = CLAIMS_HEADER "40,1000,7\r\n41,2000,3\r\n42,0,0\r\n";
static const uint8_t CLAIMS_PACK[] = {3, 7, 3, 2, 1, 0, 216, 54, 10, 0, 160, 141, 6, 220, 11, 20, 0, 160, 141, 6, 0, 0, 0, 160, 141, 6, 0};

/* The numbers of an import in their order. */
struct given {
    uint64_t divisor, society, job, order, constant, tolerance, floor, ceiling;
};
static const struct given GIVEN = {100, 3, 7, 2, 1, 0, 0, 100000};

static uint64_t import_given(const char *text, size_t bytes, const struct given *g, uint8_t *out, size_t room)
{
    return bench_import((const uint8_t *)text, bytes, g->divisor, g->society, g->job, g->order, g->constant, g->tolerance, g->floor, g->ceiling,
                        out, room, answer, BENCH_ANSWER_WORDS);
}

static uint64_t import(const char *text, uint8_t *out, size_t room)
{
    return import_given(text, strlen(text), &GIVEN, out, room);
}

static uint64_t export_from(uint64_t first_age, const uint32_t *table, size_t count, char *out, size_t room)
{
    return bench_export(table, count, first_age, (uint8_t *)out, room, answer, BENCH_ANSWER_WORDS);
}

static uint64_t rates_of(const char *text, size_t bytes, uint32_t *out, size_t room)
{
    return bench_rates((const uint8_t *)text, bytes, out, room, answer, BENCH_ANSWER_WORDS);
}

/* Tolerance 10^15, so that whatever the house proposes for the list is accepted. */
static void list_to_list(void)
{
    const struct given tolerant = {100, 3, 7, 2, 1, 1000000000000000, 0, 100000};
    uint8_t job[BENCH_MOST_IMPORT_BYTES], proposal[BENCH_MOST_HOUSE_BYTES];
    uint32_t values[BENCH_MOST_VALUES], again[BENCH_MOST_VALUES];
    char list[BENCH_MOST_EXPORT_BYTES];
    size_t job_bytes = (size_t)BENCH_PLACE(import_given(CLAIMS, sizeof CLAIMS - 1, &tolerant, job, sizeof job));
    expect(answer[0] == BENCH_DONE, "a claims list becomes a job");
    size_t bytes = (size_t)BENCH_PLACE(bench_propose(job, job_bytes, proposal, sizeof proposal, answer, BENCH_ANSWER_WORDS));
    expect(answer[0] == BENCH_DONE, "which gets a proposal");
    clear();
    expect(check(job, job_bytes, proposal, bytes) == BENCH_DONE, "which the check accepts");
    expect(keep(job, job_bytes, proposal, bytes) == BENCH_DONE, "and the shelf keeps");
    expect(BENCH_PLACE(fetch(job, job_bytes, values, BENCH_MOST_VALUES)) == 3, "and gives back");
    size_t length = (size_t)BENCH_PLACE(export_from(40, values, 3, list, sizeof list));
    expect(answer[0] == BENCH_DONE && memcmp(list, TABLE_HEADER "40,", 13) == 0, "it goes out as a list from age 40");
    expect_answer(rates_of(list, length, again, BENCH_MOST_VALUES), BENCH_DONE, 3, 0, 0, "which is read back");
    expect(memcmp(values, again, 3 * sizeof *values) == 0, "as the same values");
}

static void imports(void)
{
    uint8_t out[64];
    memset(out, 0xEE, sizeof out);
    expect_answer(import(CLAIMS, out, sizeof CLAIMS_PACK - 1), BENCH_WRONG_LENGTH, sizeof CLAIMS_PACK, 0, 0, "import into one byte less");
    expect_answer(import(CLAIMS, out, 0), BENCH_WRONG_LENGTH, sizeof CLAIMS_PACK, 0, 0, "import into no bytes");
    expect(out[0] == 0xEE, "a refused import writes nothing");
    expect_answer(import(CLAIMS, out, sizeof CLAIMS_PACK), BENCH_DONE, sizeof CLAIMS_PACK, 0, 0, "import into as many bytes");
    expect(memcmp(out, CLAIMS_PACK, sizeof CLAIMS_PACK) == 0 && out[sizeof CLAIMS_PACK] == 0xEE, "the pack and no more");
    uint64_t said = import_given(CLAIMS, sizeof CLAIMS - 3, &GIVEN, out, sizeof out);
    expect_answer(said, BENCH_DONE, sizeof CLAIMS_PACK, 0, 0, "import without the last CR LF");
    expect(memcmp(out, CLAIMS_PACK, sizeof CLAIMS_PACK) == 0 && out[sizeof CLAIMS_PACK] == 0xEE, "the same pack");
    memset(answer, 0xEE, sizeof answer);
    said = bench_import((const uint8_t *)CLAIMS, 0, 0, 8, 0, 5, 0, 0, 1, 0, out, 0, answer, 3);
    expect(said == 32 * 4 + 13 && (answer[0] & 0xFF) == 0xEE, "import with an answer slice of three words, before all else");
}

/* Each refusal of a claims list, with its number and its line; then those of the pack that it would make. */
static const struct { const char *what, *text; uint64_t number, place; } LIST_REFUSALS[] = {
    {"an empty text", "", BENCH_BAD_LINE, 1},
    {"a header in capitals", "Age,Exposure,Deaths\r\n40,1000,7\r\n", BENCH_BAD_LINE, 1},
    {"a header with a blank", "age, exposure,deaths\r\n40,1000,7\r\n", BENCH_BAD_LINE, 1},
    {"a byte order mark", "\xEF\xBB\xBF" CLAIMS_HEADER "40,1000,7\r\n", BENCH_BAD_LINE, 1},
    {"lines that end in LF", "age,exposure,deaths\n40,1000,7\n41,2000,3\n", BENCH_BAD_LINE, 1},
    {"one line that ends in LF", CLAIMS_HEADER "40,1000,7\r\n41,2000,3\n42,0,0\r\n", BENCH_BAD_LINE, 3},
    {"one line that ends in CR", CLAIMS_HEADER "40,1000,7\r41,2000,3\r\n", BENCH_BAD_LINE, 2},
    {"a quote", CLAIMS_HEADER "40,\"1000\",7\r\n", BENCH_BAD_LINE, 2},
    {"a blank", CLAIMS_HEADER "40,1000,7 \r\n", BENCH_BAD_LINE, 2},
    {"a leading zero", CLAIMS_HEADER "40,1000,07\r\n", BENCH_BAD_LINE, 2},
    {"a sign", CLAIMS_HEADER "40,1000,-7\r\n", BENCH_BAD_LINE, 2},
    {"an empty field", CLAIMS_HEADER "40,,7\r\n", BENCH_BAD_LINE, 2},
    {"two fields", CLAIMS_HEADER "40,1000\r\n", BENCH_BAD_LINE, 2},
    {"four fields", CLAIMS_HEADER "40,1000,7,0\r\n", BENCH_BAD_LINE, 2},
    {"10^9 + 1", CLAIMS_HEADER "40,1000000001,7\r\n", BENCH_BAD_LINE, 2},
    {"2^64 + 1000", CLAIMS_HEADER "40,18446744073709552616,7\r\n", BENCH_BAD_LINE, 2},
    {"an empty line at the end", CLAIMS_HEADER "40,1000,7\r\n41,2000,3\r\n\r\n", BENCH_BAD_LINE, 4},
    {"an age twice", CLAIMS_HEADER "40,1000,7\r\n40,2000,3\r\n", BENCH_AGE_NOT_NEXT, 3},
    {"an age left out", CLAIMS_HEADER "40,1000,7\r\n42,2000,3\r\n", BENCH_AGE_NOT_NEXT, 3},
    {"deaths above exposure", CLAIMS_HEADER "40,1000,1001\r\n", BENCH_DEATHS_ABOVE_EXPOSURE, 2},
    {"deaths without exposure", CLAIMS_HEADER "40,1000,7\r\n41,0,1\r\n", BENCH_DEATHS_ABOVE_EXPOSURE, 3},
    {"16 before 17", CLAIMS_HEADER "40,1000,7\r\n42,2000,03\r\n", BENCH_BAD_LINE, 3},
    {"17 before 18", CLAIMS_HEADER "40,1000,7\r\n42,2000,2001\r\n", BENCH_AGE_NOT_NEXT, 3},
    {"a line before the next", CLAIMS_HEADER "40,1000,1001\r\n42,2000,x\r\n", BENCH_DEATHS_ABOVE_EXPOSURE, 2},
    {"a header alone", CLAIMS_HEADER, BENCH_NOT_ALLOWED, 2},
    {"one line of data", CLAIMS_HEADER "40,1000,7\r\n", BENCH_NOT_ALLOWED, 2},
    {"two lines where the order is 2", CLAIMS_HEADER "40,1000,7\r\n41,1000,7\r\n", BENCH_NOT_ALLOWED, 3},
    {"exposures below the divisor", CLAIMS_HEADER "40,99,7\r\n41,100,7\r\n42,0,0", BENCH_FEW_WEIGHTS, 0},
};

static void list_refusals(void)
{
    uint8_t out[1] = {0xEE};
    for (size_t i = 0; i < sizeof LIST_REFUSALS / sizeof *LIST_REFUSALS; i++)
        expect_answer(import(LIST_REFUSALS[i].text, out, 0), LIST_REFUSALS[i].number, LIST_REFUSALS[i].place, 0, 0, LIST_REFUSALS[i].what);
    expect(out[0] == 0xEE, "a refused list writes nothing");
}

/* Numbers that are not allowed beside the list, each at the offset that it would have in the pack; none is cut. */
static void given_refusals(void)
{
    static const struct { const char *what; struct given given; uint64_t number, place; } cases[] = {
        {"divisor 0", {0, 8, 7, 5, 0, 0, 1, 0}, BENCH_NO_DIVISOR, 0},
        {"society 8", {100, 8, 7, 5, 0, 0, 1, 0}, BENCH_NOT_ALLOWED, 0},
        {"society 2^32 + 3", {100, 4294967299, 7, 2, 1, 0, 0, 1}, BENCH_NOT_ALLOWED, 0},
        {"job 2^32", {100, 3, 4294967296, 5, 0, 0, 1, 0}, BENCH_NOT_ALLOWED, 1},
        {"order 5", {100, 3, 7, 5, 0, 0, 1, 0}, BENCH_NOT_ALLOWED, 3},
        {"order 6", {100, 3, 7, 6, 0, 0, 1, 0}, BENCH_NOT_ALLOWED, 3},
        {"order 2^64 - 1", {100, 3, 7, UINT64_MAX, 1, 0, 0, 1}, BENCH_NOT_ALLOWED, 3},
        {"order 3 of three cells", {100, 3, 7, 3, 0, 0, 1, 0}, BENCH_NOT_ALLOWED, 3},
        {"constant 0", {100, 3, 7, 2, 0, UINT64_MAX, 1, 0}, BENCH_NOT_ALLOWED, 4},
        {"constant 1,001", {100, 3, 7, 2, 1001, 0, 1, 0}, BENCH_NOT_ALLOWED, 4},
        {"tolerance 10^15 + 1", {100, 3, 7, 2, 1, 1000000000000001, 1, 0}, BENCH_NOT_ALLOWED, 5},
        {"floor 1,000,001", {100, 3, 7, 2, 1, 0, 1000001, 0}, BENCH_NOT_ALLOWED, 9},
        {"ceiling 2^63", {100, 3, 7, 2, 1, 0, 0, 9223372036854775808u}, BENCH_NOT_ALLOWED, 10},
        {"floor above ceiling", {100, 3, 7, 2, 1, 0, 1, 0}, BENCH_FLOOR_ABOVE_CEILING, 0},
        {"a divisor above all exposures", {UINT64_MAX, 3, 7, 2, 1, 0, 0, 1}, BENCH_FEW_WEIGHTS, 0},
    };
    uint8_t out[1];
    for (size_t i = 0; i < sizeof cases / sizeof *cases; i++)
        expect_answer(import_given(CLAIMS, sizeof CLAIMS - 1, &cases[i].given, out, 0), cases[i].number, cases[i].place, 0, 0, cases[i].what);
    expect_answer(import_given("", 0, &cases[0].given, out, 0), BENCH_NO_DIVISOR, 0, 0, 0, "divisor 0 before an empty text");
    expect_answer(import_given("", 0, &cases[1].given, out, 0), BENCH_BAD_LINE, 1, 0, 0, "an empty text before society 8");
}

static void exports(void)
{
    const char text[] = TABLE_HEADER "59,7\r\n60,1000000000\r\n";
    const size_t bytes = sizeof text - 1;
    const uint32_t table[] = {7, 1000000000};
    uint32_t above[] = {7, 1000000001}, many[BENCH_MOST_VALUES + 1] = {0};
    char out[64];
    memset(out, 'x', sizeof out);
    expect_answer(export_from(59, table, 2, out, bytes - 1), BENCH_WRONG_LENGTH, bytes, 0, 0, "export into one byte less");
    expect(out[0] == 'x', "a refused export writes nothing");
    expect_answer(export_from(59, table, 2, out, sizeof out), BENCH_DONE, bytes, 0, 0, "export");
    expect(memcmp(out, text, bytes) == 0 && out[bytes] == 'x', "the list and no more");
    expect_answer(export_from(59, above, 2, out, 0), BENCH_NOT_ALLOWED, 0, 0, 0, "a rate of 10^9 + 1");
    expect_answer(export_from(59, table, 0, out, 0), BENCH_NOT_ALLOWED, 0, 0, 0, "no rates");
    expect_answer(export_from(0, many, BENCH_MOST_VALUES + 1, out, 0), BENCH_NOT_ALLOWED, 0, 0, 0, "121 rates");
    expect_answer(export_from(999999999, table, 2, out, 0), BENCH_WRONG_LENGTH, 46, 0, 0, "a last age of 10^9");
    expect_answer(export_from(1000000000, table, 2, out, 0), BENCH_NOT_ALLOWED, 0, 0, 0, "a last age of 10^9 + 1");
    expect_answer(export_from(UINT64_MAX, table, 2, out, 64), BENCH_NOT_ALLOWED, 0, 0, 0, "a last age that would wrap");
    memset(answer, 0xEE, sizeof answer);
    uint64_t said = bench_export(table, 0, 59, (uint8_t *)out, 64, answer, 5);
    expect(said == 32 * 4 + 13 && (answer[0] & 0xFF) == 0xEE, "export with an answer slice of five words, before all else");
}

static void tables_read(void)
{
    static const struct { const char *what, *text; uint64_t number, place; } cases[] = {
        {"a table without the last CR LF", TABLE_HEADER "59,7\r\n60,1000000000", BENCH_DONE, 2},
        {"one rate", TABLE_HEADER "1000000000,0\r\n", BENCH_DONE, 1},
        {"a header alone", TABLE_HEADER, BENCH_NOT_ALLOWED, 0},
        {"a header without its end", "age,rate", BENCH_NOT_ALLOWED, 0},
        {"an empty text for a table", "", BENCH_BAD_LINE, 1},
        {"a claims list for a table", CLAIMS, BENCH_BAD_LINE, 1},
        {"three fields in a table", TABLE_HEADER "59,7,7\r\n", BENCH_BAD_LINE, 2},
        {"a rate of 10^9 + 1 in a table", TABLE_HEADER "59,7\r\n60,1000000001\r\n", BENCH_BAD_LINE, 3},
        {"an age left out of a table", TABLE_HEADER "59,7\r\n61,7\r\n", BENCH_AGE_NOT_NEXT, 3},
        {"16 before 17 in a table", TABLE_HEADER "59,7\r\n61,+7\r\n", BENCH_BAD_LINE, 3},
    };
    const char text[] = TABLE_HEADER "59,7\r\n60,1000000000\r\n";
    uint32_t out[3] = {9, 9, 9};
    for (size_t i = 0; i < sizeof cases / sizeof *cases; i++)
        expect_answer(rates_of(cases[i].text, strlen(cases[i].text), out, 3), cases[i].number, cases[i].place, 0, 0, cases[i].what);
    out[0] = out[1] = 9;
    expect_answer(rates_of(text, sizeof text - 1, out, 1), BENCH_WRONG_LENGTH, 2, 0, 0, "two rates into one word");
    expect(out[0] == 9, "refused rates are not written");
    expect_answer(rates_of(text, sizeof text - 1, out, 3), BENCH_DONE, 2, 0, 0, "two rates into three words");
    expect(out[0] == 7 && out[1] == 1000000000 && out[2] == 9, "the rates and no more");
    expect(bench_rates((const uint8_t *)text, 0, out, 3, answer, 0) == 32 * 4 + 13, "rates with an answer slice of no words");
}

/* The longest claims list, whose last age is 10^9 and whose exposures and deaths all are, and the longest pack made of one. */
static void longest_import(void)
{
    static char text[BENCH_MOST_LIST_BYTES + 64];
    const struct given given = {1000000, 7, 4294967295, 4, 1000, 1000000000000000, 1000000, 1000000};
    uint8_t out[BENCH_MOST_IMPORT_BYTES];
    size_t bytes = (size_t)sprintf(text, CLAIMS_HEADER);
    for (int i = 0; i < BENCH_MOST_CELLS; i++)
        bytes += (size_t)sprintf(text + bytes, "%d,1000000000,1000000000\r\n", 1000000000 - (BENCH_MOST_CELLS - 1) + i);
    expect(bytes == BENCH_MOST_LIST_BYTES, "the longest claims list");
    uint64_t said = import_given(text, bytes, &given, out, sizeof out - 1);
    expect_answer(said, BENCH_WRONG_LENGTH, BENCH_MOST_IMPORT_BYTES, 0, 0, "its pack needs all bytes");
    said = import_given(text, bytes, &given, out, sizeof out);
    expect_answer(said, BENCH_DONE, BENCH_MOST_IMPORT_BYTES, 0, 0, "the longest pack of a claims list");
    sprintf(text + bytes, "\r\n");
    said = import_given(text, bytes + 2, &given, out, sizeof out);
    expect_answer(said, BENCH_BAD_LINE, BENCH_MOST_CELLS + 2, 0, 0, "an empty 121st line");
    sprintf(text + bytes, "1,1,2");
    said = import_given(text, bytes + 5, &given, out, sizeof out);
    expect_answer(said, BENCH_BAD_LINE, BENCH_MOST_CELLS + 2, 0, 0, "a 121st line, whatever it holds");
}

static void longest_export(void)
{
    static char text[BENCH_MOST_EXPORT_BYTES];
    uint32_t table[BENCH_MOST_VALUES], again[BENCH_MOST_VALUES];
    const uint64_t first_age = 1000000000 - (BENCH_MOST_VALUES - 1);
    for (int i = 0; i < BENCH_MOST_VALUES; i++)
        table[i] = 1000000000;
    uint64_t said = export_from(first_age, table, BENCH_MOST_VALUES, text, sizeof text - 1);
    expect_answer(said, BENCH_WRONG_LENGTH, BENCH_MOST_EXPORT_BYTES, 0, 0, "the longest export needs all bytes");
    said = export_from(first_age, table, BENCH_MOST_VALUES, text, sizeof text);
    expect_answer(said, BENCH_DONE, BENCH_MOST_EXPORT_BYTES, 0, 0, "the longest export");
    said = rates_of(text, sizeof text, again, BENCH_MOST_VALUES - 1);
    expect_answer(said, BENCH_WRONG_LENGTH, BENCH_MOST_VALUES, 0, 0, "its rates need all words");
    expect_answer(rates_of(text, sizeof text, again, BENCH_MOST_VALUES), BENCH_DONE, BENCH_MOST_VALUES, 0, 0, "and are read back");
    expect(memcmp(table, again, sizeof table) == 0, "as the same rates");
}

/* The numbers and lengths that a caller may have written out. */
static void linked_constants(void)
{
    expect(BENCH_NO_PASS_ACCEPTED == 14 && BENCH_BAD_PASSES == 21 && BENCH_MOST_PASSES == 200, "the numbers of proposals that honour links");
    expect(BENCH_MOST_PROPOSAL_BYTES == 1160, "the longest proposal");
}

static void list_constants(void)
{
    expect(BENCH_BAD_LINE == 16 && BENCH_AGE_NOT_NEXT == 17 && BENCH_DEATHS_ABOVE_EXPOSURE == 18 && BENCH_NO_DIVISOR == 19, "the numbers of lists");
    expect(BENCH_MOST_LIST_BYTES == 3982 && BENCH_MOST_IMPORT_BYTES == 1339 && BENCH_MOST_EXPORT_BYTES == 2651, "the lengths of lists");
}

int main(void)
{
    checks();
    shelf_is_kept();
    shelf_is_full();
    proposals();
    linked_proposals();
    limited_multiplier();
    linked_refusals();
    linked_constants();
    round_trip();
    select_table();
    terms_are_listed();
    other_lists();
    residual_limit();
    slot_words();
    corrected_job();
    corrected_links();
    largest_terms();
    line_and_grid();
    spoilt_words();
    duplicate_slots();
    job_refusals();
    weight_refusals();
    proposal_refusals();
    thin_refusal();
    wide_refusal();
    largest_job();
    widest_list();
    largest_line();
    shelf_refusals();
    old_shelf(4032);
    old_shelf(9184);
    more_room();
    one_slot_each();
    other_counts();
    count_refusals();
    length_refusals();
    list_to_list();
    imports();
    list_refusals();
    given_refusals();
    exports();
    tables_read();
    longest_import();
    longest_export();
    list_constants();
    printf("%d passed, %d failed\n", passed, failed);
    return failed == 0 ? 0 : 1;
}
