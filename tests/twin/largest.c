/* Terms of the gap worked by hand (document 02, W-202): which of them is the largest where a table is refused with 9, and lists of them with what supplied
 * each. */
#include "parts.h"
#include "tables.h"
#include "twin.h"

#include <string.h>

/* Three cells with crude rates 0 5 0, weights 1, boxes 0..100, order 2, constant 1, and the link -v0+v1 <= 0 twice. What a table has otherwise is set at
 * these bytes. */
static const uint8_t JOB[] = {3, 7, 3, 2, 1, 0, 0, 1, 0, 100, 5, 1, 0, 100, 0, 1, 0, 100, 2, 2, 0, 1, 1, 2, 0, 2, 0, 1, 1, 2, 0};
enum { AT_TOLERANCE = 5, AT_FLOOR_0 = 8, AT_WEIGHT_1 = 11, AT_CEILING_1 = 13, AT_BOUND_0 = 24, AT_BOUND_1 = 30 };
enum { PLACES = 5, WORDS = 15 };

static uint8_t job[sizeof JOB];
static uint64_t answer[ANSWER_WORDS];

static void begin(uint8_t floor, uint8_t ceiling)
{
    memcpy(job, JOB, sizeof JOB);
    job[AT_FLOOR_0] = floor;
    job[AT_CEILING_1] = ceiling;
}

/* Multipliers for v 3 2 1, which has no difference. With y both together the residuals are 6 - y, y - 6 and 2; the weight supplies each cell's term
 * unless a floor of 3 in cell 0 or a ceiling of 2 in cell 1 makes it 0. A link's room is its bound and 1. */
static const struct held {
    const char *what;
    uint8_t floor, ceiling, bounds[2], multipliers[2], terms[PLACES];
    uint64_t place;
} HELD[] = {
    {"two cells are equal", 0, 100, {0, 0}, {0, 0}, {9, 9, 1, 0, 0}, 0},
    {"the second cell alone", 3, 100, {0, 0}, {0, 0}, {0, 9, 1, 0, 0}, 1},
    {"the smallest residual has the largest term", 3, 2, {0, 0}, {0, 0}, {0, 0, 1, 0, 0}, 2},
    {"two cells and a link are equal", 0, 100, {0, 0}, {3, 0}, {3, 3, 1, 3, 0}, 0},
    {"a cell and a link are equal", 3, 100, {0, 0}, {3, 0}, {0, 3, 1, 3, 0}, 1},
    {"the first link", 0, 100, {0, 0}, {4, 0}, {1, 1, 1, 4, 0}, 3},
    {"the second link", 0, 100, {0, 0}, {0, 4}, {1, 1, 1, 0, 4}, 4},
    {"two links are equal", 0, 100, {0, 0}, {2, 2}, {1, 1, 1, 2, 2}, 3},
    {"two links with equal multipliers", 0, 100, {0, 1}, {2, 2}, {1, 1, 1, 2, 4}, 4},
};

/* The place is the same whatever the tolerance is, so also where the total passes it before the largest term or behind it. */
static void largest_is(const struct held *h)
{
    const uint8_t proposal[] = {3, 2, 1, h->multipliers[0], h->multipliers[1]};
    int gap = 0;
    for (int place = 0; place < PLACES; place++)
        gap += h->terms[place];
    begin(h->floor, h->ceiling);
    job[AT_BOUND_0] = (uint8_t)(2 * h->bounds[0]);
    job[AT_BOUND_1] = (uint8_t)(2 * h->bounds[1]);
    for (int tolerance = 0; tolerance <= gap; tolerance++) {
        job[AT_TOLERANCE] = (uint8_t)tolerance;
        uint64_t said = twin_check(job, sizeof job, proposal, sizeof proposal, answer, ANSWER_WORDS);
        expect(said == (tolerance < gap ? 32 * h->place + 9 : 0), h->what);
    }
}

/* The same with bounds 0 and some weight in cell 1, and all words of the list. Without a weight the residual of cell 1 is y. */
static const struct listed {
    const char *what;
    uint8_t floor, ceiling, weight, multipliers[2];
    int64_t words[WORDS];
} LISTED[] = {
    {"the weight supplies each cell", 0, 100, 1, {3, 0}, {3, 3, 1, 3, -3, 1, 1, 2, 1, 3, 0, 2, 0, 0, 2}},
    {"the box supplies two", 3, 2, 1, {0, 1}, {0, 5, 0, 0, -5, 0, 1, 2, 1, 0, 0, 2, 1, 0, 2}},
    {"no residual in two", 0, 100, 1, {4, 2}, {0, 0, 0, 0, 0, 0, 1, 2, 1, 4, 0, 2, 2, 0, 2}},
    {"both sides tie in two", 2, 3, 1, {2, 0}, {4, 4, 0, 4, -4, 0, 1, 2, 1, 2, 0, 2, 0, 0, 2}},
    {"both sides tie once the square is rounded up", 2, 3, 1, {1, 2}, {3, 3, 0, 3, -3, 0, 1, 2, 1, 1, 0, 2, 2, 0, 2}},
    {"boxes one wider", 1, 4, 1, {2, 0}, {4, 4, 1, 4, -4, 1, 1, 2, 1, 2, 0, 2, 0, 0, 2}},
    {"no weight in cell 1", 0, 100, 0, {2, 1}, {3, 3, 1, 6, 3, 0, 1, 2, 1, 2, 0, 2, 1, 0, 2}},
};

/* The tolerance is 0: a gap above it is listed all the same. Words behind the list stay. */
static void list_is(const struct listed *c)
{
    const uint8_t proposal[] = {3, 2, 1, c->multipliers[0], c->multipliers[1]};
    int64_t out[WORDS + 1];
    begin(c->floor, c->ceiling);
    job[AT_WEIGHT_1] = c->weight;
    out[WORDS] = -7;
    uint64_t said = twin_terms(job, sizeof job, proposal, sizeof proposal, out, WORDS + 1, answer, ANSWER_WORDS);
    expect(said == 32 * WORDS && answer[1] == WORDS && answer[2] == 0 && answer[3] == 0, c->what);
    expect(memcmp(out, c->words, sizeof c->words) == 0 && out[WORDS] == -7, c->what);
}

/* Two cells with crude rates and values 1,000,000, weights 1,000 and boxes from 0 on, and the link 10 v0 <= 10,000,000 with this multiplier: the
 * residual of cell 0 is ten times that. At 2*10^9 the square is half the box term; beyond that only the box counts. */
static void limit_is(int64_t multiplier, int64_t term, int64_t side)
{
    const int64_t words[] = {3, 7, 2, 1, 1, 0, 1000000, 1000, 0, 1000000, 1000000, 1000, 0, 1000000, 1, 1, 0, 10, 10000000};
    const int64_t expected[] = {term, 10 * multiplier, side, 0, 0, 0, 0, 0, 2};
    int64_t out[9];
    uint8_t pack[64], proposal[16] = {0xC0, 0x84, 0x3D, 0xC0, 0x84, 0x3D};
    size_t bytes = twin_write(words, sizeof words / sizeof *words, pack, sizeof pack, answer, ANSWER_WORDS) / 32;
    size_t proposal_bytes = 6 + twin_put_number(proposal + 6, (uint64_t)multiplier);
    uint64_t said = twin_terms(pack, bytes, proposal, proposal_bytes, out, 9, answer, ANSWER_WORDS);
    expect(said == 32 * 9 && memcmp(out, expected, sizeof expected) == 0, "a residual about the limit");
}

/* Each refusal before the next: a job that is cut, a proposal that is cut, a value above its ceiling, a broken link, and then too little room. */
static void terms_refused(void)
{
    const uint8_t outside[] = {3, 101, 1, 0, 0}, broken[] = {3, 4, 1, 0, 0}, met[] = {3, 2, 1, 3, 0};
    int64_t out[WORDS] = {-7};
    begin(0, 100);
    expect(twin_terms(job, 5, met, 2, out, 0, answer, 3) == 32 * 4 + 13, "an answer slice of three words");
    expect(twin_terms(job, 5, met, 2, out, 0, answer, 4) == 32 * 5 + 1, "a job that is cut");
    expect(twin_terms(job, sizeof job, outside, 4, out, 0, answer, 4) == 32 * 4 + 6, "a proposal that is cut");
    expect(twin_terms(job, sizeof job, outside, 5, out, 0, answer, 4) == 32 * 1 + 7, "a value above its ceiling");
    expect(twin_terms(job, sizeof job, broken, 5, out, 0, answer, 4) == 8, "a broken link");
    expect(twin_terms(job, sizeof job, met, 5, out, WORDS - 1, answer, 4) == 32 * WORDS + 13, "room for one word less");
    expect(out[0] == -7, "a refusal writes no term");
}

void largest_tables(void)
{
    for (size_t i = 0; i < sizeof HELD / sizeof *HELD; i++)
        largest_is(&HELD[i]);
    for (size_t i = 0; i < sizeof LISTED / sizeof *LISTED; i++)
        list_is(&LISTED[i]);
    limit_is(200000000, 1000000000000000, BY_WEIGHT);
    limit_is(200000001, 2000000010000000, BY_BOX);
    terms_refused();
}
