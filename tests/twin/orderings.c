/* Proposals that honour links, worked by hand (document 02, W-207): the values, the multipliers and the count of passes, and each refusal in its order. Of
 * every job the way that keeps the links' solutions has to say and write the same. */
#include "parts.h"
#include "tables.h"
#include "twin.h"

#include <string.h>

enum { ROOM = 64, SPARE = 0xEE, AT_TOLERANCE = 5 };

/* Document 01's u 0 5 0 with its link -v0 + v1 <= 0. With k = (1, -2, 1) the matrix is I + kk', and what it makes of a right side r is r - k(k.r)/7: of
 * u the values 10/7 15/7 10/7, of the link x = -4/7 1/7 3/7. So c = 5/7 and s = 5/7, the multiplier is 2, and the values less x are 2 2 1. */
static const uint8_t THREE[] = {3, 7, 3, 2, 1, 0, 0, 1, 0, 100, 5, 1, 0, 100, 0, 1, 0, 100, 1, 2, 0, 1, 1, 2, 0};
static const uint8_t THREE_TABLE[] = {2, 2, 1, 2};

/* Two cells of order 1 with u 30 30, weights and constant 1, and the links v0 <= 21, v1 <= 12. A is 2 -1, -1 2; the links' solutions are 2/3 1/3 and
 * 1/3 2/3, and both c are 2/3. The values begin at 30 30. Pass p ends with v0 = 21 - 27/4^p, v1 = 12, the first multiplier 27/4^(p-1), the second
 * 54 - 54/4^p:
 *     pass 1   57/4      12   27     81/2
 *     pass 2   309/16    12   27/4   405/8      rounded 19 12  7 51   residuals -1  1   gap 1 + 1 + 2*7 = 16
 *     pass 3   1317/64   12   27/16  1701/32    rounded 21 12  2 53   residuals  2 -1   gap 1 + 1 = 2
 *     pass 4   5349/256  12   27/64  6885/128   rounded 21 12  0 54   residuals  0  0   gap 0
 * After pass 1 the room of the first link is 7 and its multiplier 27, so the gap is above 16 whichever way 81/2 is rounded. */
static const uint8_t TWO[] = {3, 7, 2, 1, 1, 0, 30, 1, 0, 100, 30, 1, 0, 100, 2, 1, 0, 2, 42, 1, 1, 2, 24};

/* Rows 14 2 and 7 9 with orders 1 and 1, constant 1, second constant 2, and the link v0 - v3 <= -7. A has the eigenvectors (1 1 1 1), (1 1 -1 -1), (1
 * -1 1 -1) and (1 -1 -1 1) with 1, 3, 5 and 7; u is 8, 0, 5/2 and 7/2 of them, so the values are 9 7 8 8. The link is 1/2 of the second and of the
 * third: x = 4/15 1/15 -1/15 -4/15, c = 8/15, and s is 1. So the multiplier is 2*8*15/8 = 30, and the values less 15 times x are 5 6 9 12. */
static const uint8_t SQUARE[] = {3, 8, 4, 5, 2, 2, 1, 1, 2, 1, 0, 14, 1, 0, 100, 2, 1, 0, 100, 7, 1, 0, 100, 9, 1, 0, 100, 1, 2, 0, 2, 3, 1, 13};
static const uint8_t SQUARE_TABLE[] = {5, 6, 9, 12, 30};

/* Two cells of order 1 with u 10^6 and weights 1,000, constant 1, cell 0 in the box 0..0, and the link v0 <= 0. A is 1001 -1, -1 1001, and x is 1001 1
 * over 1,002,000: the multiplier is 2*10^6/c = 2,001,998,001 and more, and is limited to 10^9. The values are 0 and 10^9/1001, rounded 999,001. The
 * residual of cell 0 counts nothing at its ceiling; that of cell 1 is -2000*999 + 2*999,001 = 2, whose square over 4,000 is rounded up to 1. */
static const int64_t FAR_WORDS[] = {3, 7, 2, 1, 1, 1, 1000000, 1000, 0, 0, 1000000, 1000, 0, 1000000, 1, 1, 0, 1, 0};
static const uint8_t FAR_TABLE[] = {0, 0xD9, 0xFC, 0x3C, 0x80, 0x94, 0xEB, 0xDC, 0x03};

static uint8_t out[ROOM];
static uint64_t answer[ANSWER_WORDS];

/* Whether the other way says and writes what is in `out` and in the answer. */
static int kept_agrees(const uint8_t *job, size_t bytes, uint64_t passes, size_t room, uint64_t said)
{
    uint8_t again[ROOM];
    uint64_t words[ANSWER_WORDS];
    memset(again, SPARE, sizeof again);
    return twin_propose_kept(job, bytes, passes, again, room, words, ANSWER_WORDS) == said && memcmp(again, out, sizeof out) == 0
        && memcmp(words, answer, sizeof words) == 0;
}

/* Proposes into so much room and answers whether this is said, with this count and nothing for the gap. */
static int says(const uint8_t *job, size_t bytes, uint64_t passes, size_t room, uint64_t number, uint64_t place, uint64_t count)
{
    const uint64_t words[ANSWER_WORDS] = {number, place, count, 0};
    memset(out, SPARE, sizeof out);
    uint64_t said = twin_propose_linked(job, bytes, passes, out, room, answer, ANSWER_WORDS);
    return said == 32 * place + number && memcmp(answer, words, sizeof words) == 0 && kept_agrees(job, bytes, passes, room, said);
}

/* Whether the pack stands in `out`, and behind it nothing was written. */
static int wrote(const uint8_t *pack, size_t bytes)
{
    int same = bytes == 0 || memcmp(out, pack, bytes) == 0;
    for (size_t i = bytes; i < sizeof out; i++)
        same = same && out[i] == SPARE;
    return same;
}

static int proposes(const uint8_t *job, size_t bytes, uint64_t passes, const uint8_t *pack, size_t pack_bytes, uint64_t count)
{
    return says(job, bytes, passes, ROOM, 0, pack_bytes, count) && wrote(pack, pack_bytes);
}

static int refuses(const uint8_t *job, size_t bytes, uint64_t passes, size_t room, uint64_t number, uint64_t place)
{
    return says(job, bytes, passes, room, number, place, 0) && wrote(NULL, 0);
}

static void worked_links(void)
{
    uint8_t far[ROOM];
    expect(proposes(THREE, sizeof THREE, 1, THREE_TABLE, 4, 1), "u 0 5 0 with its link");
    expect(proposes(SQUARE, sizeof SQUARE, 1, SQUARE_TABLE, 5, 1), "a grid with a link");
    expect(proposes(SQUARE, sizeof SQUARE, 200, SQUARE_TABLE, 5, 1), "a grid with a link, and 200 passes allowed");
    size_t bytes = (size_t)(twin_write(FAR_WORDS, sizeof FAR_WORDS / sizeof *FAR_WORDS, far, sizeof far, answer, ANSWER_WORDS) / 32);
    expect(proposes(far, bytes, 1, FAR_TABLE, 9, 1), "a multiplier limited to 10^9");
}

/* TWO with each tolerance that is a pass's gap, or one less. */
static void later_passes(void)
{
    static const struct { const char *what; uint8_t tolerance, table[4]; uint64_t count; } cases[] = {
        {"tolerance 16: pass 2", 16, {19, 12, 7, 51}, 2}, {"tolerance 15: pass 3", 15, {21, 12, 2, 53}, 3},
        {"tolerance 2: pass 3", 2, {21, 12, 2, 53}, 3},   {"tolerance 1: pass 4", 1, {21, 12, 0, 54}, 4},
        {"tolerance 0: pass 4", 0, {21, 12, 0, 54}, 4},
    };
    uint8_t job[sizeof TWO];
    memcpy(job, TWO, sizeof TWO);
    for (size_t i = 0; i < sizeof cases / sizeof *cases; i++) {
        uint64_t count = cases[i].count;
        job[AT_TOLERANCE] = cases[i].tolerance;
        for (uint64_t passes = 1; passes < count; passes++)
            expect(refuses(job, sizeof job, passes, ROOM, 14, passes), "fewer passes than it takes");
        expect(proposes(job, sizeof job, count, cases[i].table, 4, count), cases[i].what);
        expect(proposes(job, sizeof job, count + 1, cases[i].table, 4, count), "one pass more changes nothing");
        expect(proposes(job, sizeof job, 200, cases[i].table, 4, count), "nor do all that can be allowed");
    }
}

/* Document 01's u 0 7 0 is proposed for as the house does. Of u 0 1 0 the house has 2/7 3/7 2/7, rounded 0 0 0, whose gap is 1. */
static void without_links(void)
{
    const uint8_t seven[] = {3, 7, 3, 2, 1, 0, 0, 1, 0, 100, 7, 1, 0, 100, 0, 1, 0, 100, 0}, table[] = {2, 3, 2};
    uint8_t one[sizeof seven];
    memcpy(one, seven, sizeof seven);
    one[10] = 1;
    expect(proposes(seven, sizeof seven, 1, table, 3, 1), "no links: count 1");
    expect(proposes(seven, sizeof seven, 200, table, 3, 1), "no links and 200 passes allowed: count 1");
    expect(refuses(one, sizeof one, 1, ROOM, 14, 1), "no links and a gap above the tolerance");
    expect(refuses(one, sizeof one, 200, ROOM, 14, 200), "14 has the number given for its place");
}

/* A grid of 120 cells whose long way has order 4 and its constant 999, with weights 1 in the first four cells of that way alone. The short way is two. */
static size_t thin_grid(bool upright, uint8_t *pack, size_t bytes)
{
    int64_t across = upright ? 2 : 60, down = 120 / across;
    int64_t words[12 + 4 * 120] = {3, 7, 120, 5, down, across, upright ? 4 : 1, upright ? 1 : 4, upright ? 1 : 999, upright ? 999 : 1, 0};
    for (int64_t i = 0; i < 120; i++) {
        words[11 + 4 * i + 1] = (upright ? i / across : i % across) < 4;
        words[11 + 4 * i + 3] = 100;
    }
    return (size_t)(twin_write(words, 492, pack, bytes, answer, ANSWER_WORDS) / 32);
}

/* n 120, order 2, k 1,000, weight 1 in cells 0 and 1 only: document 01's thin job, with a tolerance that no pass meets. */
static size_t thin(uint8_t *pack, size_t bytes)
{
    int64_t words[7 + 4 * 120] = {0, 0, 120, 2, 1000, 0};
    for (int i = 0; i < 120; i++) {
        words[6 + 4 * i + 1] = i < 2;
        words[6 + 4 * i + 3] = 100;
    }
    return (size_t)(twin_write(words, 487, pack, bytes, answer, ANSWER_WORDS) / 32);
}

static void refusals(void)
{
    static const uint64_t wrong[] = {0, 201, 4294967297, UINT64_MAX};
    const uint8_t unreadable[] = {0x80};
    uint8_t pack[1024], spare[sizeof THREE + 1];
    for (size_t i = 0; i < sizeof wrong / sizeof *wrong; i++) {
        expect(refuses(THREE, sizeof THREE, wrong[i], ROOM, 21, 0), "passes that are not allowed");
        expect(refuses(unreadable, 1, wrong[i], 0, 21, 0), "passes before the job pack");
        expect(refuses(pack, thin_grid(false, pack, sizeof pack), wrong[i], 0, 21, 0), "passes before 20");
        expect(twin_propose_linked(THREE, sizeof THREE, wrong[i], out, ROOM, answer, 3) == 32 * 4 + 13, "the answer slice before passes");
    }
    expect(refuses(unreadable, 1, 200, 0, 1, 0), "an unreadable job pack");
    memcpy(spare, THREE, sizeof THREE);
    spare[sizeof THREE] = 0;
    expect(refuses(spare, sizeof spare, 1, ROOM, 1, sizeof THREE), "a spare byte");
    expect(refuses(pack, thin(pack, sizeof pack), 7, 0, 10, 119), "a thin job is 10 and not 14");
    expect(twin_propose_linked(THREE, sizeof THREE, 1, out, ROOM, answer, 5) == 32 * 4 + 13, "an answer slice of five words");
}

/* The same grid with rows and columns exchanged has the same last pivot. It has two columns, so there it is told that it is thin. */
static void wide_before_thin(void)
{
    uint8_t pack[1024];
    size_t bytes = thin_grid(true, pack, sizeof pack);
    uint64_t said = twin_propose(pack, bytes, out, ROOM, answer, ANSWER_WORDS);
    expect(said % 32 == 10, "60 rows of two columns are thin");
    expect(refuses(pack, bytes, 3, 0, 10, said / 32), "at the same cell as for the house proposal");
    expect(refuses(pack, thin_grid(false, pack, sizeof pack), 3, 0, 20, 0), "two rows of 60 columns are 20 and not 10");
}

/* The room is asked for last, in the bytes of the pack that is accepted: where no pass is, 14 and not 13. */
static void short_room(void)
{
    uint8_t job[sizeof TWO];
    memcpy(job, TWO, sizeof TWO);
    expect(refuses(THREE, sizeof THREE, 1, 3, 13, 4), "room one byte short");
    expect(refuses(THREE, sizeof THREE, 200, 0, 13, 4), "no room");
    expect(says(THREE, sizeof THREE, 1, 4, 0, 4, 1) && wrote(THREE_TABLE, 4), "room for all and no more");
    expect(refuses(job, sizeof job, 3, 0, 14, 3), "14 before room");
    expect(refuses(job, sizeof job, 4, 3, 13, 4), "room one byte short after four passes");
}

void ordering_tables(void)
{
    worked_links();
    later_passes();
    without_links();
    refusals();
    wide_before_thin();
    short_room();
}
