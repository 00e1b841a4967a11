/* Select tables worked by hand (document 02, W-205): small grids, their weights, their fields, and one that is too wide. */
#include "tables.h"
#include "twin.h"

#include <string.h>

/* A grid in boxes 0..100: society 3, job 7, tolerance 0 unless said, no links. `crude` and `weight` run along a row first. */
struct grid {
    int rows, columns, down, across, second, constant;
    int crude[6], weight[6];
};

static size_t grid_words(const struct grid *g, int64_t tolerance, int64_t *words)
{
    const int64_t header[] = {3, 7, g->rows * g->columns, 5, g->rows, g->columns, g->down, g->across, g->second, g->constant, tolerance};
    size_t at = sizeof header / sizeof *header;
    memcpy(words, header, sizeof header);
    for (int i = 0; i < g->rows * g->columns; i++) {
        const int64_t cell[] = {g->crude[i], g->weight[i], 0, 100};
        memcpy(words + at, cell, sizeof cell);
        at += 4;
    }
    words[at++] = 0;
    return at;
}

/* The grid's pack; it has to be written, and read back as the same numbers. */
static size_t grid_pack(const struct grid *g, int64_t tolerance, uint8_t *pack)
{
    int64_t words[64], again[64];
    uint64_t answer[4];
    size_t count = grid_words(g, tolerance, words), bytes = twin_write(words, count, pack, 64, answer, 4) / 32;
    expect(answer[0] == 0, "a grid is written");
    expect(twin_read(pack, bytes, again, 64, answer, 4) == 32 * count && memcmp(words, again, count * sizeof *words) == 0, "a grid is read");
    return bytes;
}

/* The check's answer: F and G, or 9 with the cell of the largest term. */
static void grid_is(const struct grid *g, int64_t tolerance, const uint8_t *values, uint64_t loss, uint64_t gap, uint64_t largest, const char *what)
{
    uint8_t pack[64];
    uint64_t answer[4];
    size_t bytes = grid_pack(g, tolerance, pack);
    uint64_t said = twin_check(pack, bytes, values, (size_t)(g->rows * g->columns), answer, 4);
    expect(said == (gap > (uint64_t)tolerance ? 32 * largest + 9 : 0), what);
    expect(said != 0 || (answer[2] == loss && answer[3] == gap), what);
}

/* Three rows of two columns, weights 1, order down 2 with constant 2, order across 1 with second constant 3:
 *
 *     u  0 2    v  1 2    down  -5 -1    across  1    residuals  -24   2    cell terms  144   1
 *        9 4       4 4                           0                30   8                120  16
 *        2 6       2 5                           3               -38  12                361  36
 *
 * F = 27 + 2*(25 + 1) + 3*(1 + 0 + 9) = 109. The residual of cell 2 is 2*(4-9) + 2*2*(-5)*(-2) + 0 = 30, and its box term 30*4 is less than
 * 30*30/4. G = 678. Turned over, rows for columns, orders and constants change places, and F and G stay. The largest term is that of cell 4, and
 * turned over of cell 2. */
static void turned_over(void)
{
    const struct grid upright = {3, 2, 2, 1, 3, 2, {0, 2, 9, 4, 2, 6}, {1, 1, 1, 1, 1, 1}};
    const struct grid turned = {2, 3, 1, 2, 2, 3, {0, 9, 2, 2, 4, 6}, {1, 1, 1, 1, 1, 1}};
    const uint8_t v[] = {1, 2, 4, 4, 2, 5}, w[] = {1, 4, 2, 2, 4, 5};
    grid_is(&upright, 678, v, 109, 678, 4, "a grid of 3 by 2");
    grid_is(&upright, 677, v, 109, 678, 4, "a grid of 3 by 2, T one less");
    grid_is(&turned, 678, w, 109, 678, 2, "a grid of 2 by 3");
    grid_is(&turned, 677, w, 109, 678, 2, "a grid of 2 by 3, T one less");
}

/* Two rows of two columns, orders 1, constant 1 down and 2 across, v 9 7 8 8: differences -1 1 down, -2 0 across. Every residual is 0 for
 * u 14 2 7 9 (cell 0: 2*(9-14) + 2*1*(-1)*(-1) + 2*2*(-2)*(-1) = 0), so F = 52 + 1*2 + 2*4 = 62, G = 0, and the house proposes v. */
static void best_grid(void)
{
    const struct grid g = {2, 2, 1, 1, 2, 1, {14, 2, 7, 9}, {1, 1, 1, 1}};
    const uint8_t v[] = {9, 7, 8, 8};
    uint8_t pack[64], out[4];
    uint64_t answer[4];
    size_t bytes = grid_pack(&g, 0, pack);
    grid_is(&g, 0, v, 62, 0, 0, "the best grid of 2 by 2");
    expect(twin_propose(pack, bytes, out, 4, answer, 4) == 32 * 4 && memcmp(out, v, 4) == 0, "the house proposes the best grid");
}

/* 4 when fewer rows than the order down hold the order across of positive weights. */
static void grid_weights(void)
{
    static const struct { struct grid g; uint64_t said; } cases[] = {
        {{3, 2, 2, 1, 3, 2, {0}, {1, 0, 0, 0, 0, 1}}, 0}, {{3, 2, 2, 1, 3, 2, {0}, {0, 0, 1, 1, 0, 0}}, 4},
        {{2, 3, 1, 2, 3, 2, {0}, {1, 0, 0, 0, 1, 1}}, 0}, {{2, 3, 1, 2, 3, 2, {0}, {1, 0, 0, 0, 0, 1}}, 4},
        {{2, 3, 1, 2, 3, 2, {0}, {1, 0, 0, 1, 0, 0}}, 4}, {{3, 2, 2, 1, 3, 2, {0}, {0, 0, 0, 0, 1, 0}}, 4},
    };
    int64_t words[64];
    uint8_t out[64];
    uint64_t answer[4];
    for (size_t i = 0; i < sizeof cases / sizeof *cases; i++) {
        size_t count = grid_words(&cases[i].g, 0, words);
        expect(twin_write(words, count, out, 64, answer, 4) % 32 == cases[i].said && answer[1] == (answer[0] == 0 ? count : 0), "weights of a grid");
    }
}

/* One number of a grid of 2 by 4, orders 1 and 3, second constant 3, constant 2, is changed: 2 at its place, or none. The numbers are as
 * short as they can be, so a place is an index, but for the columns after rows of nine bytes, whose product with 4 would wrap to 8. */
static void grid_fields(void)
{
    static const struct { int index; int64_t to; uint64_t number, place; } cases[] = {
        {3, 6, 2, 3}, {4, 1, 2, 4}, {4, 0, 2, 4}, {4, -2, 2, 4}, {4, 3, 2, 5}, {4, 8, 2, 5}, {4, (INT64_MAX / 2 + 1) + 2, 2, 13},
        {5, 1, 2, 5}, {5, 2, 2, 5}, {5, 8, 2, 5}, {5, INT64_MAX, 2, 5}, {5, -4, 2, 5}, {6, 0, 2, 6}, {6, 2, 2, 6}, {7, 0, 2, 7}, {7, 4, 2, 7},
        {8, 0, 2, 8}, {8, 1000, 2, 8}, {8, 998, 0, 45}, {8, 999, 2, 10}, {9, 0, 2, 9}, {9, 998, 2, 9}, {9, 997, 0, 45}, {7, 1, 0, 44},
    };
    int64_t words[64] = {3, 7, 8, 5, 2, 4, 1, 3, 3, 2, 0};
    uint8_t out[64];
    uint64_t answer[4];
    for (int i = 0; i < 8; i++) {
        words[11 + 4 * i + 1] = 1;
        words[11 + 4 * i + 3] = 100;
    }
    for (size_t i = 0; i < sizeof cases / sizeof *cases; i++) {
        int64_t was = words[cases[i].index];
        words[cases[i].index] = cases[i].to;
        uint64_t said = twin_write(words, 44, out, 64, answer, 4);
        expect(said == 32 * cases[i].place + cases[i].number, "a field of a grid");
        words[cases[i].index] = was;
    }
}

/* Two rows of 12 columns are proposed for, of 13 not; but a spare byte comes first. */
static void wide_grid(void)
{
    int64_t words[12 + 4 * 26] = {3, 7, 24, 5, 2, 12, 1, 4, 1, 1, 0};
    uint8_t pack[256], out[26];
    uint64_t answer[4];
    for (int i = 0; i < 26; i++) {
        const int64_t cell[] = {5, 1, 0, 100};
        memcpy(words + 11 + 4 * i, cell, sizeof cell);
    }
    words[11 + 4 * 24] = 0;
    size_t bytes = twin_write(words, 12 + 4 * 24, pack, sizeof pack, answer, 4) / 32;
    expect(twin_propose(pack, bytes, out, 24, answer, 4) == 32 * 24 && out[0] == 5 && out[23] == 5, "12 columns");
    words[11 + 4 * 24] = 5;
    words[2] = 26;
    words[5] = 13;
    bytes = twin_write(words, 12 + 4 * 26, pack, sizeof pack, answer, 4) / 32;
    expect(bytes == 12 + 4 * 26 && twin_propose(pack, bytes, out, 0, answer, 4) == 20, "13 columns are refused with 20, place 0");
    pack[bytes] = 0;
    expect(twin_propose(pack, bytes + 1, out, 26, answer, 4) == 32 * bytes + 1, "a spare byte before 20");
    expect(twin_check(pack, bytes, pack, 0, answer, 4) == 6, "13 columns are no matter at the check");
}

void select_tables(void)
{
    turned_over();
    best_grid();
    grid_weights();
    grid_fields();
    wide_grid();
}
