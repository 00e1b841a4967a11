/* The twin against document 01 itself: its tables worked by hand, its forms of numbers, and the checking program's lines. Then grids, fetches,
 * counts of slots, terms of the gap, comma lists, and proposals that honour links. */
#include "tables.h"
#include "twin.h"

#include <stdio.h>
#include <string.h>

static int passed, failed;

void expect(int holds, const char *what)
{
    passed += holds != 0;
    failed += !holds;
    if (!holds)
        printf("FAILED  %s\n", what);
}

/* A job of three cells in a box 0..100 with order 2 and constant 1, and the link -v0+v1 <= 0 if `linked`. */
static size_t job_of(const int *u, const int *w, int tolerance, int linked, uint8_t *out)
{
    const uint8_t link[] = {2, 0, 1, 1, 2, 0};
    size_t at = 0;
    const uint8_t header[] = {3, 7, 3, 2, 1};
    memcpy(out, header, sizeof header);
    at += sizeof header;
    if (tolerance > 127)
        out[at++] = (uint8_t)(tolerance % 128 + 128);
    out[at++] = (uint8_t)(tolerance > 127 ? tolerance / 128 : tolerance);
    for (int i = 0; i < 3; i++) {
        out[at++] = (uint8_t)u[i];
        out[at++] = (uint8_t)w[i];
        out[at++] = 0;
        out[at++] = 100;
    }
    out[at++] = (uint8_t)linked;
    if (linked)
        memcpy(out + at, link, sizeof link);
    return linked ? at + sizeof link : at;
}

struct worked {
    const char *what;
    int u[3], w[3], tolerance, linked;
    uint8_t proposal[4];
    uint64_t answer[4];
};

static const struct worked WORKED[] = {
    {"v 2 3 2", {0, 7, 0}, {1, 1, 1}, 0, 0, {2, 3, 2}, {0, 0, 28, 0}},
    {"v 2 3 3", {0, 7, 0}, {1, 1, 1}, 9, 0, {2, 3, 3}, {0, 0, 30, 9}},
    {"v 0 7 0, T 784", {0, 7, 0}, {1, 1, 1}, 784, 0, {0, 7, 0}, {0, 0, 196, 784}},
    {"v 0 7 0, T 783", {0, 7, 0}, {1, 1, 1}, 783, 0, {0, 7, 0}, {9, 1, 0, 0}},
    {"link, multiplier 2", {0, 5, 0}, {1, 1, 1}, 0, 1, {2, 2, 1, 2}, {0, 0, 15, 0}},
    {"link, multiplier 0", {0, 5, 0}, {1, 1, 1}, 2, 1, {2, 2, 1, 0}, {0, 0, 15, 2}},
    {"link, v 3 2 1", {0, 5, 0}, {1, 1, 1}, 11, 1, {3, 2, 1, 2}, {0, 0, 19, 11}},
    {"link broken", {0, 5, 0}, {1, 1, 1}, 100, 1, {2, 3, 1, 2}, {8, 0, 0, 0}},
    {"weights 1 0 1", {0, 50, 0}, {1, 0, 1}, 16, 0, {0, 1, 0}, {0, 0, 4, 16}},
    {"v 0 0 0", {0, 1, 0}, {1, 1, 1}, 1, 0, {0, 0, 0}, {0, 0, 1, 1}},
};

static void worked_tables(void)
{
    uint8_t job[64];
    uint64_t answer[4];
    for (size_t i = 0; i < sizeof WORKED / sizeof *WORKED; i++) {
        const struct worked *c = &WORKED[i];
        size_t bytes = job_of(c->u, c->w, c->tolerance, c->linked, job);
        uint64_t said = twin_check(job, bytes, c->proposal, 3 + (size_t)c->linked, answer, 4);
        expect(said == 32 * c->answer[1] + c->answer[0] && memcmp(answer, c->answer, sizeof answer) == 0, c->what);
    }
}

/* n 120, order 2, k 1,000, weight 1 in cells 0 and 1 only. */
static void thin_job(void)
{
    int64_t words[7 + 4 * 120] = {0, 0, 120, 2, 1000, 0};
    uint8_t job[1024], out[520];
    uint64_t answer[4];
    for (int i = 0; i < 120; i++) {
        words[6 + 4 * i + 1] = i < 2;
        words[6 + 4 * i + 3] = 100;
    }
    uint64_t bytes = twin_write(words, 487, job, sizeof job, answer, 4) / 32;
    expect(answer[0] == 0, "the thin job is written");
    expect(twin_propose(job, bytes, out, sizeof out, answer, 4) == 32 * 119 + 10, "the thin job is refused at cell 119");
}

static void readings(void)
{
    const uint8_t two_cells[] = {0, 0, 2, 0}, low[] = {0x80, 0x00}, high[] = {0x80, 0x01};
    uint64_t answer[4];
    int64_t words[8];
    expect(twin_read(two_cells, 4, words, 8, answer, 4) == 32 * 3 + 2, "n 2 with order field 0 gives 2");
    expect(twin_read(two_cells, 0, words, 8, answer, 4) == 1, "an empty pack gives 1, place 0");
    expect(twin_read(low, 2, words, 8, answer, 4) == 1, "80 00 is refused as unreadable");
    expect(twin_read(high, 2, words, 8, answer, 4) == 2, "80 01 is read, and 128 is no society");
}

static void line_is(const uint8_t *input, size_t bytes, const char *line)
{
    char out[TWIN_LINE_BYTES];
    size_t length = twin_line(input, bytes, out);
    expect(length == strlen(line) && memcmp(out, line, length) == 0, line);
}

static void lines(void)
{
    const uint8_t input[] = {0x13, 3, 7, 3, 2, 1, 0, 0, 1, 0, 0x64, 7, 1, 0, 0x64, 0, 1, 0, 0x64, 0, 2, 3, 2};
    static uint8_t longest[8193];
    line_is(input, sizeof input, "0 3 7 28 0 2 3 2\n");
    line_is(input, sizeof input - 1, "6 2\n");
    line_is(input, 19, "1 0\n");
    line_is(input, 0, "1 0\n");
    line_is(longest, 8193, "1 8192\n");
    line_is(longest, 8192, "1 0\n");
    line_is(input, 20, "6 0\n");
}

int main(void)
{
    worked_tables();
    thin_job();
    readings();
    lines();
    select_tables();
    fetched_tables();
    counts_tables();
    largest_tables();
    comma_tables();
    ordering_tables();
    printf("%d passed, %d failed\n", passed, failed);
    return failed == 0 ? 0 : 1;
}
