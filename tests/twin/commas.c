/* Comma lists worked by hand (document 02, W-201): crude rates and weights, each refusal before the next, and tables out and back in. */
#include "parts.h"
#include "tables.h"
#include "twin.h"

#include <stdio.h>
#include <string.h>

#define CLAIMS "age,exposure,deaths\r\n"
#define TABLE "age,rate\r\n"

static uint64_t answer[ANSWER_WORDS];

/* What the imports here are given unless they say otherwise: divisor 100, society 3, job 7, order 2, k 1, T 0, box 0..100,000. */
static const struct twin_claims_job GIVEN = {100, 3, 7, 2, 1, 0, 0, 100000};

static uint64_t import(const char *text, size_t bytes, const struct twin_claims_job *j, uint8_t *out, size_t room)
{
    return twin_import((const uint8_t *)text, bytes, j->divisor, j->society, j->number, j->order, j->constant, j->tolerance, j->floor, j->ceiling,
                       out, room, answer, ANSWER_WORDS);
}

static const uint8_t PACK[] = {3, 7, 3, 2, 1, 0, 216, 54, 10, 0, 160, 141, 6, 220, 11, 20, 0, 160, 141, 6, 0, 0, 0, 160, 141, 6, 0};

/* Rates 7,000 and 1,500 and weights 10 and 20; exposure 0 gives 0 for both. */
static void worked_import(void)
{
    const char text[] = CLAIMS "40,1000,7\r\n41,2000,3\r\n42,0,0\r\n";
    uint8_t out[64];
    memset(out, 0xEE, sizeof out);
    expect(import(text, sizeof text - 1, &GIVEN, out, sizeof PACK - 1) == 32 * sizeof PACK + 13, "an import into one byte less");
    expect(out[0] == 0xEE, "a refused import writes nothing");
    expect(import(text, sizeof text - 1, &GIVEN, out, sizeof out) == 32 * sizeof PACK, "an import");
    expect(memcmp(out, PACK, sizeof PACK) == 0 && out[sizeof PACK] == 0xEE, "its pack and no more");
    expect(answer[0] == 0 && answer[1] == sizeof PACK && answer[2] == 0 && answer[3] == 0, "its answer, without loss and gap");
    expect(import(text, sizeof text - 3, &GIVEN, out, sizeof out) == 32 * sizeof PACK, "an import without the last CR LF");
}

/* Crude rates and weights of single lines, with the divisor; another line with weight 1,000 follows, for an order of 1. */
static const struct cell {
    const char *line;
    uint64_t divisor;
    int64_t u, w;
} CELLS[] = {
    {"0,2000000,1", 1, 1, 1000},       {"0,2000001,1", 1, 0, 1000},         {"0,1999999,1", 1, 1, 1000},
    {"0,2000000,3", 2001, 2, 999},     {"0,128,1", 1, 7813, 128},           {"0,3,1", 1, 333333, 3},
    {"0,3,2", 2, 666667, 1},           {"0,3,3", 4, 1000000, 0},            {"0,0,0", 1, 0, 0},
    {"0,1000,0", 1, 0, 1000},          {"0,999,0", 1, 0, 999},              {"0,1001,0", 1, 0, 1000},
    {"0,1999,0", 2, 0, 999},           {"0,1000000000,1000000000", 1000000, 1000000, 1000},
    {"0,1000000000,499", 1000001, 0, 999}, {"0,1000000000,500", 1, 1, 1000},
    {"0,1000000000,999999999", 1000000000, 1000000, 1},
};

static void worked_cells(void)
{
    for (size_t i = 0; i < sizeof CELLS / sizeof *CELLS; i++) {
        struct twin_claims_job given = GIVEN;
        char text[128];
        uint8_t out[64];
        int64_t words[16];
        given.divisor = CELLS[i].divisor;
        given.order = 1;
        size_t bytes = (size_t)snprintf(text, sizeof text, CLAIMS "%s\r\n1,1000000000,0", CELLS[i].line);
        uint64_t said = import(text, bytes, &given, out, sizeof out);
        twin_read(out, said / 32, words, 16, answer, ANSWER_WORDS);
        expect(said % 32 == 0 && words[6] == CELLS[i].u && words[7] == CELLS[i].w, CELLS[i].line);
    }
}

/* Texts that a claims list refuses or takes, with what their import says; those that are taken have no cell or one, so n is refused. */
static const struct said {
    const char *text;
    uint64_t number, place;
} IMPORTS[] = {
    {"", 16, 1},
    {"\r\n", 16, 1},
    {"age,exposure,deaths", 2, 2},
    {CLAIMS, 2, 2},
    {CLAIMS "40,1000,7", 2, 2},
    {CLAIMS "\r\n", 16, 2},
    {CLAIMS "40,1000,7\r\n\r\n", 16, 3},
    {"age,exposure,deaths\n40,1000,7\n", 16, 1},
    {"Age,exposure,deaths\r\n", 16, 1},
    {"\xEF\xBB\xBF" CLAIMS, 16, 1},
    {"age,exposure,death\r\n", 16, 1},
    {"age,exposure,deathss\r\n", 16, 1},
    {"age, exposure, deaths\r\n", 16, 1},
    {TABLE "40,7\r\n", 16, 1},
    {CLAIMS "40,1000,7\n", 16, 2},
    {CLAIMS "40,1000,7\r", 16, 2},
    {CLAIMS "40,1000,7\r\r\n", 16, 2},
    {CLAIMS "40,1000,7\r\n41,2000,3\n42,0,0\r\n", 16, 3},
    {CLAIMS "40,1000,07\r\n", 16, 2},
    {CLAIMS "00,1000,7\r\n", 16, 2},
    {CLAIMS "40,,7\r\n", 16, 2},
    {CLAIMS "40,1000\r\n", 16, 2},
    {CLAIMS "40,1000,7,\r\n", 16, 2},
    {CLAIMS "40,1000,7,1\r\n", 16, 2},
    {CLAIMS "40,\"1000\",7\r\n", 16, 2},
    {CLAIMS " 40,1000,7\r\n", 16, 2},
    {CLAIMS "40,+1000,7\r\n", 16, 2},
    {CLAIMS "40,1000,-7\r\n", 16, 2},
    {CLAIMS "40,1000000001,7\r\n", 16, 2},
    {CLAIMS "1000000001,1000,7\r\n", 16, 2},
    {CLAIMS "40,18446744073709552616,7\r\n", 16, 2},
    {CLAIMS "1000000000,1000000000,1000000000\r\n", 2, 2},
    {CLAIMS "1000000000,1,1\r\n1000000001,1,1\r\n", 16, 3},
    {CLAIMS "40,1000,7\r\n40,1000,7\r\n", 17, 3},
    {CLAIMS "40,1000,7\r\n42,1000,7\r\n", 17, 3},
    {CLAIMS "40,1000,7\r\n39,1000,7\r\n", 17, 3},
    {CLAIMS "40,1000,1001\r\n", 18, 2},
    {CLAIMS "40,0,1\r\n", 18, 2},
    {CLAIMS "40,0,0\r\n", 2, 2},
    {CLAIMS "40,1000,7\r\n42,1000,1001\r\n", 17, 3},
    {CLAIMS "40,1000,7\r\n42,1000,01\r\n", 16, 3},
    {CLAIMS "40,1000,1001\r\n42,1000,x\r\n", 18, 2},
};

static void worked_texts(void)
{
    uint8_t out[64];
    for (size_t i = 0; i < sizeof IMPORTS / sizeof *IMPORTS; i++) {
        uint64_t said = import(IMPORTS[i].text, strlen(IMPORTS[i].text), &GIVEN, out, sizeof out);
        expect(said == 32 * IMPORTS[i].place + IMPORTS[i].number, IMPORTS[i].text);
    }
}

/* Numbers that the pack does not allow: at the offset that each would have, however large it is. The job's own 300 has two bytes. */
static void worked_numbers(void)
{
    static const struct { const char *what; struct twin_claims_job given; uint64_t said; } cases[] = {
        {"divisor 0 before all", {0, 8, 300, 5, 0, 0, 0, 1}, 19},
        {"society 8", {1, 8, 4294967296, 5, 0, 0, 0, 1}, 2},
        {"society 2^64 - 1", {1, UINT64_MAX, 300, 2, 1, 0, 0, 1}, 2},
        {"society 2^32", {1, 4294967296, 300, 2, 1, 0, 0, 1}, 2},
        {"job 2^32", {1, 7, 4294967296, 5, 0, 0, 0, 1}, 32 * 1 + 2},
        {"job 2^63", {1, 7, 9223372036854775808u, 2, 1, 0, 0, 1}, 32 * 1 + 2},
        {"order 5", {1, 7, 300, 5, 0, 0, 0, 1}, 32 * 4 + 2},
        {"order 6", {1, 7, 300, 6, 1, 0, 0, 1}, 32 * 4 + 2},
        {"order 2^64 - 1", {1, 7, 300, UINT64_MAX, 1, 0, 0, 1}, 32 * 4 + 2},
        {"order 2 of two cells", {1, 7, 300, 2, 0, 0, 0, 1}, 32 * 4 + 2},
        {"order 0 of two cells", {1, 7, 300, 0, 0, 0, 0, 1}, 32 * 4 + 2},
        {"constant 0", {1, 7, 300, 1, 0, UINT64_MAX, 0, 1}, 32 * 5 + 2},
        {"constant 1,001", {1, 7, 300, 1, 1001, 0, 0, 1}, 32 * 5 + 2},
        {"tolerance 10^15 + 1", {1, 7, 300, 1, 1000, 1000000000000001, 2000000, 1}, 32 * 7 + 2},
        {"floor 1,000,001", {1, 7, 300, 1, 1000, 0, 1000001, 1000001}, 32 * 12 + 2},
        {"ceiling 2^64 - 1", {1, 7, 300, 1, 1000, 0, 1, UINT64_MAX}, 32 * 13 + 2},
        {"floor above ceiling", {1, 7, 300, 1, 1000, 0, 2, 1}, 3},
        {"too few weights", {1001, 7, 300, 1, 1000, 0, 1, 1}, 4},
        {"divisor 2^64 - 1", {UINT64_MAX, 7, 300, 1, 1000, 0, 0, 1}, 4},
    };
    const char text[] = CLAIMS "40,1000,7\r\n41,1000,7";
    uint8_t out[64];
    for (size_t i = 0; i < sizeof cases / sizeof *cases; i++)
        expect(import(text, sizeof text - 1, &cases[i].given, out, 0) == cases[i].said, cases[i].what);
    expect(import(text, 5, &cases[0].given, out, 0) == 19, "divisor 0 before a header that is cut");
    expect(import(text, 5, &cases[1].given, out, 0) == 32 * 1 + 16, "a header that is cut before society 8");
}

/* So many lines of the same exposure and deaths, and then what is added. */
static size_t long_list(int lines, const char *added, char *text, size_t room)
{
    size_t bytes = (size_t)snprintf(text, room, CLAIMS);
    for (int i = 0; i < lines; i++)
        bytes += (size_t)snprintf(text + bytes, room - bytes, "%d,1000,7\r\n", i);
    return bytes + (size_t)snprintf(text + bytes, room - bytes, "%s", added);
}

static void worked_lengths(void)
{
    static const char *const beyond[] = {"120,1000,7", "120,1000,7\r\n", "\r\n", "7,7,8\r\n", "x", "\n"};
    static char text[4096];
    static uint8_t out[1400];
    uint64_t said = import(text, long_list(120, "", text, sizeof text), &GIVEN, out, sizeof out);
    expect(said == 32 * (6 + 120 * 7 + 1), "120 lines");
    for (size_t i = 0; i < sizeof beyond / sizeof *beyond; i++) {
        said = import(text, long_list(120, beyond[i], text, sizeof text), &GIVEN, out, sizeof out);
        expect(said == 32 * 122 + 16, "the 121st line, whatever it holds");
    }
    said = import(text, long_list(119, "119,1000,1001\r\nx", text, sizeof text), &GIVEN, out, sizeof out);
    expect(said == 32 * 121 + 18, "a fault on the 120th line comes first");
}

static uint64_t rates(const char *text, uint32_t *out, size_t room)
{
    return twin_rates((const uint8_t *)text, strlen(text), out, room, answer, ANSWER_WORDS);
}

static void worked_tables_out(void)
{
    const char text[] = TABLE "59,7\r\n60,1000000000\r\n";
    const uint32_t table[] = {7, 1000000000}, above[] = {7, 1000000001};
    static const uint32_t zeros[121];
    uint8_t out[2000];
    memset(out, 0xEE, sizeof out);
    expect(twin_export(table, 2, 59, out, sizeof text - 2, answer, 4) == 32 * (sizeof text - 1) + 13, "an export into one byte less");
    expect(out[0] == 0xEE, "a refused export writes nothing");
    expect(twin_export(table, 2, 59, out, sizeof out, answer, 4) == 32 * (sizeof text - 1), "an export");
    expect(memcmp(out, text, sizeof text - 1) == 0 && out[sizeof text - 1] == 0xEE, "its text and no more");
    expect(twin_export(above, 2, 59, out, 0, answer, 4) == 2, "a rate of 10^9 + 1");
    expect(twin_export(above, 1, 59, out, 2000, answer, 4) == 32 * 16, "and one that is not there");
    expect(twin_export(zeros, 0, 59, out, 0, answer, 4) == 2, "no rates");
    expect(twin_export(zeros, 121, 59, out, 0, answer, 4) == 2, "121 rates");
    expect(twin_export(zeros, 120, 0, out, 2000, answer, 4) == 32 * (10 + 10 * 5 + 90 * 6 + 20 * 7), "120 rates");
    expect(twin_export(table, 2, 999999999, out, 0, answer, 4) == 32 * (10 + 13 + 23) + 13, "a last age of 10^9");
    expect(twin_export(table, 2, 1000000000, out, 0, answer, 4) == 2, "a last age of 10^9 + 1");
    expect(twin_export(table, 2, UINT64_MAX, out, 2000, answer, 4) == 2, "a first age of 2^64 - 1");
    expect(twin_export(table, 0, UINT64_MAX, out, 2000, answer, 3) == 32 * 4 + 13, "an answer slice of three words");
}

static const struct said TABLES[] = {
    {TABLE "59,7\r\n60,1000000000\r\n", 0, 2},
    {TABLE "59,7\r\n60,1000000000", 0, 2},
    {TABLE "1000000000,0", 0, 1},
    {TABLE, 2, 0},
    {"age,rate", 2, 0},
    {"", 16, 1},
    {"age,rate\n", 16, 1},
    {CLAIMS "59,7,7\r\n", 16, 1},
    {TABLE "59,7,7\r\n", 16, 2},
    {TABLE "59\r\n", 16, 2},
    {TABLE "59,7\r\n\r\n", 16, 3},
    {TABLE "59,7\r\n61,1000000001\r\n", 16, 3},
    {TABLE "59,7\r\n61,1000000000\r\n", 17, 3},
    {TABLE "1000000000,0\r\n1000000001,0\r\n", 16, 3},
};

static void worked_tables_in(void)
{
    uint32_t out[3] = {9, 9, 9};
    for (size_t i = 0; i < sizeof TABLES / sizeof *TABLES; i++)
        expect(rates(TABLES[i].text, out, 3) == 32 * TABLES[i].place + TABLES[i].number, TABLES[i].text);
    out[0] = out[1] = out[2] = 9;
    expect(rates(TABLES[0].text, out, 1) == 32 * 2 + 13 && out[0] == 9, "two rates into one word");
    expect(rates(TABLES[0].text, out, 3) == 32 * 2 && out[0] == 7 && out[1] == 1000000000 && out[2] == 9, "two rates and no more");
    expect(rates(TABLES[3].text, out, 0) == 2, "no line of data before no room");
}

void comma_tables(void)
{
    worked_import();
    worked_cells();
    worked_texts();
    worked_numbers();
    worked_lengths();
    worked_tables_out();
    worked_tables_in();
}
