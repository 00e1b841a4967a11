/* The three calls on comma lists, as they stand in lines of standard input; for each it prints what is answered. Bytes are in hex, with x before them.
 *
 *     import TEXT DIVISOR SOCIETY JOB ORDER CONSTANT TOLERANCE FLOOR CEILING ROOM WORDS
 *     export FIRST ROOM WORDS RATE ..
 *     rates TEXT ROOM WORDS
 *
 * ROOM is the length of the output, WORDS that of the answer. The line that is printed has what was returned, the four words of the answer, and then what
 * was written: bytes in hex, or rates. An output that is written elsewhere, or with a refusal, is told by the word spilled. */
#include <inttypes.h>
#include <stdio.h>
#include <stdlib.h>
#include <string.h>

#include "bench.h"

enum { MOST_LINE = 400000, MOST_ROOM = 8192, MOST_RATES = 1000, FRESH = 0xA5 };

static char line[MOST_LINE];
static uint8_t text[MOST_LINE / 2], out[MOST_ROOM];
static uint32_t rates[MOST_RATES], values[MOST_ROOM / sizeof(uint32_t)];
static uint64_t answer[2 * BENCH_ANSWER_WORDS];

/* ---- words of a line */

static uint64_t take(void)
{
    const char *word = strtok(NULL, " \n");
    return word == NULL ? 0 : strtoull(word, NULL, 10);
}

static int digit(char c)
{
    return c <= '9' ? c - '0' : c - 'a' + 10;
}

static size_t take_text(void)
{
    const char *hex = strtok(NULL, " \n") + 1;
    size_t bytes = 0;
    for (; hex[0] != 0; hex += 2)
        text[bytes++] = (uint8_t)(16 * digit(hex[0]) + digit(hex[1]));
    return bytes;
}

/* ---- what is answered */

/* What stands behind what was written is as it was. */
static void print_answer(uint64_t said, const uint8_t *written, size_t bytes, size_t room)
{
    printf("%" PRIu64 " %" PRIu64 " %" PRIu64 " %" PRIu64 " %" PRIu64, said, answer[0], answer[1], answer[2], answer[3]);
    while (bytes < room && written[bytes] == FRESH)
        bytes++;
    if (bytes < room)
        printf(" spilled");
}

static void print_bytes(uint64_t said, size_t room)
{
    size_t bytes = BENCH_NUMBER(said) == BENCH_DONE ? BENCH_PLACE(said) : 0;
    print_answer(said, out, bytes, sizeof out);
    if (bytes > room)
        printf(" spilled");
    printf(" x");
    for (size_t i = 0; i < bytes && i < sizeof out; i++)
        printf("%02x", out[i]);
    printf("\n");
}

static void make_import(void)
{
    size_t bytes = take_text(), room, words;
    uint64_t number[8];
    for (int i = 0; i < 8; i++)
        number[i] = take();
    room = take();
    words = take();
    print_bytes(bench_import(text, bytes, number[0], number[1], number[2], number[3], number[4], number[5], number[6], number[7],
                             out, room, answer, words), room);
}

static void make_export(void)
{
    uint64_t first = take(), room = take(), words = take();
    size_t count = 0;
    for (const char *word = strtok(NULL, " \n"); word != NULL; word = strtok(NULL, " \n"))
        rates[count++] = (uint32_t)strtoul(word, NULL, 10);
    print_bytes(bench_export(rates, count, first, out, room, answer, words), room);
}

static void make_rates(void)
{
    size_t bytes = take_text(), room = take(), words = take(), count;
    uint64_t said = bench_rates(text, bytes, values, room, answer, words);
    count = BENCH_NUMBER(said) == BENCH_DONE ? BENCH_PLACE(said) : 0;
    print_answer(said, (const uint8_t *)values, sizeof *values * count, sizeof values);
    for (size_t i = 0; i < count && i < room; i++)
        printf(" %" PRIu32, values[i]);
    printf("\n");
}

int main(void)
{
    while (fgets(line, sizeof line, stdin) != NULL) {
        const char *call = strtok(line, " \n");
        memset(out, FRESH, sizeof out);
        memset(values, FRESH, sizeof values);
        memset(answer, FRESH, sizeof answer);
        if (strcmp(call, "import") == 0)
            make_import();
        else if (strcmp(call, "export") == 0)
            make_export();
        else
            make_rates();
    }
    return 0;
}
