/* Makes the calls that it reads, a line each, and prints a line of what bench_propose_linked answered to each. tests/linked/expect.py writes and compares
 * them, and tests/linked/shares.py asks so too.
 *
 *     JOB PASSES ROOM WORDS
 *
 * JOB is the pack in hex behind an x, ROOM the length of the output, WORDS that of the answer. The line that is printed has what was returned, the four
 * words of the answer, and then what was written, in hex. An output that is written elsewhere, or with a refusal, is told by the word spilled. */
#include <inttypes.h>
#include <stdio.h>
#include <stdlib.h>
#include <string.h>

#include "bench.h"

enum { MOST_LINE = 16384, MOST_ROOM = 2048, FRESH = 0xA5 };

static char line[MOST_LINE];
static uint8_t job[MOST_LINE / 2], out[MOST_ROOM];
static uint64_t answer[2 * BENCH_ANSWER_WORDS];

/* ---- words of a line */

static uint64_t take(void)
{
    const char *word = strtok(NULL, " \n");
    return word == NULL ? 0 : strtoull(word, NULL, 10);
}

static int digit(char c)
{
    return c <= '9' ? c - '0' : c - 'a' + 10;
}

static size_t take_pack(const char *hex)
{
    size_t bytes = 0;
    for (hex++; hex[0] != 0; hex += 2)
        job[bytes++] = (uint8_t)(16 * digit(hex[0]) + digit(hex[1]));
    return bytes;
}

/* ---- what is answered */

/* What stands behind what was written is as it was, in the output and in the answer. */
static int spilled(size_t bytes, size_t words)
{
    const uint8_t *behind = (const uint8_t *)(answer + (words == BENCH_ANSWER_WORDS ? words : 0));
    for (; bytes < sizeof out; bytes++)
        if (out[bytes] != FRESH)
            return 1;
    for (; behind < (const uint8_t *)(answer + 2 * BENCH_ANSWER_WORDS); behind++)
        if (*behind != FRESH)
            return 1;
    return 0;
}

static void print_answer(uint64_t said, size_t room, size_t words)
{
    size_t bytes = BENCH_NUMBER(said) == BENCH_DONE ? BENCH_PLACE(said) : 0;
    printf("%" PRIu64, said);
    for (int i = 0; i < BENCH_ANSWER_WORDS; i++)
        printf(" %" PRIu64, answer[i]);
    if (bytes > room || spilled(bytes, words))
        printf(" spilled");
    printf(" x");
    for (size_t i = 0; i < bytes && i < sizeof out; i++)
        printf("%02x", out[i]);
    printf("\n");
}

int main(void)
{
    while (fgets(line, sizeof line, stdin) != NULL) {
        size_t bytes = take_pack(strtok(line, " \n"));
        uint64_t passes = take();
        size_t room = take(), words = take();
        memset(out, FRESH, sizeof out);
        memset(answer, FRESH, sizeof answer);
        print_answer(bench_propose_linked(job, bytes, passes, out, room, answer, words), room, words);
    }
    return 0;
}
