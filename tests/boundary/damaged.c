/* Comma lists damaged at every byte (document 02, W-201): the bench against the twin on every text that differs from a good one in a single place. At each
 * offset the byte becomes each other byte, is taken out, or gets each byte before it, and the text is cut there. Each text goes to import and to rates.
 * The argument `end` or `start` lays slices flush against a page that nobody may touch.
 * It ends with 1 at the first mismatch, or if a call never gave some number that such texts are refused with. */
#define _POSIX_C_SOURCE 200809L
#include "../../include/bench.h"
#include "calls.h"

#include <inttypes.h>
#include <signal.h>
#include <stdio.h>
#include <stdlib.h>
#include <string.h>

enum { BYTES = 256, NUMBERS = 32, TEXT_ROOM = BENCH_MOST_LIST_BYTES + 2 };

#define CLAIMS "age,exposure,deaths\r\n"
#define TABLE "age,rate\r\n"

/* With the end that the last line may lack, without it, and with numbers as large as they can be. */
static const char *const TEXTS[] = {
    CLAIMS "40,1000,7\r\n41,2000,3\r\n42,0,0\r\n",
    CLAIMS "40,1000,7\r\n41,200,3\r\n42,0,0",
    CLAIMS "999999998,1000000000,1000000000\r\n999999999,500,499\r\n1000000000,0,0\r\n",
    TABLE "59,7\r\n60,1000000000\r\n61,0\r\n",
    TABLE "8,100\r\n9,99\r\n10,0",
};

/* Divisor 100, society 3, job 7, order 2, k 1, T 0, box 0..100,000. */
static const uint64_t GIVEN[IMPORT_NUMBERS] = {100, 3, 7, 2, 1, 0, 0, 100000};

static uint8_t text[TEXT_ROOM];
static uint64_t noise[BENCH_MOST_EXPORT_BYTES / sizeof(uint64_t)];
static struct call call;
static uint64_t said[SIDES], calls, tally[FUNCTIONS][NUMBERS];

static void mismatch(const char *wrong)
{
    printf("MISMATCH  call %" PRIu64 ": %s\n", calls, wrong);
    call_report(&call, said);
    fflush(stdout);
}

static void stopped(int signal)
{
    (void)signal;
    mismatch("the call was stopped by a signal");
    _Exit(1);
}

/* Import writes bytes, and rates write words. */
static void compare(enum function function, size_t bytes)
{
    const struct slice given = {text, bytes, 1, false}, answer = {noise, BENCH_ANSWER_WORDS, sizeof *noise, true};
    const struct slice pack = {noise, BENCH_MOST_IMPORT_BYTES, 1, true}, values = {noise, BENCH_MOST_VALUES, sizeof(uint32_t), true};
    call.function = function;
    call.slices = 3;
    call.slice[0] = given;
    call.slice[1] = function == IMPORT ? pack : values;
    call.slice[2] = answer;
    const char *wrong = call_both(&call, said);
    if (wrong) {
        mismatch(wrong);
        exit(1);
    }
    calls++;
    tally[function][BENCH_NUMBER(said[0])]++;
}

static void compare_both(size_t bytes)
{
    compare(IMPORT, bytes);
    compare(RATES, bytes);
}

/* The good text, with the bytes from `at` on moved by one if `gap` is 1, or the byte there left out if it is -1. */
static void lay(const char *good, size_t bytes, size_t at, int gap)
{
    memcpy(text, good, at);
    if (gap >= 0)
        memcpy(text + at + gap, good + at, bytes - at);
    else
        memcpy(text + at, good + at + 1, bytes - at - 1);
}

/* Every damage at one offset; behind the last byte there is nothing to change or to take out. */
static void damage(const char *good, size_t bytes, size_t at)
{
    lay(good, bytes, at, 0);
    compare_both(at);
    for (int byte = 0; byte < BYTES && at < bytes; byte++) {
        text[at] = (uint8_t)byte;
        compare_both(bytes);
    }
    lay(good, bytes, at, 1);
    for (int byte = 0; byte < BYTES; byte++) {
        text[at] = (uint8_t)byte;
        compare_both(bytes + 1);
    }
    if (at < bytes) {
        lay(good, bytes, at, -1);
        compare_both(bytes - 1);
    }
}

static void damage_everywhere(const char *good)
{
    for (size_t at = 0; at <= strlen(good); at++)
        damage(good, strlen(good), at);
}

/* A list of 120 lines is long: it is cut at each offset, and loses a byte or gets another digit there. */
static void damage_full(enum function function, const char *header, const char *behind_age)
{
    static char good[TEXT_ROOM];
    size_t bytes = (size_t)snprintf(good, sizeof good, "%s", header);
    for (int age = 0; age < BENCH_MOST_CELLS; age++)
        bytes += (size_t)snprintf(good + bytes, sizeof good - bytes, "%d%s\r\n", age, behind_age);
    for (size_t at = 0; at < bytes; at++) {
        lay(good, bytes, at, 0);
        compare(function, at);
        lay(good, bytes, at, -1);
        compare(function, bytes - 1);
        lay(good, bytes, at, 1);
        text[at] = '1';
        compare(function, bytes + 1);
    }
}

static int judge(enum function function, const int *numbers, size_t count)
{
    int missing = 0;
    printf("%-8s", call_names[function]);
    for (size_t i = 0; i < count; i++)
        printf("  %d: %" PRIu64, numbers[i], tally[function][numbers[i]]);
    printf("\n");
    for (size_t i = 0; i < count; i++)
        if (tally[function][numbers[i]] == 0)
            missing = printf("FAILED  %s never gave %d\n", call_names[function], numbers[i]);
    return missing != 0;
}

int main(int argc, char **argv)
{
    static const int imports[] = {0, 2, 4, 16, 17, 18}, rates[] = {0, 2, 16, 17};
    lent_open(argc < 2 ? MIDDLE : strcmp(argv[1], "end") == 0 ? END : START);
    signal(SIGSEGV, stopped);
    signal(SIGBUS, stopped);
    signal(SIGFPE, stopped);
    signal(SIGILL, stopped);
    memset(noise, 0xEE, sizeof noise);
    memcpy(call.number, GIVEN, sizeof GIVEN);
    for (size_t i = 0; i < sizeof TEXTS / sizeof *TEXTS; i++)
        damage_everywhere(TEXTS[i]);
    damage_full(IMPORT, CLAIMS, ",1000,7");
    damage_full(RATES, TABLE, ",7");
    printf("%" PRIu64 " calls on damaged lists\n", calls);
    return judge(IMPORT, imports, sizeof imports / sizeof *imports) | judge(RATES, rates, sizeof rates / sizeof *rates);
}
