/* A claims list made a job with the house proposal for it, and its table made a list again (request W-201), all by the library.
 *
 *     list answer [NAME=NUMBER ..]     prints the number and place that the import answers with, or after it the house proposal
 *     list wrong [NAME=NUMBER ..]      prints of a list that is refused which line or number it is, what is wrong there, and what to do
 *     list numbers [NAME=NUMBER ..]    prints of one that is taken the numbers that do not stand in it
 *     list input [NAME=NUMBER ..]      writes the checking program's input: that job and the house proposal
 *     list table LIST                  writes the values of such an input as a list, from the first age of the file LIST
 *
 * The first four read the list, the last one reads that input. */
#include <inttypes.h>
#include <stdbool.h>
#include <stdio.h>
#include <string.h>

#include "lines.h"
#include "table.h"

/* No list is longer than BENCH_MOST_LIST_BYTES, and no line of one than 32 bytes, so of a longer file these bytes are refused as all of them would be. */
enum { MOST_TEXT = 65536 };

/* ---- the numbers that do not stand in a list */

enum { SOCIETY, JOB, DIVISOR, ORDER, CONSTANT, TOLERANCE, LOWEST, HIGHEST, NUMBERS };

static const struct {
    const char *name;
    uint64_t usual;
    const char *allowed, *says;
} numbers[NUMBERS] = {
    {"society", 0, "0 to 7", "whose table it is"},
    {"job", 1, "0 to 4294967295", "the number that its table is kept under"},
    {"divisor", 100, "1 or more", "a weight is the exposure over it, rounded down, and 1000 at most"},
    {"order", 2, "0 to 4, where 0 is the house order 2, and less than the lines of data", "that of the differences which are to be small"},
    {"constant", 100, "1 to 1000", "k, what smoothness counts beside closeness to the crude rates"},
    {"tolerance", 1000000000000000, "0 to 1000000000000000",
     "T, the largest gap that is accepted; at its most hardly any table is refused, so that one comes out whose gap is yours to judge"},
    {"floor", 0, "0 to 1000000", "no rate of the table is lower"},
    {"ceiling", 1000000, "0 to 1000000, and no less than floor", "no rate of the table is higher"},
};

struct list {
    uint8_t text[MOST_TEXT];
    size_t bytes;
    uint64_t number[NUMBERS];
    uint8_t job[BENCH_MOST_IMPORT_BYTES], proposal[BENCH_MOST_HOUSE_BYTES];
    size_t job_bytes, proposal_bytes;
    uint64_t answer[BENCH_ANSWER_WORDS];
};

/* Takes NAME=NUMBER, or says what is wrong with it. */
static bool take_argument(struct list *l, const char *argument)
{
    const char *is = strchr(argument, '=');
    size_t name = is == NULL ? strlen(argument) : (size_t)(is - argument);
    int i = 0;
    while (i < NUMBERS && (strlen(numbers[i].name) != name || memcmp(numbers[i].name, argument, name) != 0))
        i++;
    if (i < NUMBERS && is != NULL && take_digits(is + 1, &l->number[i]))
        return true;
    if (i < NUMBERS)
        fprintf(stderr, "list: '%s' gives no number: write %s=NUMBER, a whole number from 0 to %" PRIu64 " in digits alone, as in %s=%" PRIu64 "\n",
                argument, numbers[i].name, UINT64_MAX, numbers[i].name, numbers[i].usual);
    else
        fprintf(stderr, "list: '%s' names none of the numbers society, job, divisor, order, constant, tolerance, floor, ceiling: write NAME=NUMBER, as in "
                "./run LIST.csv divisor=10 constant=50\n", argument);
    return false;
}

/* ---- what the library answers */

static bool read_list(struct list *l, FILE *file)
{
    l->bytes = fread(l->text, 1, sizeof l->text, file);
    if (ferror(file))
        fprintf(stderr, "list: the list cannot be read: give a file that can\n");
    return !ferror(file);
}

/* The import, and where that is done the house proposal. */
static void ask(struct list *l)
{
    const uint64_t *number = l->number;
    l->job_bytes = BENCH_PLACE(bench_import(l->text, l->bytes, number[DIVISOR], number[SOCIETY], number[JOB], number[ORDER], number[CONSTANT],
                                            number[TOLERANCE], number[LOWEST], number[HIGHEST], l->job, sizeof l->job, l->answer, BENCH_ANSWER_WORDS));
    if (l->answer[0] == BENCH_DONE)
        l->proposal_bytes = BENCH_PLACE(bench_propose(l->job, l->job_bytes, l->proposal, sizeof l->proposal, l->answer, BENCH_ANSWER_WORDS));
}

static struct line line_of(const struct list *l, uint64_t number)
{
    return find_line(l->text, l->bytes, number);
}

/* The lines below the header. */
static uint64_t data_of(const struct list *l)
{
    return count_lines(l->text, l->bytes) - 1;
}

/* ---- what is wrong */

/* Which number stands at an offset of the pack (bench.h, PACKS): NUMBERS is the count of cells, and behind the tolerance only the box can be wrong. */
static int number_at(const struct list *l, uint64_t place)
{
    static const int first[] = {SOCIETY, JOB, NUMBERS, ORDER, CONSTANT, TOLERANCE};
    uint8_t bytes[9];
    uint64_t offset = 0;
    for (size_t i = 0; i < sizeof first / sizeof *first; i++) {
        if (offset == place)
            return first[i];
        offset += put_number(bytes, (int64_t)(first[i] == NUMBERS ? data_of(l) : l->number[first[i]]));
    }
    return l->number[LOWEST] > numbers[HIGHEST].usual ? LOWEST : HIGHEST;
}

static void say_not_allowed(const struct list *l, int i)
{
    if (i == NUMBERS)
        printf("the list has %" PRIu64 " line%s of data, and a job needs 2 to %d\n", data_of(l), data_of(l) == 1 ? "" : "s", BENCH_MOST_CELLS);
    else
        printf("%s=%" PRIu64 " is not allowed: give %s\n", numbers[i].name, l->number[i], numbers[i].allowed);
}

static void say_few_weights(const struct list *l)
{
    uint64_t order = l->number[ORDER] == 0 ? 2 : l->number[ORDER], positive = 0;
    for (uint64_t data = 0; data < data_of(l); data++)
        positive += number_in(line_of(l, data + 2), EXPOSURE) >= l->number[DIVISOR];
    printf("%" PRIu64 " of %" PRIu64 " weights %s above 0, and the order %" PRIu64 " needs %" PRIu64 ": a weight is above 0 where the exposure is at least the "
           "divisor, %" PRIu64 "; give a smaller divisor, a smaller order, or more ages with exposure\n",
           positive, data_of(l), positive == 1 ? "is" : "are", order, order, l->number[DIVISOR]);
}

static void say_line(const struct list *l)
{
    uint64_t at = l->answer[1];
    struct line line = line_of(l, at);
    if (l->answer[0] == BENCH_BAD_LINE) {
        say_malformed(at, line);
    } else if (l->answer[0] == BENCH_AGE_NOT_NEXT) {
        uint64_t due = number_in(line_of(l, at - 1), AGE) + 1;
        printf("the age %" PRIu64 " is not %" PRIu64 ", which is due after line %" PRIu64 ": ages rise by one; one without data goes in as %" PRIu64 ",0,0\n",
               number_in(line, AGE), due, at - 1, due);
    } else {
        printf("the deaths %" PRIu64 " are above the exposure %" PRIu64 ": correct them; where the exposure is 0 the deaths are 0 too\n",
               number_in(line, DEATHS), number_in(line, EXPOSURE));
    }
}

static void print_wrong(const struct list *l)
{
    uint64_t number = l->answer[0], place = l->answer[1];
    if (number >= BENCH_BAD_LINE && number <= BENCH_DEATHS_ABOVE_EXPOSURE)
        print_line(place, line_of(l, place));
    begin_line("wrong");
    if (number >= BENCH_BAD_LINE && number <= BENCH_DEATHS_ABOVE_EXPOSURE)
        say_line(l);
    else if (number == BENCH_NO_DIVISOR)
        say_not_allowed(l, DIVISOR);
    else if (number == BENCH_NOT_ALLOWED)
        say_not_allowed(l, number_at(l, place));
    else if (number == BENCH_FLOOR_ABOVE_CEILING)
        printf("floor=%" PRIu64 " is above ceiling=%" PRIu64 ": give a floor that is not\n", l->number[LOWEST], l->number[HIGHEST]);
    else if (number == BENCH_FEW_WEIGHTS)
        say_few_weights(l);
    else if (number == BENCH_TOO_THIN)
        printf("the weights say too little of age %" PRIu64 ", in line %" PRIu64 ": a smaller divisor or a smaller order may help\n",
               number_in(line_of(l, place + 2), AGE), place + 2);
    else
        printf("the library answers with number %" PRIu64 " and place %" PRIu64 ", and more cannot be said here\n", number, place);
}

/* ---- what is taken */

static void print_numbers(const struct list *l)
{
    uint64_t data = data_of(l);
    printf("a claims list of %" PRIu64 " ages: cell 0 is age %" PRIu64 ", the last one age %" PRIu64 "\n",
           data, number_in(line_of(l, 2), AGE), number_in(line_of(l, data + 1), AGE));
    printf("made a job with these numbers; where you give none it is a round one and no advice: ./run LIST.csv divisor=10 constant=50 gives two others\n");
    for (int i = 0; i < NUMBERS; i++) {
        char field[24];
        snprintf(field, sizeof field, "%" PRIu64, l->number[i]);
        begin_line(field);
        printf("%s: %s; %s\n", numbers[i].name, numbers[i].says, numbers[i].allowed);
    }
}

/* The values of an accepted input, from the first age of the list that it was made of. */
static bool write_table(struct list *l, const char *path)
{
    static struct table table;
    FILE *file = fopen(path, "rb");
    uint8_t out[BENCH_MOST_EXPORT_BYTES];
    uint32_t rates[BENCH_MOST_VALUES];
    if (file == NULL || !read_list(l, file) || count_lines(l->text, l->bytes) < 2 || !read_table(&table) || table.answer[0] != BENCH_DONE) {
        fprintf(stderr, "list: there is no list '%s', or no accepted table of it\n", path);
        return false;
    }
    for (int64_t cell = 0; cell < table.cells; cell++)
        rates[cell] = (uint32_t)table.number[cell];
    bench_export(rates, (size_t)table.cells, number_in(line_of(l, 2), AGE), out, sizeof out, l->answer, BENCH_ANSWER_WORDS);
    fwrite(out, 1, l->answer[0] == BENCH_DONE ? l->answer[1] : 0, stdout);
    return l->answer[0] == BENCH_DONE;
}

/* ---- arguments */

enum what { ANSWER, WRONG, TAKEN, INPUT, TABLE, WHATS };

static enum what what_of(const char *name)
{
    static const char *const names[WHATS] = {"answer", "wrong", "numbers", "input", "table"};
    enum what what = ANSWER;
    while (what < WHATS && strcmp(name, names[what]) != 0)
        what++;
    return what;
}

/* False where that cannot be done, which is said. */
static bool tell(struct list *l, enum what what)
{
    if (!read_list(l, stdin))
        return false;
    ask(l);
    if (what > WRONG && l->answer[0] != BENCH_DONE) {
        fprintf(stderr, "list: this list is refused with %" PRIu64 ", place %" PRIu64 "\n", l->answer[0], l->answer[1]);
        return false;
    }
    if (what == ANSWER)
        printf("%" PRIu64 " %" PRIu64 "\n", l->answer[0], l->answer[1]);
    else if (what == WRONG)
        print_wrong(l);
    else if (what == TAKEN)
        print_numbers(l);
    else
        write_input(l->job, l->job_bytes, l->proposal, l->proposal_bytes);
    return true;
}

int main(int count, char **arguments)
{
    static struct list list;
    enum what what = count < 2 ? WHATS : what_of(arguments[1]);
    if (what == WHATS || (what == TABLE && count != 3)) {
        fprintf(stderr, "list: takes answer, wrong, numbers or input and then NAME=NUMBER, or table and a file\n");
        return 1;
    }
    for (int i = 0; i < NUMBERS; i++)
        list.number[i] = numbers[i].usual;
    for (int i = 2; i < count && what != TABLE; i++)
        if (!take_argument(&list, arguments[i]))
            return 1;
    if (!(what == TABLE ? write_table(&list, arguments[2]) : tell(&list, what)))
        return 1;
    if (fflush(stdout) != 0 || ferror(stdout)) {
        fprintf(stderr, "list: what is to be written cannot be; make room and try again\n");
        return 1;
    }
    return 0;
}
