/* See lines.h. */
#include <ctype.h>
#include <inttypes.h>
#include <stdbool.h>
#include <stdio.h>
#include <string.h>

#include "lines.h"
#include "table.h"

enum { SHOWN = 60, MOST_DIGITS = 10 };

static const char header[] = "age,exposure,deaths";
static const char *const field_names[FIELDS] = {"age", "exposure", "deaths"};

/* ---- lines and fields */

/* Lines are parted by CR LF and by nothing else. */
static const uint8_t *line_end(const uint8_t *at, const uint8_t *end)
{
    while (at < end && !(end - at > 1 && at[0] == '\r' && at[1] == '\n'))
        at++;
    return at;
}

struct line find_line(const uint8_t *text, size_t bytes, uint64_t number)
{
    const uint8_t *end = text + bytes, *from = text, *to = line_end(from, end);
    for (; number > 1 && to < end; number--) {
        from = to + 2;
        to = line_end(from, end);
    }
    return (struct line){from, (size_t)(to - from)};
}

uint64_t count_lines(const uint8_t *text, size_t bytes)
{
    const uint8_t *end = text + bytes;
    uint64_t lines = 0;
    for (const uint8_t *at = text; at < end; lines++) {
        at = line_end(at, end);
        at += at < end ? 2 : 0;
    }
    return lines;
}

static size_t commas_in(struct line line)
{
    size_t commas = 0;
    for (size_t at = 0; at < line.count; at++)
        commas += line.bytes[at] == ',';
    return commas;
}

/* What stands between two commas. */
static struct line field_of(struct line line, int field)
{
    const uint8_t *end = line.bytes + line.count, *from = line.bytes, *to;
    for (; field > 0; field--)
        from = (const uint8_t *)memchr(from, ',', (size_t)(end - from)) + 1;
    to = memchr(from, ',', (size_t)(end - from));
    return (struct line){from, (size_t)((to == NULL ? end : to) - from)};
}

uint64_t number_in(struct line line, int field)
{
    struct line digits = field_of(line, field);
    uint64_t number = 0;
    for (size_t at = 0; at < digits.count; at++)
        number = 10 * number + (uint64_t)(digits.bytes[at] - '0');
    return number;
}

/* ---- a line as it stands in the file */

static void print_byte(uint8_t byte)
{
    const char *escape = byte == '\n' ? "\\n" : byte == '\r' ? "\\r" : byte == '\t' ? "\\t" : byte == '\\' ? "\\\\" : NULL;
    if (escape != NULL)
        printf("%s", escape);
    else if (byte >= ' ' && byte <= '~')
        putchar(byte);
    else
        printf("\\x%02X", byte);
}

void print_line(uint64_t number, struct line line)
{
    char field[32];
    snprintf(field, sizeof field, "line %" PRIu64, number);
    begin_line(field);
    for (size_t at = 0; at < line.count && at < SHOWN; at++)
        print_byte(line.bytes[at]);
    printf("%s\n", line.count > SHOWN ? "..." : "");
}

/* ---- what is wrong with the header */

static bool begins_with(struct line line, const char *text)
{
    return line.count >= strlen(text) && memcmp(line.bytes, text, strlen(text)) == 0;
}

static bool has(struct line line, char byte)
{
    return memchr(line.bytes, byte, line.count) != NULL;
}

/* The header but for blanks, tabs, quotes and capitals. */
static bool like_header(struct line line)
{
    size_t met = 0;
    for (size_t at = 0; at < line.count; at++) {
        if (strchr(" \t\"", line.bytes[at]) != NULL && line.bytes[at] != 0)
            continue;
        if (met == strlen(header) || tolower(line.bytes[at]) != header[met++])
            return false;
    }
    return met == strlen(header);
}

static void say_header(struct line line)
{
    const char *wrong = "it is not the header";
    if (line.count == 0)
        wrong = "it is empty";
    else if (begins_with(line, "\xEF\xBB\xBF") || begins_with(line, "\xFF\xFE") || begins_with(line, "\xFE\xFF"))
        wrong = "a byte order mark stands before the header: save the list as plain CSV, not as UTF-8 or Unicode";
    else if (has(line, '\n'))
        wrong = "its lines end in a line feed alone: every line must end in CR LF";
    else if (has(line, '\r'))
        wrong = "a carriage return alone: every line must end in CR LF";
    else if (like_header(line))
        wrong = "the header has blanks, quotes or capitals: write it without";
    else if (line.bytes[0] >= '0' && line.bytes[0] <= '9')
        wrong = "the header is missing: put it above this line";
    else if (begins_with(line, "age,rate"))
        wrong = "this is the header of a table, and a claims list is asked for";
    else if (has(line, ';'))
        wrong = "a semicolon: part names and numbers by commas";
    printf("%s; the first line has to be %s and nothing else\n", wrong, header);
}

/* ---- what is wrong with a line of data */

static const char *byte_words(uint8_t byte)
{
    switch (byte) {
    case '\n': return "a line feed alone: every line must end in CR LF";
    case '\r': return "a carriage return alone: every line must end in CR LF";
    case '"': return "a quote: write numbers without quotes";
    case ' ': return "a blank: take it out";
    case '\t': return "a tab: take it out, and part numbers by commas";
    case ';': return "a semicolon: part numbers by commas";
    case '.': return "a point: write whole numbers, and no points in them";
    case '-': case '+': return "a sign: write numbers from 0 to 1000000000, without signs";
    default: return "no digit: write numbers in digits alone";
    }
}

/* The first byte that stands in no line of data. */
static bool say_byte(struct line line)
{
    size_t at = 0, commas;
    while (at < line.count && (isdigit(line.bytes[at]) || line.bytes[at] == ','))
        at++;
    if (at == line.count)
        return false;
    commas = commas_in((struct line){line.bytes, at});
    printf("byte %zu, %s %s, is %s\n", at + 1, commas < FIELDS ? "in the" : "behind the", field_names[commas < FIELDS ? commas : DEATHS],
           byte_words(line.bytes[at]));
    return true;
}

static bool say_count(struct line line)
{
    size_t fields = commas_in(line) + 1;
    if (fields == FIELDS)
        return false;
    printf("%zu field%s where 3 are asked for, %s: %s\n", fields, fields == 1 ? "" : "s", header,
           fields < FIELDS ? "add what is missing" : "take out what is too much; numbers have no commas in them");
    return true;
}

/* A field of digits. */
static bool say_field(struct line line, int field)
{
    struct line digits = field_of(line, field);
    const char *wrong = NULL;
    if (digits.count == 0)
        wrong = "is empty: write a number, which may be 0";
    else if (digits.count > 1 && digits.bytes[0] == '0')
        wrong = "has a leading zero: write it without";
    else if (digits.count > MOST_DIGITS || number_in(line, field) > 1000000000)
        wrong = "is above 1000000000, the most that is taken";
    if (wrong != NULL)
        printf("the field %s %s\n", field_names[field], wrong);
    return wrong != NULL;
}

void say_malformed(uint64_t number, struct line line)
{
    if (number == 1)
        say_header(line);
    else if (number > BENCH_MOST_CELLS + 1)
        printf("a list has at most %d lines of data, and this is one more: end the list before it\n", BENCH_MOST_CELLS);
    else if (line.count == 0)
        printf("it is empty: take it out; behind the last line of data nothing may follow but its own CR LF\n");
    else if (!say_byte(line) && !say_count(line) && !say_field(line, AGE) && !say_field(line, EXPOSURE) && !say_field(line, DEATHS))
        printf("the library refuses this line with 16, and what it finds in it cannot be said here\n");
}
