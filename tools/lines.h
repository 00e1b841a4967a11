/* The lines of a comma list, and in words what is wrong with one (request W-201). Nothing here decides: the library says which line is refused, and with
 * which number. */
#ifndef LINES_H
#define LINES_H

#include "bench.h"

/* A line without the CR LF at its end. */
struct line {
    const uint8_t *bytes;
    size_t count;
};

/* The fields of a claims list. */
enum { AGE, EXPOSURE, DEATHS, FIELDS };

/* A line by its number, from 1 on, and the last one where there are not so many. */
struct line find_line(const uint8_t *text, size_t bytes, uint64_t number);

/* The lines of a text that has at least one. A CR LF at the end has none behind it. */
uint64_t count_lines(const uint8_t *text, size_t bytes);

/* The number in a field of a line that the library takes. */
uint64_t number_in(struct line line, int field);

/* The line as it stands in the file, its beginning where it is long, with an escape for each byte that cannot be printed. */
void print_line(uint64_t number, struct line line);

/* What is wrong with a line that is refused with 16, and what to do. */
void say_malformed(uint64_t number, struct line line);

#endif
