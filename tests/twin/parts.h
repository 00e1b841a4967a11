/* What the twin's files share: a job, a table, an answer, and one function or two for each section of document 01. */
#ifndef TWIN_PARTS_H
#define TWIN_PARTS_H

#include <stdbool.h>
#include <stddef.h>
#include <stdint.h>

enum { MOST_CELLS = 120, MOST_LINKS = 160, MOST_TERMS = 4, MOST_ORDER = 4 };
enum { MOST_VALUE = 1000000, MOST_MULTIPLIER = 1000000000 };
enum { MOST_COLUMNS = 12, MOST_BAND = MOST_ORDER * MOST_COLUMNS, MOST_PASSES = 200 };
enum { ANSWER_WORDS = 4 };

/* The order field that announces a grid (document 02, W-205). */
enum { GRID = 5 };

struct twin_link {
    int64_t terms;
    int64_t cell[MOST_TERMS];
    int64_t coefficient[MOST_TERMS];
    int64_t bound;
};

/* A job's numbers. `order_field` is as packed. Cells run along a row first: k, the constant, and the order down go with differences down the
 * columns, the second constant and the order across with those along a row. A line is one column: as many rows as cells, the order used is
 * the order down, the order across is 1 and the second constant 0. */
struct twin_job {
    int64_t society, number, cells, order_field, rows, columns, down, across, second, constant, tolerance;
    int64_t u[MOST_CELLS], w[MOST_CELLS], lo[MOST_CELLS], hi[MOST_CELLS];
    int64_t links;
    struct twin_link link[MOST_LINKS];
};

/* A proposal's numbers. */
struct twin_table {
    int64_t value[MOST_CELLS];
    int64_t multiplier[MOST_LINKS];
};

struct twin_answer {
    uint64_t number, place, loss, gap;
};

/* An answer without loss and gap. */
struct twin_answer twin_plain(uint64_t number, uint64_t place);

/* Packs: each reader answers number 0, or the refusal. twin_number moves `at` past one number, or answers false. */
bool twin_number(const uint8_t *bytes, size_t count, size_t *at, uint64_t *value);
size_t twin_put_number(uint8_t *out, uint64_t value);
struct twin_answer twin_read_job(const uint8_t *bytes, size_t count, struct twin_job *job);
struct twin_answer twin_read_words(const int64_t *words, size_t count, struct twin_job *job, size_t *bytes);
struct twin_answer twin_read_proposal(const uint8_t *bytes, size_t count, const struct twin_job *job,
                                      struct twin_table *table);
size_t twin_job_words(const struct twin_job *job);
void twin_put_words(const struct twin_job *job, int64_t *words);
void twin_put_job(const struct twin_job *job, uint8_t *out);

/* Comma lists (document 02, W-201): a line's numbers in a row, age first; a claims list has three of them, a table two. */
enum { MOST_FIELDS = 3, MOST_CLAIMS_WORDS = 7 + 4 * MOST_CELLS, MOST_TABLE_BYTES = 10 + 23 * MOST_CELLS };

struct twin_list {
    size_t lines;
    uint64_t row[MOST_CELLS][MOST_FIELDS];
};

/* What an import is given beside its list, as it is given. */
struct twin_claims_job {
    uint64_t divisor, society, number, order, constant, tolerance, floor, ceiling;
};

/* Each reader answers number 0, or refusal 16, 17 or 18, of a table 2 as well. twin_claims_words gives the words of the job, as the writer takes them,
 * and their count. twin_can_list says whether a table can be listed: 0, or refusal 2; twin_put_list then writes it and answers its bytes. */
struct twin_answer twin_read_claims(const uint8_t *text, size_t bytes, struct twin_list *list);
struct twin_answer twin_read_table(const uint8_t *text, size_t bytes, struct twin_list *list);
uint32_t twin_listed_rate(const struct twin_list *list, size_t line);
size_t twin_claims_words(const struct twin_list *list, const struct twin_claims_job *job, int64_t *words);
struct twin_answer twin_can_list(const uint32_t *rates, size_t count, uint64_t first_age);
size_t twin_put_list(const uint32_t *rates, size_t count, uint64_t first_age, uint8_t *out);

/* What supplied a term of the gap, and the words that the list of terms has for each place: term, residual, side (document 02, W-202). */
enum twin_side { BY_BOX = 0, BY_WEIGHT = 1, BY_LINK = 2 };
enum { TERM_WORDS = 3 };

/* Loss and gap. The rows s of the differences are read by the house proposal too. twin_meets gives refusals 7 and 8, twin_judge 9 as well; twin_put_terms
 * lists the terms of a table that meets the job. */
extern const int64_t twin_row[MOST_ORDER + 1][MOST_ORDER + 1];
int64_t twin_loss(const struct twin_job *job, const struct twin_table *table);
void twin_residuals(const struct twin_job *job, const struct twin_table *table, int64_t *residual);
struct twin_answer twin_meets(const struct twin_job *job, const struct twin_table *table);
struct twin_answer twin_judge(const struct twin_job *job, const struct twin_table *table);
void twin_put_terms(const struct twin_job *job, const struct twin_table *table, int64_t *out);

/* The factor of (W + kK'K), or of a grid's matrix, whose band is wider: below[j][b] is L(j, j-b), for b from 1 to the band. */
struct twin_line_factor {
    double below[MOST_CELLS][MOST_ORDER + 1];
    double pivot[MOST_CELLS];
};

struct twin_grid_factor {
    double below[MOST_CELLS][MOST_BAND + 1];
    double pivot[MOST_CELLS];
    int64_t band;
};

union twin_factor {
    struct twin_line_factor line;
    struct twin_grid_factor grid;
};

/* twin_factor answers done with the factor, or refusal 20 or 10; twin_solve takes a right side in v and leaves its solution there. Those of grids are in
 * grid.c, and use the entries of K'K for one column or row of so many cells. */
struct twin_answer twin_factor(const struct twin_job *job, union twin_factor *f);
void twin_solve(const struct twin_job *job, const union twin_factor *f, double *v);
struct twin_answer twin_factor_grid(const struct twin_job *job, struct twin_grid_factor *f);
void twin_solve_grid(const struct twin_job *job, const struct twin_grid_factor *f, double *v);
int64_t twin_product(int64_t order, int64_t length, int64_t j, int64_t i);

/* The house proposal: done with the values, or refusal 20 or 10. Both proposals begin with the values before rounding, and use the rounding. */
struct twin_answer twin_house(const struct twin_job *job, int64_t *value);
void twin_house_values(const struct twin_job *job, const union twin_factor *f, double *v);
int64_t twin_rounded(double v, int64_t lo, int64_t hi);

/* The proposal that honours links (document 02, W-207), in its parts: the values and multipliers before rounding, as the passes made so far have left
 * them. `kept` is where the solutions of all links are, or a null pointer if each is worked out anew whenever it is asked for. */
struct twin_passes {
    union twin_factor factor;
    double value[MOST_CELLS], multiplier[MOST_LINKS];
    double (*kept)[MOST_CELLS];
};

/* Beginning answers done, or refusal 20 or 10. A pass improves each link's multiplier in turn. The table is the rounded one. */
struct twin_answer twin_begin_passes(const struct twin_job *job, double (*kept)[MOST_CELLS], struct twin_passes *p);
void twin_make_pass(const struct twin_job *job, struct twin_passes *p);
void twin_rounded_table(const struct twin_job *job, const struct twin_passes *p, struct twin_table *table);

/* All of it: done with the table and the count of passes in the place of the loss, or refusal 20, 10 or 14. */
struct twin_answer twin_linked(const struct twin_job *job, uint64_t passes, double (*kept)[MOST_CELLS], struct twin_table *table);

/* The words of a slot, which is what document 01 calls a place of the shelf: "01's six, the link count, 120 values, 160 multipliers"
 * (document 02, W-203). Loss and gap are a low and a high word each. */
enum {
    AT_CELLS = 0,
    AT_JOB = 1,
    AT_LOSS = 2,
    AT_GAP = 4,
    AT_LINKS = 6,
    AT_VALUES = 7,
    AT_MULTIPLIERS = AT_VALUES + MOST_CELLS,
    SLOT_WORDS = AT_MULTIPLIERS + MOST_LINKS
};

/* The words of a shelf (document 02, W-209): a leading row with each society's count of slots, then the societies' spans. Whatever the counts are, a
 * shelf has room for the most slots that all societies may have together. */
enum {
    SOCIETIES = 8,
    MOST_SLOTS = 16,
    ALL_SLOTS = 32,
    ROW_WORDS = SOCIETIES,
    SHELF_WORDS = ROW_WORDS + ALL_SLOTS * SLOT_WORDS
};

/* Counts of slots, eight of them: done, or refusal 22. */
struct twin_answer twin_counts(const uint32_t *counts);

/* The shelf, whose leading row has to be allowed. twin_start answers the word where a society's span begins, and for SOCIETIES the word behind the last
 * span. twin_find answers the lowest slot of the society with the job, or a null pointer; twin_find_for the same for a job that was read, if the slot
 * has as many cells and links. twin_take_table gives its numbers, or refusal 6. twin_begin takes a shelf of any words. */
size_t twin_start(const uint32_t *shelf, uint32_t society);
const uint32_t *twin_find(const uint32_t *shelf, uint32_t society, uint32_t job);
const uint32_t *twin_find_for(const uint32_t *shelf, const struct twin_job *job);
struct twin_answer twin_take_table(const uint32_t *slot, const struct twin_job *job, struct twin_table *table);
void twin_put_table(uint32_t *shelf, const struct twin_job *job, const struct twin_table *table, uint64_t loss, uint64_t gap);
bool twin_remove(uint32_t *shelf, uint32_t society, uint32_t job);
void twin_begin(uint32_t *shelf, const uint32_t *counts);

#endif
