/* bench.h: the bench, for the portal and any other C or C++ program.
 *
 * The bench reads a job (one society's table to be graduated: a line of ages, or a grid for a select table), checks a proposed table with its
 * multipliers, makes proposals of its own, and keeps accepted tables on a shelf that the caller lends. It makes jobs of comma lists, and comma lists
 * of tables. Document 01 has the rules, with request W-205 for grids, W-203 for a fetch that checks, W-209 for counts of slots, W-202 for the terms of
 * a gap, W-208 for how far off a rate can be, W-213 for jobs written in reverse, W-201 for comma lists and W-207 for proposals that honour links; this
 * page has what a caller needs.
 *
 * WHAT EVERY CALL DOES
 *
 * A slice is a pointer and then a count of its elements (bytes, 32-bit words or 64-bit words; never bytes for words); only the counts of bench_clear
 * are an array of eight, a pointer alone. The last slice of each call takes the answer: exactly BENCH_ANSWER_WORDS words, which become
 *
 *     answer[0] number    answer[1] place    answer[2] loss F    answer[3] gap G
 *
 * Every call returns 32 times the place plus the number; BENCH_NUMBER and BENCH_PLACE take the two apart. Check, keep and fetch give the
 * table's F and G when done, and bench_propose_linked the count of its passes in the place of F; they are 0 with every refusal and at every other call.
 *
 * A refusal (any number but 0) changes nothing that was lent, the answer slice excepted. A success leaves an output beyond what it writes
 * as it was. No call reads or writes anything but what it is lent; none allocates, prints, waits, keeps a pointer or has a state of its own.
 * Every call ends, for every input.
 *
 * THE NUMBERS
 *
 *     No.  given when                                              place
 *     0    done                                                    bytes, values, numbers or words written to an output; else 0
 *     1    job pack: number unreadable, or spare bytes             offset of its first byte, or of the first spare byte
 *     2    job pack: number not allowed                            offset of its first byte
 *          import: a number given that a job pack does not         offset that its first byte would have in the pack
 *          allow, or fewer than 2 lines of data
 *          export: not 1 to 120 rates, or a rate or an age         0
 *          above 10^9; rates: no line of data                      0
 *     3    floor above ceiling                                     cell
 *     4    fewer positive weights than the order used; of a grid,  0
 *          fewer rows than the order down that have as many as
 *          the order across
 *     5    cells of a link not rising, or coefficient 0            link
 *     6    proposal pack: unreadable, spare bytes, not allowed     offset, as for 1 and 2
 *          fetch: a kept number not allowed                        its word within the slot: 7 + cell, or 127 + link
 *     7    value outside its box                                   lowest such cell
 *     8    link broken                                             lowest such link
 *     9    gap above the tolerance                                 that of the largest term of the gap: a cell's number, or n + the
 *                                                                  link's number; the lowest of those that are equal
 *     10   either house proposal: data too thin                    cell
 *     11   forget: society above 7                                 0
 *     12   fetch or forget: nothing kept under that number         0
 *          fetch: what is kept has another count of cells
 *          or links than the job
 *     13   answer slice not 4 words, shelf not 9,192,              4, 9,192, or
 *          or output too short                                     the length needed, in the output's own elements
 *     14   proposal that honours links: no pass within the number  that number
 *          given is accepted
 *     16   list: line malformed, out of range, beyond the 120      line; the header is line 1
 *     17   list: age not the one before it plus 1                  line
 *     18   import: deaths above exposure                           line
 *     19   import: divisor 0                                       0
 *     20   either house proposal: a grid of more than 12 columns   0
 *     21   proposal that honours links: passes outside 1..200      0
 *     22   counts of slots not allowed: at clear those handed in,  lowest society whose count is not 1 to 16; if each is,
 *          at keep, fetch and forget those found on the shelf      8 for a total above 32
 *
 * The first that applies is given, in this order: answer slice, shelf length, 22, or 21; then the job pack from its first byte to its last (1 and 2
 * for each number, 3 after each ceiling, 4 after the last cell, 5 after each term, spare bytes last); then 6, 7, 8, 9, or for terms 6, 7, 8, or for
 * fetch 12, 6, 7, 8, 9, or for propose 20, 10, and for propose_linked 14 after them; for forget, which takes no pack, 11, then 12; for import 19, then
 * line by line 16, 17, 18, then 2, 3, 4 of the pack that it would write; for export 2; for rates line by line 16, 17, then 2; and the output's length
 * last. A wrong answer slice is not written to: only the returned number tells it.
 *
 * PACKS
 *
 * A number is groups of seven bits, lowest group first, the top bit of a byte set if another follows; only the shortest form is read, at
 * most nine groups. A coefficient or bound x is stored as 2x if x >= 0 and as -2x-1 if not.
 *
 *     job pack       society, job, n, order field, k, T; for each cell u, w, floor, ceiling; the count of links;
 *                    for each link the count of terms, its terms (cell, coefficient), the bound
 *     of a grid      order field 5, and between it and k: rows, columns, order down, order across, second constant
 *     proposal pack  n values, then one multiplier for each link
 *
 * Nothing follows in either. What is allowed, and else refused with 2 or 6:
 *
 *     society 0..7    job 0..4,294,967,295    n 2..120    order field 0..4, less than n; 0 means the house order 2, which is less than n too
 *     k 1..1,000    T 0..10^15    u, floor, ceiling, value 0..1,000,000    w 0..1,000    multiplier 0..10^9
 *     links 0..160    terms of a link 1..4    cell 0..n-1    coefficient -10..10    bound -10^9..10^9
 *     of a grid: rows 2 or more    columns 2 or more, rows times columns is n (tested at the columns)    order down 1..4, less than the rows
 *                order across 1..4, less than the columns    second constant 1..999    k 1..1,000 less the second constant
 *
 * The cells of a link rise strictly and no coefficient is 0 (5). A u may lie outside its box, and a floor may equal its ceiling.
 *
 * A grid's cells run along a row first: the cell of row r and column c is r times the columns plus c. Its loss adds k times the squared
 * differences of the order down, down the columns, and the second constant times those of the order across, along the rows; no difference
 * runs over a row's end. Links, boxes and the shelf know no rows: a grid is n cells there.
 *
 * COMMA LISTS
 *
 * Lists are lines of bytes after RFC 4180, without quotes. Lines are parted by CR LF (bytes 13 and 10) and by nothing else; the last one may lack it. A
 * number is 0..10^9 in decimal digits, without leading zeros, signs or blanks. Ages rise by one from any first age. At most 120 lines follow the header.
 *
 *     claims list   age,exposure,deaths      in: bench_import makes a job pack of it
 *                   40,1000,7                crude rate 7,000, weight 10 with divisor 100
 *     table         age,rate                 out: bench_export; and back in: bench_rates
 *                   40,6900
 *
 * A cell's crude rate u is deaths times 1,000,000 over exposure, rounded, halves up; its weight w is exposure over the divisor, rounded down, and 1,000
 * where that is less; exposure 0 gives 0 for both. Deaths may not be above exposure (18), so exposure 0 asks for deaths 0. docs/LISTS.md says it for
 * societies.
 *
 * HOW FAR OFF A RATE CAN BE
 *
 * Of every table that check, keep or fetch answers with F and G this holds, and may be repeated: no table that meets the job and has no larger loss than
 * ours, fractional ones included, differs from ours by more than r in a rate of weight w above 0, for every whole r with w*r*r at least 4*G. In any cell
 * it differs by no more than the way from our value to the farther end of its box; of a weight of 0 no more is said. 4*G fits a word.
 *
 *     G 9: no rate of weight 1 differs by more than 6, of weight 10 by more than 2, of weight 1,000 by more than 1
 *
 * Together the weighted squares of the differences, plus each constant times the squared differences of those, come to at most 4*G; less cannot be
 * promised. docs/FAR.md says it for actuaries.
 *
 * A JOB WRITTEN IN REVERSE
 *
 * Ages may be listed from the oldest to the youngest. A job pack and a proposal pack that can be read, written in reverse, get the same number from
 * bench_check, with the same F and G; the place may be another. Written in reverse are the cells, each with its u, w, floor, ceiling and value, and the cells
 * that links name; the terms of a link are put in rising order again. Links and multipliers keep their order, and all else stays, an order field of 0 too. Of a
 * line cell i becomes cell n-1-i. Of a grid the rows alone may be reversed (row r becomes row rows-1-r), the columns alone (column c becomes
 * columns-1-c), or both together. Packs in reverse can be read too, into as many numbers, and twice in reverse they are the packs that they were.
 *
 *     of three cells the link -v0 + v1 <= 0, in a pack 2  0 1  1 2  0, becomes v1 - v2 <= 0, in a pack 2  1 2  2 1  0
 *
 * bench_propose rounds each operation, so of it nothing of the kind is promised. A shelf keeps values in the order in which they came: fetch a table with a job
 * that has its cells in the order of the job that it was kept under. docs/REVERSED.md says it for societies.
 *
 * THE SHELF
 *
 * A shelf is BENCH_SHELF_WORDS words of 32 bits, whatever the counts are. It begins with a row of eight words, each society's count of slots: the most
 * tables that it keeps. Each count is 1 to 16, their total at most 32. The societies' spans follow in their order, each of its count of slots, 287 words
 * a slot: society s begins at word 8 + 287 times the counts before it.
 *
 *     counts 2 10 2 2 10 2 2 2 (32 in all): society 0 begins at word 8, society 1 at 8 + 2*287 = 582, society 2 at 8 + 12*287 = 3452
 *
 * Only bench_clear sets the counts, and it empties every society, so changing the counts means keeping every table again. Keep, fetch and forget read the
 * row and then only their own society's span; none of them writes to the row. The words behind the last span, where the total is below 32, are never
 * written, not even by bench_clear. A shelf that was never cleared has no row of counts: keep, fetch and forget most likely refuse it with 22, one of
 * zeros with place 0.
 *
 * WHAT NOBODY CHECKS FOR A C CALLER
 *
 *   - No pointer is null, even where the count is 0: pass any valid address.
 *   - Each slice's count is true, the counts of bench_clear are eight words, and each pointer is aligned for its elements.
 *   - No two slices of one call overlap, unless the call only reads both. The counts of bench_clear are no part of the shelf: copy its row to clear
 *     it with the counts that it has. A pointer to const is only read.
 *   - BENCH_STACK_BYTES of stack are free, or for a job that is no grid BENCH_LINE_STACK_BYTES: a call puts its working room there. In
 *     bytes, as measured: check 20,688, terms 20,576, keep 21,840, fetch 20,768, read 16,992, write 17,024; propose 33,392 for a line and
 *     57,456 for a grid, propose_linked 34,368 and 62,832; import 22,080, export 288, rates 1,144; forget and clear below 100.
 *   - a call names the right society: every call acts for the society that its job pack or its argument names, whoever makes it.
 *
 * Calls may run at the same time on several threads as long as no slice that one of them writes is lent to another. Calls on different
 * shelves are independent.
 *
 * AN EXAMPLE (it prints: number 0, place 0, loss 28, gap 0)
 *
 *     --- example begins ---
 *     #include <inttypes.h>
 *     #include <stdio.h>
 *     #include "bench.h"
 *     int main(void) {
 *         const uint8_t job[] = {3, 7, 3, 2, 1, 0, 0, 1, 0, 100, 7, 1, 0, 100, 0, 1, 0, 100, 0}, proposal[] = {2, 3, 2};
 *         uint64_t a[BENCH_ANSWER_WORDS];
 *         uint64_t said = bench_check(job, sizeof job, proposal, sizeof proposal, a, BENCH_ANSWER_WORDS);
 *         printf("number %" PRIu64 ", place %" PRIu64 ", loss %" PRIu64 ", gap %" PRIu64 "\n", a[0], a[1], a[2], a[3]);
 *         return said == 0 ? 0 : 1;
 *     }
 *     --- example ends ---
 */
#ifndef BENCH_H
#define BENCH_H

#include <stddef.h>
#include <stdint.h>

#ifdef __cplusplus
extern "C" {
#endif

/* Lengths that must be met exactly. */
#define BENCH_ANSWER_WORDS 4   /* 64-bit words of an answer slice */
#define BENCH_SHELF_WORDS 9192 /* 32-bit words of a shelf: a row of 8 counts, and room for 32 slots of 287 */

/* Counts of slots. */
#define BENCH_SOCIETIES 8   /* words of the row on the shelf, and of the counts that bench_clear takes */
#define BENCH_MOST_SLOTS 16 /* of one society; the least is 1 */
#define BENCH_ALL_SLOTS 32  /* of all societies together, at most */

/* The version of this page, which rises when a call, a number or a length changes.
 *   1  the eight calls
 *   2  select tables: order field 5 announces a grid, whose job has five numbers more (BENCH_MOST_JOB_WORDS, BENCH_MOST_JOB_BYTES);
 *      20 for a grid too wide for the house proposal; the stack of lines and of grids told apart
 *   3  a fetch that checks: bench_fetch takes the job pack in place of society and job number, checks what is kept against it, and so gives 1 to 9
 *      too and never 11; a slot has 287 words, with the link count and the multipliers, so BENCH_SHELF_WORDS is 9,184
 *   4  counts of slots: the shelf begins with a row of eight counts, so BENCH_SHELF_WORDS is 9,192; bench_clear takes the counts; 22 for counts not
 *      allowed, at every call on the shelf
 *   5  what holds a table back: the place of 9, which was always 0, is that of the largest term of the gap; bench_terms, a ninth call, tells all terms
 *   6  comma lists: bench_import, bench_export and bench_rates, three calls more, with 16 to 19 for what is wrong with a list
 *   7  proposals that honour links: bench_propose_linked, a call more, with 14 where no pass is accepted and 21 for a number of passes not allowed
 *
 * Moving from version 6: every call that there was answers as it did, and takes no more stack, bench_propose alone excepted (above), so nothing has to be
 * changed or kept again. */
#define BENCH_VERSION 7

/* No call needs more stack than this, and none on a job that is no grid more than the second. */
#define BENCH_STACK_BYTES 65536
#define BENCH_LINE_STACK_BYTES 34816

/* The most that a job can have. */
#define BENCH_MOST_CELLS 120
#define BENCH_MOST_LINKS 160
#define BENCH_MOST_TERMS 4
#define BENCH_MOST_SOCIETY (BENCH_SOCIETIES - 1) /* societies are numbered from 0 */

/* The most passes that bench_propose_linked may be allowed; the least is 1. */
#define BENCH_MOST_PASSES 200

/* The longest packs and lists: nothing longer is ever accepted, and an output of that length is never too short. */
#define BENCH_MOST_JOB_BYTES 3586      /* a job pack: the output of bench_write */
#define BENCH_MOST_JOB_WORDS 2092      /* a job's numbers: the output of bench_read */
#define BENCH_MOST_PROPOSAL_BYTES 1160 /* a proposal pack: the output of bench_propose_linked */
#define BENCH_MOST_HOUSE_BYTES 520     /* a house proposal, whose multipliers are all 0: the output of bench_propose */
#define BENCH_MOST_VALUES 120          /* a table's values: the output of bench_fetch */
#define BENCH_MOST_TERM_WORDS 840      /* the terms of a gap, 3 words for each cell and link: the output of bench_terms */
#define BENCH_MOST_LIST_BYTES 3982     /* a claims list */
#define BENCH_MOST_IMPORT_BYTES 1339   /* a job pack made of one: the output of bench_import */
#define BENCH_MOST_EXPORT_BYTES 2651   /* a table as a list: the output of bench_export */

/* The numbers of the table above. */
enum bench_number {
    BENCH_DONE = 0,
    BENCH_UNREADABLE = 1,
    BENCH_NOT_ALLOWED = 2,
    BENCH_FLOOR_ABOVE_CEILING = 3,
    BENCH_FEW_WEIGHTS = 4,
    BENCH_BAD_LINK = 5,
    BENCH_BAD_PROPOSAL = 6,
    BENCH_OUTSIDE_BOX = 7,
    BENCH_LINK_BROKEN = 8,
    BENCH_GAP_ABOVE_TOLERANCE = 9,
    BENCH_TOO_THIN = 10,
    BENCH_NO_SUCH_SOCIETY = 11,
    BENCH_NOTHING_KEPT = 12,
    BENCH_WRONG_LENGTH = 13,
    BENCH_NO_PASS_ACCEPTED = 14,
    BENCH_BAD_LINE = 16,
    BENCH_AGE_NOT_NEXT = 17,
    BENCH_DEATHS_ABOVE_EXPOSURE = 18,
    BENCH_NO_DIVISOR = 19,
    BENCH_GRID_TOO_WIDE = 20,
    BENCH_BAD_PASSES = 21,
    BENCH_BAD_COUNTS = 22
};

/* What supplied a term of the gap: the third of bench_terms' words. */
enum bench_side {
    BENCH_BY_BOX = 0,
    BENCH_BY_WEIGHT = 1,
    BENCH_BY_LINK = 2
};

/* The number and the place of what a call returned. */
#define BENCH_NUMBER(said) ((said) % 32)
#define BENCH_PLACE(said) ((said) / 32)

/* Checks a proposal against a job. Done: the table meets every box and link and its gap is at most the job's tolerance; the answer has its
 * loss F and gap G, and no table that meets the job, fractional ones included, has a loss below F - G; from G follows how far off a rate can be (above).
 * Place 0. Writes nothing but the answer. Numbers: 0 to 9, 13. */
uint64_t bench_check(const uint8_t *job, size_t job_bytes, const uint8_t *proposal, size_t proposal_bytes,
                     uint64_t *answer, size_t answer_words);

/* Tells what a proposal's gap is made of, whether or not the check accepts it: 9 is no refusal here. `out` gets three words for each cell and then for
 * each link: its term of the gap; its residual, which is the slope of the loss in its value with the multipliers' parts added, so that above 0 it asks
 * for a lower value and below 0 for a higher one (0 for a link); and its side, one of enum bench_side. A cell term is by its weight only where the weight
 * is above 0, the residual within -2*10^9..2*10^9, and its square over 4 times the weight, rounded up, below the box term; else it is by its box. No term
 * is negative and each fits its word; together they are the gap, which may pass 64 bits. The place of 9 is that of the largest, the lowest of those that
 * are equal. Done: the place is the count of words, 3 times (n + links). Numbers: 0 to 8, 13. */
uint64_t bench_terms(const uint8_t *job, size_t job_bytes, const uint8_t *proposal, size_t proposal_bytes,
                     int64_t *out, size_t out_words, uint64_t *answer, size_t answer_words);

/* Makes the house proposal for a job and writes it to `out` as a proposal pack, all multipliers 0. Done: the place is the pack's bytes. It
 * ignores links and has no privilege: the check may refuse it. A grid may have 12 columns at most. Numbers: 0 to 5, 10, 13,
 * 20. */
uint64_t bench_propose(const uint8_t *job, size_t job_bytes, uint8_t *out, size_t out_bytes,
                       uint64_t *answer, size_t answer_words);

/* Makes a proposal that honours the job's links, and writes it to `out` as a proposal pack with its multipliers. It begins with the house's values and all
 * multipliers 0; a pass improves each link's multiplier in turn (Hildreth's method), and after each pass the rounded table is checked. The first that the
 * check accepts is the answer. `passes` is the most that may be made, 1..BENCH_MOST_PASSES. Done: bench_check accepts what was written; the place is the pack's
 * bytes, and answer[2], where F stands elsewhere, is the count of passes made: the check tells F and G. There is no pass 0, so the least count is 1, and a job
 * without links has count 1 or 14. 14: none of the passes allowed gives a table that keeps the links and has a gap within the tolerance; a larger number may
 * find one, and changes no other answer. It may take some time: docs/LINKED.md says how long, and fixes every operation. A grid may have 12 columns at most.
 * Numbers: 0 to 5, 10, 13, 14, 20, 21. */
uint64_t bench_propose_linked(const uint8_t *job, size_t job_bytes, uint64_t passes, uint8_t *out, size_t out_bytes,
                              uint64_t *answer, size_t answer_words);

/* Checks as bench_check does and, if it accepts, keeps the table on the shelf among its society's own, as many as its count: in the slot that has the
 * job already, else in the lowest empty one, else slot 0's table goes and the others move down by one, so that with a count of 1 the new table takes
 * the place of the only one. The multipliers are kept with the values, and F and G too. Done: F and G as in the check, place 0. It reads the row of counts
 * and never reads or writes another society's span. Spans may hold any words, but only a shelf that was cleared first holds lists that mean
 * something. Numbers: 0 to 9, 13, 22. */
uint64_t bench_keep(uint32_t *shelf, size_t shelf_words, const uint8_t *job, size_t job_bytes,
                    const uint8_t *proposal, size_t proposal_bytes, uint64_t *answer, size_t answer_words);

/* Takes a job, finds what its society keeps under its number (in the lowest slot, if several have it), and checks the kept values and multipliers
 * against this job, as bench_check would check a proposal of them. So a job that was corrected after its table was kept gets that table only if
 * it still passes. Done: the kept values stand in `out`, the place is their count n, and words of `out` beyond n stay as they were; F and G are those
 * of this check, not those that the table was kept with: no table that meets the job, fractional ones included, has a loss below F - G, and how far off
 * a rate can be follows from this G.
 * 12 if nothing is kept under the number, or if what is kept has another n or another count of links; then 6 for a kept number that is not
 * allowed, which a shelf that was cleared first and then written by these calls alone never has; then 7, 8, 9 as at the check. Only the counts are
 * compared: a table that was kept for a line is checked for a grid of as many cells and links as well. Never writes to the shelf: a table that is
 * refused stays there. Numbers: 0 to 9, 12, 13, 22. */
uint64_t bench_fetch(const uint32_t *shelf, size_t shelf_words, const uint8_t *job, size_t job_bytes,
                     uint32_t *out, size_t out_words, uint64_t *answer, size_t answer_words);

/* Removes the table that a society keeps under a job number, whatever its counts of cells and links; its later tables move down by one slot, and its last
 * slot becomes empty. Done: place 0. Numbers: 0, 11, 12, 13, 22. */
uint64_t bench_forget(uint32_t *shelf, size_t shelf_words, uint32_t society, uint32_t job,
                      uint64_t *answer, size_t answer_words);

/* Empties the whole shelf, every society's part, and gives each society its count of slots: `counts` is an array of eight, society 0 first, passed
 * without a length. It is the house's own call, the way to begin, and the only way to change counts. The shelf may hold any words; the row that it has is
 * not looked at. Done: the counts stand in the row, every word of the spans is 0, the words behind the last span stay as they were; place 0.
 * Numbers: 0, 13, 22. */
uint64_t bench_clear(uint32_t *shelf, size_t shelf_words, const uint32_t counts[BENCH_SOCIETIES], uint64_t *answer, size_t answer_words);

/* Reads a job pack into its numbers, in pack order, coefficients and bounds with their signs. Done: the place is the count of numbers. An
 * order field 0 (the house order 2) stays 0. Numbers: 0 to 5, 13. */
uint64_t bench_read(const uint8_t *job, size_t job_bytes, int64_t *words, size_t word_count,
                    uint64_t *answer, size_t answer_words);

/* Writes a job's numbers, in pack order, to `out` as a job pack. Done: the place is the pack's bytes, and bench_read gives the numbers back.
 * It refuses with the number and place that reading the pack would give: a word out of range is 2, a list that ends early or runs on is 1,
 * at the offset where the byte would stand. Numbers: 0 to 5, 13. */
uint64_t bench_write(const int64_t *words, size_t word_count, uint8_t *out, size_t out_bytes,
                     uint64_t *answer, size_t answer_words);

/* Makes a job pack without links of a claims list and writes it to `out`. The divisor is that of the weights; the other numbers stand in the pack as they
 * are given, the order 0..4 (0 stays 0, the house order), with one box from `floor` to `ceiling` for all cells; one that the pack does not allow is 2,
 * however large, and never cut. Done: the place is the pack's bytes, and the pack can be read: it is that job. Numbers: 0, 2, 3, 4, 13, 16 to 19. */
uint64_t bench_import(const uint8_t *text, size_t text_bytes, uint64_t divisor, uint64_t society, uint64_t job, uint64_t order,
                      uint64_t constant, uint64_t tolerance, uint64_t floor, uint64_t ceiling,
                      uint8_t *out, size_t out_bytes, uint64_t *answer, size_t answer_words);

/* Writes a table to `out` as a list: the header, then a line for each rate, ages rising from `first_age`; every line ends in CR LF, the last too. Done:
 * the place is the text's bytes, and bench_rates gives the rates back. It asks no check: fetch gives values that were checked. Numbers: 0, 2, 13. */
uint64_t bench_export(const uint32_t *rates, size_t rate_count, uint64_t first_age,
                      uint8_t *out, size_t out_bytes, uint64_t *answer, size_t answer_words);

/* Reads such a list back: its rates go to `out`. Done: the place is their count. Exported again from its first age, it is the same text, with CR LF at
 * its end. Numbers: 0, 2, 13, 16, 17. */
uint64_t bench_rates(const uint8_t *text, size_t text_bytes, uint32_t *out, size_t out_words,
                     uint64_t *answer, size_t answer_words);

#ifdef __cplusplus
}
#endif

#endif
