/* The twin: the bench's thirteen calls once more in plain C, written from the documents alone, to compare the bench with.
 * Each call takes, answers and writes what include/bench.h says of the bench's call of the same name. */
#ifndef TWIN_H
#define TWIN_H

#include <stddef.h>
#include <stdint.h>

uint64_t twin_check(const uint8_t *job, size_t job_bytes, const uint8_t *proposal, size_t proposal_bytes,
                    uint64_t *answer, size_t answer_words);
uint64_t twin_terms(const uint8_t *job, size_t job_bytes, const uint8_t *proposal, size_t proposal_bytes,
                    int64_t *out, size_t out_words, uint64_t *answer, size_t answer_words);
uint64_t twin_propose(const uint8_t *job, size_t job_bytes, uint8_t *out, size_t out_bytes,
                      uint64_t *answer, size_t answer_words);
uint64_t twin_propose_linked(const uint8_t *job, size_t job_bytes, uint64_t passes, uint8_t *out, size_t out_bytes,
                             uint64_t *answer, size_t answer_words);
uint64_t twin_keep(uint32_t *shelf, size_t shelf_words, const uint8_t *job, size_t job_bytes,
                   const uint8_t *proposal, size_t proposal_bytes, uint64_t *answer, size_t answer_words);
uint64_t twin_fetch(const uint32_t *shelf, size_t shelf_words, const uint8_t *job, size_t job_bytes,
                    uint32_t *out, size_t out_words, uint64_t *answer, size_t answer_words);
uint64_t twin_forget(uint32_t *shelf, size_t shelf_words, uint32_t society, uint32_t job,
                     uint64_t *answer, size_t answer_words);
uint64_t twin_clear(uint32_t *shelf, size_t shelf_words, const uint32_t *counts, uint64_t *answer, size_t answer_words);
uint64_t twin_read(const uint8_t *job, size_t job_bytes, int64_t *words, size_t word_count,
                   uint64_t *answer, size_t answer_words);
uint64_t twin_write(const int64_t *words, size_t word_count, uint8_t *out, size_t out_bytes,
                    uint64_t *answer, size_t answer_words);
uint64_t twin_import(const uint8_t *text, size_t text_bytes, uint64_t divisor, uint64_t society, uint64_t job, uint64_t order,
                     uint64_t constant, uint64_t tolerance, uint64_t floor, uint64_t ceiling,
                     uint8_t *out, size_t out_bytes, uint64_t *answer, size_t answer_words);
uint64_t twin_export(const uint32_t *rates, size_t rate_count, uint64_t first_age,
                     uint8_t *out, size_t out_bytes, uint64_t *answer, size_t answer_words);
uint64_t twin_rates(const uint8_t *text, size_t text_bytes, uint32_t *out, size_t out_words,
                    uint64_t *answer, size_t answer_words);

/* twin_propose_linked works out each link's solution anew at each pass; this call works out all of them once and keeps them, in 154 KB of stack. Both
 * answer and write the same. */
uint64_t twin_propose_kept(const uint8_t *job, size_t job_bytes, uint64_t passes, uint8_t *out, size_t out_bytes,
                           uint64_t *answer, size_t answer_words);

/* The line that the checking program prints for an input. `out` has room for TWIN_LINE_BYTES; the answer is the line's length. */
#define TWIN_LINE_BYTES 2048
size_t twin_line(const uint8_t *input, size_t input_bytes, char *out);

#endif
