/* The thirteen calls (document 01, "Numbers Mr Aldous reads"; document 02, comma lists W-201, terms W-202, fetch W-203, proposals that honour links W-207,
 * counts of slots W-209): the order of the refusals, and what a call returns and writes. */
#include "parts.h"
#include "twin.h"

#include <string.h>

struct twin_answer twin_plain(uint64_t number, uint64_t place)
{
    struct twin_answer answer = {number, place, 0, 0};
    return answer;
}

static uint64_t returned(struct twin_answer a)
{
    return 32 * a.place + a.number;
}

static uint64_t told(struct twin_answer a, uint64_t *answer)
{
    answer[0] = a.number;
    answer[1] = a.place;
    answer[2] = a.loss;
    answer[3] = a.gap;
    return returned(a);
}

static uint64_t wrong_answer_slice(void)
{
    return returned(twin_plain(13, ANSWER_WORDS));
}

/* The shelf's length, then counts: those of its leading row, or at clearing those that are handed in. */
static struct twin_answer looked_at(size_t shelf_words, const uint32_t *counts)
{
    return shelf_words != SHELF_WORDS ? twin_plain(13, SHELF_WORDS) : twin_counts(counts);
}

static struct twin_answer read_both(const uint8_t *job_pack, size_t job_bytes, const uint8_t *proposal, size_t proposal_bytes,
                                    struct twin_job *job, struct twin_table *table)
{
    struct twin_answer a = twin_read_job(job_pack, job_bytes, job);
    return a.number == 0 ? twin_read_proposal(proposal, proposal_bytes, job, table) : a;
}

/* The check, with what it read of both packs. */
static struct twin_answer checked(const uint8_t *job_pack, size_t job_bytes, const uint8_t *proposal, size_t proposal_bytes,
                                  struct twin_job *job, struct twin_table *table)
{
    struct twin_answer a = read_both(job_pack, job_bytes, proposal, proposal_bytes, job, table);
    if (a.number == 0)
        a = twin_judge(job, table);
    return a;
}

uint64_t twin_check(const uint8_t *job, size_t job_bytes, const uint8_t *proposal, size_t proposal_bytes,
                    uint64_t *answer, size_t answer_words)
{
    struct twin_job read;
    struct twin_table table;
    if (answer_words != ANSWER_WORDS)
        return wrong_answer_slice();
    return told(checked(job, job_bytes, proposal, proposal_bytes, &read, &table), answer);
}

/* A gap above the tolerance is no refusal here: its terms are what the caller asks for. */
uint64_t twin_terms(const uint8_t *job, size_t job_bytes, const uint8_t *proposal, size_t proposal_bytes,
                    int64_t *out, size_t out_words, uint64_t *answer, size_t answer_words)
{
    struct twin_job read;
    struct twin_table table;
    if (answer_words != ANSWER_WORDS)
        return wrong_answer_slice();
    struct twin_answer a = read_both(job, job_bytes, proposal, proposal_bytes, &read, &table);
    if (a.number == 0)
        a = twin_meets(&read, &table);
    if (a.number != 0)
        return told(a, answer);
    uint64_t needed = (uint64_t)(TERM_WORDS * (read.cells + read.links));
    if (out_words < needed)
        return told(twin_plain(13, needed), answer);
    twin_put_terms(&read, &table, out);
    return told(twin_plain(0, needed), answer);
}

/* Writes a proposal pack, if there is room for it, and tells what is `done`, with the pack's bytes for its place. */
static uint64_t hand_out(const struct twin_job *job, const struct twin_table *table, struct twin_answer done,
                         uint8_t *out, size_t out_bytes, uint64_t *answer)
{
    uint8_t pack[3 * MOST_CELLS + 5 * MOST_LINKS];
    size_t bytes = 0;
    for (int64_t i = 0; i < job->cells; i++)
        bytes += twin_put_number(pack + bytes, (uint64_t)table->value[i]);
    for (int64_t l = 0; l < job->links; l++)
        bytes += twin_put_number(pack + bytes, (uint64_t)table->multiplier[l]);
    if (out_bytes < bytes)
        return told(twin_plain(13, bytes), answer);
    memcpy(out, pack, bytes);
    done.place = bytes;
    return told(done, answer);
}

uint64_t twin_propose(const uint8_t *job, size_t job_bytes, uint8_t *out, size_t out_bytes, uint64_t *answer, size_t answer_words)
{
    struct twin_job read;
    struct twin_table table;
    if (answer_words != ANSWER_WORDS)
        return wrong_answer_slice();
    struct twin_answer a = twin_read_job(job, job_bytes, &read);
    if (a.number == 0)
        a = twin_house(&read, table.value);
    if (a.number != 0)
        return told(a, answer);
    memset(table.multiplier, 0, (size_t)read.links * sizeof *table.multiplier);
    return hand_out(&read, &table, a, out, out_bytes, answer);
}

/* "21 passes outside 1..200, first." */
static uint64_t propose_linked(const uint8_t *job, size_t job_bytes, uint64_t passes, double (*kept)[MOST_CELLS],
                               uint8_t *out, size_t out_bytes, uint64_t *answer, size_t answer_words)
{
    struct twin_job read;
    struct twin_table table;
    if (answer_words != ANSWER_WORDS)
        return wrong_answer_slice();
    if (passes < 1 || passes > MOST_PASSES)
        return told(twin_plain(21, 0), answer);
    struct twin_answer a = twin_read_job(job, job_bytes, &read);
    if (a.number == 0)
        a = twin_linked(&read, passes, kept, &table);
    if (a.number != 0)
        return told(a, answer);
    return hand_out(&read, &table, a, out, out_bytes, answer);
}

uint64_t twin_propose_linked(const uint8_t *job, size_t job_bytes, uint64_t passes, uint8_t *out, size_t out_bytes,
                             uint64_t *answer, size_t answer_words)
{
    return propose_linked(job, job_bytes, passes, NULL, out, out_bytes, answer, answer_words);
}

uint64_t twin_propose_kept(const uint8_t *job, size_t job_bytes, uint64_t passes, uint8_t *out, size_t out_bytes,
                           uint64_t *answer, size_t answer_words)
{
    double solutions[MOST_LINKS][MOST_CELLS];
    return propose_linked(job, job_bytes, passes, solutions, out, out_bytes, answer, answer_words);
}

uint64_t twin_keep(uint32_t *shelf, size_t shelf_words, const uint8_t *job, size_t job_bytes,
                   const uint8_t *proposal, size_t proposal_bytes, uint64_t *answer, size_t answer_words)
{
    struct twin_job read;
    struct twin_table table;
    if (answer_words != ANSWER_WORDS)
        return wrong_answer_slice();
    struct twin_answer a = looked_at(shelf_words, shelf);
    if (a.number == 0)
        a = checked(job, job_bytes, proposal, proposal_bytes, &read, &table);
    if (a.number == 0)
        twin_put_table(shelf, &read, &table, a.loss, a.gap);
    return told(a, answer);
}

/* What fetch says before it asks for room: a job that is refused, then 12, then what "the check would" say of the kept numbers (document 02,
 * W-203). The loss and gap that were kept are not looked at. */
static struct twin_answer fetched(const uint32_t *shelf, const uint8_t *job_pack, size_t job_bytes, struct twin_job *job, struct twin_table *table)
{
    struct twin_answer a = twin_read_job(job_pack, job_bytes, job);
    if (a.number != 0)
        return a;
    const uint32_t *slot = twin_find_for(shelf, job);
    if (!slot)
        return twin_plain(12, 0);
    a = twin_take_table(slot, job, table);
    return a.number == 0 ? twin_judge(job, table) : a;
}

uint64_t twin_fetch(const uint32_t *shelf, size_t shelf_words, const uint8_t *job, size_t job_bytes,
                    uint32_t *out, size_t out_words, uint64_t *answer, size_t answer_words)
{
    struct twin_job read;
    struct twin_table table;
    if (answer_words != ANSWER_WORDS)
        return wrong_answer_slice();
    struct twin_answer a = looked_at(shelf_words, shelf);
    if (a.number == 0)
        a = fetched(shelf, job, job_bytes, &read, &table);
    if (a.number != 0)
        return told(a, answer);
    a.place = (uint64_t)read.cells;
    if (out_words < a.place)
        return told(twin_plain(13, a.place), answer);
    for (int64_t i = 0; i < read.cells; i++)
        out[i] = (uint32_t)table.value[i];
    return told(a, answer);
}

uint64_t twin_forget(uint32_t *shelf, size_t shelf_words, uint32_t society, uint32_t job, uint64_t *answer, size_t answer_words)
{
    if (answer_words != ANSWER_WORDS)
        return wrong_answer_slice();
    struct twin_answer a = looked_at(shelf_words, shelf);
    if (a.number == 0 && society >= SOCIETIES)
        a = twin_plain(11, 0);
    if (a.number == 0 && !twin_remove(shelf, society, job))
        a = twin_plain(12, 0);
    return told(a, answer);
}

uint64_t twin_clear(uint32_t *shelf, size_t shelf_words, const uint32_t *counts, uint64_t *answer, size_t answer_words)
{
    if (answer_words != ANSWER_WORDS)
        return wrong_answer_slice();
    struct twin_answer a = looked_at(shelf_words, counts);
    if (a.number == 0)
        twin_begin(shelf, counts);
    return told(a, answer);
}

uint64_t twin_read(const uint8_t *job, size_t job_bytes, int64_t *words, size_t word_count, uint64_t *answer, size_t answer_words)
{
    struct twin_job read;
    if (answer_words != ANSWER_WORDS)
        return wrong_answer_slice();
    struct twin_answer a = twin_read_job(job, job_bytes, &read);
    if (a.number != 0)
        return told(a, answer);
    size_t needed = twin_job_words(&read);
    if (word_count < needed)
        return told(twin_plain(13, needed), answer);
    twin_put_words(&read, words);
    return told(twin_plain(0, needed), answer);
}

uint64_t twin_write(const int64_t *words, size_t word_count, uint8_t *out, size_t out_bytes, uint64_t *answer, size_t answer_words)
{
    struct twin_job read;
    size_t needed;
    if (answer_words != ANSWER_WORDS)
        return wrong_answer_slice();
    struct twin_answer a = twin_read_words(words, word_count, &read, &needed);
    if (a.number != 0)
        return told(a, answer);
    if (out_bytes < needed)
        return told(twin_plain(13, needed), answer);
    twin_put_job(&read, out);
    return told(twin_plain(0, needed), answer);
}

/* The pack's own refusals, and that for room, are those that the writer gives for the job's words. */
uint64_t twin_import(const uint8_t *text, size_t text_bytes, uint64_t divisor, uint64_t society, uint64_t job, uint64_t order,
                     uint64_t constant, uint64_t tolerance, uint64_t floor, uint64_t ceiling,
                     uint8_t *out, size_t out_bytes, uint64_t *answer, size_t answer_words)
{
    const struct twin_claims_job given = {divisor, society, job, order, constant, tolerance, floor, ceiling};
    struct twin_list list;
    int64_t words[MOST_CLAIMS_WORDS];
    if (answer_words != ANSWER_WORDS)
        return wrong_answer_slice();
    struct twin_answer a = divisor == 0 ? twin_plain(19, 0) : twin_read_claims(text, text_bytes, &list);
    if (a.number != 0)
        return told(a, answer);
    size_t count = twin_claims_words(&list, &given, words);
    return twin_write(words, count, out, out_bytes, answer, answer_words);
}

uint64_t twin_export(const uint32_t *rates, size_t rate_count, uint64_t first_age,
                     uint8_t *out, size_t out_bytes, uint64_t *answer, size_t answer_words)
{
    uint8_t list[MOST_TABLE_BYTES];
    if (answer_words != ANSWER_WORDS)
        return wrong_answer_slice();
    struct twin_answer a = twin_can_list(rates, rate_count, first_age);
    if (a.number != 0)
        return told(a, answer);
    size_t needed = twin_put_list(rates, rate_count, first_age, list);
    if (out_bytes < needed)
        return told(twin_plain(13, needed), answer);
    memcpy(out, list, needed);
    return told(twin_plain(0, needed), answer);
}

uint64_t twin_rates(const uint8_t *text, size_t text_bytes, uint32_t *out, size_t out_words, uint64_t *answer, size_t answer_words)
{
    struct twin_list list;
    if (answer_words != ANSWER_WORDS)
        return wrong_answer_slice();
    struct twin_answer a = twin_read_table(text, text_bytes, &list);
    if (a.number != 0)
        return told(a, answer);
    if (out_words < list.lines)
        return told(twin_plain(13, list.lines), answer);
    for (size_t i = 0; i < list.lines; i++)
        out[i] = twin_listed_rate(&list, i);
    return told(twin_plain(0, list.lines), answer);
}
