/* The checking program's line (document 01, "The checking program"). */
#include "parts.h"
#include "twin.h"

#include <inttypes.h>
#include <stdio.h>

enum { MOST_INPUT = 8192 };

static size_t refused(char *out, uint64_t number, uint64_t place)
{
    return (size_t)snprintf(out, TWIN_LINE_BYTES, "%" PRIu64 " %" PRIu64 "\n", number, place);
}

size_t twin_line(const uint8_t *input, size_t input_bytes, char *out)
{
    struct twin_job job;
    struct twin_table table;
    uint64_t answer[ANSWER_WORDS], length;
    size_t at = 0;
    if (input_bytes > MOST_INPUT)
        return refused(out, 1, MOST_INPUT);
    if (!twin_number(input, input_bytes, &at, &length) || length > input_bytes - at)
        return refused(out, 1, 0);
    const uint8_t *proposal = input + at + length;
    size_t proposal_bytes = input_bytes - at - (size_t)length;
    twin_check(input + at, (size_t)length, proposal, proposal_bytes, answer, ANSWER_WORDS);
    if (answer[0] != 0)
        return refused(out, answer[0], answer[1]);
    twin_read_job(input + at, (size_t)length, &job);
    twin_read_proposal(proposal, proposal_bytes, &job, &table);
    size_t bytes = (size_t)snprintf(out, TWIN_LINE_BYTES, "0 %" PRId64 " %" PRId64 " %" PRIu64 " %" PRIu64,
                                    job.society, job.number, answer[2], answer[3]);
    for (int64_t i = 0; i < job.cells; i++)
        bytes += (size_t)snprintf(out + bytes, TWIN_LINE_BYTES - bytes, " %" PRId64, table.value[i]);
    out[bytes++] = '\n';
    return bytes;
}
