/* Inputs for the checking program, made at random from a seed, and for each the line that the twin prints: inputs FOLDER SEED COUNT writes
 * FOLDER/i.in and FOLDER/i.line for each i below COUNT. Half of the inputs are whole; the others are damaged in a pack, in the length or anywhere.
 * It prints how many of them are grids that are accepted. */
#include <stdio.h>
#include <stdlib.h>
#include <string.h>

#include "../boundary/numbers.h"
#include "../twin/twin.h"

static void put_length(struct bytes *out, size_t length)
{
    out->count = 0;
    while (length >= 128) {
        out->at[out->count++] = (uint8_t)(length % 128 + 128);
        length /= 128;
    }
    out->at[out->count++] = (uint8_t)length;
}

static void put_bytes(struct bytes *out, const struct bytes *more)
{
    memcpy(out->at + out->count, more->at, more->count);
    out->count += more->count;
}

/* The packs of a draft, one of them damaged where `spoilt` says so. */
static void packs_of(struct random *r, const struct draft *draft, bool spoilt, struct bytes *job, struct bytes *proposal)
{
    static struct numbers of_job, of_proposal;
    bool in_job = random_chance(r, 50);
    numbers_of_job(&draft->job, &of_job);
    numbers_of_proposal(draft, &of_proposal);
    numbers_pack(&of_job, job);
    numbers_pack(&of_proposal, proposal);
    if (spoilt && in_job)
        numbers_spoil_pack(r, &of_job, job);
    else if (spoilt)
        numbers_spoil_pack(r, &of_proposal, proposal);
}

/* The input, and whether its job, before any damage, is a grid. */
static bool input_make(struct random *r, struct bytes *out)
{
    static struct draft draft;
    static struct bytes job, proposal;
    int64_t damage = random_below(r, 10);
    draft_make(r, &draft);
    if (damage == 0 || damage == 1)
        draft_break(r, &draft);
    packs_of(r, &draft, damage == 2, &job, &proposal);
    put_length(out, damage == 3 ? (size_t)random_below(r, (int64_t)(2 * job.count + 2)) : job.count);
    put_bytes(out, &job);
    put_bytes(out, &proposal);
    if (damage == 4)
        bytes_spoil(r, out);
    return draft.job.order_field == GRID;
}

static int store(const char *folder, int i, const char *kind, const void *at, size_t count)
{
    char name[512];
    FILE *file;
    snprintf(name, sizeof name, "%s/%d.%s", folder, i, kind);
    file = fopen(name, "wb");
    if (file == NULL || fwrite(at, 1, count, file) != count || fclose(file) != 0) {
        fprintf(stderr, "cannot write %s\n", name);
        return 1;
    }
    return 0;
}

int main(int count, char **arguments)
{
    static struct bytes input;
    static char line[TWIN_LINE_BYTES];
    struct random r;
    int i, most, grids = 0;
    if (count != 4)
        return 2;
    r.state = strtoull(arguments[2], NULL, 10);
    most = atoi(arguments[3]);
    for (i = 0; i < most; i++) {
        bool grid = input_make(&r, &input);
        size_t length = twin_line(input.at, input.count, line);
        if (store(arguments[1], i, "in", input.at, input.count) || store(arguments[1], i, "line", line, length))
            return 1;
        grids += grid && line[0] == '0';
    }
    printf("%d\n", grids);
    return 0;
}
