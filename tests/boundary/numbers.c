/* Packs are made here by an encoder of their own, so that forms can be wrong on purpose. */
#include "numbers.h"

#include <string.h>

static void add(struct numbers *list, int64_t value, int64_t low, int64_t high, bool is_signed)
{
    struct number number = {value, low, high, is_signed};
    list->at[list->count++] = number;
}

/* The most that an order can be over so many cells. */
static int64_t most_order(int64_t length)
{
    return length > 4 ? 4 : length - 1;
}

/* The fields of a grid. Rows have no limit but 2; half the cells is the most that can be right. */
static void add_grid(struct numbers *list, const struct twin_job *job)
{
    add(list, job->order_field, 0, 5, false);
    add(list, job->rows, 2, job->cells / 2, false);
    add(list, job->columns, 2, job->cells / 2, false);
    add(list, job->down, 1, most_order(job->rows), false);
    add(list, job->across, 1, most_order(job->columns), false);
    add(list, job->second, 1, 999, false);
}

void numbers_of_job(const struct twin_job *job, struct numbers *list)
{
    list->count = 0;
    add(list, job->society, 0, 7, false);
    add(list, job->number, 0, 4294967295, false);
    add(list, job->cells, 2, 120, false);
    if (job->order_field == GRID)
        add_grid(list, job);
    else
        add(list, job->order_field, job->cells > 2 ? 0 : 1, most_order(job->cells), false);
    add(list, job->constant, 1, 1000 - job->second, false);
    add(list, job->tolerance, 0, 1000000000000000, false);
    list->head = list->count;
    for (int64_t i = 0; i < job->cells; i++) {
        add(list, job->u[i], 0, MOST_VALUE, false);
        add(list, job->w[i], 0, 1000, false);
        add(list, job->lo[i], 0, MOST_VALUE, false);
        add(list, job->hi[i], 0, MOST_VALUE, false);
    }
    add(list, job->links, 0, 160, false);
    for (int64_t l = 0; l < job->links; l++) {
        const struct twin_link *link = &job->link[l];
        add(list, link->terms, 1, 4, false);
        for (int64_t t = 0; t < link->terms; t++) {
            add(list, link->cell[t], 0, job->cells - 1, false);
            add(list, link->coefficient[t], -10, 10, true);
        }
        add(list, link->bound, -1000000000, 1000000000, true);
    }
}

void numbers_of_proposal(const struct draft *d, struct numbers *list)
{
    list->count = 0;
    list->head = 6;
    for (int64_t i = 0; i < d->job.cells; i++)
        add(list, d->table.value[i], 0, MOST_VALUE, false);
    for (int64_t l = 0; l < d->job.links; l++)
        add(list, d->table.multiplier[l], 0, MOST_MULTIPLIER, false);
}

/* A number's groups, at least `least` of them: more than it needs make an overlong form. */
static void encode(const struct number *number, size_t least, struct bytes *out)
{
    uint64_t x = (uint64_t)number->value;
    if (number->is_signed)
        x = number->value >= 0 ? 2 * x : 2 * (0 - x) - 1;
    for (size_t group = 1; x > 127 || group < least; group++, x >>= 7)
        out->at[out->count++] = (uint8_t)(x % 128 + 128);
    out->at[out->count++] = (uint8_t)x;
}

static void pack(const struct numbers *list, size_t odd, size_t least, struct bytes *out)
{
    out->count = 0;
    for (size_t i = 0; i < list->count; i++)
        encode(&list->at[i], i == odd ? least : 1, out);
}

void numbers_pack(const struct numbers *list, struct bytes *out)
{
    pack(list, list->count, 1, out);
}

/* A number to damage: one of the head as often as any other. */
static size_t chosen(struct random *r, const struct numbers *list)
{
    return (size_t)random_below(r, random_chance(r, 40) && list->count > list->head ? (int64_t)list->head : (int64_t)list->count);
}

/* A value at a limit, one beyond it, or far beyond. Signed ones stay within what nine groups can store, or pass it. */
static int64_t odd_value(struct random *r, const struct number *number)
{
    static const int64_t far[] = {127, 128, 1000001, 2147483648, 4294967296, 1000000000000001, INT64_MAX / 2, INT64_MAX / 2 + 1, INT64_MAX};
    int64_t way = random_below(r, 10);
    if (way < 2)
        return number->low;
    if (way < 4)
        return number->high;
    if (way < 6)
        return number->low - 1;
    if (way < 8)
        return number->high + 1;
    int64_t value = far[random_below(r, 9)];
    return random_chance(r, 30) ? -value - random_below(r, 2) : value;
}

void bytes_spoil(struct random *r, struct bytes *out)
{
    size_t at = out->count == 0 ? 0 : (size_t)random_below(r, (int64_t)out->count);
    int64_t way = random_below(r, 6);
    if (way == 0)
        out->count = at;
    else if (way == 1)
        for (int64_t more = random_between(r, 1, 3); more > 0; more--)
            out->at[out->count++] = random_chance(r, 50) ? 0 : (uint8_t)random_next(r);
    else if (out->count == 0)
        return;
    else if (way == 2)
        out->at[at] ^= (uint8_t)(1 << random_below(r, 8));
    else if (way == 3)
        out->at[at] = (uint8_t)random_next(r);
    else if (way == 4)
        memmove(out->at + at, out->at + at + 1, --out->count - at);
    else {
        memmove(out->at + at + 1, out->at + at, out->count++ - at);
        out->at[at] = (uint8_t)random_next(r);
    }
}

void numbers_spoil_pack(struct random *r, struct numbers *list, struct bytes *out)
{
    size_t odd = chosen(r, list);
    int64_t way = random_below(r, 10);
    if (way < 5) {
        list->at[odd].value = odd_value(r, &list->at[odd]);
        numbers_pack(list, out);
    } else if (way < 7) {
        pack(list, odd, (size_t)random_between(r, 2, 11), out);
    } else {
        numbers_pack(list, out);
        bytes_spoil(r, out);
    }
}

void numbers_words(const struct numbers *list, struct words *out)
{
    out->count = list->count;
    for (size_t i = 0; i < list->count; i++)
        out->at[i] = list->at[i].value;
}

void words_spoil(struct random *r, const struct numbers *list, struct words *out)
{
    size_t odd = chosen(r, list);
    int64_t way = random_below(r, 10);
    if (way < 5 && odd < out->count)
        out->at[odd] = odd_value(r, &list->at[odd]);
    else if (way == 5 && odd < out->count)
        out->at[odd] = random_chance(r, 50) ? INT64_MIN : INT64_MAX;
    else if (way == 6 && odd < out->count)
        out->at[odd] = -1 - out->at[odd];
    else if (way == 7)
        out->count = odd;
    else if (way == 8 && out->count > 0)
        out->count--;
    else
        out->at[out->count++] = random_chance(r, 50) ? 0 : (int64_t)random_next(r);
}
