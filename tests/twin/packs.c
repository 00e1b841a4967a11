/* Packs (document 01, "Packs" and "Numbers allowed"; document 02, W-205): one walk along a job's numbers, whether they come as bytes or as the
 * writer's words, so that the writer refuses as reading its pack would. The steps for one number are inline: the bench's speed is held against
 * the twin's. */
#include "parts.h"

/* Where numbers come from: bytes, or words if `bytes` is null. `at` and `start` count bytes in both cases. */
struct source {
    const uint8_t *bytes;
    const int64_t *words;
    size_t count;
    size_t next_word;
    size_t at;
    size_t start;
    struct twin_answer refusal;
};

enum form { UNSIGNED, SIGNED };

static inline bool refuse(struct source *s, uint64_t number, uint64_t place)
{
    s->refusal = twin_plain(number, place);
    return false;
}

static inline bool number(const uint8_t *bytes, size_t count, size_t *at, uint64_t *value)
{
    uint64_t sum = 0;
    for (size_t group = 0; group < 9 && *at + group < count; group++) {
        uint8_t byte = bytes[*at + group];
        sum |= (uint64_t)(byte & 127) << (7 * group);
        if (byte < 128) {
            if (byte == 0 && group > 0)
                return false;
            *at += group + 1;
            *value = sum;
            return true;
        }
    }
    return false;
}

bool twin_number(const uint8_t *bytes, size_t count, size_t *at, uint64_t *value)
{
    return number(bytes, count, at, value);
}

size_t twin_put_number(uint8_t *out, uint64_t value)
{
    size_t bytes = 0;
    for (; value > 127; value >>= 7)
        out[bytes++] = (uint8_t)(value | 128);
    out[bytes++] = (uint8_t)value;
    return bytes;
}

/* 2x for x >= 0 and -2x-1 below. */
static inline uint64_t stored(enum form form, int64_t x)
{
    if (form == UNSIGNED)
        return (uint64_t)x;
    return x >= 0 ? 2 * (uint64_t)x : 2 * (uint64_t)-x - 1;
}

static inline int64_t meant(enum form form, uint64_t x)
{
    if (form == UNSIGNED)
        return (int64_t)x;
    return x % 2 == 0 ? (int64_t)(x / 2) : -(int64_t)(x / 2) - 1;
}

static inline size_t bytes_of(uint64_t value)
{
    size_t bytes = 1;
    for (; value > 127; value >>= 7)
        bytes++;
    return bytes;
}

/* The next number, read (1) and then tested (2). A word is tested before its length in bytes is asked for. */
static inline bool take(struct source *s, enum form form, int64_t low, int64_t high, int64_t *value)
{
    s->start = s->at;
    if (s->bytes) {
        uint64_t raw;
        if (!number(s->bytes, s->count, &s->at, &raw))
            return refuse(s, 1, s->start);
        *value = meant(form, raw);
    } else {
        if (s->next_word == s->count)
            return refuse(s, 1, s->start);
        *value = s->words[s->next_word++];
    }
    if (*value < low || *value > high)
        return refuse(s, 2, s->start);
    if (!s->bytes)
        s->at += bytes_of(stored(form, *value));
    return true;
}

/* An order: at most 4, and less than the count of cells that it runs over. */
static bool take_order(struct source *s, int64_t length, int64_t *order)
{
    return take(s, UNSIGNED, 1, length > MOST_ORDER ? MOST_ORDER : length - 1, order);
}

/* The fields of a grid. Rows may be any number of at least 2, so columns are held to n / rows first: then the product cannot wrap. */
static bool take_grid(struct source *s, struct twin_job *job)
{
    if (!take(s, UNSIGNED, 2, INT64_MAX, &job->rows) || !take(s, UNSIGNED, 2, job->cells / job->rows, &job->columns))
        return false;
    if (job->rows * job->columns != job->cells)
        return refuse(s, 2, s->start);
    return take_order(s, job->rows, &job->down) && take_order(s, job->columns, &job->across) && take(s, UNSIGNED, 1, 999, &job->second);
}

/* A line has no fields of its own; its order is tested where the order field stands. */
static bool is_line(struct source *s, struct twin_job *job)
{
    job->rows = job->cells;
    job->columns = job->across = 1;
    job->second = 0;
    job->down = job->order_field == 0 ? 2 : job->order_field;
    return job->down < job->cells || refuse(s, 2, s->start);
}

static bool take_header(struct source *s, struct twin_job *job)
{
    if (!take(s, UNSIGNED, 0, 7, &job->society) || !take(s, UNSIGNED, 0, 4294967295, &job->number)
        || !take(s, UNSIGNED, 2, MOST_CELLS, &job->cells) || !take(s, UNSIGNED, 0, GRID, &job->order_field))
        return false;
    if (job->order_field == GRID ? !take_grid(s, job) : !is_line(s, job))
        return false;
    return take(s, UNSIGNED, 1, 1000 - job->second, &job->constant) && take(s, UNSIGNED, 0, 1000000000000000, &job->tolerance);
}

static inline bool take_cell(struct source *s, struct twin_job *job, int64_t i)
{
    if (!take(s, UNSIGNED, 0, MOST_VALUE, &job->u[i]) || !take(s, UNSIGNED, 0, 1000, &job->w[i])
        || !take(s, UNSIGNED, 0, MOST_VALUE, &job->lo[i]) || !take(s, UNSIGNED, 0, MOST_VALUE, &job->hi[i]))
        return false;
    return job->lo[i] <= job->hi[i] || refuse(s, 3, (uint64_t)i);
}

/* A row holds enough if it has the order across of positive weights; the order down of such rows is needed. A row of a line is a cell. */
static bool take_cells(struct source *s, struct twin_job *job)
{
    int64_t enough = 0;
    for (int64_t start = 0; start < job->cells; start += job->columns) {
        int64_t positive = 0;
        for (int64_t i = start; i < start + job->columns; i++) {
            if (!take_cell(s, job, i))
                return false;
            positive += job->w[i] > 0;
        }
        enough += positive >= job->across;
    }
    return enough >= job->down || refuse(s, 4, 0);
}

static bool take_link(struct source *s, int64_t cells, uint64_t place, struct twin_link *link)
{
    if (!take(s, UNSIGNED, 1, MOST_TERMS, &link->terms))
        return false;
    for (int64_t t = 0; t < link->terms; t++) {
        if (!take(s, UNSIGNED, 0, cells - 1, &link->cell[t]) || !take(s, SIGNED, -10, 10, &link->coefficient[t]))
            return false;
        if (link->coefficient[t] == 0 || (t > 0 && link->cell[t] <= link->cell[t - 1]))
            return refuse(s, 5, place);
    }
    return take(s, SIGNED, -1000000000, 1000000000, &link->bound);
}

static struct twin_answer walk(struct source *s, struct twin_job *job)
{
    if (!take_header(s, job) || !take_cells(s, job) || !take(s, UNSIGNED, 0, MOST_LINKS, &job->links))
        return s->refusal;
    for (int64_t l = 0; l < job->links; l++)
        if (!take_link(s, job->cells, (uint64_t)l, &job->link[l]))
            return s->refusal;
    if ((s->bytes ? s->at : s->next_word) < s->count)
        return twin_plain(1, s->at);
    return twin_plain(0, 0);
}

struct twin_answer twin_read_job(const uint8_t *bytes, size_t count, struct twin_job *job)
{
    struct source s = {.bytes = bytes, .count = count};
    return walk(&s, job);
}

struct twin_answer twin_read_words(const int64_t *words, size_t count, struct twin_job *job, size_t *bytes)
{
    struct source s = {.words = words, .count = count};
    struct twin_answer answer = walk(&s, job);
    *bytes = s.at;
    return answer;
}

/* Every refusal of a proposal pack is 6, at the place that it would have in a job pack. */
struct twin_answer twin_read_proposal(const uint8_t *bytes, size_t count, const struct twin_job *job, struct twin_table *table)
{
    struct source s = {.bytes = bytes, .count = count};
    for (int64_t i = 0; i < job->cells; i++)
        if (!take(&s, UNSIGNED, 0, MOST_VALUE, &table->value[i]))
            return twin_plain(6, s.start);
    for (int64_t l = 0; l < job->links; l++)
        if (!take(&s, UNSIGNED, 0, MOST_MULTIPLIER, &table->multiplier[l]))
            return twin_plain(6, s.start);
    return s.at < count ? twin_plain(6, s.at) : twin_plain(0, 0);
}

size_t twin_job_words(const struct twin_job *job)
{
    size_t words = (job->order_field == GRID ? 12 : 7) + 4 * (size_t)job->cells;
    for (int64_t l = 0; l < job->links; l++)
        words += 2 + 2 * (size_t)job->link[l].terms;
    return words;
}

/* Where a job's numbers go: words, or bytes if `words` is null. */
struct sink {
    int64_t *words;
    uint8_t *bytes;
};

static void give(struct sink *s, enum form form, int64_t value)
{
    if (s->words)
        *s->words++ = value;
    else
        s->bytes += twin_put_number(s->bytes, stored(form, value));
}

static void give_header(struct sink *s, const struct twin_job *job)
{
    const int64_t first[] = {job->society, job->number, job->cells, job->order_field};
    const int64_t grid[] = {job->rows, job->columns, job->down, job->across, job->second};
    for (int i = 0; i < 4; i++)
        give(s, UNSIGNED, first[i]);
    for (int i = 0; i < 5 && job->order_field == GRID; i++)
        give(s, UNSIGNED, grid[i]);
    give(s, UNSIGNED, job->constant);
    give(s, UNSIGNED, job->tolerance);
}

static void give_job(struct sink *s, const struct twin_job *job)
{
    give_header(s, job);
    for (int64_t i = 0; i < job->cells; i++) {
        give(s, UNSIGNED, job->u[i]);
        give(s, UNSIGNED, job->w[i]);
        give(s, UNSIGNED, job->lo[i]);
        give(s, UNSIGNED, job->hi[i]);
    }
    give(s, UNSIGNED, job->links);
    for (int64_t l = 0; l < job->links; l++) {
        const struct twin_link *link = &job->link[l];
        give(s, UNSIGNED, link->terms);
        for (int64_t t = 0; t < link->terms; t++) {
            give(s, UNSIGNED, link->cell[t]);
            give(s, SIGNED, link->coefficient[t]);
        }
        give(s, SIGNED, link->bound);
    }
}

void twin_put_words(const struct twin_job *job, int64_t *words)
{
    struct sink s = {.words = words};
    give_job(&s, job);
}

void twin_put_job(const struct twin_job *job, uint8_t *out)
{
    struct sink s = {.bytes = out};
    give_job(&s, job);
}
