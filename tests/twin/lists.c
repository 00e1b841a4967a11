/* Comma lists (document 02, W-201): a claims list made into a job's words, a table made into a list, and such a list read back. */
#include "parts.h"

#include <string.h>

enum { AGE, EXPOSURE, DEATHS, RATE = EXPOSURE };
enum { CLAIMS_FIELDS = 3, TABLE_FIELDS = 2 };
enum { MOST_LISTED = 1000000000, RATE_UNITS = 1000000, MOST_WEIGHT = 1000 };

static const char CLAIMS_HEADER[] = "age,exposure,deaths", TABLE_HEADER[] = "age,rate";

/* A text whose lines are taken one by one: the last one taken, from `start` to `end`, and its number. */
struct text {
    const uint8_t *bytes;
    size_t count, start, end, next;
    uint64_t line;
};

static inline bool is_end(const struct text *t, size_t at)
{
    return at == t->count || (t->bytes[at] == '\r' && at + 1 < t->count && t->bytes[at + 1] == '\n');
}

/* The next line, if there is one: CR LF at the end of the text begins no line. The first line is always there, of an empty text an empty one. */
static bool take_line(struct text *t)
{
    if (t->line > 0 && t->next == t->count)
        return false;
    t->line++;
    t->start = t->end = t->next;
    while (!is_end(t, t->end))
        t->end++;
    t->next = t->end == t->count ? t->count : t->end + 2;
    return true;
}

static bool is_header(const struct text *t, const char *header)
{
    size_t length = strlen(header);
    return t->end - t->start == length && memcmp(t->bytes + t->start, header, length) == 0;
}

/* The number at `at`, which moves behind it. It is left as soon as it is too large, so that it cannot wrap. */
static bool take_listed(const struct text *t, size_t *at, uint64_t *value)
{
    size_t first = *at;
    uint64_t sum = 0;
    for (; *at < t->end && t->bytes[*at] >= '0' && t->bytes[*at] <= '9'; ++*at) {
        sum = 10 * sum + (uint64_t)(t->bytes[*at] - '0');
        if (sum > MOST_LISTED)
            return false;
    }
    *value = sum;
    return *at > first && (t->bytes[first] != '0' || *at == first + 1);
}

/* So many numbers, a comma between each two, and nothing else on the line. */
static bool take_fields(const struct text *t, int fields, uint64_t *row)
{
    size_t at = t->start;
    for (int f = 0; f < fields; f++) {
        if (f > 0 && (at == t->end || t->bytes[at++] != ','))
            return false;
        if (!take_listed(t, &at, &row[f]))
            return false;
    }
    return at == t->end;
}

/* What is wrong with the line just taken, whose row follows those of the list: 0, 16, 17 or 18. Deaths are the last field of a claims list alone. */
static uint64_t line_fault(const struct text *t, int fields, struct twin_list *list)
{
    if (list->lines == MOST_CELLS || !take_fields(t, fields, list->row[list->lines]))
        return 16;
    const uint64_t *row = list->row[list->lines];
    if (list->lines > 0 && row[AGE] != list->row[list->lines - 1][AGE] + 1)
        return 17;
    return fields == CLAIMS_FIELDS && row[DEATHS] > row[EXPOSURE] ? 18 : 0;
}

static struct twin_answer read_list(const uint8_t *bytes, size_t count, const char *header, int fields, struct twin_list *list)
{
    struct text t = {.bytes = bytes, .count = count};
    list->lines = 0;
    take_line(&t);
    if (!is_header(&t, header))
        return twin_plain(16, t.line);
    while (take_line(&t)) {
        uint64_t fault = line_fault(&t, fields, list);
        if (fault != 0)
            return twin_plain(fault, t.line);
        list->lines++;
    }
    return twin_plain(0, 0);
}

struct twin_answer twin_read_claims(const uint8_t *text, size_t bytes, struct twin_list *list)
{
    return read_list(text, bytes, CLAIMS_HEADER, CLAIMS_FIELDS, list);
}

/* A list without a line of data is no table. */
struct twin_answer twin_read_table(const uint8_t *text, size_t bytes, struct twin_list *list)
{
    struct twin_answer a = read_list(text, bytes, TABLE_HEADER, TABLE_FIELDS, list);
    return a.number == 0 && list->lines == 0 ? twin_plain(2, 0) : a;
}

uint32_t twin_listed_rate(const struct twin_list *list, size_t line)
{
    return (uint32_t)list->row[line][RATE];
}

/* Deaths times 1,000,000 over exposure, halves up: half of the exposure is added before the division, both doubled to stay whole. */
static int64_t crude_rate(uint64_t exposure, uint64_t deaths)
{
    return exposure == 0 ? 0 : (int64_t)((2 * deaths * RATE_UNITS + exposure) / (2 * exposure));
}

static int64_t weight(uint64_t exposure, uint64_t divisor)
{
    return exposure / divisor < MOST_WEIGHT ? (int64_t)(exposure / divisor) : MOST_WEIGHT;
}

/* No number of a pack may be the largest word, so it stands for whatever is too large for its field. */
static int64_t word_of(uint64_t number)
{
    return number > INT64_MAX ? INT64_MAX : (int64_t)number;
}

/* An import makes lines of ages only, so an order field that would announce something else is too large. */
static int64_t order_word(uint64_t order)
{
    return order > MOST_ORDER ? INT64_MAX : (int64_t)order;
}

size_t twin_claims_words(const struct twin_list *list, const struct twin_claims_job *job, int64_t *words)
{
    const int64_t head[] = {word_of(job->society), word_of(job->number), (int64_t)list->lines, order_word(job->order),
                            word_of(job->constant), word_of(job->tolerance)};
    size_t at = sizeof head / sizeof *head;
    memcpy(words, head, sizeof head);
    for (size_t i = 0; i < list->lines; i++) {
        words[at++] = crude_rate(list->row[i][EXPOSURE], list->row[i][DEATHS]);
        words[at++] = weight(list->row[i][EXPOSURE], job->divisor);
        words[at++] = word_of(job->floor);
        words[at++] = word_of(job->ceiling);
    }
    words[at++] = 0;
    return at;
}

/* The last age is tested from the limit downwards: first age plus count could wrap. */
struct twin_answer twin_can_list(const uint32_t *rates, size_t count, uint64_t first_age)
{
    if (count < 1 || count > MOST_CELLS || first_age > MOST_LISTED - (count - 1))
        return twin_plain(2, 0);
    for (size_t i = 0; i < count; i++)
        if (rates[i] > MOST_LISTED)
            return twin_plain(2, 0);
    return twin_plain(0, 0);
}

static size_t put_listed(uint64_t value, uint8_t *out)
{
    size_t digits = 1;
    for (uint64_t rest = value / 10; rest > 0; rest /= 10)
        digits++;
    for (size_t i = digits; i-- > 0; value /= 10)
        out[i] = (uint8_t)('0' + value % 10);
    return digits;
}

static size_t put_text(const char *text, uint8_t *out)
{
    memcpy(out, text, strlen(text));
    return strlen(text);
}

size_t twin_put_list(const uint32_t *rates, size_t count, uint64_t first_age, uint8_t *out)
{
    size_t at = put_text(TABLE_HEADER, out);
    at += put_text("\r\n", out + at);
    for (size_t i = 0; i < count; i++) {
        at += put_listed(first_age + i, out + at);
        at += put_text(",", out + at);
        at += put_listed(rates[i], out + at);
        at += put_text("\r\n", out + at);
    }
    return at;
}
