/* See lists.h. A list is drawn as numbers, which may be wrong; then as lines, which may be malformed; then as bytes. */
#include "lists.h"

#include <inttypes.h>
#include <stdio.h>
#include <string.h>

enum { MOST_DATA = 124, LINE_ROOM = 160, FIELDS = 3, MILLIARD = 1000000000 };
enum { AGE, EXPOSURE, DEATHS };

/* The lines of data with their numbers; all lines as text, the header first, and what stands behind each of them. */
static int64_t data, fields;
static uint64_t number[MOST_DATA][FIELDS];
static char line[MOST_DATA + 1][LINE_ROOM];
static const char *end[MOST_DATA + 1];

/* One of the numbers, each as likely as any other. */
static uint64_t one_of(struct random *r, const uint64_t *numbers, size_t bytes)
{
    return numbers[random_below(r, (int64_t)(bytes / sizeof *numbers))];
}

/* A number of one to nine digits, or 10^9. */
static uint64_t any_listed(struct random *r)
{
    uint64_t limit = 10;
    for (int64_t digits = random_below(r, 9); digits > 0; digits--)
        limit *= 10;
    return (uint64_t)random_below(r, (int64_t)limit + 1);
}

/* Those whose deaths, if odd, give a rate that ends in a half. */
static uint64_t half_exposure(struct random *r)
{
    static const uint64_t halves[] = {128, 640, 80000, 2000000, 6000000, 400000000};
    return one_of(r, halves, sizeof halves);
}

/* So many times the divisor, or one less or more, if that can be listed. */
static uint64_t near_weight(struct random *r, uint64_t divisor, uint64_t weight)
{
    return divisor <= MILLIARD / 1000 ? weight * divisor - 1 + (uint64_t)random_below(r, 3) : any_listed(r);
}

static uint64_t some_exposure(struct random *r, uint64_t divisor)
{
    int64_t way = random_below(r, 16);
    if (way == 0)
        return 0;
    if (way == 1)
        return MILLIARD - (uint64_t)random_below(r, 2);
    if (way < 4)
        return half_exposure(r);
    if (way < 7) {
        uint64_t near = near_weight(r, divisor == 0 ? 1 : divisor, way == 4 ? 1000 : way == 5 ? 1001 : 1);
        return near > MILLIARD ? MILLIARD : near;
    }
    return way == 7 ? (uint64_t)random_below(r, 10) : any_listed(r);
}

static uint64_t some_deaths(struct random *r, uint64_t exposure)
{
    int64_t way = random_below(r, 8);
    uint64_t any = (uint64_t)random_below(r, (int64_t)exposure + 1);
    if (way == 0)
        return 0;
    if (way == 1)
        return exposure;
    return way == 2 && exposure > 0 ? (any - 1) | 1 : way < 5 ? any % 20 : any;
}

static int64_t some_count(struct random *r)
{
    int64_t way = random_below(r, 10);
    return way < 5 ? random_between(r, 2, 12) : way < 7 ? random_below(r, 4) : way < 9 ? random_between(r, 119, 121) : random_below(r, 123);
}

/* Most often one from which all ages are allowed; the last of them may be 10^9, or one more. */
static uint64_t some_first_age(struct random *r, int64_t count)
{
    int64_t way = random_below(r, 10);
    if (way < 5)
        return (uint64_t)random_below(r, 101);
    if (way == 9)
        return any_listed(r);
    return way < 7 ? 0 : (uint64_t)(MILLIARD - count + (way == 7 ? 1 : random_below(r, 4)));
}

/* Numbers for a list that is good, but for ages above 10^9 and lines beyond the 120. */
static void draw_numbers(struct random *r, int64_t of_fields, uint64_t divisor)
{
    data = some_count(r);
    fields = of_fields;
    uint64_t age = some_first_age(r, data);
    for (int64_t i = 0; i < data; i++) {
        number[i][AGE] = age + (uint64_t)i;
        number[i][EXPOSURE] = of_fields == FIELDS ? some_exposure(r, divisor) : any_listed(r);
        number[i][DEATHS] = of_fields == FIELDS ? some_deaths(r, number[i][EXPOSURE]) : 0;
    }
}

/* An age that is not the next, here alone or from here on; deaths above exposure; or a number that is too large. */
static void spoil_number(struct random *r, int64_t at)
{
    uint64_t *row = number[at], shift = (uint64_t)random_between(r, 1, 2);
    switch (random_below(r, 8)) {
    case 0: row[AGE] += shift; break;
    case 1: row[AGE] -= row[AGE] > 0; break;
    case 2: row[AGE] = random_chance(r, 50) ? 0 : any_listed(r); break;
    case 3:
        for (int64_t i = at; i < data; i++)
            number[i][AGE] += shift;
        break;
    case 4: row[DEATHS] = row[EXPOSURE] + 1; break;
    case 5: row[EXPOSURE] = 0, row[DEATHS] = 1; break;
    case 6: row[DEATHS] = any_listed(r); break;
    default: row[random_below(r, fields)] = MILLIARD + 1;
    }
}

/* Field after field, as they are. */
static void put_line(int64_t at)
{
    char *out = line[at + 1];
    for (int64_t f = 0; f < fields; f++)
        out += sprintf(out, "%s%" PRIu64, f > 0 ? "," : "", number[at][f]);
}

static const char *header_of(int64_t of_fields)
{
    return of_fields == FIELDS ? "age,exposure,deaths" : "age,rate";
}

static void put_lines(void)
{
    strcpy(line[0], header_of(fields));
    for (int64_t i = 0; i <= data; i++)
        end[i] = "\r\n";
    for (int64_t i = 0; i < data; i++)
        put_line(i);
}

/* 2^64 and the number: what wraps would take it for the number. */
static void put_wrapped(uint64_t value, char *out)
{
    uint64_t low = 709551616 + value;
    sprintf(out, "%" PRIu64 "%09" PRIu64, 18446744073u + low / MILLIARD, low % MILLIARD);
}

/* A field that is malformed or out of range, about its right value. */
static void put_odd(struct random *r, uint64_t value, char *out)
{
    static const char *const forms[] = {"0%" PRIu64, "000%" PRIu64, "+%" PRIu64, "-%" PRIu64, " %" PRIu64, "%" PRIu64 " ", "\"%" PRIu64 "\"",
                                        "%" PRIu64 ".0", "%" PRIu64 "e0", "\t%" PRIu64, "00000000000000000000000%" PRIu64, "%" PRIu64 "000000000000"};
    static const char *const others[] = {"", "00", "1000000001", "1999999999", "9999999999", "10000000000", "x", "0x1", "-0",
                                         "99999999999999999999999999"};
    int64_t way = random_below(r, 4);
    if (way == 0)
        put_wrapped(value, out);
    else if (way == 1)
        strcpy(out, others[random_below(r, (int64_t)(sizeof others / sizeof *others))]);
    else if (way == 2 && random_chance(r, 40))
        sprintf(out, "%" PRIu64, value + (UINT64_C(1) << 32));
    else
        sprintf(out, forms[random_below(r, (int64_t)(sizeof forms / sizeof *forms))], value);
}

static void spoil_field(struct random *r, int64_t at)
{
    char *out = line[at + 1];
    int64_t odd = random_below(r, fields);
    for (int64_t f = 0; f < fields; f++) {
        out += sprintf(out, "%s", f > 0 ? "," : "");
        if (f == odd)
            put_odd(r, number[at][f], out);
        else
            sprintf(out, "%" PRIu64, number[at][f]);
        out += strlen(out);
    }
}

static void insert_byte(char *text, size_t at, char byte)
{
    memmove(text + at + 1, text + at, strlen(text + at) + 1);
    text[at] = byte;
}

/* A comma, a bare CR or LF, a blank, a quote, a digit or what stands beside the digits, somewhere on the line, most often at one of its ends. */
static void spoil_inside(struct random *r, char *text)
{
    static const char odd[] = {',', '\r', '\n', ' ', '"', '0', '1', '/', ':'};
    size_t length = strlen(text);
    int64_t way = random_below(r, 3);
    insert_byte(text, way == 0 ? 0 : way == 1 ? length : (size_t)random_below(r, (int64_t)length + 1), odd[random_below(r, sizeof odd)]);
}

/* A field too few or too many, a comma missing, twice or another byte, or nothing on the line at all. */
static void spoil_shape(struct random *r, char *text)
{
    char *first = strchr(text, ','), *last = strrchr(text, ',');
    switch (random_below(r, 7)) {
    case 0: strcat(text, ",1"); break;
    case 1: strcat(text, ","); break;
    case 2: *text = 0; break;
    case 3:
        if (last)
            *last = 0;
        break;
    case 4:
        if (first)
            memmove(first, first + 1, strlen(first));
        break;
    case 5:
        if (last)
            *last = ';';
        break;
    default:
        if (first)
            insert_byte(text, (size_t)(first - text), ',');
    }
}

/* The other header, or this one with a mark, a quote, a blank or a capital, or with something too few or too many at its end. */
static void spoil_header(struct random *r)
{
    const char *was = header_of(fields);
    char *text = line[0];
    size_t length = strlen(strcpy(text, was));
    switch (random_below(r, 10)) {
    case 0: strcpy(text, header_of(fields == FIELDS ? FIELDS - 1 : FIELDS)); break;
    case 1: sprintf(text, "\xEF\xBB\xBF%s", was); break;
    case 2: sprintf(text, "\"age\"%s", was + 3); break;
    case 3: sprintf(text, "age, %s", was + 4); break;
    case 4: text[0] = 'A'; break;
    case 5:
        for (size_t i = 0; i < length; i++)
            text[i] -= text[i] == ',' ? 0 : 'a' - 'A';
        break;
    case 6: text[length - 1] = 0; break;
    case 7: strcat(text, random_chance(r, 50) ? "s" : ","); break;
    case 8: strcpy(text, "0,0"); break;
    default: *text = 0;
    }
}

static void spoil_end(struct random *r, int64_t at)
{
    static const char *const odd[] = {"\n", "\r", "\n\r", "\r\n\r\n", "\r\r\n", "\r\n\n", "\n\r\n", ""};
    end[at] = odd[random_below(r, 8)];
}

/* The text of a line, 0 being the header. */
static void spoil_line(struct random *r, int64_t at)
{
    int64_t way = random_below(r, 12);
    if (way < 3)
        spoil_end(r, at);
    else if (way < 5)
        spoil_inside(r, line[at]);
    else if (at == 0)
        spoil_header(r);
    else if (way < 10)
        spoil_field(r, at - 1);
    else
        spoil_shape(r, line[at]);
}

/* A line to damage: often the last, less often the header, else any. */
static int64_t some_line(struct random *r)
{
    return random_chance(r, 20) ? data : random_chance(r, 15) || data == 0 ? 0 : random_between(r, 1, data);
}

/* The 121st line, if it is the last: refused whatever it holds, also if that is nothing. */
static void put_beyond(struct random *r)
{
    static const char *const some[] = {"", "x", "0", "1,1,2", "1,1", "0,0,0"};
    if (data == MOST_CELLS + 1 && random_chance(r, 60))
        strcpy(line[data], some[random_below(r, 6)]);
}

static void put_bytes(struct bytes *out)
{
    out->count = 0;
    for (int64_t i = 0; i <= data; i++) {
        size_t length = strlen(line[i]), behind = strlen(end[i]);
        memcpy(out->at + out->count, line[i], length);
        memcpy(out->at + out->count + length, end[i], behind);
        out->count += length + behind;
    }
}

/* One damage, or two on the same line or on two, each to the numbers or to the text; then now and then one to the bytes, or no bytes at all. The last
 * line may lack its end. */
static void finish(struct random *r, struct bytes *out)
{
    int damages = !random_chance(r, 38) ? 0 : random_chance(r, 60) ? 1 : 2;
    int64_t at[] = {some_line(r), some_line(r)};
    bool in_text[] = {random_chance(r, 60), random_chance(r, 60)};
    if (random_chance(r, 50))
        at[1] = at[0];
    for (int i = 0; i < damages; i++)
        if (!in_text[i] && at[i] > 0)
            spoil_number(r, at[i] - 1);
    put_lines();
    put_beyond(r);
    if (random_chance(r, 30))
        end[data] = "";
    for (int i = 0; i < damages; i++)
        if (in_text[i] || at[i] == 0)
            spoil_line(r, at[i]);
    put_bytes(out);
    if (random_chance(r, 8))
        bytes_spoil(r, out);
    if (random_below(r, 200) == 0)
        out->count = 0;
}

void list_claims(struct random *r, uint64_t divisor, struct bytes *out)
{
    draw_numbers(r, FIELDS, divisor);
    finish(r, out);
}

void list_table(struct random *r, struct bytes *out)
{
    draw_numbers(r, FIELDS - 1, 1);
    finish(r, out);
}

/* The least and the most that the pack allows of each; a divisor may be anything but 0. */
static const uint64_t LEAST[IMPORT_NUMBERS] = {1, 0, 0, 0, 1, 0, 0, 0};
static const uint64_t MOST[IMPORT_NUMBERS] = {UINT64_MAX, 7, 4294967295, 4, 1000, 1000000000000000, 1000000, 1000000};

/* At a limit or one beyond it; or what becomes the right number where it is cut to 32 or 63 bits. */
static uint64_t odd_number(struct random *r, int which, uint64_t right)
{
    static const uint64_t far[] = {UINT64_MAX, UINT64_MAX - 1, UINT64_C(1) << 63, (UINT64_C(1) << 63) - 1, UINT64_C(1) << 32};
    switch (random_below(r, 8)) {
    case 0: return LEAST[which];
    case 1: return LEAST[which] - 1;
    case 2: return MOST[which];
    case 3: return MOST[which] + 1;
    case 4: return MOST[which] + 2;
    case 5: return right + (UINT64_C(1) << 32);
    case 6: return right + (UINT64_C(1) << 63);
    default: return one_of(r, far, sizeof far);
    }
}

static uint64_t some_divisor(struct random *r)
{
    static const uint64_t some[] = {1, 2, 3, 100, 1000, 999999, 1000000, 1000001, MILLIARD, MILLIARD + 1};
    return random_chance(r, 50) ? 1 + any_listed(r) % 100000 : one_of(r, some, sizeof some);
}

void list_numbers(struct random *r, uint64_t numbers[IMPORT_NUMBERS])
{
    numbers[DIVISOR] = some_divisor(r);
    for (int i = SOCIETY; i < IMPORT_NUMBERS; i++)
        numbers[i] = (uint64_t)random_between(r, (int64_t)LEAST[i], (int64_t)MOST[i]);
    if (numbers[FLOOR] > numbers[CEILING])
        numbers[FLOOR] = random_chance(r, 90) ? (uint64_t)random_below(r, (int64_t)numbers[CEILING] + 1) : numbers[FLOOR];
    if (random_chance(r, 2))
        numbers[DIVISOR] = 0;
    if (random_chance(r, 2))
        numbers[ORDER] = (uint64_t)random_between(r, 5, 6);
    for (int left = random_chance(r, 25) ? 1 + random_chance(r, 30) : 0; left > 0; left--) {
        int which = (int)random_below(r, IMPORT_NUMBERS);
        numbers[which] = odd_number(r, which, numbers[which]);
    }
}

/* First ages for so many rates, of which the last age is 10^9 or one more, or whose sum with the count wraps. */
static uint64_t odd_first_age(struct random *r, size_t count)
{
    static const uint64_t far[] = {MILLIARD, MILLIARD + 1, UINT64_C(1) << 32, UINT64_C(1) << 63, UINT64_MAX};
    switch (random_below(r, 6)) {
    case 0:
    case 1: return MILLIARD + 1 - count;
    case 2: return MILLIARD + 2 - count;
    case 3: return 0 - (uint64_t)count + (uint64_t)random_below(r, 3);
    case 4: return (UINT64_C(1) << 32) + (uint64_t)random_below(r, 100);
    default: return one_of(r, far, sizeof far);
    }
}

size_t list_rates(struct random *r, uint32_t *rates, uint64_t *first_age)
{
    static const uint64_t odd[] = {MILLIARD + 1, MILLIARD + 2, 2147483648u, UINT32_MAX};
    size_t count = random_chance(r, 3) ? MOST_RATES : (size_t)some_count(r);
    *first_age = random_chance(r, 60) ? any_listed(r) % (MILLIARD - MOST_RATES) : odd_first_age(r, count);
    for (size_t i = 0; i < count; i++)
        rates[i] = (uint32_t)(random_chance(r, 5) ? MILLIARD : any_listed(r));
    if (count > 0 && random_chance(r, 15))
        rates[random_chance(r, 40) ? (int64_t)count - 1 : random_below(r, (int64_t)count)] = (uint32_t)one_of(r, odd, sizeof odd);
    return count;
}
