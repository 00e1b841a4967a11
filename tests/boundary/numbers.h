/* The numbers of a pack as a list with their limits, their bytes, and damage to either. */
#ifndef NUMBERS_H
#define NUMBERS_H

#include "drafts.h"

enum { MOST_NUMBERS = 2100, MOST_BYTES = 24000 };

struct number {
    int64_t value, low, high;
    bool is_signed;
};

/* The numbers of the head stand before a job's cells. */
struct numbers {
    size_t count, head;
    struct number at[MOST_NUMBERS];
};

struct bytes {
    size_t count;
    uint8_t at[MOST_BYTES];
};

struct words {
    size_t count;
    int64_t at[MOST_NUMBERS];
};

void numbers_of_job(const struct twin_job *job, struct numbers *list);
void numbers_of_proposal(const struct draft *draft, struct numbers *list);

/* The list's pack, well formed. */
void numbers_pack(const struct numbers *list, struct bytes *out);

/* The list's pack with one damage: a number at or beyond a limit, a form that is not the shortest, or bytes changed, cut, added or taken out. */
void numbers_spoil_pack(struct random *r, struct numbers *list, struct bytes *out);

/* Damage to the bytes alone. */
void bytes_spoil(struct random *r, struct bytes *out);

/* The list as the writer takes it, and damage to that. */
void numbers_words(const struct numbers *list, struct words *out);
void words_spoil(struct random *r, const struct numbers *list, struct words *out);

#endif
