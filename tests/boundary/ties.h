/* Drafts whose terms of the gap are few and often equal, cells' and links', with a tolerance that the total passes early or late (document 02, W-202). */
#ifndef TIES_H
#define TIES_H

#include "drafts.h"

/* Takes a header that is drawn. The check accepts the draft, or refuses it with 9 alone. */
void ties_make(struct random *r, struct draft *draft);

#endif
