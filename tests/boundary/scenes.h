/* Scenes: random calls of all thirteen functions, on drafts that last a few calls and on a shelf that lasts many. */
#ifndef SCENES_H
#define SCENES_H

#include "calls.h"
#include "random.h"

/* The next call. Its slices' contents stay as they are until the next one is asked for. */
void scene_call(struct random *r, struct call *call);

/* Takes over the shelf as the call, which returned `said`, has left it. */
void scene_shelf(const struct call *call, uint64_t said, const void *shelf);

#endif
