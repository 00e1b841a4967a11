/* See lent.h. Every region is laid out anew for each call, so a byte written outside a slice is seen at the call that wrote it. */
#define _DEFAULT_SOURCE
#include "lent.h"

#include <stdio.h>
#include <stdlib.h>
#include <string.h>
#include <sys/mman.h>
#include <unistd.h>

enum { LEAST_ROOM = 40960, GUARD_BYTES = 64, GUARD = 0xA5 };

static uint8_t *region[SIDES][MOST_SLICES];
static size_t room;
static enum lie lie;

static uint8_t *open_region(size_t page)
{
    uint8_t *at = mmap(NULL, room + 2 * page, PROT_NONE, MAP_PRIVATE | MAP_ANONYMOUS, -1, 0);
    if (at == MAP_FAILED || mprotect(at + page, room, PROT_READ | PROT_WRITE) != 0) {
        perror("the regions for slices");
        exit(2);
    }
    return at + page;
}

void lent_open(enum lie how)
{
    size_t page = (size_t)sysconf(_SC_PAGESIZE);
    lie = how;
    room = (LEAST_ROOM + page - 1) / page * page;
    for (int side = 0; side < SIDES; side++)
        for (int i = 0; i < MOST_SLICES; i++)
            region[side][i] = open_region(page);
}

static size_t offset_of(size_t bytes)
{
    return lie == START ? 0 : lie == END ? room - bytes : GUARD_BYTES;
}

void *lent_at(int side, int index, const struct slice *slice)
{
    return region[side][index] + offset_of(slice->count * slice->width);
}

/* The guard bytes before and after a slice, as far as the region goes. */
static size_t before(size_t offset) { return offset < GUARD_BYTES ? offset : GUARD_BYTES; }
static size_t after(size_t end) { return room - end < GUARD_BYTES ? room - end : GUARD_BYTES; }

void *lent_lay(int side, int index, const struct slice *slice)
{
    size_t bytes = slice->count * slice->width, offset = offset_of(bytes);
    uint8_t *at = region[side][index] + offset;
    if (bytes + 2 * GUARD_BYTES > room)
        abort();
    memset(at - before(offset), GUARD, before(offset));
    memset(at + bytes, GUARD, after(offset + bytes));
    memcpy(at, slice->content, bytes);
    return at;
}

bool lent_guarded(int side, int index, const struct slice *slice)
{
    size_t bytes = slice->count * slice->width, offset = offset_of(bytes);
    const uint8_t *at = region[side][index] + offset;
    for (size_t i = 1; i <= before(offset); i++)
        if (*(at - i) != GUARD)
            return false;
    for (size_t i = 0; i < after(offset + bytes); i++)
        if (at[bytes + i] != GUARD)
            return false;
    return true;
}
