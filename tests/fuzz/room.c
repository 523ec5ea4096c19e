#define _DEFAULT_SOURCE
#include "room.h"

#include <stdio.h>
#include <stdlib.h>
#include <string.h>
#include <sys/mman.h>

#define PAGE 4096
#define GUARD 64 /* bytes */
#define MARK 0xA5

watcher *watching;
static uint8_t near[8 * ROOM_MOST], *near_end = near; /* after the last that is laid NEAR */

void expect(int is_so, const char *wrong)
{
    if (is_so)
        return;
    fprintf(stderr, "fuzz: wrong: %s\n", wrong);
    abort();
}

static void build(struct room *r)
{
    size_t all = ROOM_MOST + 2 * PAGE;
    uint8_t *start = mmap(NULL, all, PROT_READ | PROT_WRITE, MAP_PRIVATE | MAP_ANONYMOUS, -1, 0);
    expect(start != MAP_FAILED, "no memory");
    expect(mprotect(start, PAGE, PROT_NONE) == 0 && mprotect(start + all - PAGE, PAGE, PROT_NONE) == 0, "no fence");
    r->pages = start + PAGE;
    memset(r->pages, MARK, ROOM_MOST);
}

void begin_near(void)
{
    near_end = near;
}

static uint8_t *place(const struct room *r, size_t size, enum side side)
{
    if (side != NEAR)
        return side == AT_END ? r->pages + ROOM_MOST - size : r->pages;
    near_end += size;
    expect(near_end <= near + sizeof near - GUARD, "the test's own: too much is near");
    memset(near_end, MARK, GUARD);
    return near_end - size;
}

uint8_t *lay(struct room *r, const void *bytes, size_t size, enum side side, int null)
{
    if (r->pages == NULL)
        build(r);
    expect(size <= ROOM_MOST - GUARD, "the test's own: too much for a room");
    if (r->size > 0 && !r->is_near)
        memset(r->at, MARK, r->size); /* what lay there is a guard now */
    r->size = size;
    r->is_near = side == NEAR;
    r->at = place(r, size, side);
    if (size > 0)
        memcpy(r->at, bytes, size);
    must_become(r, bytes);
    return size == 0 && null ? NULL : r->at;
}

void must_become(struct room *r, const void *bytes)
{
    if (r->size > 0)
        memcpy(r->wanted, bytes, r->size);
}

void expect_room(const struct room *r, const char *name)
{
    int kept = memcmp(r->at, r->wanted, r->size) == 0;
    const uint8_t *guard = r->is_near ? near_end : r->at == r->pages ? r->at + r->size : r->at - GUARD;
    for (size_t k = 0; k < GUARD; k++)
        kept &= guard[k] == MARK;
    expect(kept, name);
    if (watching != NULL)
        watching(r->at, r->size);
}
