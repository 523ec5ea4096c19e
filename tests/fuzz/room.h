/* Memory with a fence before and one after: whoever reads or writes past it stops the process, which libFuzzer reports. */
#ifndef ROOM_H
#define ROOM_H

#include <stddef.h>
#include <stdint.h>

#define ROOM_MOST 20480 /* bytes that fit; more than any run that is lent */

struct room {
    uint8_t *pages;    /* between the fences */
    uint8_t *at;       /* the bytes that are lent */
    size_t size;
    int is_near;
    uint8_t wanted[ROOM_MOST]; /* the same bytes as they must be */
};

/* The fence that the bytes touch; at their other side stand guard bytes. NEAR: no fence, but each run right after the one that was
   laid before it, since compiled code may go another way where what it reads is less than 32 bytes before what it writes. */
enum side { AT_END, AT_START, NEAR };

/* Lends a copy of the bytes; NULL where there are none and null is asked for. */
uint8_t *lay(struct room *r, const void *bytes, size_t size, enum side side, int null);

/* The next that is laid NEAR has nothing before it. */
void begin_near(void);

/* What a call must make of them. */
void must_become(struct room *r, const void *bytes);

/* Ends the process where the bytes are not as `wanted` has them, or a guard byte was written to. */
void expect_room(const struct room *r, const char *name);

/* Where there is a watcher, it is shown all that the calls leave behind, in turn: a room's bytes once they are as expected, and each number
   that is told. So two machines can be held beside each other. */
typedef void watcher(const uint8_t *bytes, size_t size);
extern watcher *watching;

/* Ends the process, saying what is wrong, where it is not so. */
void expect(int is_so, const char *wrong);

#endif
