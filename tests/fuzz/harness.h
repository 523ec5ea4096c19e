/* What the four programs share: how their inputs become arguments, and the numbers that a call writes. */
#ifndef HARNESS_H
#define HARNESS_H

#include "../../include/fumbokeri.h"
#include "mend.h"
#include "parts.h"
#include "room.h"

#define MOST_PACKET 8192
#define MOST_TABLE 19200
#define MOST_BUFFER 5000

struct numbers {
    int64_t skew;
    uint32_t changed, reply_len, stamped, unused;
};

/* libFuzzer calls it with each input. */
int LLVMFuzzerTestOneInput(const uint8_t *data, size_t size);

/* Length of a buffer to be written: 4,096 or more, now and then less; at most MOST_BUFFER. */
size_t buffer_size(uint32_t drawn);

/* A table's length: that of so many slots, or of none where the high bit says so. */
size_t table_size(uint32_t slots, uint32_t other);

/* The front of a part, fewer than so many bytes. */
struct bytes short_of(struct bytes part, size_t most);

/* A part as a packet of at most MOST_PACKET bytes; its size. */
size_t copy_packet(uint8_t *p, struct bytes part);

int is_refused(const struct told *t);
int is_reply(const struct told *t);

/* As expect, of a number that a call tells; the watcher is shown it, high byte first. */
void expect_number(uint32_t told, uint32_t wanted, const char *wrong);

/* The same of an answer; at the end of the process it is told how often each was given. */
void expect_answer(uint32_t answer, uint32_t wanted, const char *wrong);

/* The four numbers of a call, at a fence, before it; and after it beside what the model tells. */
struct numbers *lay_numbers(enum side side);
void expect_told(uint32_t answer, const struct told *wanted);

#endif
