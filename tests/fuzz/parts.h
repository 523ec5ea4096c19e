/* A fuzzer's input as a list of parts, each after its length in two bytes, so that one part is mutated and the others stay. */
#ifndef PARTS_H
#define PARTS_H

#include "model.h"

#define MOST_PARTS 16

/* How many parts this program's input has: each program says. */
extern const size_t part_count;

/* Any input will do: a part that is cut short is what there is of it, and one that is not there has no bytes. */
void split(const uint8_t *data, size_t size, struct bytes parts[]);

/* Reads a part from its front; zeros after its end. */
uint32_t take(struct bytes *part, size_t bytes);

/* So many bytes of a part, over and over; zeros where it has none. */
void repeat(uint8_t *to, size_t size, struct bytes part);

#endif
