/* Values as text has them: numbers, addresses, bytes in hex. Each returns 1, or 0 where the text is no such value. */
#ifndef VALUES_H
#define VALUES_H

#include <stddef.h>
#include <stdint.h>

/* A decimal number from least to most. */
int read_number(const char *text, uint32_t least, uint32_t most, uint32_t *value);

/* Four numbers with points between, first byte highest. */
int read_address(const char *text, uint32_t *value);

/* Pairs of hex digits, at most `size` of them. */
int read_hex(const char *text, uint8_t *bytes, size_t size, size_t *length);

#endif
