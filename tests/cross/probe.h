/* Of the crate probe, what tests/cross calls: MD5 and HMAC-MD5 of a message. Each gives 0, and writes the digest to 16 bytes. */
#ifndef PROBE_H
#define PROBE_H

#include <stddef.h>
#include <stdint.h>

uint32_t probe_md5(const uint8_t *message, size_t message_len, uint8_t *out, size_t out_len);
uint32_t probe_hmac(const uint8_t *key, size_t key_len, const uint8_t *message, size_t message_len, uint8_t *out, size_t out_len);

#endif
