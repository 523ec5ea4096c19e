/* MD5 and HMAC-MD5 as one writes them in C from the RFCs: what the benchmark compares with and tests sign with, never a part of the library. */
#include <stddef.h>
#include <stdint.h>

void plain_md5(const uint8_t *m, size_t n, uint8_t out[16]);
void plain_hmac(const uint8_t *key, size_t key_len, const uint8_t *m, size_t n, uint8_t out[16]);
