/* MD5 on the examples of RFC 1321 and HMAC-MD5 on those of RFC 2202, by the proved code; prints them as crates/vectors/stdout has them. */
#include <stdio.h>
#include <string.h>

#include "probe.h"

struct run {
    const char *text; /* what it repeats */
    size_t times;
};

static const char *const messages[] = {
    "",
    "a",
    "abc",
    "message digest",
    "abcdefghijklmnopqrstuvwxyz",
    "ABCDEFGHIJKLMNOPQRSTUVWXYZabcdefghijklmnopqrstuvwxyz0123456789",
    "12345678901234567890123456789012345678901234567890123456789012345678901234567890",
};

static const struct { struct run key, message; } keyed[] = {
    {{"\x0b", 16}, {"Hi There", 1}},
    {{"Jefe", 1}, {"what do ya want for nothing?", 1}},
    {{"\xaa", 16}, {"\xdd", 50}},
    {{"\x01\x02\x03\x04\x05\x06\x07\x08\x09\x0a\x0b\x0c\x0d\x0e\x0f\x10\x11\x12\x13\x14\x15\x16\x17\x18\x19", 1}, {"\xcd", 50}},
    {{"\x0c", 16}, {"Test With Truncation", 1}},
    {{"\xaa", 80}, {"Test Using Larger Than Block-Size Key - Hash Key First", 1}},
    {{"\xaa", 80}, {"Test Using Larger Than Block-Size Key and Larger Than One Block-Size Data", 1}},
};

static size_t laid_out(uint8_t *to, struct run run)
{
    size_t size = strlen(run.text);
    for (size_t k = 0; k < run.times; k++)
        memcpy(to + k * size, run.text, size);
    return run.times * size;
}

static void print_digest(const char *what, size_t number, uint32_t answer, const uint8_t digest[16])
{
    printf("%s %u ", what, (unsigned)number);
    for (int k = 0; k < 16; k++)
        printf("%02x", digest[k]);
    puts(answer == 0 ? "" : ", refused");
}

int main(void)
{
    uint8_t key[100], message[100], digest[16] = {0};
    for (size_t k = 0; k < sizeof messages / sizeof *messages; k++) {
        uint32_t answer = probe_md5((const uint8_t *)messages[k], strlen(messages[k]), digest, sizeof digest);
        print_digest("MD5", k + 1, answer, digest);
    }
    for (size_t k = 0; k < sizeof keyed / sizeof *keyed; k++) {
        size_t key_len = laid_out(key, keyed[k].key), message_len = laid_out(message, keyed[k].message);
        uint32_t answer = probe_hmac(key, key_len, message, message_len, digest, sizeof digest);
        print_digest("HMAC-MD5", k + 1, answer, digest);
    }
    return 0;
}
