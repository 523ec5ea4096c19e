/* Requests of every end that the secret has a part in, and the table that they find. */
#include <string.h>

#include "../fuzz/mend.h"
#include "ct.h"

const struct kind kinds[KINDS] = {
    {"ack", 40, 0, RIGHT, 0, 1, 0, 0, 0},
    {"ack, with 80", 40, 1, RIGHT, 0, 1, 0, 0, 0},
    {"CoA ack", 43, 0, RIGHT, 0, 1, 0, 0, 0},
    {"CoA ack, with 80", 43, 1, RIGHT, 0, 1, 0, 0, 0},
    {"503", 40, 0, RIGHT, 0, 0, 0, 0, 503},
    {"503, with 80", 40, 1, RIGHT, 0, 0, 0, 0, 503},
    {"CoA 503 of 3,900 bytes", 43, 0, RIGHT, 0, 0, 15, 0, 503},
    {"CoA 503 of 3,900 bytes, with 80", 43, 1, RIGHT, 0, 0, 15, 0, 503},
    {"stale", 40, 0, RIGHT, 0, 1, 0, 301, 106},
    {"stale, with 80", 40, 1, RIGHT, 0, 1, 0, 301, 106},
    {"first byte of the authenticator", 40, 0, OTHER_AUTHENTICATOR, 0, 1, 0, 0, 104},
    {"last byte of the authenticator", 43, 0, OTHER_AUTHENTICATOR, 15, 1, 0, 0, 104},
    {"first byte of the authenticator, with 80", 43, 1, OTHER_AUTHENTICATOR, 0, 1, 0, 0, 104},
    {"last byte of the authenticator, with 80", 40, 1, OTHER_AUTHENTICATOR, 15, 1, 0, 0, 104},
    {"first byte of 80", 40, 1, OTHER_MAC, 0, 1, 0, 0, 105},
    {"last byte of 80", 43, 1, OTHER_MAC, 15, 1, 0, 0, 105},
};

static size_t put(uint8_t *packet, size_t at, uint8_t kind, const void *value, size_t size)
{
    packet[at] = kind;
    packet[at + 1] = size + 2;
    memcpy(packet + at + 2, value, size);
    return at + size + 2;
}

size_t make_request(uint8_t packet[4096], const struct kind *kind, struct bytes secret)
{
    static const uint8_t value[253] = "proxy state";
    uint8_t stamp[4];
    size_t n = 20;
    memset(packet, 0, n);
    packet[0] = kind->code;
    packet[1] = 7;
    put_be32(stamp, CLOCK - kind->late);
    n = put(packet, n, 55, stamp, 4);
    n = put(packet, n, 1, "ann", 3);
    if (kind->code == 43)
        n = put(packet, n, 27, "\0\1\0\xD4", 4);
    for (size_t k = 0; k < kind->states; k++)
        n = put(packet, n, 33, value, sizeof value);
    if (kind->has_mac)
        n = put(packet, n, 80, value + 32, 16);
    mend(packet, n, MEND_LENGTH | MEND_MACS, NULL, 0, secret);
    if (kind->signature == OTHER_MAC)
        packet[n - 16 + kind->other_byte] ^= 1;
    mend(packet, n, MEND_SIGN, NULL, 0, secret);
    if (kind->signature == OTHER_AUTHENTICATOR)
        packet[4 + kind->other_byte] ^= 1;
    return n;
}

void make_table(uint8_t table[2 * 192], int is_there)
{
    uint32_t slot;
    struct session ann = {{7, 0x0A000007, 3600, 600}, {{(const uint8_t *)"ann", 3}, {(const uint8_t *)"4F", 2}, {NULL, 0}, {NULL, 0}}};
    memset(table, 0, 2 * 192);
    if (is_there)
        start_session(table, 2 * 192, &ann, &slot);
}
