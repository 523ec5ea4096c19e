#include "packets.h"

#include <string.h>

#include "plain_md5.h"

uint8_t packet[4096];
size_t length;

static void put(uint8_t kind, const void *value, size_t n)
{
    packet[length] = kind;
    packet[length + 1] = n + 2;
    memcpy(packet + length + 2, value, n);
    length += n + 2;
}

static void begin(uint8_t code)
{
    memset(packet, 0, 20);
    packet[0] = code;
    packet[1] = 7;
    length = 20;
}

static void put_stamp(void) { put(55, "\x65\x53\xF1\x00", 4); }

/* The authenticator is of zeros until here. */
static void sign(void)
{
    uint8_t message[sizeof packet + sizeof secret];
    packet[2] = length / 256;
    packet[3] = length % 256;
    memcpy(message, packet, length);
    memcpy(message + length, secret, sizeof secret);
    plain_md5(message, length + sizeof secret, packet + 4);
}

/* What each request here begins with: stamp, gate, session. */
static void begin_request(uint8_t code, const char *user)
{
    begin(code);
    put_stamp();
    put(4, "\xC0\0\2\7", 4);
    put(32, nas_id, sizeof nas_id);
    put(1, user, strlen(user));
    put(44, "0000004F", 8);
}

void make_disconnect(int with_mac, const char *user)
{
    begin_request(40, user);
    put(31, "02-00-5E-10-00-01", 17);
    put(33, "proxy state.", 12);
    if (with_mac) {
        uint8_t value[16] = {0};
        put(80, value, 16);
        packet[3] = length;
        plain_hmac(secret, sizeof secret, packet, length, value);
        memcpy(packet + length - 16, value, 16);
    }
    sign();
}

void make_coa(int with_rates)
{
    static const uint8_t in_four_groups[] = {0, 0, 0x7E, 0xD9, 3, 20, 3, 18, 3, 16, 3, 14, 1, 6, 0, 0, 0xFA, 0, 2, 6, 0, 0, 0x7D, 0};
    begin_request(43, ALICE);
    if (with_rates)
        put(26, in_four_groups, sizeof in_four_groups);
    else
        put(27, "\0\1\0\xD4", 4);
    sign();
}

void make_states(size_t n, size_t each)
{
    static const uint8_t value[253] = "proxy state";
    begin(40);
    if (n > length)
        put_stamp();
    while (n - length >= each + 3)
        put(33, value, each - 2);
    if (n > length)
        put(33, value, n - length - 2);
    sign();
}
