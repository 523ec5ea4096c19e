/* The other side: a request written, and the reply to a request checked. */
#include <string.h>

#include "../../include/fumbokeri.h"
#include "../fuzz/mend.h"
#include "ct.h"

int write_one(const struct kind *kind)
{
    static uint8_t packet[4096], out[FBK_REQUEST_SIZE];
    int right = 1;
    for (int k = 0; k < SECRETS && right; k++) {
        struct bytes secret = secret_of(k);
        uint32_t out_len = 0;
        size_t packet_len = make_request(packet, kind, secret) - (kind->has_mac ? 18 : 0);
        show(out, sizeof out);
        hide((uint8_t *)secret.at, secret.size);
        uint32_t answer = fbk_write(kind->code, 7, packet + 20, packet_len - 20, kind->has_mac, secret.at, secret.size, out, sizeof out, &out_len);
        expect_open(&answer, sizeof answer);
        expect_open(&out_len, sizeof out_len);
        right = answer == 0 && is_hidden_right(out, sizeof out, out_len, kind->has_mac);
    }
    return right ? SECRETS : -1;
}

/* The request's attributes as a reply's: any are right. */
static size_t make_reply(uint8_t reply[4096], const uint8_t *request, size_t n, const struct kind *kind, struct bytes secret)
{
    memcpy(reply, request, n);
    reply[0] = request[0] + 1;
    mend(reply, n, MEND_MACS, request + 4, request[0], secret);
    if (kind->signature == OTHER_MAC)
        reply[n - 16 + kind->other_byte] ^= 1;
    mend(reply, n, MEND_SIGN, request + 4, request[0], secret);
    if (kind->signature == OTHER_AUTHENTICATOR)
        reply[4 + kind->other_byte] ^= 1;
    return n;
}

int check(const struct kind *kind)
{
    static uint8_t request[4096], reply[4096];
    uint32_t wanted = kind->signature == RIGHT ? 0 : kind->signature == OTHER_MAC ? 206 : 205;
    int right = 1;
    for (int k = 0; k < SECRETS && right; k++) {
        struct bytes secret = secret_of(k);
        size_t n = make_request(request, kind, secret);
        make_reply(reply, request, n, kind, secret);
        hide((uint8_t *)secret.at, secret.size);
        uint32_t answer = fbk_check_reply(secret.at, secret.size, request, n, reply, n);
        show(&answer, sizeof answer); /* the answer is the verdict */
        right = answer == wanted;
    }
    return right ? SECRETS : -1;
}
