/* Authenticators and Message-Authenticators of a packet, over a copy of it. */
#include <string.h>

#include "../../bench/programs/plain_md5.h"
#include "model.h"

const uint8_t no_auth[16];

static void copy_with(uint8_t *m, const uint8_t *p, size_t n, const uint8_t *auth)
{
    memcpy(m, p, n);
    memcpy(m + 4, auth, 16);
}

void authenticator(const uint8_t *p, size_t n, const uint8_t *auth, struct bytes secret, uint8_t out[16])
{
    uint8_t m[4096 + 64];
    copy_with(m, p, n, auth);
    memcpy(m + n, secret.at, secret.size);
    plain_md5(m, n + secret.size, out);
}

void message_authenticator(const uint8_t *p, size_t n, const uint8_t *auth, size_t at, struct bytes secret, uint8_t out[16])
{
    uint8_t m[4096];
    copy_with(m, p, n, auth);
    memset(m + at, 0, 16);
    plain_hmac(secret.at, secret.size, m, n, out);
}

int wrong_authenticator(const uint8_t *p, const uint8_t *auth, struct bytes secret)
{
    uint8_t right[16];
    authenticator(p, length_of(p), auth, secret, right);
    return memcmp(p + 4, right, 16) != 0;
}

int wrong_mac(const uint8_t *p, const struct found *f, const uint8_t *auth, struct bytes secret)
{
    const struct attribute *mac = NULL;
    for (size_t k = 0; k < f->count; k++) {
        if (f->all[k].kind != 80)
            continue;
        if (mac != NULL || f->all[k].size != 16)
            return 1;
        mac = &f->all[k];
    }
    if (mac == NULL)
        return 0;
    uint8_t right[16];
    message_authenticator(p, length_of(p), auth, mac->value - p, secret, right);
    return memcmp(mac->value, right, 16) != 0;
}
