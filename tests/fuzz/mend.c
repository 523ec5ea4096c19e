#include "mend.h"

#include <stddef.h>
#include <string.h>

void tile(uint8_t *run, size_t size)
{
    for (size_t at = 0; at + 1 < size; at += run[at + 1]) {
        size_t left = size - at;
        if (run[at + 1] < 2)
            run[at + 1] = 2;
        if (run[at + 1] > left)
            run[at + 1] = left;
        if (left - run[at + 1] == 1) /* no attribute has one byte */
            run[at + 1] += run[at + 1] < 255 ? 1 : -1;
    }
}

static void put_code(uint8_t *p, const uint8_t *auth, uint8_t code)
{
    if (auth != NULL)
        p[0] = code + 1 + p[0] % 2;
    else
        p[0] = p[0] % 2 ? 43 : 40;
}

static void put_macs(uint8_t *p, size_t n, const uint8_t *auth, struct bytes secret)
{
    static struct found f;
    if (!read_attributes(p + 20, n - 20, &f))
        return;
    for (size_t k = 0; k < f.count; k++) {
        size_t at = f.all[k].value - p;
        if (f.all[k].kind == 80 && f.all[k].size == 16)
            message_authenticator(p, n, auth, at, secret, p + at);
    }
}

void mend(uint8_t *p, size_t size, unsigned what, const uint8_t *auth, uint8_t code, struct bytes secret)
{
    const uint8_t *over = auth != NULL ? auth : no_auth;
    if (size < 20)
        return;
    if (what & MEND_LENGTH) {
        size_t n = size < 4096 ? size : 4096;
        p[2] = n / 256;
        p[3] = n % 256;
    }
    if (bad_length(p, size))
        return;
    if (what & MEND_CODE)
        put_code(p, auth, code);
    if (what & MEND_TILING)
        tile(p + 20, length_of(p) - 20);
    if (secret.size < 1 || secret.size > 64)
        return;
    if (what & MEND_MACS)
        put_macs(p, length_of(p), over, secret);
    if (what & MEND_SIGN)
        authenticator(p, length_of(p), over, secret, p + 4);
}

/* The first of a kind; no bytes where there is none. */
static struct bytes first(const uint8_t *p, size_t size, uint8_t kind)
{
    static struct found f;
    if (bad_form(p, size, &f) == 0)
        for (size_t k = 0; k < f.count; k++)
            if (f.all[k].kind == kind)
                return (struct bytes){f.all[k].value, f.all[k].size};
    return (struct bytes){NULL, 0};
}

uint32_t mend_clock(const uint8_t *p, size_t size, unsigned what, uint32_t clock)
{
    struct bytes stamp = first(p, size, 55);
    return what & MEND_CLOCK && stamp.size == 4 ? be32(stamp.at) + clock % 1024 - 512 : clock;
}

void mend_gate(const uint8_t *p, size_t size, unsigned what, struct gate *g)
{
    struct bytes address = first(p, size, 4), name = first(p, size, 32);
    if (what & MEND_GATE && address.size == 4)
        g->address = be32(address.at);
    if (what & MEND_GATE && name.size >= 1 && name.size <= 32)
        g->name = name;
}
