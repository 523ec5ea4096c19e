/* The request writer and the reply check. */
#include <string.h>

#include "model.h"

/* R13: the form, no type 80, and room for one that is to be added. */
static int is_unfit(struct bytes area, uint32_t add)
{
    static struct found f;
    if (area.size > (add != 0 ? 4058u : 4076u) || !read_attributes(area.at, area.size, &f))
        return 1;
    for (size_t k = 0; k < f.count; k++)
        if (f.all[k].kind == 80)
            return 1;
    return 0;
}

uint32_t written(uint32_t code, uint8_t identifier, struct bytes area, uint32_t add, struct bytes secret, uint8_t *out, size_t out_size,
                 uint32_t *out_len)
{
    if (secret.size < 1 || secret.size > 64)
        return 2;
    if (out_size < 4096)
        return 4;
    if (code != 40 && code != 43)
        return 12;
    if (is_unfit(area, add))
        return 13;
    size_t n = 20 + area.size + (add != 0 ? 18 : 0);
    out[0] = code;
    out[1] = identifier;
    out[2] = n / 256;
    out[3] = n % 256;
    if (area.size > 0)
        memcpy(out + 20, area.at, area.size);
    if (add != 0) {
        memcpy(out + n - 18, "\x50\x12", 2);
        message_authenticator(out, n, no_auth, n - 16, secret, out + n - 16);
    }
    authenticator(out, n, no_auth, secret, out + 4);
    *out_len = n;
    return 0;
}

uint32_t checked(struct bytes secret, struct bytes request, struct bytes reply)
{
    static struct found f;
    const uint8_t *p = request.at, *r = reply.at;
    if (secret.size < 1 || secret.size > 64)
        return 2;
    if (bad_form(p, request.size, &f) != 0)
        return 201;
    if (bad_length(r, reply.size) || !read_attributes(r + 20, length_of(r) - 20, &f))
        return 202;
    if (r[0] != p[0] + 1 && r[0] != p[0] + 2)
        return 203;
    if (r[1] != p[1])
        return 204;
    if (wrong_authenticator(r, p + 4, secret))
        return 205;
    return wrong_mac(r, &f, p + 4, secret) ? 206 : 0;
}
