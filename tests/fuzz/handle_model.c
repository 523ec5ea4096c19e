/* A whole request: refused, discarded, or answered with table and reply. */
#include <string.h>

#include "model.h"

static uint32_t refusal(const struct gate *g, size_t table_len, size_t reply_size)
{
    if (slot_count(table_len) == 0)
        return 1;
    if (g->secret.size < 1 || g->secret.size > 64)
        return 2;
    if (g->name.size < 1 || g->name.size > 32)
        return 3;
    return reply_size < 4096 ? 4 : 0;
}

/* Every attribute of a kind, or the first alone, as it stands; where the next goes. */
static size_t copied(uint8_t *reply, size_t at, const struct found *f, uint8_t kind, int first_alone)
{
    for (const struct attribute *a = f->all; a < f->all + f->count; a++) {
        if (a->kind != kind)
            continue;
        memcpy(reply + at, a->value - 2, a->size + 2);
        at += a->size + 2;
        if (first_alone)
            break;
    }
    return at;
}

static int has(const struct found *f, uint8_t kind)
{
    for (size_t k = 0; k < f->count; k++)
        if (f->all[k].kind == kind)
            return 1;
    return 0;
}

/* The ACK where cause is 0, else the NAK; its length. A reply of over 4,096 bytes cannot be, as type 55 is not returned. */
static size_t put_reply(uint8_t *reply, const uint8_t *p, const struct found *f, uint32_t cause, struct bytes secret)
{
    size_t at = copied(reply, 20, f, 24, 1);
    if (cause != 0) {
        memcpy(reply + at, "\x65\x06", 2);
        put_be32(reply + at + 2, cause);
        at += 6;
    }
    at = copied(reply, at, f, 33, 0);
    int with_mac = has(f, 80);
    if (with_mac) {
        memcpy(reply + at, "\x50\x12", 2);
        at += 18;
    }
    reply[0] = p[0] + (cause != 0 ? 2 : 1);
    reply[1] = p[1];
    reply[2] = at / 256;
    reply[3] = at % 256;
    if (with_mac)
        message_authenticator(reply, at, p + 4, at - 16, secret, reply + at - 16);
    authenticator(reply, at, p + 4, secret, reply + 4);
    return at;
}

/* How many slots match; each is changed. */
static uint32_t change_all(uint8_t *table, size_t table_len, uint8_t code, const struct found *f)
{
    uint32_t changed = 0;
    for (size_t k = 0; k < slot_count(table_len); k++) {
        if (!matches(table + k * 192, f))
            continue;
        change(table + k * 192, code, f);
        changed++;
    }
    return changed;
}

struct told handled(const struct gate *g, uint8_t *table, size_t table_len, uint8_t *reply, size_t reply_size, struct bytes packet, uint32_t clock)
{
    static struct found f;
    struct told t = {.answer = refusal(g, table_len, reply_size)};
    if (t.answer != 0)
        return t;
    t.answer = bad_form(packet.at, packet.size, &f);
    if (t.answer != 0)
        return t;
    t = judged(g, packet.at, &f, clock);
    if (t.answer > 100 && t.answer < 200)
        return t;
    if (t.answer == 0) {
        t.changed = change_all(table, table_len, packet.at[0], &f);
        t.answer = t.changed > 0 ? 0 : 503;
        if (t.changed > 0)
            acknowledged(&f);
    }
    t.reply_len = put_reply(reply, packet.at, &f, t.answer, g->secret);
    return t;
}
