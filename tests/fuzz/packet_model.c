/* The packet: its form, silent discards, NAK causes 1 to 6. */
#include <stdlib.h>
#include <string.h>

#include "model.h"

uint32_t be32(const uint8_t *at) { return (uint32_t)at[0] << 24 | (uint32_t)at[1] << 16 | (uint32_t)at[2] << 8 | at[3]; }

void put_be32(uint8_t *at, uint32_t value)
{
    for (int k = 0; k < 4; k++)
        at[k] = value >> (24 - 8 * k);
}

size_t length_of(const uint8_t *p) { return p[2] * 256u + p[3]; }

int same(struct bytes a, struct bytes b) { return a.size == b.size && (a.size == 0 || memcmp(a.at, b.at, a.size) == 0); }

int bad_length(const uint8_t *p, size_t size)
{
    return size < 20 || length_of(p) < 20 || length_of(p) > 4096 || length_of(p) > size;
}

int read_attributes(const uint8_t *run, size_t size, struct found *f)
{
    f->count = 0;
    for (size_t at = 0; at < size; at += run[at + 1]) {
        if (size - at < 2 || run[at + 1] < 2 || run[at + 1] > size - at)
            return 0;
        f->all[f->count++] = (struct attribute){run[at], run + at + 2, run[at + 1] - 2u};
    }
    return 1;
}

uint32_t bad_form(const uint8_t *p, size_t size, struct found *f)
{
    if (bad_length(p, size))
        return 101;
    if (p[0] != 40 && p[0] != 43)
        return 102;
    return read_attributes(p + 20, length_of(p) - 20, f) ? 0 : 103;
}

static const uint8_t for_both[] = {1, 4, 5, 6, 8, 24, 31, 32, 33, 44, 55, 80}, for_coa[] = {11, 26, 27, 28};
static const uint8_t naming[] = {1, 5, 8, 31, 44}, changing[] = {11, 27, 28}; /* and 26 where it sets a rate */
static const uint8_t of_length_6[] = {4, 5, 8, 27, 28}, not_empty[] = {1, 11, 24, 31, 32, 33, 44};

#define IS_AMONG(kind, list) (memchr(list, kind, sizeof list) != NULL)

static int is_supported(uint8_t code, uint8_t kind) { return IS_AMONG(kind, for_both) || (code == 43 && IS_AMONG(kind, for_coa)); }

static int has_wrong_size(const struct attribute *a)
{
    return (IS_AMONG(a->kind, of_length_6) && a->size != 4) || (IS_AMONG(a->kind, not_empty) && a->size == 0);
}

/* 403's rule, where cause 404 does not apply. */
static int is_of_another(const struct gate *g, const struct attribute *a)
{
    if (a->kind == 4)
        return a->size != 4 || be32(a->value) != g->address;
    return a->kind == 32 && !same((struct bytes){a->value, a->size}, g->name);
}

static int has_any(const unsigned *count, const uint8_t *kinds, size_t n)
{
    for (size_t k = 0; k < n; k++)
        if (count[kinds[k]] > 0)
            return 1;
    return 0;
}

/* Causes 1 to 6, first that applies, or 0. What is wrong with a type 26, its being there twice too, stands in `v`. */
static uint32_t cause(const struct gate *g, uint8_t code, const struct found *f)
{
    unsigned count[256] = {0};
    int unsupported = 0, invalid = 0, other = 0, oversized = 0;
    struct vendors v = vendors_in(f);
    for (const struct attribute *a = f->all; a < f->all + f->count; a++) {
        unsupported |= !is_supported(code, a->kind);
        invalid |= (count[a->kind]++ > 0 && a->kind != 33 && a->kind != 26) || has_wrong_size(a);
        other |= is_of_another(g, a);
        oversized |= a->kind == 11 && a->size > 32;
    }
    if (unsupported)
        return 401;
    if (v.is_of_another)
        return decided(ANOTHER_VENDOR, 401);
    if (count[6] > 0)
        return 405;
    if (invalid)
        return 404;
    if (v.event != FITS)
        return decided(v.event, 404);
    if (other)
        return 403;
    if (!has_any(count, naming, sizeof naming))
        return 402;
    if (code == 43 && !has_any(count, changing, sizeof changing) && !has_rate(&v))
        return v.count > 0 ? decided(NO_RATE_402, 402) : 402;
    return oversized ? 506 : 0;
}

/* The one type 55 of length 6; NULL where it is not there exactly once so. */
static const struct attribute *stamp_of(const struct found *f)
{
    const struct attribute *stamp = NULL;
    for (size_t k = 0; k < f->count; k++) {
        if (f->all[k].kind != 55)
            continue;
        if (stamp != NULL)
            return NULL;
        stamp = &f->all[k];
    }
    return stamp != NULL && stamp->size == 4 ? stamp : NULL;
}

struct told judged(const struct gate *g, const uint8_t *p, const struct found *f, uint32_t clock)
{
    if (wrong_authenticator(p, no_auth, g->secret))
        return (struct told){.answer = 104};
    if (wrong_mac(p, f, no_auth, g->secret))
        return (struct told){.answer = 105};
    const struct attribute *stamp = stamp_of(f);
    if (stamp == NULL)
        return (struct told){.answer = 106};
    int64_t skew = (int64_t)be32(stamp->value) - clock;
    return (struct told){.answer = llabs(skew) > 300 ? 106 : cause(g, p[0], f), .stamped = 1, .skew = skew};
}
