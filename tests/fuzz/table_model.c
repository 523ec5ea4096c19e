/* The session table: its slots, what matches, what a change, a start and an end do. */
#include <string.h>

#include "model.h"

#define SLOT 192

static const size_t number_at[4] = {2, 6, 10, 14};                                                  /* port, address, timeout, idle */
static const struct { size_t at, least, most; } texts[4] = {{18, 1, 63}, {82, 1, 32}, {115, 0, 32}, {148, 0, 32}}; /* user, id, station, filter */
enum { USER, ID, STATION, FILTER };

size_t slot_count(size_t table_len)
{
    return table_len % SLOT == 0 && table_len / SLOT <= 64 ? table_len / SLOT : 0;
}

static int fits(int text, size_t size) { return texts[text].least <= size && size <= texts[text].most; }

int is_live(const uint8_t *slot)
{
    for (int k = 0; k < 4; k++)
        if (!fits(k, slot[texts[k].at]))
            return 0;
    return slot[0] == 0x5A && slot[1] == 0x4C;
}

static struct bytes text_in(const uint8_t *slot, int text)
{
    return (struct bytes){slot + texts[text].at + 1, slot[texts[text].at]};
}

/* Whether the slot's field is what the attribute asks for; any attribute that names no session is met. */
static int is_met(const uint8_t *slot, const struct attribute *a)
{
    struct bytes asked = {a->value, a->size};
    switch (a->kind) {
    case 1: return same(text_in(slot, USER), asked);
    case 5: return same((struct bytes){slot + 2, 4}, asked);
    case 8: return same((struct bytes){slot + 6, 4}, asked);
    case 31: return same(text_in(slot, STATION), asked);
    case 44: return same(text_in(slot, ID), asked);
    default: return 1;
    }
}

int matches(const uint8_t *slot, const struct found *f)
{
    for (size_t k = 0; k < f->count; k++)
        if (!is_met(slot, &f->all[k]))
            return 0;
    return is_live(slot);
}

static void put_text(uint8_t *slot, int text, struct bytes value)
{
    uint8_t *at = slot + texts[text].at;
    memset(at, 0, 1 + texts[text].most);
    at[0] = value.size;
    if (value.size > 0)
        memcpy(at + 1, value.at, value.size);
}

/* A Disconnect ends the session; a CoA writes only the fields of 11, 26, 27 and 28. */
void change(uint8_t *slot, uint8_t code, const struct found *f)
{
    struct rates rates = vendors_in(f).rates;
    if (code == 40) {
        memset(slot, 0, SLOT);
        return;
    }
    for (const struct attribute *a = f->all; a < f->all + f->count; a++) {
        if (a->kind == 27)
            memcpy(slot + 10, a->value, 4);
        if (a->kind == 28)
            memcpy(slot + 14, a->value, 4);
        if (a->kind == 11)
            put_text(slot, FILTER, (struct bytes){a->value, a->size});
    }
    if (rates.down != NULL)
        memcpy(slot + 181, rates.down, 4);
    if (rates.up != NULL)
        memcpy(slot + 185, rates.up, 4);
}

uint32_t start_session(uint8_t *table, size_t table_len, const struct session *one, uint32_t *slot)
{
    size_t slots = slot_count(table_len), lowest = slots;
    if (slots == 0)
        return 1;
    for (int k = 0; k < 4; k++)
        if (!fits(k, one->texts[k].size))
            return 8;
    for (size_t k = slots; k-- > 0;) {
        if (!is_live(table + k * SLOT))
            lowest = k;
        else if (same(text_in(table + k * SLOT, ID), one->texts[ID]))
            return 9;
    }
    if (lowest == slots)
        return 10;
    uint8_t *taken = table + lowest * SLOT;
    memset(taken, 0, SLOT);
    taken[0] = 0x5A;
    taken[1] = 0x4C;
    for (int k = 0; k < 4; k++) {
        put_be32(taken + number_at[k], one->numbers[k]);
        put_text(taken, k, one->texts[k]);
    }
    *slot = lowest;
    return 0;
}

uint32_t end_session(uint8_t *table, size_t table_len, uint32_t slot)
{
    if (slot_count(table_len) == 0)
        return 1;
    if (slot >= slot_count(table_len) || !is_live(table + (size_t)slot * SLOT))
        return 11;
    memset(table + (size_t)slot * SLOT, 0, SLOT);
    return 0;
}
