/* Type 26, Vendor-Specific, from the words of request 01 of document 02: whose it is, its items, and the rates that it sets. */
#include "model.h"

enum { VENDOR = 32473, DEEPEST = 4 };

/* What is read of one type 26: its rates, the list that each stands in, and its own end. */
struct reading {
    struct rates *rates;
    const uint8_t *down_list, *up_list, *end;
};

static enum event read_list(struct reading *r, const uint8_t *list, const uint8_t *end, int groups);

static enum event read_rate(const uint8_t **rate, const uint8_t **in, const uint8_t *item, const uint8_t *list)
{
    if (item[1] != 6)
        return RATE_LENGTH;
    if (*rate != NULL)
        return *in == list ? RATE_TWICE : RATE_TWICE_IN_GROUPS;
    *rate = item + 2;
    *in = list;
    return FITS;
}

/* An item of a list that ends there and stands in so many groups. */
static enum event read_item(struct reading *r, const uint8_t *item, const uint8_t *list, const uint8_t *end, int groups)
{
    if (end - item < 2)
        return LONE_BYTE;
    if (item[1] < 2)
        return ITEM_LENGTH;
    if (item[1] > end - item)
        return item[1] > r->end - item ? PAST_TYPE_26 : PAST_GROUP;
    switch (item[0]) {
    case 1: return read_rate(&r->rates->down, &r->down_list, item, list);
    case 2: return read_rate(&r->rates->up, &r->up_list, item, list);
    case 3: return groups == DEEPEST ? FIFTH_GROUP : read_list(r, item + 2, item + item[1], groups + 1);
    default: return OTHER_ITEM;
    }
}

static enum event read_list(struct reading *r, const uint8_t *list, const uint8_t *end, int groups)
{
    for (const uint8_t *item = list; item < end; item += item[1]) {
        enum event event = read_item(r, item, list, end, groups);
        if (event != FITS)
            return event;
    }
    if (groups > r->rates->groups)
        r->rates->groups = groups;
    return FITS;
}

struct vendors vendors_in(const struct found *f)
{
    struct vendors v = {0, 0, FITS, {NULL, NULL, 0}};
    for (const struct attribute *a = f->all; a < f->all + f->count; a++) {
        if (a->kind != 26)
            continue;
        struct reading r = {&v.rates, NULL, NULL, a->value + a->size};
        if (a->size >= 4 && be32(a->value) != VENDOR)
            v.is_of_another = 1;
        else if (v.count > 0)
            v.event = TWICE;
        else
            v.event = a->size < 4 ? UNDER_LENGTH_6 : read_list(&r, a->value + 4, r.end, 0);
        v.count++;
    }
    return v;
}

int has_rate(const struct vendors *v) { return v->rates.down != NULL || v->rates.up != NULL; }

unsigned long events[EVENTS];

const char *const event_names[EVENTS] = {
    [ANOTHER_VENDOR] = "another-vendor", [UNDER_LENGTH_6] = "under-length-6", [TWICE] = "twice", [OTHER_ITEM] = "other-item",
    [ITEM_LENGTH] = "item-length", [PAST_TYPE_26] = "past-type-26", [PAST_GROUP] = "past-group", [LONE_BYTE] = "lone-byte",
    [RATE_LENGTH] = "rate-length", [RATE_TWICE] = "rate-twice", [RATE_TWICE_IN_GROUPS] = "rate-twice-in-groups",
    [FIFTH_GROUP] = "fifth-group", [NO_RATE_402] = "no-rate-402", [NO_RATE_ACK] = "no-rate-ack", [DOWN_ACK] = "down-ack", [UP_ACK] = "up-ack",
    [BOTH_ACK] = "both-ack", [FOUR_GROUPS_ACK] = "four-groups-ack",
};

uint32_t decided(enum event event, uint32_t answer)
{
    events[event]++;
    return answer;
}

void acknowledged(const struct found *f)
{
    struct vendors v = vendors_in(f);
    static const enum event by_rates[2][2] = {{NO_RATE_ACK, UP_ACK}, {DOWN_ACK, BOTH_ACK}};
    if (v.count == 0)
        return;
    decided(by_rates[v.rates.down != NULL][v.rates.up != NULL], 0);
    if (v.rates.groups == DEEPEST)
        decided(FOUR_GROUPS_ACK, 0);
}
