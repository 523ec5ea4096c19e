/* fbk_handle with something wrong in what it does with a type 26, which the environment's WRONG names. */
#include <string.h>

#include "wrong.h"

static struct vendors vendors_of(const struct call *c)
{
    static struct found f;
    return bad_form(c->packet.at, c->packet.size, &f) == 0 ? vendors_in(&f) : (struct vendors){0};
}

/* Another answer to a type 26 that decides in this way. */
static void answered(struct call *c, enum event event, uint32_t right, uint32_t wrong)
{
    if (c->answer == right && vendors_of(c).event == event)
        c->answer = wrong;
}

static void reads_a_fifth_group(struct call *c) { answered(c, FIFTH_GROUP, 404, 402); }
static void takes_a_rate_twice_in_groups(struct call *c) { answered(c, RATE_TWICE_IN_GROUPS, 404, 0); }
static void takes_a_rate_of_another_length(struct call *c) { answered(c, RATE_LENGTH, 404, 0); }
static void takes_an_item_past_its_group(struct call *c) { answered(c, PAST_GROUP, 404, 0); }
static void takes_an_item_past_type_26(struct call *c) { answered(c, PAST_TYPE_26, 404, 0); }
static void takes_other_items(struct call *c) { answered(c, OTHER_ITEM, 404, 402); }
static void takes_a_lone_byte(struct call *c) { answered(c, LONE_BYTE, 404, 0); }
static void takes_items_of_length_1(struct call *c) { answered(c, ITEM_LENGTH, 404, 402); }
static void takes_two_type_26(struct call *c) { answered(c, TWICE, 404, 0); }
static void takes_a_short_one_for_401(struct call *c) { answered(c, UNDER_LENGTH_6, 404, 401); }

static void takes_another_vendor_for_404(struct call *c)
{
    if (c->answer == 401 && vendors_of(c).is_of_another)
        c->answer = 404;
}

static void takes_no_rate_for_a_change(struct call *c)
{
    struct vendors v = vendors_of(c);
    if (c->answer == 402 && v.count == 1 && v.event == FITS && !has_rate(&v))
        c->answer = 503;
}

/* Each slot that a CoA gave other rates: with this done to it, and to the slot as it was. */
static void at_rates(struct call *c, void (*spoil)(uint8_t *slot, const uint8_t *before))
{
    for (size_t at = 0; at < 192 * c->slots && c->answer == 0 && c->packet.at[0] == 43; at += 192)
        if (memcmp(c->table + at + 181, c->before + at + 181, 8) != 0)
            spoil(c->table + at, c->before + at);
}

static void halve(uint8_t *slot, const uint8_t *before)
{
    for (int at = 181; at < 189; at += 4)
        if (memcmp(slot + at, before + at, 4) != 0)
            memset(slot + at, 0, 2);
}

static void swap(uint8_t *slot, const uint8_t *before)
{
    uint8_t down[4], up[4];
    memcpy(down, slot + 181, 4);
    memcpy(up, slot + 185, 4);
    memcpy(slot + 181, memcmp(up, before + 185, 4) != 0 ? up : before + 181, 4);
    memcpy(slot + 185, memcmp(down, before + 181, 4) != 0 ? down : before + 185, 4);
}

static void write_189(uint8_t *slot, const uint8_t *before) { slot[189] = before[189] == 0; }

static void clear_other(uint8_t *slot, const uint8_t *before)
{
    for (int at = 181; at < 189; at += 4)
        if (memcmp(slot + at, before + at, 4) == 0)
            memset(slot + at, 0, 4);
}

static void keeps_16_bits_of_a_rate(struct call *c) { at_rates(c, halve); }
static void swaps_down_and_up(struct call *c) { at_rates(c, swap); }
static void writes_byte_189(struct call *c) { at_rates(c, write_189); }
static void writes_zero_to_the_other_rate(struct call *c) { at_rates(c, clear_other); }

#define NAMED(wrong) {#wrong, wrong}

const struct wrong wrong_rates[] = {
    NAMED(reads_a_fifth_group), NAMED(takes_a_rate_twice_in_groups), NAMED(takes_a_rate_of_another_length), NAMED(takes_an_item_past_its_group),
    NAMED(takes_an_item_past_type_26), NAMED(takes_other_items), NAMED(takes_a_lone_byte), NAMED(takes_items_of_length_1), NAMED(takes_two_type_26),
    NAMED(takes_a_short_one_for_401), NAMED(takes_another_vendor_for_404), NAMED(takes_no_rate_for_a_change), NAMED(keeps_16_bits_of_a_rate),
    NAMED(swaps_down_and_up), NAMED(writes_byte_189), NAMED(writes_zero_to_the_other_rate), {NULL, NULL},
};
