/* fbk_handle with something wrong in it, which the environment's WRONG names: the programs must find it. Linked by ld's --wrap. */
#include <string.h>

#include "wrong.h"

static int is_coa(const struct call *c) { return c->answer == 0 && c->packet.at[0] == 43; }

static void makes_up_the_count(struct call *c) { *c->changed = c->answer == 0 ? c->slots : 0; }

static void leaves_the_table(struct call *c)
{
    if (c->answer == 0)
        memcpy(c->table, c->before, c->slots * 192);
}

static void changes_the_first_match(struct call *c)
{
    size_t k = 0;
    if (c->answer != 0)
        return;
    while (k + 1 < c->slots && memcmp(c->table + 192 * k, c->before + 192 * k, 192) == 0)
        k++;
    memcpy(c->table + 192 * (k + 1), c->before + 192 * (k + 1), (c->slots - k - 1) * 192);
}

static void keeps_16_bits(struct call *c)
{
    for (size_t k = 0; k < c->slots && is_coa(c); k++)
        if (memcmp(c->table + 192 * k + 10, c->before + 192 * k + 10, 4) != 0)
            memset(c->table + 192 * k + 10, 0, 2);
}

static void clears_the_end_of_a_slot(struct call *c)
{
    for (size_t k = 0; k < c->slots && is_coa(c); k++)
        if (memcmp(c->table + 192 * k, c->before + 192 * k, 192) != 0)
            memset(c->table + 192 * k + 181, 0, 11);
}

static void signs_over_zeros(struct call *c)
{
    if (c->answer == 0 || c->answer > 400)
        authenticator(c->reply, length_of(c->reply), no_auth, c->secret, c->reply + 4);
}

static void writes_behind_the_reply(struct call *c)
{
    if (c->answer == 503 && *c->reply_len < 4096)
        c->reply[*c->reply_len] ^= 1;
}

static void asks_503_before_506(struct call *c) { c->answer = c->answer == 506 ? 503 : c->answer; }

static void turns_the_skew(struct call *c) { *c->skew = c->answer < 1 || c->answer > 99 ? -*c->skew : *c->skew; }

static void takes_301_seconds(struct call *c) { c->answer = c->answer == 106 && *c->skew == -301 ? 402 : c->answer; }

static void writes_numbers_when_refused(struct call *c)
{
    if (c->answer == 3)
        *c->stamped = 0;
}

static void writes_before_the_table(struct call *c)
{
    if (c->answer == 404)
        c->table[-1] ^= 1;
}

static void reads_behind_the_packet(struct call *c)
{
    volatile uint8_t read = 0;
    if (c->answer == 402)
        read = c->packet.at[c->packet.size];
    (void)read;
}

static void remembers(struct call *c)
{
    static uint32_t last;
    if (last == 503 && c->answer == 503)
        c->reply[1] ^= 1;
    last = c->answer;
}

static const struct wrong wrongs[] = {
    {"makes_up_the_count", makes_up_the_count},
    {"leaves_the_table", leaves_the_table},
    {"changes_the_first_match", changes_the_first_match},
    {"keeps_16_bits", keeps_16_bits},
    {"clears_the_end_of_a_slot", clears_the_end_of_a_slot},
    {"signs_over_zeros", signs_over_zeros},
    {"writes_behind_the_reply", writes_behind_the_reply},
    {"asks_503_before_506", asks_503_before_506},
    {"turns_the_skew", turns_the_skew},
    {"takes_301_seconds", takes_301_seconds},
    {"writes_numbers_when_refused", writes_numbers_when_refused},
    {"writes_before_the_table", writes_before_the_table},
    {"reads_behind_the_packet", reads_behind_the_packet},
    {"remembers", remembers},
    {NULL, NULL},
};

static void spoil(struct call *c, const struct wrong *list)
{
    for (; list->name != NULL; list++)
        if (is_wrong(list->name))
            list->spoil(c);
}

uint32_t __real_fbk_handle(uint8_t *, size_t, const uint8_t *, size_t, uint32_t, const uint8_t *, size_t, uint8_t *, size_t, const uint8_t *, size_t,
                           uint32_t, uint32_t *, uint32_t *, int64_t *, uint32_t *);

uint32_t __wrap_fbk_handle(uint8_t *table, size_t table_len, const uint8_t *secret, size_t secret_len, uint32_t nas_ip, const uint8_t *nas_id,
                           size_t nas_id_len, uint8_t *reply, size_t reply_size, const uint8_t *packet, size_t packet_len, uint32_t clock,
                           uint32_t *changed, uint32_t *reply_len, int64_t *skew, uint32_t *stamped)
{
    static uint8_t before[FBK_SLOTS_MAX * FBK_SLOT_SIZE];
    size_t slots = slot_count(table_len);
    if (slots > 0)
        memcpy(before, table, table_len);
    struct call c = {table, reply, before, slots, {secret, secret_len}, {packet, packet_len}, changed, reply_len, stamped, skew, 0};
    c.answer = __real_fbk_handle(table, table_len, secret, secret_len, nas_ip, nas_id, nas_id_len, reply, reply_size, packet, packet_len, clock,
                                 changed, reply_len, skew, stamped);
    spoil(&c, wrongs);
    spoil(&c, wrong_rates);
    return c.answer;
}
