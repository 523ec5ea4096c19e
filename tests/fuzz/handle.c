/* fbk_handle beside the model: the answer, the table, the reply and the four numbers are the model's, and nothing else is written. */
#include "harness.h"

#include <string.h>

const size_t part_count = 5; /* settings, secret, name, table, packet */

struct call {
    struct gate gate;
    uint8_t table[MOST_TABLE], reply[MOST_BUFFER], packet[MOST_PACKET];
    size_t table_len, reply_size, packet_len;
    uint32_t clock;
    int null, table_first;
};

struct outcome {
    struct told told;
    uint8_t table[MOST_TABLE], reply[MOST_BUFFER];
};

static void draft(struct call *c, const struct bytes parts[])
{
    struct bytes settings = parts[0];
    unsigned what = take(&settings, 1);
    uint32_t slots = take(&settings, 1), other = take(&settings, 2);
    c->table_len = table_size(slots, other);
    c->reply_size = buffer_size(take(&settings, 1));
    uint32_t more = take(&settings, 1);
    c->null = more & 1;
    c->table_first = more >> 1 & 1;
    c->gate = (struct gate){short_of(parts[1], 80), short_of(parts[2], 40), take(&settings, 4)};
    uint32_t clock = take(&settings, 4);
    repeat(c->table, c->table_len, parts[3]);
    repeat(c->reply, c->reply_size, settings);
    c->packet_len = copy_packet(c->packet, parts[4]);
    mend(c->packet, c->packet_len, what, NULL, 0, c->gate.secret);
    c->clock = mend_clock(c->packet, c->packet_len, what, clock);
    mend_gate(c->packet, c->packet_len, what, &c->gate);
}

static void work_out(const struct call *c, struct outcome *o)
{
    memcpy(o->table, c->table, c->table_len);
    memcpy(o->reply, c->reply, c->reply_size);
    o->told = handled(&c->gate, o->table, c->table_len, o->reply, c->reply_size, (struct bytes){c->packet, c->packet_len}, c->clock);
}

/* The library's turn, with all that it is lent at one of the fences, or close together. */
static void run(const struct call *c, const struct outcome *o, enum side side)
{
    static struct room table, secret, name, reply, packet;
    begin_near();
    uint8_t *s = lay(&secret, c->gate.secret.at, c->gate.secret.size, side, c->null);
    uint8_t *n = lay(&name, c->gate.name.at, c->gate.name.size, side, c->null);
    uint8_t *p = lay(&packet, c->packet, c->packet_len, side, c->null);
    if (c->table_first)
        lay(&table, c->table, c->table_len, side, 0);
    uint8_t *r = lay(&reply, c->reply, c->reply_size, side, c->null);
    if (!c->table_first)
        lay(&table, c->table, c->table_len, side, 0);
    uint8_t *t = c->table_len == 0 && c->null ? NULL : table.at;
    struct numbers *to = lay_numbers(side);
    uint32_t answer = fbk_handle(t, c->table_len, s, c->gate.secret.size, c->gate.address, n, c->gate.name.size, r, c->reply_size, p,
                                 c->packet_len, c->clock, &to->changed, &to->reply_len, &to->skew, &to->stamped);
    must_become(&table, o->table);
    must_become(&reply, o->reply);
    expect_told(answer, &o->told);
    expect_room(&table, "the table");
    expect_room(&reply, "the reply");
    expect_room(&secret, "the secret was written to");
    expect_room(&name, "the name was written to");
    expect_room(&packet, "the packet was written to");
    if (is_reply(&o->told))
        expect(fbk_check_reply(s, c->gate.secret.size, p, c->packet_len, r, o->told.reply_len) == 0, "the reply does not pass the check");
}

int LLVMFuzzerTestOneInput(const uint8_t *data, size_t size)
{
    static struct call c;
    static struct outcome o;
    struct bytes parts[MOST_PARTS];
    split(data, size, parts);
    draft(&c, parts);
    work_out(&c, &o);
    run(&c, &o, AT_END);
    run(&c, &o, AT_START);
    run(&c, &o, NEAR);
    return 0;
}
