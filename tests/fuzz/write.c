/* fbk_write beside the model; and what is written, a gate with the same secret never discards as 101 to 105. */
#include "harness.h"

#include <string.h>

const size_t part_count = 3; /* settings, secret, attributes */

struct call {
    uint32_t code, add;
    uint8_t identifier, area[MOST_PACKET], out[MOST_BUFFER];
    struct bytes secret;
    size_t area_len, out_size;
    int null;
};

static void draft(struct call *c, const struct bytes parts[])
{
    static const uint32_t codes[8] = {40, 43, 40, 43, 41, 296, 0x80000028, 0};
    struct bytes settings = parts[0];
    unsigned what = take(&settings, 1);
    c->code = codes[take(&settings, 1) % 8];
    c->add = take(&settings, 4);
    c->identifier = take(&settings, 1);
    c->out_size = buffer_size(take(&settings, 1));
    c->null = take(&settings, 1) & 1;
    repeat(c->out, c->out_size, settings);
    c->secret = short_of(parts[1], 80);
    c->area_len = copy_packet(c->area, parts[2]);
    if (what & MEND_TILING)
        tile(c->area, c->area_len);
}

/* Whether it is discarded as 101 to 105 by the handler; it has any other clock and an empty table. */
static int is_discarded(const struct call *c, const uint8_t *out, uint32_t out_len)
{
    static uint8_t table[FBK_SLOT_SIZE], reply[FBK_REPLY_SIZE];
    struct numbers n;
    uint32_t answer = fbk_handle(table, sizeof table, c->secret.at, c->secret.size, 0, (const uint8_t *)"gate", 4, reply, sizeof reply, out, out_len, 0,
                                 &n.changed, &n.reply_len, &n.skew, &n.stamped);
    return answer < 106;
}

static void run(const struct call *c, uint32_t answer, const uint8_t *wanted, uint32_t wanted_len, enum side side)
{
    static struct room area, secret, out, length;
    uint32_t before = 0xEEEEEEEE;
    begin_near();
    uint8_t *s = lay(&secret, c->secret.at, c->secret.size, side, c->null);
    uint8_t *a = lay(&area, c->area, c->area_len, side, c->null);
    uint8_t *o = lay(&out, c->out, c->out_size, side, c->null);
    uint32_t *n = (uint32_t *)lay(&length, &before, sizeof before, side == NEAR ? AT_END : side, 0);
    uint32_t got = fbk_write(c->code, c->identifier, a, c->area_len, c->add, s, c->secret.size, o, c->out_size, n);
    must_become(&out, wanted);
    if (answer == 0)
        must_become(&length, &wanted_len);
    expect_answer(got, answer, "the answer");
    expect_room(&out, "the output");
    expect_room(&length, "the output's length");
    expect_room(&area, "the attributes were written to");
    expect_room(&secret, "the secret was written to");
    expect(answer != 0 || !is_discarded(c, o, *n), "a written request is discarded");
}

int LLVMFuzzerTestOneInput(const uint8_t *data, size_t size)
{
    static struct call c;
    static uint8_t wanted[MOST_BUFFER];
    struct bytes parts[MOST_PARTS];
    uint32_t wanted_len = 0;
    split(data, size, parts);
    draft(&c, parts);
    memcpy(wanted, c.out, c.out_size);
    uint32_t answer = written(c.code, c.identifier, (struct bytes){c.area, c.area_len}, c.add, c.secret, wanted, c.out_size, &wanted_len);
    run(&c, answer, wanted, wanted_len, AT_END);
    run(&c, answer, wanted, wanted_len, AT_START);
    run(&c, answer, wanted, wanted_len, NEAR);
    return 0;
}
