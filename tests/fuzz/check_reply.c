/* fbk_check_reply beside the model; it writes nothing. */
#include "harness.h"

const size_t part_count = 4; /* settings, secret, request, reply */

struct call {
    uint8_t request[MOST_PACKET], reply[MOST_PACKET];
    struct bytes secret;
    size_t request_len, reply_len;
    int null;
};

static void draft(struct call *c, const struct bytes parts[])
{
    struct bytes settings = parts[0];
    unsigned of_request = take(&settings, 1), of_reply = take(&settings, 1);
    int same_identifier = take(&settings, 1) % 8 != 0;
    c->null = take(&settings, 1) & 1;
    c->secret = short_of(parts[1], 80);
    c->request_len = copy_packet(c->request, parts[2]);
    c->reply_len = copy_packet(c->reply, parts[3]);
    mend(c->request, c->request_len, of_request, NULL, 0, c->secret);
    if (c->request_len < 20 || c->reply_len < 2)
        return;
    if (same_identifier)
        c->reply[1] = c->request[1];
    mend(c->reply, c->reply_len, of_reply, c->request + 4, c->request[0], c->secret);
}

static void run(const struct call *c, uint32_t answer, enum side side)
{
    static struct room secret, request, reply;
    uint8_t *s = lay(&secret, c->secret.at, c->secret.size, side, c->null);
    uint8_t *p = lay(&request, c->request, c->request_len, side, c->null);
    uint8_t *r = lay(&reply, c->reply, c->reply_len, side, c->null);
    uint32_t got = fbk_check_reply(s, c->secret.size, p, c->request_len, r, c->reply_len);
    expect_answer(got, answer, "the answer");
    expect_room(&secret, "the secret was written to");
    expect_room(&request, "the request was written to");
    expect_room(&reply, "the reply was written to");
}

int LLVMFuzzerTestOneInput(const uint8_t *data, size_t size)
{
    static struct call c;
    struct bytes parts[MOST_PARTS];
    split(data, size, parts);
    draft(&c, parts);
    uint32_t answer = checked(c.secret, (struct bytes){c.request, c.request_len}, (struct bytes){c.reply, c.reply_len});
    run(&c, answer, AT_END);
    run(&c, answer, AT_START);
    return 0;
}
