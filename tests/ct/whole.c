/* A whole request through fbk_handle, and through the model in C, whose signatures are compared by memcmp. */
#include "../../include/fumbokeri.h"
#include "ct.h"

static uint8_t table[2 * FBK_SLOT_SIZE], reply[FBK_REPLY_SIZE], packet[4096];
static const struct bytes name = {(const uint8_t *)"gate-7", 6};

typedef struct told handler(struct bytes secret, size_t packet_len);

static struct told by_library(struct bytes secret, size_t packet_len)
{
    struct told t;
    t.answer = fbk_handle(table, sizeof table, secret.at, secret.size, 0xC0000207, name.at, name.size, reply, sizeof reply, packet, packet_len, CLOCK,
                          &t.changed, &t.reply_len, &t.skew, &t.stamped);
    return t;
}

static struct told by_model(struct bytes secret, size_t packet_len)
{
    struct gate gate = {secret, name, 0xC0000207};
    return handled(&gate, table, sizeof table, reply, sizeof reply, (struct bytes){packet, packet_len}, CLOCK);
}

/* Answer, numbers and table must not depend on the secret but by the two verdicts; of the reply only the signatures do. */
static int handle_by(handler *call, const struct kind *kind)
{
    int right = 1;
    for (int k = 0; k < SECRETS && right; k++) {
        struct bytes secret = secret_of(k);
        size_t packet_len = make_request(packet, kind, secret);
        make_table(table, kind->is_there);
        show(reply, sizeof reply);
        hide((uint8_t *)secret.at, secret.size);
        struct told t = call(secret, packet_len);
        expect_open(&t.answer, sizeof t.answer);
        expect_open(&t.changed, sizeof t.changed);
        expect_open(&t.reply_len, sizeof t.reply_len);
        expect_open(&t.skew, sizeof t.skew);
        expect_open(&t.stamped, sizeof t.stamped);
        expect_open(table, sizeof table);
        show(&t, sizeof t);
        right = t.answer == kind->answer && is_hidden_right(reply, sizeof reply, t.reply_len, kind->has_mac);
    }
    return right ? SECRETS : -1;
}

int handle(const struct kind *kind) { return handle_by(by_library, kind); }

int handle_in_c(const struct kind *kind) { return handle_by(by_model, kind); }
