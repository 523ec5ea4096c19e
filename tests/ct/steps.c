/* A job from its opening to its end. The scheduler holds the secret, so it is hidden from its making on. */
#include "../../include/fumbokeri.h"
#include "ct.h"

static uint8_t table[2 * FBK_SLOT_SIZE], reply[FBK_REPLY_SIZE], packet[4096], store[FBK_STORE_SIZE];

/* The answer of the last step, and the reply's length; nothing that the steps tell depends on the secret, nor does what the scheduler holds but for
 * the secret itself and the chaining words. */
static struct told finished(fbk_scheduler *s, uint32_t job)
{
    struct told t;
    do {
        t.answer = fbk_step(s, job, table, sizeof table, reply, sizeof reply, store, sizeof store, &t.changed, &t.reply_len, &t.skew, &t.stamped);
        expect_open(&t.answer, sizeof t.answer);
        expect_open(&t.changed, sizeof t.changed);
        expect_open(&t.reply_len, sizeof t.reply_len);
        expect_open(&t.skew, sizeof t.skew);
        expect_open(&t.stamped, sizeof t.stamped);
        expect_open(s->kinds, sizeof s->kinds);
        expect_open(s->places, sizeof s->places);
        expect_open(s->marks, sizeof s->marks);
        show(&t, sizeof t);
    } while (t.answer == 600);
    expect_open(table, sizeof table);
    return t;
}

int step(const struct kind *kind)
{
    static fbk_scheduler s = {0};
    int right = 1;
    for (int k = 0; k < SECRETS && right; k++) {
        struct bytes secret = secret_of(k);
        uint32_t job = 77;
        size_t packet_len = make_request(packet, kind, secret);
        make_table(table, kind->is_there);
        show(reply, sizeof reply);
        hide((uint8_t *)secret.at, secret.size);
        right = fbk_make(&s, secret.at, secret.size, 0xC0000207, (const uint8_t *)"gate-7", 6) == 0;
        right &= fbk_open(&s, packet, packet_len, CLOCK, store, sizeof store, &job) == 0;
        if (!right)
            return -1;
        expect_open(&job, sizeof job);
        struct told t = finished(&s, job);
        right = t.answer == kind->answer && is_hidden_right(reply, sizeof reply, t.reply_len, kind->has_mac);
    }
    return right ? SECRETS : -1;
}
