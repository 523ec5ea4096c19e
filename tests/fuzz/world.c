#include "world.h"

#include <string.h>

static void expect_lent(const struct world *d)
{
    expect_room(&d->table, "the table");
    expect_room(&d->store, "the store");
}

static fbk_scheduler *scheduler(const struct world *d)
{
    return (fbk_scheduler *)d->s.at;
}

/* Of the scheduler a call may write the rows of its own job, FBK_JOBS for none, and sends all jobs in Match back to slot 0 where it restarts. */
static void expect_scheduler(struct world *d, uint32_t own, int restarts)
{
    fbk_scheduler wanted, now = *scheduler(d);
    memcpy(&wanted, d->s.wanted, sizeof wanted);
    if (own < FBK_JOBS) {
        memcpy(wanted.words[own], now.words[own], sizeof now.words[own]);
        memcpy(wanted.kinds[own], now.kinds[own], sizeof now.kinds[own]);
        memcpy(wanted.places[own], now.places[own], sizeof now.places[own]);
        memcpy(wanted.marks[own], now.marks[own], sizeof now.marks[own]);
    }
    for (int k = 0; k < FBK_JOBS && restarts; k++)
        if (wanted.kinds[k][0] == 3) {
            wanted.places[k][0] = 0;
            memset(wanted.marks[k], 0, sizeof wanted.marks[k]);
        }
    must_become(&d->s, &wanted);
    expect_room(&d->s, "the scheduler");
}

/* What is made of any bytes; those after the last field stay. */
static fbk_scheduler made(const struct gate *g, fbk_scheduler s)
{
    memset(&s, 0, offsetof(fbk_scheduler, nas_ip));
    memcpy(s.secret, g->secret.at, s.secret_len = g->secret.size);
    memcpy(s.nas_id, g->name.at, s.nas_id_len = g->name.size);
    s.nas_ip = g->address;
    return s;
}

int desk_make(struct world *d, const struct gate *g)
{
    uint32_t wanted = g->secret.size < 1 || g->secret.size > 64 ? 2 : g->name.size < 1 || g->name.size > 32 ? 3 : 0;
    fbk_scheduler *s = (fbk_scheduler *)lay(&d->s, d->fill, sizeof *s, AT_END, 0), after = *s;
    d->gate = *g;
    expect_answer(fbk_make(s, g->secret.at, g->secret.size, g->address, g->name.at, g->name.size), wanted, "the answer to making");
    if (wanted == 0)
        after = made(g, after);
    must_become(&d->s, &after);
    expect_scheduler(d, FBK_JOBS, 0);
    return wanted == 0;
}

int desk_jobs(const struct world *d)
{
    int open = 0;
    for (int k = 0; k < FBK_JOBS; k++)
        open += d->notes[k].open;
    return open;
}

static uint32_t lowest_free(const struct world *d)
{
    uint32_t k = 0;
    while (k < FBK_JOBS && d->notes[k].open)
        k++;
    return k;
}

void desk_open(struct world *d, const uint8_t *packet, size_t size, uint32_t clock, size_t store_len)
{
    static struct room lent;
    static struct found f;
    uint32_t free = lowest_free(d), job = 77;
    uint32_t wanted = store_len != FBK_STORE_SIZE ? 5 : free == FBK_JOBS ? 6 : bad_form(packet, size, &f);
    uint32_t answer = fbk_open(scheduler(d), lay(&lent, packet, size, AT_END, 1), size, clock, d->store.at, store_len, &job);
    expect_answer(answer, wanted, "the answer to opening");
    expect_number(job, wanted == 0 ? free : 77, "the job's number");
    if (wanted == 0) {
        struct note *n = &d->notes[free];
        *n = (struct note){.open = 1, .size = size, .clock = clock};
        memcpy(n->packet, packet, size);
        memcpy(d->store.wanted + 4096 * free, packet, length_of(packet));
    }
    expect_scheduler(d, wanted == 0 ? free : FBK_JOBS, 0);
    expect_room(&lent, "the packet was written to");
    expect_lent(d);
}

static uint32_t step_refusal(const struct world *d, uint32_t job, size_t reply_size, size_t store_len)
{
    if (slot_count(d->table_len) == 0)
        return 1;
    if (reply_size < 4096)
        return 4;
    if (store_len != FBK_STORE_SIZE)
        return 5;
    return job >= FBK_JOBS || !d->notes[job].open ? 7 : 0;
}

/* What must be told of a step that goes on or finishes, whatever was written to table and store; takes what it wrote as right. */
static struct told any_told(struct world *d, const uint8_t *part, uint32_t answer, const struct numbers *n, struct room *reply)
{
    struct told t = {answer, n->changed, n->reply_len, n->stamped, n->skew};
    expect(answer == 600 || answer == 101 || (answer >= 104 && answer <= 106) || is_reply(&t), "an answer that no step has");
    expect(answer == 0 ? t.changed >= 1 && t.changed <= 64 : t.changed == 0, "the number changed");
    if (!is_reply(&t)) {
        expect(t.reply_len == 0, "the length of no reply");
        return t;
    }
    expect(t.reply_len <= length_of(part), "a reply longer than its request");
    memcpy(reply->wanted, reply->at, t.reply_len);
    expect(fbk_check_reply(d->gate.secret.at, d->gate.secret.size, part, 4096, reply->at, t.reply_len) == 0, "the reply does not pass the check");
    if (answer == 0)
        memcpy(d->table.wanted, d->table.at, d->table_len);
    return t;
}

uint32_t desk_step(struct world *d, uint32_t job, size_t reply_size, size_t store_len)
{
    static struct room reply;
    uint8_t *r = lay(&reply, d->fill, reply_size, AT_END, 1);
    struct numbers *to = lay_numbers(AT_END);
    struct told wanted = {.answer = step_refusal(d, job, reply_size, store_len)};
    uint32_t answer = fbk_step(scheduler(d), job, d->table.at, d->table_len, r, reply_size, d->store.at, store_len, &to->changed, &to->reply_len,
                               &to->skew, &to->stamped);
    if (wanted.answer == 0) {
        struct note *n = &d->notes[job];
        wanted.answer = 600;
        if (d->written_from_outside)
            wanted = any_told(d, d->store.wanted + 4096 * job, answer, to, &reply);
        else if (answer != 600)
            wanted = handled(&d->gate, d->table.wanted, d->table_len, reply.wanted, reply_size, (struct bytes){n->packet, n->size}, n->clock);
        n->open = answer == 600;
    }
    expect_told(answer, &wanted);
    expect_scheduler(d, is_refused(&wanted) ? FBK_JOBS : job, answer == 0);
    expect_room(&reply, "the reply");
    expect_lent(d);
    return answer;
}

void desk_drop(struct world *d, uint32_t job)
{
    int open = job < FBK_JOBS && d->notes[job].open;
    expect_answer(fbk_drop(scheduler(d), job), open ? 0 : 7, "the answer to dropping");
    expect_scheduler(d, open ? job : FBK_JOBS, 0);
    if (open)
        d->notes[job].open = 0;
}

void desk_start(struct world *d, const struct session *one)
{
    static struct room texts[4];
    const uint8_t *t[4];
    uint32_t slot = 77, wanted_slot = 77;
    for (int k = 0; k < 4; k++)
        t[k] = lay(&texts[k], one->texts[k].at, one->texts[k].size, AT_END, 1);
    uint32_t answer = fbk_start(scheduler(d), d->table.at, d->table_len, one->numbers[0], one->numbers[1], one->numbers[2], one->numbers[3], t[0],
                                one->texts[0].size, t[1], one->texts[1].size, t[2], one->texts[2].size, t[3], one->texts[3].size, &slot);
    expect_answer(answer, start_session(d->table.wanted, d->table_len, one, &wanted_slot), "the answer to starting");
    expect_number(slot, wanted_slot, "the slot's number");
    expect_scheduler(d, FBK_JOBS, answer == 0);
    for (int k = 0; k < 4; k++)
        expect_room(&texts[k], "a text was written to");
    expect_lent(d);
}

void desk_end(struct world *d, uint32_t slot)
{
    uint32_t answer = fbk_end(scheduler(d), d->table.at, d->table_len, slot);
    expect_answer(answer, end_session(d->table.wanted, d->table_len, slot), "the answer to ending");
    expect_scheduler(d, FBK_JOBS, answer == 0);
    expect_lent(d);
}
