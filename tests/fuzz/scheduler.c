/* Lists of calls on a scheduler beside the model; with writes to table and store from outside, where the input asks for them. */
#include "world.h"

#include <string.h>

const size_t part_count = 9; /* settings, secret, name, table, calls, four packets */

#define CALL 4 /* bytes of a call in the list */
#define MOST_CALLS 48

struct list {
    struct bytes table, calls;
    struct bytes packets[4];
    unsigned what[4]; /* to be mended in each */
    int with_outside_writes;
};

static void open_one(struct world *d, const struct list *l, const uint8_t *call)
{
    static uint8_t packet[MOST_PACKET];
    unsigned k = call[1] % 4;
    size_t size = copy_packet(packet, l->packets[k]);
    mend(packet, size, l->what[k], NULL, 0, d->gate.secret);
    uint32_t clock = mend_clock(packet, size, l->what[k], call[2] * 256u + call[3]);
    desk_open(d, packet, size, clock, call[1] < 250 ? FBK_STORE_SIZE : FBK_STORE_SIZE - 1);
}

/* Up to 256 steps of one job, as long as it goes on. */
static void step_some(struct world *d, const uint8_t *call)
{
    uint32_t job = call[1] < 250 ? call[1] % FBK_JOBS : call[1] * 0x1000001u;
    size_t room = call[3] < 240 ? 4096 : buffer_size(call[3]), store_len = FBK_STORE_SIZE - (call[3] == 239);
    for (int times = call[2]; times >= 0; times--)
        if (desk_step(d, job, room, store_len) != 600)
            return;
}

/* A session that a slot's bytes describe, with an Acct-Session-Id that is its own, and now and then a text of another length. */
static void start_one(struct world *d, const struct list *l, const uint8_t *call)
{
    static const size_t texts[4] = {18, 82, 115, 148};
    static uint8_t slot[FBK_SLOT_SIZE + 256];
    struct session one;
    size_t from = l->table.size >= FBK_SLOT_SIZE ? call[1] % (l->table.size / FBK_SLOT_SIZE) * FBK_SLOT_SIZE : 0;
    repeat(slot, sizeof slot, (struct bytes){l->table.at + from, l->table.size - from});
    slot[83] ^= call[2];
    for (int k = 0; k < 4; k++) {
        one.numbers[k] = be32(slot + 2 + 4 * k);
        one.texts[k] = (struct bytes){slot + texts[k] + 1, slot[texts[k]]};
    }
    if (call[3] >= 128)
        one.texts[call[3] % 4].size = call[3] % 64;
    desk_start(d, &one);
}

/* A byte of the table or of an open job's part of the store; or the table with fewer or more slots. */
static void write_from_outside(struct world *d, const uint8_t *call)
{
    size_t place = call[2] * 256u + call[3];
    struct room *to = call[1] & 1 ? &d->table : &d->store;
    d->written_from_outside = 1;
    if (call[1] % 16 == 15) {
        d->table_len = (1 + place % 64) * FBK_SLOT_SIZE;
        d->table_len = d->table_len < d->table.size ? d->table_len : d->table.size;
    } else if (to->size > 0) {
        place = call[1] & 1 ? place : place / 128 % 4 * 4096 + place % 128; /* the front of a part, where its packet is */
        to->at[place % to->size] ^= call[1] | 1;
        memcpy(to->wanted, to->at, to->size);
    }
}

static void call_one(struct world *d, const struct list *l, const uint8_t *call)
{
    switch (call[0] % 8) {
    case 0:
    case 1: open_one(d, l, call); break;
    case 4: desk_drop(d, call[1] < 250 ? call[1] % FBK_JOBS : call[1] * 0x1000001u); break;
    case 5: start_one(d, l, call); break;
    case 6: desk_end(d, call[1] < 250 ? call[1] % 65 : call[1] * 0x1000001u); break;
    case 7:
        if (l->with_outside_writes) {
            write_from_outside(d, call);
            break;
        } /* fall through */
    default: step_some(d, call);
    }
}

/* Steps of all open jobs in turn until they are finished: by the 912th, a lone one by the 132nd. */
static void finish(struct world *d)
{
    int least = desk_jobs(d) == 1 ? 132 : 912;
    for (int steps = 0; desk_jobs(d) > 0; steps++) {
        uint32_t job = steps % FBK_JOBS;
        while (!d->notes[job].open)
            job = (job + 1) % FBK_JOBS;
        expect(steps < least, "a job does not end");
        desk_step(d, job, 4096, FBK_STORE_SIZE);
    }
}

static void draft(struct world *d, struct list *l, const struct bytes parts[], struct gate *g)
{
    static uint8_t table[MOST_TABLE], store[FBK_STORE_SIZE];
    struct bytes settings = parts[0];
    uint32_t slots = take(&settings, 1), other = take(&settings, 2);
    *g = (struct gate){short_of(parts[1], 80), short_of(parts[2], 40), take(&settings, 4)};
    *l = (struct list){.table = parts[3], .calls = parts[4], .with_outside_writes = take(&settings, 1) & 1};
    for (int k = 0; k < 4; k++) {
        l->packets[k] = parts[5 + k];
        l->what[k] = take(&settings, 1);
    }
    d->table_len = table_size(slots, other);
    d->written_from_outside = 0;
    memset(d->notes, 0, sizeof d->notes);
    repeat(table, d->table_len, l->table);
    repeat(store, sizeof store, settings);
    repeat(d->fill, sizeof d->fill, settings);
    lay(&d->table, table, d->table_len, AT_END, 0);
    lay(&d->store, store, sizeof store, AT_END, 0);
}

int LLVMFuzzerTestOneInput(const uint8_t *data, size_t size)
{
    static struct world d;
    struct list l;
    struct gate g;
    struct bytes parts[MOST_PARTS];
    split(data, size, parts);
    draft(&d, &l, parts, &g);
    if (!desk_make(&d, &g))
        return 0;
    for (size_t k = 0; k < MOST_CALLS && (k + 1) * CALL <= l.calls.size; k++)
        call_one(&d, &l, l.calls.at + k * CALL);
    if (slot_count(d.table_len) > 0)
        finish(&d);
    return 0;
}
