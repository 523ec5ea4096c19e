/* Calls on a scheduler, each beside the model. It is document 01's book for demand 3: a request is handled whole at the step that
   finished it, with the packet and the clock of its opening. */
#ifndef WORLD_H
#define WORLD_H

#include "harness.h"

struct note {
    int open;
    uint8_t packet[MOST_PACKET];
    size_t size;
    uint32_t clock;
};

struct world {
    struct room s; /* an fbk_scheduler */
    struct gate gate;
    struct room table, store; /* lent to each call; `wanted` is what they must be */
    size_t table_len;         /* less than is laid where the caller lends fewer slots */
    struct note notes[FBK_JOBS];
    uint8_t fill[MOST_BUFFER]; /* a reply buffer before a step */
    int written_from_outside;  /* then only what holds of any table and store is asked for */
};

/* Whether there is one: secret and name must fit. */
int desk_make(struct world *d, const struct gate *g);

void desk_open(struct world *d, const uint8_t *packet, size_t size, uint32_t clock, size_t store_len);
uint32_t desk_step(struct world *d, uint32_t job, size_t reply_size, size_t store_len); /* the answer */
void desk_drop(struct world *d, uint32_t job);
void desk_start(struct world *d, const struct session *one);
void desk_end(struct world *d, uint32_t slot);

int desk_jobs(const struct world *d); /* how many are open */

#endif
