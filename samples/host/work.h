/* The two ways to work on requests. One table is worked on in one of them only. */
#ifndef WORK_H
#define WORK_H

#include "host.h"

/* Whole requests: takes the packet from its first byte to its reply. */
void handle_whole(struct host *host, struct exchange *exchange);

/* By steps: takes the packet into work. There must be a free job. */
void open_job(struct host *host, struct exchange *exchange);

/* One step of each open job. */
void step_jobs(struct host *host);

unsigned open_jobs(void);

/* Drops the jobs that are open, and returns how many these were. */
unsigned drop_jobs(struct host *host);

/* Both ways: sends the reply, and tells what became of the packet. `before` is the table before it. */
void finish(struct host *host, struct exchange *exchange, const uint8_t *before);

#endif
