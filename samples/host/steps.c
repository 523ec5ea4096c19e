/* Up to four requests in work, by fbk_open() and fbk_step(). */
#include <string.h>
#include <time.h>

#include "work.h"

static uint8_t store[FBK_STORE_SIZE];
static struct exchange jobs[FBK_JOBS];
static int is_open[FBK_JOBS];

void open_job(struct host *h, struct exchange *x)
{
    uint32_t job;
    x->answer = fbk_open(&h->scheduler, x->packet, x->packet_len, (uint32_t)time(NULL), store, sizeof store, &job);
    x->changed = x->reply_len = x->stamped = x->steps = 0;
    if (x->answer != 0) {
        finish(h, x, h->table); /* discarded: it uses no job */
        return;
    }
    x->job = job;
    jobs[job] = *x;
    is_open[job] = 1;
}

static void step(struct host *h, uint32_t job)
{
    struct exchange *x = &jobs[job];
    uint8_t before[sizeof h->table];
    memcpy(before, h->table, sizeof before);
    x->answer = fbk_step(&h->scheduler, job, h->table, h->table_len, x->reply, sizeof x->reply, store, sizeof store, &x->changed, &x->reply_len,
                         &x->skew, &x->stamped);
    x->steps++;
    if (x->answer == 600)
        return;
    is_open[job] = 0;
    finish(h, x, before);
}

void step_jobs(struct host *h)
{
    for (uint32_t job = 0; job < FBK_JOBS; job++)
        if (is_open[job])
            step(h, job);
}

unsigned open_jobs(void)
{
    unsigned count = 0;
    for (uint32_t job = 0; job < FBK_JOBS; job++)
        count += (unsigned)is_open[job];
    return count;
}

unsigned drop_jobs(struct host *h)
{
    unsigned count = open_jobs();
    for (uint32_t job = 0; job < FBK_JOBS; job++)
        if (is_open[job])
            is_open[job] = fbk_drop(&h->scheduler, job) != 0;
    return count;
}
