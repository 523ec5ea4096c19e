/* Whole requests, by fbk_handle(). */
#include <string.h>
#include <time.h>

#include "work.h"

void handle_whole(struct host *h, struct exchange *x)
{
    uint8_t before[sizeof h->table];
    const struct options *o = &h->options;
    memcpy(before, h->table, sizeof before);
    x->steps = 0;
    x->answer = fbk_handle(h->table, h->table_len, o->secret, o->secret_len, o->nas_ip, (const uint8_t *)o->nas_id, strlen(o->nas_id), x->reply,
                           sizeof x->reply, x->packet, x->packet_len, (uint32_t)time(NULL), &x->changed, &x->reply_len, &x->skew, &x->stamped);
    finish(h, x, before);
}
