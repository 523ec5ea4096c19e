/* The end of both ways to work. */
#include "datagrams.h"
#include "journal.h"
#include "work.h"

void finish(struct host *h, struct exchange *x, const uint8_t *before)
{
    int sent = x->reply_len != 0 && send_reply(h->socket, x);
    h->requests++;
    h->replies += (unsigned)sent;
    tell_exchange(h, x, before, sent);
}
