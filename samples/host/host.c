/* A host to test RADIUS clients with: the library behind a UDP port of 127.0.0.1. --help says how it is used. */
#include <stdio.h>
#include <string.h>
#include <unistd.h>

#include "datagrams.h"
#include "journal.h"
#include "rooms.h"
#include "signals.h"
#include "work.h"

static struct host host; /* zeros, as fbk_make() asks of the scheduler in it */

/* Makes the scheduler, which also judges secret and identity for whole requests. Returns 0 where they are unfit. */
static int make_scheduler(struct host *h)
{
    const struct options *o = &h->options;
    uint32_t answer = fbk_make(&h->scheduler, o->secret, o->secret_len, o->nas_ip, (const uint8_t *)o->nas_id, strlen(o->nas_id));
    if (answer == 2)
        fprintf(stderr, "fumbokeri-host: the secret has %u bytes, and may have 1 to 64\n", (unsigned)o->secret_len);
    if (answer == 3)
        fprintf(stderr, "fumbokeri-host: the NAS-Identifier has %u bytes, and may have 1 to 32\n", (unsigned)strlen(o->nas_id));
    return answer == 0;
}

static void tell_start(const struct host *h)
{
    const struct options *o = &h->options;
    printf("fumbokeri-host: listens on 127.0.0.1:%u, process %ld\n", (unsigned)o->port, (long)getpid());
    printf("NAS-IP-Address %u.%u.%u.%u, NAS-Identifier %s, %s\n", (unsigned)o->nas_ip >> 24, (unsigned)o->nas_ip >> 16 & 255,
           (unsigned)o->nas_ip >> 8 & 255, (unsigned)o->nas_ip & 255, o->nas_id, o->by_steps ? "up to four requests in steps" : "whole requests");
    tell_table(h);
    printf("time (UTC) sender | what came | rule | answer | sessions changed%s\n", o->by_steps ? " | job" : "");
}

/* Waits as the work allows: no packet is read where no job is free, and open jobs do not wait for one. */
static int is_packet_there(const struct host *h)
{
    unsigned open = open_jobs();
    return wait_for_packet(open < FBK_JOBS ? h->socket : -1, open != 0 ? (long)h->options.pace : -1);
}

static void serve(struct host *h)
{
    static struct exchange exchange;
    while (!is_ended()) {
        int there = is_packet_there(h) && receive(h->socket, &exchange);
        if (is_table_asked())
            tell_table(h);
        if (there && h->options.by_steps)
            open_job(h, &exchange);
        else if (there)
            handle_whole(h, &exchange);
        step_jobs(h);
    }
}

int main(int argc, char **argv)
{
    setvbuf(stdout, NULL, _IOLBF, 0); /* each line at once, also into a file */
    read_options(argc, argv, &host.options);
    host.table_len = host.options.slots * FBK_SLOT_SIZE;
    if (!make_scheduler(&host) || !read_rooms(&host, host.options.rooms))
        return 2;
    host.socket = open_socket(&host.options.port);
    if (host.socket < 0)
        return 1;
    take_signals();
    tell_start(&host);
    serve(&host);
    unsigned dropped = drop_jobs(&host);
    close(host.socket);
    printf("fumbokeri-host: ended; packets: %lu, replies: %lu, requests dropped in work: %u\n", host.requests, host.replies, dropped);
    return 0;
}
