/* What the host holds while it runs. */
#ifndef HOST_H
#define HOST_H

#include <netinet/in.h>

#include "../../include/fumbokeri.h"
#include "options.h"

struct host {
    struct options options;
    uint8_t table[FBK_SLOTS_MAX * FBK_SLOT_SIZE];
    size_t table_len;
    fbk_scheduler scheduler; /* starts the sessions; with --steps it works on the requests too, else it never has a job */
    int socket;
    unsigned long requests, replies;
};

/* A packet that came, and what became of it. */
struct exchange {
    struct sockaddr_in sender;
    uint8_t packet[FBK_REQUEST_SIZE]; /* a Length is at most this; what a datagram has after it is padding */
    size_t packet_len;
    uint32_t answer, changed, reply_len, stamped;
    int64_t skew;
    uint8_t reply[FBK_REPLY_SIZE];
    uint32_t job, steps; /* with --steps; no step where it was discarded at opening */
};

#endif
