/* UDP on 127.0.0.1. */
#ifndef DATAGRAMS_H
#define DATAGRAMS_H

#include "host.h"

/* A socket on the port; 0 takes a free one, and writes which. Returns -1 where there is none, and says why on stderr. */
int open_socket(uint32_t *port);

/* Reads one packet. Returns 0 where none is there after all. */
int receive(int socket, struct exchange *exchange);

/* Returns 0 where the system does not take the reply. */
int send_reply(int socket, const struct exchange *exchange);

#endif
