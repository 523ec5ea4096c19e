/* The file of the session table. */
#ifndef ROOMS_H
#define ROOMS_H

#include "host.h"

/* Starts the sessions of the file. Returns 0 where that fails, and says why on stderr. */
int read_rooms(struct host *host, const char *path);

#endif
