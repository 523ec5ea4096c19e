/* What the host tells: a line for each packet, and the session table. */
#ifndef JOURNAL_H
#define JOURNAL_H

#include "host.h"

/* A line for a packet that is done with. `before` is the table before it, `sent` whether the system took the reply. */
void tell_exchange(const struct host *host, const struct exchange *exchange, const uint8_t *before, int sent);

/* The live slots in full, and how many are free. */
void tell_table(const struct host *host);

#endif
