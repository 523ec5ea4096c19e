/* For the calls with something wrong in them. */
#ifndef WRONG_H
#define WRONG_H

#include "../../include/fumbokeri.h"
#include "model.h"

/* Whether the environment's WRONG names it. */
int is_wrong(const char *name);

/* A call of fbk_handle, and what it told and wrote. */
struct call {
    uint8_t *table, *reply;
    const uint8_t *before; /* the table as it was */
    size_t slots;
    struct bytes secret, packet;
    uint32_t *changed, *reply_len, *stamped;
    int64_t *skew;
    uint32_t answer;
};

/* Something wrong that is put into it. */
struct wrong {
    const char *name;
    void (*spoil)(struct call *);
};

extern const struct wrong wrong_rates[]; /* with a type 26; after the last stands one without a name */

#endif
