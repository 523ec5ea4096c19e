/* A packet after mutation, put right, so that it gets past the first rules: each repair only where it is asked for. */
#ifndef MEND_H
#define MEND_H

#include "model.h"

enum {
    MEND_LENGTH = 1,  /* Length is that of the packet */
    MEND_TILING = 2,  /* the attributes fill Length */
    MEND_CODE = 4,    /* a request's code, or a reply's */
    MEND_MACS = 8,    /* each Message-Authenticator of length 18 */
    MEND_SIGN = 16,   /* the authenticator */
    MEND_CLOCK = 32,  /* a handler's clock is the stamp's time and the few seconds that are given */
    MEND_GATE = 64,   /* a handler's name and address are those that the packet asks for */
};

/* Where auth is given, the packet is a reply, and the code its request's. */
void mend(uint8_t *p, size_t size, unsigned what, const uint8_t *auth, uint8_t code, struct bytes secret);

/* Attributes that fill the run, unless it has one byte. */
void tile(uint8_t *run, size_t size);

/* A request's own; clock may be of any value where there is no stamp. */
uint32_t mend_clock(const uint8_t *p, size_t size, unsigned what, uint32_t clock);
void mend_gate(const uint8_t *p, size_t size, unsigned what, struct gate *g);

#endif
