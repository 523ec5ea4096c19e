/* Documents 01 and 02 in C, a second implementation from their words alone: what the library must tell and write. It shares no code with it. */
#ifndef MODEL_H
#define MODEL_H

#include <stddef.h>
#include <stdint.h>

#define MOST_ATTRIBUTES ((4096 - 20) / 2)

struct attribute {
    uint8_t kind;
    const uint8_t *value;
    size_t size; /* of the value */
};

struct found {
    size_t count;
    struct attribute all[MOST_ATTRIBUTES];
};

struct bytes {
    const uint8_t *at;
    size_t size;
};

struct gate {
    struct bytes secret, name;
    uint32_t address;
};

struct told {
    uint32_t answer, changed, reply_len, stamped;
    int64_t skew;
};

struct session {
    uint32_t numbers[4]; /* port, address, timeout, idle */
    struct bytes texts[4]; /* user, id, station, filter */
};

/* How a type 26 decides: FITS where it does not; those up to FIFTH_GROUP are what is wrong with one, the others what came of one that fits. */
enum event {
    FITS,
    ANOTHER_VENDOR,
    UNDER_LENGTH_6,
    TWICE,
    OTHER_ITEM,
    ITEM_LENGTH, /* 0 or 1 */
    PAST_TYPE_26,
    PAST_GROUP, /* and inside the type 26 */
    LONE_BYTE,
    RATE_LENGTH,
    RATE_TWICE, /* in one list */
    RATE_TWICE_IN_GROUPS,
    FIFTH_GROUP,
    NO_RATE_402,
    NO_RATE_ACK,
    DOWN_ACK,
    UP_ACK,
    BOTH_ACK,
    FOUR_GROUPS_ACK,
    EVENTS
};

struct rates {
    const uint8_t *down, *up; /* four bytes; NULL where it is not set */
    int groups;               /* that stand in each other */
};

/* All type 26 of a request. */
struct vendors {
    int count, is_of_another; /* how many; one of them */
    enum event event; /* what is wrong with ours */
    struct rates rates;
};

extern const uint8_t no_auth[16]; /* zeros: a request's authenticator field while it is signed */

/* Packets. */
uint32_t be32(const uint8_t *at);
void put_be32(uint8_t *at, uint32_t value);
size_t length_of(const uint8_t *p);
int same(struct bytes a, struct bytes b);
int bad_length(const uint8_t *p, size_t size);                                /* D1's rule */
int read_attributes(const uint8_t *run, size_t size, struct found *f);        /* 0 by D3's rule; of at most 4,076 bytes */
uint32_t bad_form(const uint8_t *p, size_t size, struct found *f);            /* 101 to 103, or 0 and the attributes */
struct told judged(const struct gate *g, const uint8_t *p, const struct found *f, uint32_t clock); /* D4 to D6, causes 1 to 6 */

/* Type 26. */
struct vendors vendors_in(const struct found *f);
int has_rate(const struct vendors *v);
void acknowledged(const struct found *f);                 /* counts what an acknowledged CoA-Request sets */
uint32_t decided(enum event event, uint32_t answer);      /* the answer, which a type 26 alone decided so; counted */
extern unsigned long events[EVENTS];                      /* how often each came up */
extern const char *const event_names[EVENTS];

/* Signatures; auth is what stands for the authenticator field, n is Length, at the place of a Message-Authenticator's value. */
void authenticator(const uint8_t *p, size_t n, const uint8_t *auth, struct bytes secret, uint8_t out[16]);
void message_authenticator(const uint8_t *p, size_t n, const uint8_t *auth, size_t at, struct bytes secret, uint8_t out[16]);
int wrong_authenticator(const uint8_t *p, const uint8_t *auth, struct bytes secret);                        /* D4's and V5's rule */
int wrong_mac(const uint8_t *p, const struct found *f, const uint8_t *auth, struct bytes secret);           /* D5's and V6's rule */

/* The session table. */
size_t slot_count(size_t table_len); /* 0 by R1's rule */
int is_live(const uint8_t *slot);
int matches(const uint8_t *slot, const struct found *f);
void change(uint8_t *slot, uint8_t code, const struct found *f);
uint32_t start_session(uint8_t *table, size_t table_len, const struct session *one, uint32_t *slot);
uint32_t end_session(uint8_t *table, size_t table_len, uint32_t slot);

/* The calls: each writes what the library must write. */
struct told handled(const struct gate *g, uint8_t *table, size_t table_len, uint8_t *reply, size_t reply_size, struct bytes packet, uint32_t clock);
uint32_t written(uint32_t code, uint8_t identifier, struct bytes area, uint32_t add, struct bytes secret, uint8_t *out, size_t out_size,
                 uint32_t *out_len);
uint32_t checked(struct bytes secret, struct bytes request, struct bytes reply);

#endif
