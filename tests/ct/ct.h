/* Subjects for valgrind: each marks the secret as undefined, calls, and marks as defined what it looks at itself. */
#ifndef CT_H
#define CT_H

#include "../fuzz/model.h"

/* What they return: how many calls were made; -1 where one is not answered as it must be. */
struct subject {
    const char *group, *name;
    int (*run)(void);
};

extern const struct subject digests[];

struct kind;
int handle(const struct kind *kind);      /* fbk_handle */
int step(const struct kind *kind);        /* fbk_step, from opening to the end */
int check(const struct kind *kind);       /* fbk_check_reply, of the reply to such a request, with what is wrong put into the reply */
int write_one(const struct kind *kind);   /* fbk_write */
int handle_in_c(const struct kind *kind); /* as the library is not to be: signatures compared by memcmp */

void hide(void *at, size_t size);
void show(void *at, size_t size);

/* What must not depend on the secret: valgrind reports it where it does. */
void expect_open(const void *at, size_t size);

/* Whether of a packet's buffer exactly the authenticator, and the Message-Authenticator, last, where there is one, depend on the secret. */
int is_hidden_right(const uint8_t *buffer, size_t size, size_t packet_len, int has_mac);

/* A secret of so many bytes: 1, 10 or 64. A subject tries each of them. */
#define SECRETS 3
struct bytes secret_of(int k);

/* Requests. */
struct kind {
    const char *name;
    uint8_t code;
    int has_mac;
    enum { RIGHT, OTHER_AUTHENTICATOR, OTHER_MAC } signature;
    size_t other_byte;      /* the one that is wrong, of 16 */
    int is_there;           /* the session that it names */
    size_t states;          /* Proxy-States of 255 bytes */
    uint32_t late;          /* seconds since its stamp */
    uint32_t answer;
};

#define KINDS 16
extern const struct kind kinds[KINDS];
#define CLOCK 1700000000u

/* Its length. */
size_t make_request(uint8_t packet[4096], const struct kind *kind, struct bytes secret);

/* A table of two slots, with the session of the requests in it or without. */
void make_table(uint8_t table[2 * 192], int is_there);

#endif
