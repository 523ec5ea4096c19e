/* A minimal host: the gate of a care home with a few rooms, and the billing server, which asks it for what requests.h lists. */
#include <stdio.h>
#include <string.h>

#include "../include/fumbokeri.h"
#include "requests.h"
#include "show.h"

enum { SLOTS = 4 };

static uint8_t table[SLOTS * FBK_SLOT_SIZE]; /* zeros: every slot is free */
static uint8_t sent[FBK_REQUEST_SIZE]; /* the billing server's request */
static uint8_t packet[FBK_REQUEST_SIZE]; /* as it comes to the gate */
static uint8_t reply[FBK_REPLY_SIZE];

static void put_number(uint8_t *p, uint32_t v)
{
    for (int i = 0; i < 4; i++)
        p[i] = (uint8_t)(v >> (24 - 8 * i));
}

static void put_text(uint8_t *p, const char *text)
{
    p[0] = (uint8_t)strlen(text);
    memcpy(p + 1, text, strlen(text));
}

/* Records a session in a free slot. */
static void put_session(size_t k, uint32_t port, uint32_t address, uint32_t timeout, const char *user, const char *id,
                        const char *station, const char *filter)
{
    uint8_t *slot = table + k * FBK_SLOT_SIZE;
    slot[0] = 0x5A;
    slot[1] = 0x4C;
    put_number(slot + 2, port);
    put_number(slot + 6, address);
    put_number(slot + 10, timeout);
    put_number(slot + 14, 600); /* Idle-Timeout */
    put_text(slot + 18, user);
    put_text(slot + 82, id);
    put_text(slot + 115, station);
    put_text(slot + 148, filter);
}

static void show_table(const char *title)
{
    printf("%s\n", title);
    for (size_t k = 0; k < SLOTS; k++)
        show_slot("", k, table + k * FBK_SLOT_SIZE);
}

/* The gate takes the packet, and returns the length of its reply. */
static uint32_t take(size_t length)
{
    uint8_t before[sizeof table];
    memcpy(before, table, sizeof table);

    uint32_t changed = 0, reply_len = 0, stamped = 0;
    int64_t skew = 0;
    uint32_t answer = fbk_handle(table, sizeof table, secret, sizeof secret, nas_ip, nas_id, sizeof nas_id, reply, sizeof reply,
                                 packet, length, clock_now, &changed, &reply_len, &skew, &stamped);
    show_answer(answer, changed, skew, stamped);

    if (memcmp(before, table, sizeof table) == 0)
        printf("  table    as it was\n");
    for (size_t k = 0; k < SLOTS; k++) {
        const uint8_t *old = before + k * FBK_SLOT_SIZE, *new = table + k * FBK_SLOT_SIZE;
        if (memcmp(old, new, FBK_SLOT_SIZE) != 0) {
            show_slot("before", k, old);
            show_slot("after", k, new);
        }
    }
    return reply_len;
}

static void alter(const char *way, uint8_t *p, struct change change)
{
    if (change.by == 0)
        return;
    p[change.at] ^= change.by;
    printf("  altered  byte %u, on the way %s\n", (unsigned)change.at, way);
}

/* The billing server writes a request, the gate takes it, and the billing server checks the reply. */
static int ask(const struct request *asked)
{
    uint32_t length = 0;
    uint32_t answer = fbk_write(asked->code, asked->identifier, asked->attributes, asked->attributes_len, asked->add_mac, secret,
                                sizeof secret, sent, sizeof sent, &length);
    if (answer != 0) {
        printf("  not written: %u\n", (unsigned)answer);
        return 0;
    }
    memcpy(packet, sent, length);
    alter("there", packet, asked->there);
    show_packet("packet", packet);

    uint32_t reply_len = take(length);
    if (reply_len == 0) {
        printf("  reply    none\n");
        return 1;
    }
    show_packet("reply", reply);
    alter("back", reply, asked->back);
    show_check(fbk_check_reply(secret, sizeof secret, sent, length, reply, reply_len));
    return 1;
}

int main(void)
{
    put_session(0, 9, 0x0A000009, 65000, "room-9", "0000004F", "02-00-5E-10-00-09", "day");
    put_session(1, 12, 0x0A00000C, 7200, "room-12", "00000050", "02-00-5E-10-00-0C", "day");
    put_session(3, 12, 0x0A00000D, 7200, "room-12", "00000051", "02-00-5E-10-00-0D", "guest");
    printf("The gate %.*s, secret \"%.*s\", clock %u\n\n", (int)sizeof nas_id, nas_id, (int)sizeof secret, secret, (unsigned)clock_now);
    show_table("Its session table:");
    for (size_t i = 0; i < sizeof requests / sizeof *requests; i++) {
        printf("\n%u. %s\n", (unsigned)i + 1, requests[i].title);
        if (!ask(&requests[i]))
            return 1;
    }
    printf("\n");
    show_table("The session table at the end:");
    return 0;
}
