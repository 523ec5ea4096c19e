/* Two requests in work at once, and a session that starts meanwhile: what is acknowledged is the table as it stands when the request is finished. */
#include <stdio.h>
#include <string.h>

#include "../include/fumbokeri.h"
#include "requests.h"
#include "show.h"

enum { SLOTS = 4, WORKED_ON = 2, BEFORE_START = 6 };

/* Of requests.h: the Filter-Id of the night for room 12, and the end of room 9's session. */
static const struct request *const asked[WORKED_ON] = {&requests[1], &requests[2]};

static fbk_scheduler scheduler = {0};
static uint8_t table[SLOTS * FBK_SLOT_SIZE]; /* zeros: every slot is free */
static uint8_t store[FBK_STORE_SIZE], packet[FBK_REQUEST_SIZE], reply[FBK_REPLY_SIZE];
static uint32_t jobs[WORKED_ON];
static int open_jobs[WORKED_ON];

static void show_table(const char *title)
{
    printf("%s\n", title);
    for (size_t k = 0; k < SLOTS; k++)
        show_slot("", k, table + k * FBK_SLOT_SIZE);
}

static void start(uint32_t port, uint32_t address, const char *user, const char *id)
{
    uint32_t slot = 0;
    uint32_t answer = fbk_start(&scheduler, table, sizeof table, port, address, 7200, 600, (const uint8_t *)user, strlen(user),
                                (const uint8_t *)id, strlen(id), NULL, 0, (const uint8_t *)"day", 3, &slot);
    printf("  start    %u: session \"%s\" of %s in slot %u\n", (unsigned)answer, id, user, (unsigned)slot);
}

/* The billing server writes a request, and the gate opens it. */
static void open_request(size_t i)
{
    uint32_t length = 0;
    fbk_write(asked[i]->code, asked[i]->identifier, asked[i]->attributes, asked[i]->attributes_len, asked[i]->add_mac, secret, sizeof secret,
              packet, sizeof packet, &length);
    uint32_t answer = fbk_open(&scheduler, packet, length, clock_now, store, sizeof store, &jobs[i]);
    printf("  open     %u: job %u, %s\n", (unsigned)answer, (unsigned)jobs[i], asked[i]->title);
    open_jobs[i] = 1;
}

/* One step of each open job. */
static void step_each(unsigned round)
{
    for (size_t i = 0; i < WORKED_ON; i++) {
        uint32_t changed = 0, reply_len = 0, stamped = 0;
        int64_t skew = 0;
        if (!open_jobs[i])
            continue;
        uint32_t answer = fbk_step(&scheduler, jobs[i], table, sizeof table, reply, sizeof reply, store, sizeof store, &changed, &reply_len,
                                   &skew, &stamped);
        if (answer == 600)
            continue;
        open_jobs[i] = 0;
        printf("  step %-3u job %u is finished\n", round, (unsigned)jobs[i]);
        show_answer(answer, changed, skew, stamped);
        if (reply_len != 0)
            show_packet("reply", reply);
    }
}

int main(void)
{
    unsigned round = 1;
    uint32_t made = fbk_make(&scheduler, secret, sizeof secret, nas_ip, nas_id, sizeof nas_id);
    printf("  make     %u\n", (unsigned)made);
    if (made != 0) {
        fprintf(stderr, "the scheduler is not made: refused (R%u)\n", (unsigned)made);
        return 1;
    }
    start(9, 0x0A000009, "room-9", "0000004F");
    start(12, 0x0A00000C, "room-12", "00000050");
    show_table("The session table:");
    for (size_t i = 0; i < WORKED_ON; i++)
        open_request(i);
    for (; round <= BEFORE_START; round++)
        step_each(round);
    printf("  ..       %d steps of each; both are walking the session list. Then a second device comes to room 12:\n", BEFORE_START);
    start(13, 0x0A00000D, "room-12", "00000051");
    for (; open_jobs[0] || open_jobs[1]; round++)
        step_each(round);
    show_table("The session table at the end: both devices of room 12 have the Filter-Id of the night, and room 9 is free.");
    return 0;
}
