/* Steps of a job through the library: steps KIND RUNS, for callgrind to count what fbk_step_lent takes. */
#include <stdio.h>
#include <stdlib.h>
#include <string.h>

#include "../../include/fumbokeri.h"
#include "packets.h"

static uint8_t table[FBK_SLOTS_MAX * FBK_SLOT_SIZE], fresh[sizeof table], reply[FBK_REPLY_SIZE], store[FBK_STORE_SIZE];

/* A step of so many before it. The Disconnect-Request has two blocks; then come Check, 64 slots and Commit. */
static const struct kind {
    const char *name;
    int before;
    uint32_t answer;
} kinds[] = {{"hash", 0, 600}, {"check", 2, 600}, {"match", 3, 600}, {"commit", 67, 0}};

static uint32_t step(fbk_scheduler *s)
{
    uint32_t changed, reply_len, stamped;
    int64_t skew;
    return fbk_step(s, 0, table, sizeof table, reply, sizeof reply, store, sizeof store, &changed, &reply_len, &skew, &stamped);
}

int main(int argc, char **argv)
{
    static fbk_scheduler before, s;
    uint32_t slot, job;
    for (size_t i = 0; argc == 3 && i < sizeof kinds / sizeof *kinds; i++) {
        if (strcmp(kinds[i].name, argv[1]) != 0)
            continue;
        make_disconnect(0, ALICE);
        fbk_make(&before, secret, sizeof secret, nas_ip, nas_id, sizeof nas_id);
        fbk_start(&before, table, sizeof table, 0, 0, 0, 0, (const uint8_t *)"alice@example.org", 17, (const uint8_t *)"0000004F", 8,
                  (const uint8_t *)"02-00-5E-10-00-01", 17, NULL, 0, &slot);
        fbk_open(&before, packet, length, clock_now, store, sizeof store, &job);
        for (int k = 0; k < kinds[i].before; k++)
            if (step(&before) != 600)
                return 1;
        memcpy(fresh, table, sizeof table);
        for (long runs = strtol(argv[2], NULL, 10); runs > 0; runs--) {
            s = before;
            memcpy(table, fresh, sizeof table);
            if (step(&s) != kinds[i].answer) {
                fprintf(stderr, "steps: the answer to kind %s is not as it must be\n", kinds[i].name);
                return 1;
            }
        }
        return 0;
    }
    return 2;
}
