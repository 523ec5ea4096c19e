/* Whole requests through the library: handle KIND SIZE RUNS, for callgrind to count what fbk_handle takes. */
#include <stdio.h>
#include <stdlib.h>
#include <string.h>

#include "../../include/fumbokeri.h"
#include "packets.h"
#include "sessions.h"

static uint8_t table[FBK_SLOTS_MAX * FBK_SLOT_SIZE], fresh[sizeof table], reply[FBK_REPLY_SIZE];
static size_t slots = FBK_SLOTS_MAX;

/* SIZE is the number of slots, or where there are Proxy-States of so many bytes, the packet's Length. */
static const struct kind {
    const char *name;
    enum request { DISCONNECT, WITH_MAC, TIMEOUT, RATES } request;
    size_t states;
    enum neighbours others;
    int flip;
    uint32_t answer, changed, reply_len;
} kinds[] = {
    {"plain", DISCONNECT, 0, OTHER_TEXT, 0, 0, 1, 34},    {"lone", DISCONNECT, 0, FREE, 0, 0, 1, 34},
    {"length", DISCONNECT, 0, OTHER_LENGTH, 0, 0, 1, 34}, {"mac", WITH_MAC, 0, OTHER_TEXT, 0, 0, 1, 52},
    {"forged", WITH_MAC, 0, OTHER_TEXT, 1, 104, 0, 0},    {"short", DISCONNECT, 3, OTHER_TEXT, 0, 402, 0, 0},
    {"long", DISCONNECT, 255, OTHER_TEXT, 0, 402, 0, 0},  {"timeout", TIMEOUT, 0, OTHER_TEXT, 0, 0, 1, 20},
    {"rates", RATES, 0, OTHER_TEXT, 0, 0, 1, 20},         {"last", DISCONNECT, 0, OTHER_LAST, 0, 0, 1, 34},
    {"same", DISCONNECT, 0, SAME_USER, 0, 0, 1, 34},
};

static void make(const struct kind *kind, size_t size)
{
    if (kind->states > 0) {
        make_states(size, kind->states);
    } else {
        slots = size;
        if (kind->request == TIMEOUT || kind->request == RATES)
            make_coa(kind->request == RATES);
        else
            make_disconnect(kind->request == WITH_MAC, named_user(kind->others));
    }
    packet[4] ^= kind->flip;
    fill_table(fresh, slots, kind->others);
}

/* Whether the library does what is to be measured. Length 20 has no stamp, and gets no reply. */
static int call(const struct kind *kind)
{
    uint32_t changed, reply_len, stamped;
    int64_t skew;
    uint32_t answer = fbk_handle(table, slots * FBK_SLOT_SIZE, secret, sizeof secret, nas_ip, nas_id, sizeof nas_id, reply, sizeof reply,
                                 packet, length, clock_now, &changed, &reply_len, &skew, &stamped);
    if (kind->states > 0)
        return length == 20 ? answer == 106 : answer == kind->answer && reply_len == length;
    return answer == kind->answer && changed == kind->changed && reply_len == kind->reply_len;
}

int main(int argc, char **argv)
{
    for (size_t i = 0; argc == 4 && i < sizeof kinds / sizeof *kinds; i++) {
        const struct kind *kind = &kinds[i];
        if (strcmp(kind->name, argv[1]) != 0)
            continue;
        make(kind, strtoul(argv[2], NULL, 10));
        for (long runs = strtol(argv[3], NULL, 10); runs > 0; runs--) {
            memcpy(table, fresh, sizeof table);
            if (!call(kind)) {
                fprintf(stderr, "handle: the answer to kind %s is not as it must be\n", kind->name);
                return 1;
            }
        }
        return 0;
    }
    return 2;
}
