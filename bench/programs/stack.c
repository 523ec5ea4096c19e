/* The stack that each call needs: prints 'CALL BYTES', the most over the packets of the benchmark.
 * A call is made on a stack of its own, painted before. What it needs reaches from the frame of the C function that makes the call,
 * through the header's inline function, down to the lowest byte that lost its paint. What the deepest function reserves and never writes
 * is not seen. */
#define _XOPEN_SOURCE 700
#include <stdio.h>
#include <string.h>
#include <ucontext.h>

#include "../../include/fumbokeri.h"
#include "packets.h"
#include "sessions.h"

static uint8_t table[FBK_SLOTS_MAX * FBK_SLOT_SIZE], reply[FBK_REPLY_SIZE], out[FBK_REQUEST_SIZE], store[FBK_STORE_SIZE];
static fbk_scheduler scheduler;
static uint32_t answer, changed, reply_len, out_len, stamped, job, slot;
static int64_t skew;
static int with_mac;

static void handle(void)
{
    answer = fbk_handle(table, sizeof table, secret, sizeof secret, nas_ip, nas_id, sizeof nas_id, reply, sizeof reply, packet, length,
                        clock_now, &changed, &reply_len, &skew, &stamped);
}
static void check_reply(void) { answer = fbk_check_reply(secret, sizeof secret, packet, length, reply, reply_len); }
static void write_request(void)
{
    size_t given = length - 20 - (with_mac ? 18 : 0); /* the Message-Authenticator is the writer's to add */
    answer = fbk_write(40, 7, packet + 20, given, with_mac, secret, sizeof secret, out, sizeof out, &out_len);
}
static void make(void) { answer = fbk_make(&scheduler, secret, sizeof secret, nas_ip, nas_id, sizeof nas_id); }
static void open_job(void) { answer = fbk_open(&scheduler, packet, length, clock_now, store, sizeof store, &job); }
static void step(void)
{
    answer = fbk_step(&scheduler, job, table, sizeof table, reply, sizeof reply, store, sizeof store, &changed, &reply_len, &skew, &stamped);
}
static void drop(void) { answer = fbk_drop(&scheduler, job); }
static void start(void)
{
    answer = fbk_start(&scheduler, table, sizeof table, 1, 2, 3, 4, nas_id, sizeof nas_id, nas_id, sizeof nas_id, nas_id, sizeof nas_id,
                       nas_id, sizeof nas_id, &slot);
}
static void end(void) { answer = fbk_end(&scheduler, table, sizeof table, slot); }

static struct call {
    const char *name;
    void (*make_call)(void);
    size_t most;
} calls[] = {
    {"fbk_handle", handle, 0}, {"fbk_write", write_request, 0}, {"fbk_check_reply", check_reply, 0}, {"fbk_make", make, 0}, {"fbk_open", open_job, 0},
    {"fbk_step", step, 0},     {"fbk_drop", drop, 0},           {"fbk_start", start, 0},             {"fbk_end", end, 0},
};
enum { HANDLE, WRITE, CHECK_REPLY, MAKE, OPEN, STEP, DROP, START, END, CALLS };

static uint8_t painted[1 << 17], paint = 0xA5, *frame;
static void (*called)(void);
static ucontext_t here, there;

static void enter(void)
{
    frame = __builtin_frame_address(0);
    called();
}

/* Makes a call on the painted stack; whether it answers as wanted. */
static int measure(int which, uint32_t wanted)
{
    struct call *call = &calls[which];
    size_t kept = 0;
    memset(painted, paint, sizeof painted);
    getcontext(&there);
    there.uc_stack.ss_sp = painted;
    there.uc_stack.ss_size = sizeof painted;
    there.uc_link = &here;
    called = call->make_call;
    makecontext(&there, enter, 0);
    swapcontext(&here, &there);
    while (painted[kept] == paint)
        kept++;
    if ((size_t)(frame - painted) - kept > call->most)
        call->most = (size_t)(frame - painted) - kept;
    return answer == wanted;
}

/* Every call on the packet, which gets this answer; whether all were as they must be. */
static int measure_all(uint32_t wanted)
{
    int right = 1;
    fill_table(table, FBK_SLOTS_MAX - 1, OTHER_TEXT); /* the last slot is for fbk_start */
    right &= measure(HANDLE, wanted) && (reply_len == 0 || measure(CHECK_REPLY, 0)) && measure(WRITE, 0);
    fill_table(table, FBK_SLOTS_MAX - 1, OTHER_TEXT);
    right &= measure(MAKE, 0) && measure(START, 0) && measure(END, 0);
    right &= measure(OPEN, 0) && measure(DROP, 0) && measure(OPEN, 0);
    while (right && measure(STEP, 600))
        ;
    return right && answer == wanted;
}

static int measure_packets(void)
{
    int right = 1;
    for (with_mac = 0; with_mac < 2; with_mac++) {
        make_disconnect(with_mac, ALICE);
        right &= measure_all(0);
        packet[4] ^= 1;
        right &= measure_all(104);
    }
    with_mac = 0;
    make_coa(1);
    right &= measure_all(0);
    make_states(4096, 3);
    right &= measure_all(402);
    make_states(4096, 255);
    return right & measure_all(402);
}

int main(void)
{
    for (int round = 0; round < 2; round++) {
        if (!measure_packets()) {
            fprintf(stderr, "stack: an answer is not as it must be\n");
            return 1;
        }
        paint = (uint8_t)~paint; /* a byte that happened to be written as it was painted is seen in the second round */
    }
    for (size_t i = 0; i < CALLS; i++)
        printf("%s %zu\n", calls[i].name, calls[i].most);
    return 0;
}
