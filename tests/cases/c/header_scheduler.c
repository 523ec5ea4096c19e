/* The scheduler's part of the header as C and C++ firmware sees it: the six functions have their types, a refusal and a discarded opening leave the
 * scheduler and every number as they were, and the sample requests are worked on four at a time. Prints the answer to each call and the numbers
 * beside it. */
#include "../../../include/fumbokeri.h"
#include "../../../samples/requests.h"

#include <stdio.h>
#include <string.h>

typedef uint32_t maker(fbk_scheduler *s, const uint8_t *secret, size_t secret_len, uint32_t nas_ip, const uint8_t *nas_id, size_t nas_id_len);
typedef uint32_t opener(fbk_scheduler *s, const uint8_t *packet, size_t packet_len, uint32_t clock, uint8_t *store, size_t store_len, uint32_t *job);
typedef uint32_t stepper(fbk_scheduler *s, uint32_t job, uint8_t *table, size_t table_len, uint8_t *reply, size_t reply_size,
                         const uint8_t *store, size_t store_len, uint32_t *changed, uint32_t *reply_len, int64_t *skew, uint32_t *stamped);
typedef uint32_t dropper(fbk_scheduler *s, uint32_t job);
typedef uint32_t starter(fbk_scheduler *s, uint8_t *table, size_t table_len, uint32_t nas_port, uint32_t framed_ip, uint32_t session_timeout,
                         uint32_t idle_timeout, const uint8_t *user_name, size_t user_name_len, const uint8_t *acct_session_id,
                         size_t acct_session_id_len, const uint8_t *calling_station_id, size_t calling_station_id_len,
                         const uint8_t *filter_id, size_t filter_id_len, uint32_t *slot);
typedef uint32_t ender(fbk_scheduler *s, uint8_t *table, size_t table_len, uint32_t slot);

static maker *const make = fbk_make;
static opener *const open_job = fbk_open;
static stepper *const step = fbk_step;
static dropper *const drop = fbk_drop;
static starter *const start = fbk_start;
static ender *const end = fbk_end;

enum { KEPT = 77, REQUESTS = sizeof requests / sizeof requests[0] };

static fbk_scheduler s, before;
static const uint8_t long_name[33] = {1};
static uint8_t table[3 * FBK_SLOT_SIZE], reply[FBK_REPLY_SIZE], store[FBK_STORE_SIZE];
static uint8_t packets[REQUESTS][FBK_REQUEST_SIZE];
static uint32_t lengths[REQUESTS];

/* The sample requests as they come to the gate. */
static void write_packets(void)
{
    for (size_t i = 0; i < REQUESTS; i++) {
        fbk_write(requests[i].code, requests[i].identifier, requests[i].attributes, requests[i].attributes_len, requests[i].add_mac,
                  secret, sizeof secret, packets[i], sizeof packets[i], &lengths[i]);
        packets[i][requests[i].there.at] ^= requests[i].there.by;
    }
}

/* Prints an answer; a refused call, and an opening that is discarded, must have left the scheduler as it was. */
static uint32_t show(const char *call, uint32_t answer)
{
    int kept = (answer >= 1 && answer <= 99) || (strcmp(call, "open") == 0 && answer != 0);
    printf("%s: %u%s", call, (unsigned)answer, kept && memcmp(&s, &before, sizeof s) != 0 ? ", AND THE SCHEDULER IS CHANGED" : "");
    memcpy(&before, &s, sizeof s);
    return answer;
}

static void try_open(const uint8_t *packet, size_t length, uint8_t *room, size_t size)
{
    uint32_t job = KEPT;
    show("open", open_job(&s, packet, length, clock_now, room, size, &job));
    printf(", %u\n", (unsigned)job);
}

static void try_start(const char *user, const char *id)
{
    uint32_t slot = KEPT;
    show("start", start(&s, table, sizeof table, 9, 0x0A000009, 65000, 600, (const uint8_t *)user, strlen(user), (const uint8_t *)id, strlen(id),
                        NULL, 0, NULL, 0, &slot));
    printf(", %u\n", (unsigned)slot);
}

static uint32_t try_step(uint32_t job, size_t table_len, size_t reply_size, size_t store_len)
{
    uint32_t changed = 5, reply_len = 6, stamped = 7;
    int64_t skew = -8;
    uint32_t answer = step(&s, job, table, table_len, reply, reply_size, store, store_len, &changed, &reply_len, &skew, &stamped);
    show("step", answer);
    printf(", %u %u %d %u\n", (unsigned)changed, (unsigned)reply_len, (int)skew, (unsigned)stamped);
    return answer;
}

static void refusals(void)
{
    try_open(NULL, 0, store, sizeof store);
    try_open(packets[0], lengths[0], store, sizeof store - 1);
    try_step(0, sizeof table - 1, sizeof reply, sizeof store);
    try_step(0, sizeof table, sizeof reply - 1, sizeof store);
    try_step(0, sizeof table, sizeof reply, sizeof store - 1);
    try_step(0, sizeof table, sizeof reply, sizeof store);
    show("drop", drop(&s, 4));
    printf("\n");
    show("end", end(&s, table, sizeof table, 2));
    printf("\n");
}

/* All requests, the lowest open job first: each job is stepped once in turn, and a free one is taken at once. */
static void work(void)
{
    size_t next = 0;
    int busy[FBK_JOBS] = {0, 0, 0, 0}, open_jobs = 0;
    while (next < REQUESTS || open_jobs > 0) {
        for (; next < REQUESTS && open_jobs < FBK_JOBS; next++, open_jobs++) {
            uint32_t job = KEPT;
            show("open", open_job(&s, packets[next], lengths[next], clock_now, store, sizeof store, &job));
            printf(", %u\n", (unsigned)job);
            busy[job % FBK_JOBS] = 1;
        }
        for (uint32_t job = 0; job < FBK_JOBS; job++)
            if (busy[job] && try_step(job, sizeof table, sizeof reply, sizeof store) != 600) {
                busy[job] = 0;
                open_jobs--;
            }
    }
}

int main(void)
{
    write_packets();
    memset(&s, 0xEE, sizeof s);
    memcpy(&before, &s, sizeof s);
    show("make", make(&s, NULL, 0, nas_ip, nas_id, sizeof nas_id));
    printf("\n");
    show("make", make(&s, secret, sizeof secret, nas_ip, long_name, sizeof long_name));
    printf("\n");
    show("make", make(&s, secret, sizeof secret, nas_ip, nas_id, sizeof nas_id));
    printf("\n");
    try_start("room-9", "0000004F");
    try_start("room-9", "0000004F");
    try_start("room-12", "00000050");
    refusals();
    work();
    try_open(packets[0], lengths[0], store, sizeof store);
    show("drop", drop(&s, 0));
    printf("\n");
    show("end", end(&s, table, sizeof table, 1));
    printf("\n");
    return 0;
}
