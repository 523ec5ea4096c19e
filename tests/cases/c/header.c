/* The header as C and C++ firmware sees it: it may be included twice, each function has its type, and each run of no bytes may be NULL.
 * Prints the answer to each call, and whether the numbers beside it were written. */
#include "../../../include/fumbokeri.h"
#include "../../../include/fumbokeri.h"

#include <stdio.h>

typedef uint32_t handler(uint8_t *table, size_t table_len, const uint8_t *secret, size_t secret_len, uint32_t nas_ip,
                         const uint8_t *nas_id, size_t nas_id_len, uint8_t *reply, size_t reply_size, const uint8_t *packet,
                         size_t packet_len, uint32_t clock, uint32_t *changed, uint32_t *reply_len, int64_t *skew, uint32_t *stamped);

typedef uint32_t writer(uint32_t code, uint8_t identifier, const uint8_t *attributes, size_t attributes_len, uint32_t add_mac,
                        const uint8_t *secret, size_t secret_len, uint8_t *out, size_t out_size, uint32_t *out_len);
typedef uint32_t reply_check(const uint8_t *secret, size_t secret_len, const uint8_t *request, size_t request_len, const uint8_t *reply,
                             size_t reply_len);

static handler *const handle = fbk_handle;
static writer *const write_request = fbk_write;
static reply_check *const check_reply = fbk_check_reply;

static uint8_t table[FBK_SLOTS_MAX * FBK_SLOT_SIZE], reply[FBK_REPLY_SIZE];
static uint8_t out[FBK_REQUEST_SIZE];
static const uint8_t secret[1] = {1}, name[1] = {2}, packet[20] = {40, 7, 0, 20}, answer[20] = {41, 7, 0, 20}, attribute[2] = {1, 2};

enum { TABLE = 1, SECRET = 2, NAME = 4, REPLY = 8, PACKET = 16, ALL = 31, ATTRIBUTES = 32, OUT = 64 };

/* A call in which the runs that `gone` has are NULL, with length 0. */
static void try_null(const char *what, int gone)
{
    uint32_t changed = 5, reply_len = 6, stamped = 7;
    int64_t skew = -8;
    uint32_t answer = handle(gone & TABLE ? NULL : table, gone & TABLE ? 0 : sizeof table, gone & SECRET ? NULL : secret,
                             gone & SECRET ? 0 : sizeof secret, 0xC0000207, gone & NAME ? NULL : name, gone & NAME ? 0 : sizeof name,
                             gone & REPLY ? NULL : reply, gone & REPLY ? 0 : sizeof reply, gone & PACKET ? NULL : packet,
                             gone & PACKET ? 0 : sizeof packet, 1700000000, &changed, &reply_len, &skew, &stamped);
    printf("%s: %u, %u %u %d %u\n", what, (unsigned)answer, (unsigned)changed, (unsigned)reply_len, (int)skew, (unsigned)stamped);
}

static void try_write(const char *what, int gone)
{
    uint32_t length = 5;
    uint32_t told = write_request(40, 7, gone & ATTRIBUTES ? NULL : attribute, gone & ATTRIBUTES ? 0 : sizeof attribute, 1,
                                  gone & SECRET ? NULL : secret, gone & SECRET ? 0 : sizeof secret, gone & OUT ? NULL : out,
                                  gone & OUT ? 0 : sizeof out, &length);
    printf("write, %s: %u, %u\n", what, (unsigned)told, (unsigned)length);
}

static void try_check(const char *what, int gone)
{
    uint32_t told = check_reply(gone & SECRET ? NULL : secret, gone & SECRET ? 0 : sizeof secret, gone & PACKET ? NULL : packet,
                                gone & PACKET ? 0 : sizeof packet, gone & REPLY ? NULL : answer, gone & REPLY ? 0 : sizeof answer);
    printf("check, %s: %u\n", what, (unsigned)told);
}

int main(void)
{
    try_null("none", 0);
    try_null("table", TABLE);
    try_null("secret", SECRET);
    try_null("nas_id", NAME);
    try_null("reply", REPLY);
    try_null("packet", PACKET);
    try_null("all but the table", ALL - TABLE);
    try_null("all", ALL);
    try_write("none", 0);
    try_write("attributes", ATTRIBUTES);
    try_write("secret", SECRET);
    try_write("out", OUT);
    try_write("all", ATTRIBUTES | SECRET | OUT);
    try_check("none", 0);
    try_check("secret", SECRET);
    try_check("request", PACKET);
    try_check("reply", REPLY);
    try_check("all", SECRET | PACKET | REPLY);
    return 0;
}
