/* A program outside of the repository, on the installed library: starts a session, asks for its end, and checks the reply. */
#include <fumbokeri.h>
#include <stdio.h>

static uint8_t table[FBK_SLOT_SIZE], request[FBK_REQUEST_SIZE], reply[FBK_REPLY_SIZE];
static const uint8_t secret[] = "secret", name[] = "gate", user[] = {'a', 'd', 'a'}, id[] = {'7'};
static const uint8_t attributes[] = {55, 6, 0x65, 0x53, 0xF1, 0x00, 1, 5, 'a', 'd', 'a'}; /* Event-Timestamp 1700000000, User-Name */

int main(void)
{
    fbk_scheduler scheduler = {0};
    uint32_t slot, request_len = 0, changed = 0, reply_len = 0, stamped;
    int64_t skew;
    uint32_t made = fbk_make(&scheduler, secret, sizeof secret, 0xC0000207, name, sizeof name);
    uint32_t started = fbk_start(&scheduler, table, sizeof table, 1, 2, 3, 4, user, sizeof user, id, sizeof id, NULL, 0, NULL, 0, &slot);
    uint32_t written = fbk_write(40, 7, attributes, sizeof attributes, 1, secret, sizeof secret, request, sizeof request, &request_len);
    uint32_t handled = fbk_handle(table, sizeof table, secret, sizeof secret, 0xC0000207, name, sizeof name, reply, sizeof reply, request,
                                  request_len, 1700000000, &changed, &reply_len, &skew, &stamped);
    uint32_t checked = fbk_check_reply(secret, sizeof secret, request, request_len, reply, reply_len);
    printf("made %u, started %u, written %u, handled %u, changed %u, checked %u\n", (unsigned)made, (unsigned)started, (unsigned)written,
           (unsigned)handled, (unsigned)changed, (unsigned)checked);
    return 0;
}
