/* fbk_write and fbk_check_reply with something wrong in them, which the environment's WRONG names. */
#include <stdlib.h>
#include <string.h>

#include "wrong.h"

int is_wrong(const char *name)
{
    const char *wrong = getenv("WRONG");
    return wrong != NULL && strcmp(wrong, name) == 0;
}

uint32_t __real_fbk_write(uint32_t, uint8_t, const uint8_t *, size_t, uint32_t, const uint8_t *, size_t, uint8_t *, size_t, uint32_t *);
uint32_t __real_fbk_check_reply(const uint8_t *, size_t, const uint8_t *, size_t, const uint8_t *, size_t);

uint32_t __wrap_fbk_write(uint32_t code, uint8_t identifier, const uint8_t *attributes, size_t attributes_len, uint32_t add_mac, const uint8_t *secret,
                          size_t secret_len, uint8_t *out, size_t out_size, uint32_t *out_len)
{
    if (is_wrong("keeps_8_bits_of_the_code"))
        code %= 256;
    if (is_wrong("adds_only_for_1"))
        add_mac = add_mac == 1;
    uint32_t answer = __real_fbk_write(code, identifier, attributes, attributes_len, add_mac, secret, secret_len, out, out_size, out_len);
    if (is_wrong("writes_a_length_when_refused") && answer == 13)
        *out_len = 0;
    if (is_wrong("clears_the_rest") && answer == 0)
        memset(out + *out_len, 0, out_size - *out_len);
    return answer;
}

/* The authenticator as it is not to be compared: its first 15 bytes. */
static int is_nearly_signed(const uint8_t *request, const uint8_t *reply, struct bytes secret)
{
    uint8_t right[16];
    authenticator(reply, length_of(reply), request + 4, secret, right);
    return memcmp(reply + 4, right, 15) == 0;
}

uint32_t __wrap_fbk_check_reply(const uint8_t *secret, size_t secret_len, const uint8_t *request, size_t request_len, const uint8_t *reply,
                                size_t reply_len)
{
    uint32_t answer = __real_fbk_check_reply(secret, secret_len, request, request_len, reply, reply_len);
    if (is_wrong("takes_any_mac") && answer == 206)
        return 0;
    if (is_wrong("takes_any_authenticator") && answer == 205)
        return 0;
    if (is_wrong("takes_any_code") && answer == 203)
        return is_nearly_signed(request, reply, (struct bytes){secret, secret_len}) ? 0 : 205;
    if (is_wrong("asks_the_identifier_first") && (answer == 202 || answer == 203) && reply_len > 1 && request[1] != reply[1])
        return 204;
    return answer;
}
