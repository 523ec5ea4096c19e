/* Requests to measure with, of now and signed. */
#include <stddef.h>
#include <stdint.h>

static const uint8_t secret[10] = {'1', '0', ' ', 'l', 'e', 't', 't', 'e', 'r', 's'}, nas_id[6] = {'g', 'a', 't', 'e', '-', '7'};
static const uint32_t nas_ip = 0xC0000207, clock_now = 1700000000;

extern uint8_t packet[4096];
extern size_t length;

#define ALICE "alice@example.org"

/* For the session of this user: ALICE gives 102 bytes, or 120 with a Message-Authenticator, last. */
void make_disconnect(int with_mac, const char *user);

/* A CoA-Request for the same session: 75 bytes with a Session-Timeout, or 95 with both rates in four groups. Both have as many MD5 blocks. */
void make_coa(int with_rates);

/* Length n: a stamp, then Proxy-States of so many bytes each; the last is longer where they do not fill it. Length 20 has no attribute. */
void make_states(size_t n, size_t each);
