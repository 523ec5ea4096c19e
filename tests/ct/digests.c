/* MD5, HMAC, the signatures and the comparison of 16 bytes: through the probes, with all bytes hidden. */
#include <string.h>

#include "ct.h"

#define PROBE(name, ...) uint32_t probe_##name(__VA_ARGS__)
#define BYTES const uint8_t *, size_t
#define OUT uint8_t *, size_t

PROBE(md5, BYTES, OUT);
PROBE(md5_cut, BYTES, size_t, size_t, OUT);
PROBE(hmac, BYTES, BYTES, OUT);
PROBE(hmac_cut, BYTES, BYTES, size_t, size_t, OUT);
PROBE(equal16, BYTES, BYTES);
PROBE(authenticator, BYTES, size_t, BYTES, BYTES, OUT);
PROBE(mac, BYTES, size_t, BYTES, size_t, BYTES, OUT);
PROBE(blocks, BYTES, size_t, BYTES, OUT);

#define MOST 200 /* bytes of a message or key: more than three blocks */

static uint8_t message[MOST], key[MOST], auth[16], out[16];

/* Each length of message and key, with a stride that meets all borders of blocks. */
static int all_lengths(uint32_t (*call)(size_t n, size_t k))
{
    int calls = 0;
    hide(message, sizeof message);
    hide(key, sizeof key);
    for (size_t n = 20; n <= MOST; n++, calls++) {
        uint32_t answer = call(n, 1 + n * 7 % 64);
        show(&answer, sizeof answer);
        if (answer != 0)
            return -1;
    }
    return calls;
}

static uint32_t call_md5(size_t n, size_t k) { (void)k; return probe_md5(message, n, out, 16); }
static uint32_t call_md5_cut(size_t n, size_t k) { return probe_md5_cut(message, n, n * k % (n + 1), n, out, 16); }
static uint32_t call_hmac(size_t n, size_t k) { return probe_hmac(key, k * 3, message, n, out, 16); }
static uint32_t call_hmac_cut(size_t n, size_t k) { return probe_hmac_cut(key, k, message, n, n * k % (n + 1), n, out, 16); }
static uint32_t call_authenticator(size_t n, size_t k) { return probe_authenticator(message, n, n, auth, 16, key, k, out, 16); }
static uint32_t call_mac(size_t n, size_t k) { return n < 36 ? 0 : probe_mac(message, n, n, auth, 16, n - 16, key, k, out, 16); }
static uint32_t call_blocks(size_t n, size_t k) { return probe_blocks(message, n, n, key, k, out, 16); }

static int md5(void) { return all_lengths(call_md5); }
static int md5_cut(void) { return all_lengths(call_md5_cut); }
static int hmac(void) { return all_lengths(call_hmac); }
static int hmac_cut(void) { return all_lengths(call_hmac_cut); }
static int authenticators(void) { return all_lengths(call_authenticator); }
static int macs(void) { return all_lengths(call_mac); }
static int blocks(void) { return all_lengths(call_blocks); }

/* The same bytes, and each of them wrong in turn. */
static int compared(uint32_t (*call)(const uint8_t *, size_t, const uint8_t *, size_t))
{
    uint8_t a[16] = {0}, b[16];
    int calls = 0;
    for (size_t wrong = 0; wrong <= 16; wrong++, calls++) {
        memcpy(b, a, 16);
        if (wrong < 16)
            b[wrong] = 0x80;
        hide(a, 16);
        hide(b, 16);
        uint32_t answer = call(a, 16, b, 16);
        show(&answer, sizeof answer);
        show(a, 16);
        show(b, 16);
        if (answer != (wrong == 16))
            return -1;
    }
    return calls;
}

/* As the library is not to compare: it leaves at the first difference. */
static uint32_t early_exit(const uint8_t *a, size_t n, const uint8_t *b, size_t m)
{
    (void)m;
    for (size_t k = 0; k < n; k++)
        if (a[k] != b[k])
            return 0;
    return 1;
}

/* As the library is not to look up: by a secret byte. */
static uint32_t looked_up(const uint8_t *a, size_t n, const uint8_t *b, size_t m)
{
    static const uint8_t squares[256] = {1};
    uint32_t all = 1;
    (void)m;
    for (size_t k = 0; k < n; k++)
        all &= squares[a[k] ^ b[k]];
    return all;
}

static int equal16(void) { return compared(probe_equal16); }
static int equal_early(void) { return compared(early_exit); }
static int equal_by_table(void) { return compared(looked_up); }

const struct subject digests[] = {
    {"digest", "MD5", md5}, {"digest", "MD5 in pieces", md5_cut}, {"digest", "HMAC-MD5", hmac}, {"digest", "HMAC-MD5 in pieces", hmac_cut},
    {"digest", "authenticator", authenticators}, {"digest", "Message-Authenticator", macs}, {"digest", "authenticator by blocks", blocks},
    {"digest", "16 bytes compared", equal16}, {"wrong", "16 bytes compared, early exit", equal_early},
    {"wrong", "16 bytes compared, by a table", equal_by_table}, {NULL, NULL, NULL},
};
