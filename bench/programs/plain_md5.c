#include "plain_md5.h"

#include <string.h>

struct md5 {
    uint32_t state[4];  /* A, B, C, D */
    uint64_t length;    /* bytes so far */
    uint8_t block[64];  /* length % 64 bytes that wait for a whole block */
};

static uint32_t rotl(uint32_t x, int s) { return x << s | x >> (32 - s); }

static uint32_t F(uint32_t x, uint32_t y, uint32_t z) { return (x & y) | (~x & z); }
static uint32_t G(uint32_t x, uint32_t y, uint32_t z) { return (x & z) | (y & ~z); }
static uint32_t H(uint32_t x, uint32_t y, uint32_t z) { return x ^ y ^ z; }
static uint32_t I(uint32_t x, uint32_t y, uint32_t z) { return y ^ (x | ~z); }

/* RFC 1321, 3.4: a = b + ((a + f(b,c,d) + X[k] + T[i]) <<< s), where t is T[i] */
#define STEP(f, a, b, c, d, k, s, t) a = b + rotl(a + f(b, c, d) + x[k] + t, s)
/* Four of them, of which the first takes X[k] and each next one that is so many words on */
#define FOUR(f, k, on, s1, s2, s3, s4, t1, t2, t3, t4)  \
    STEP(f, a, b, c, d, k, s1, t1);                     \
    STEP(f, d, a, b, c, (k + on) % 16, s2, t2);         \
    STEP(f, c, d, a, b, (k + 2 * on) % 16, s3, t3);     \
    STEP(f, b, c, d, a, (k + 3 * on) % 16, s4, t4)

static void md5_block(uint32_t state[4], const uint8_t *m)
{
    uint32_t x[16];
    for (int j = 0; j < 16; j++)
        x[j] = m[4 * j] | m[4 * j + 1] << 8 | m[4 * j + 2] << 16 | (uint32_t)m[4 * j + 3] << 24;

    uint32_t a = state[0], b = state[1], c = state[2], d = state[3];

    FOUR(F, 0, 1, 7, 12, 17, 22, 0xd76aa478, 0xe8c7b756, 0x242070db, 0xc1bdceee);
    FOUR(F, 4, 1, 7, 12, 17, 22, 0xf57c0faf, 0x4787c62a, 0xa8304613, 0xfd469501);
    FOUR(F, 8, 1, 7, 12, 17, 22, 0x698098d8, 0x8b44f7af, 0xffff5bb1, 0x895cd7be);
    FOUR(F, 12, 1, 7, 12, 17, 22, 0x6b901122, 0xfd987193, 0xa679438e, 0x49b40821);

    FOUR(G, 1, 5, 5, 9, 14, 20, 0xf61e2562, 0xc040b340, 0x265e5a51, 0xe9b6c7aa);
    FOUR(G, 5, 5, 5, 9, 14, 20, 0xd62f105d, 0x02441453, 0xd8a1e681, 0xe7d3fbc8);
    FOUR(G, 9, 5, 5, 9, 14, 20, 0x21e1cde6, 0xc33707d6, 0xf4d50d87, 0x455a14ed);
    FOUR(G, 13, 5, 5, 9, 14, 20, 0xa9e3e905, 0xfcefa3f8, 0x676f02d9, 0x8d2a4c8a);

    FOUR(H, 5, 3, 4, 11, 16, 23, 0xfffa3942, 0x8771f681, 0x6d9d6122, 0xfde5380c);
    FOUR(H, 1, 3, 4, 11, 16, 23, 0xa4beea44, 0x4bdecfa9, 0xf6bb4b60, 0xbebfbc70);
    FOUR(H, 13, 3, 4, 11, 16, 23, 0x289b7ec6, 0xeaa127fa, 0xd4ef3085, 0x04881d05);
    FOUR(H, 9, 3, 4, 11, 16, 23, 0xd9d4d039, 0xe6db99e5, 0x1fa27cf8, 0xc4ac5665);

    FOUR(I, 0, 7, 6, 10, 15, 21, 0xf4292244, 0x432aff97, 0xab9423a7, 0xfc93a039);
    FOUR(I, 12, 7, 6, 10, 15, 21, 0x655b59c3, 0x8f0ccc92, 0xffeff47d, 0x85845dd1);
    FOUR(I, 8, 7, 6, 10, 15, 21, 0x6fa87e4f, 0xfe2ce6e0, 0xa3014314, 0x4e0811a1);
    FOUR(I, 4, 7, 6, 10, 15, 21, 0xf7537e82, 0xbd3af235, 0x2ad7d2bb, 0xeb86d391);

    state[0] += a;
    state[1] += b;
    state[2] += c;
    state[3] += d;
}

static void md5_init(struct md5 *h)
{
    h->state[0] = 0x67452301;
    h->state[1] = 0xefcdab89;
    h->state[2] = 0x98badcfe;
    h->state[3] = 0x10325476;
    h->length = 0;
}

static void md5_update(struct md5 *h, const uint8_t *m, size_t n)
{
    size_t held = h->length % 64;
    h->length += n;
    if (held > 0) {
        size_t room = 64 - held;
        if (n < room) {
            memcpy(h->block + held, m, n);
            return;
        }
        memcpy(h->block + held, m, room);
        md5_block(h->state, h->block);
        m += room;
        n -= room;
    }
    for (; n >= 64; m += 64, n -= 64)
        md5_block(h->state, m);
    memcpy(h->block, m, n);
}

static void put_le32(uint8_t *t, uint32_t v)
{
    for (int i = 0; i < 4; i++)
        t[i] = v >> 8 * i;
}

static void md5_final(struct md5 *h, uint8_t out[16])
{
    size_t held = h->length % 64;
    h->block[held++] = 0x80;
    if (held > 56) {
        memset(h->block + held, 0, 64 - held);
        md5_block(h->state, h->block);
        held = 0;
    }
    memset(h->block + held, 0, 56 - held);
    put_le32(h->block + 56, h->length * 8);
    put_le32(h->block + 60, h->length * 8 >> 32);
    md5_block(h->state, h->block);
    for (int i = 0; i < 4; i++)
        put_le32(out + 4 * i, h->state[i]);
}

void plain_md5(const uint8_t *m, size_t n, uint8_t out[16])
{
    struct md5 h;
    md5_init(&h);
    md5_update(&h, m, n);
    md5_final(&h, out);
}

/* RFC 2104: H(K XOR opad, H(K XOR ipad, text)) */
void plain_hmac(const uint8_t *key, size_t key_len, const uint8_t *m, size_t n, uint8_t out[16])
{
    uint8_t k[64] = {0}, pad[64];
    if (key_len > 64)
        plain_md5(key, key_len, k);
    else
        memcpy(k, key, key_len);

    struct md5 h;
    for (int i = 0; i < 64; i++)
        pad[i] = k[i] ^ 0x36;
    md5_init(&h);
    md5_update(&h, pad, 64);
    md5_update(&h, m, n);
    md5_final(&h, out);

    for (int i = 0; i < 64; i++)
        pad[i] = k[i] ^ 0x5c;
    md5_init(&h);
    md5_update(&h, pad, 64);
    md5_update(&h, out, 16);
    md5_final(&h, out);
}
