/* MD5 and HMAC-MD5: ours, OpenSSL's and those of plain C.
 *   digests count WHO WHAT SIZE RUNS    runs one case, for callgrind to count
 *   digests time                        prints 'WHO WHAT SIZE NANOSECONDS' for every case, the best of many rounds
 */
#define _POSIX_C_SOURCE 199309L /* for clock_gettime */
#include <openssl/evp.h>
#include <openssl/hmac.h>
#include <openssl/md5.h>
#include <stdio.h>
#include <stdlib.h>
#include <string.h>
#include <time.h>

#include "plain_md5.h"

uint32_t probe_md5(const uint8_t *m, size_t n, uint8_t *out, size_t out_len);
uint32_t probe_hmac(const uint8_t *key, size_t key_len, const uint8_t *m, size_t n, uint8_t *out, size_t out_len);

static const uint8_t key[16] = "sixteen byte key";
static const size_t sizes[] = {64, 1024, 4096};
static uint8_t message[4096 + 64]; /* a packet, and a secret after it */

static void proved_md5(size_t n, uint8_t *out) { probe_md5(message, n, out, 16); }
static void proved_hmac(size_t n, uint8_t *out) { probe_hmac(key, sizeof key, message, n, out, 16); }

static void openssl_md5(size_t n, uint8_t *out)
{
    MD5_CTX c;
    MD5_Init(&c);
    MD5_Update(&c, message, n);
    MD5_Final(out, &c);
}
static void openssl_hmac(size_t n, uint8_t *out) { HMAC(EVP_md5(), key, sizeof key, message, n, out, NULL); }

static void our_md5(size_t n, uint8_t *out) { plain_md5(message, n, out); }
static void our_hmac(size_t n, uint8_t *out) { plain_hmac(key, sizeof key, message, n, out); }

static const struct entry {
    const char *who, *what;
    void (*run)(size_t n, uint8_t *out);
} table[] = {
    {"proved", "MD5", proved_md5},   {"openssl", "MD5", openssl_md5},   {"plain", "MD5", our_md5},
    {"proved", "HMAC", proved_hmac}, {"openssl", "HMAC", openssl_hmac}, {"plain", "HMAC", our_hmac},
};
enum { ENTRIES = sizeof table / sizeof *table, SIZES = sizeof sizes / sizeof *sizes };

static int count(const char *who, const char *what, size_t n, long runs)
{
    uint8_t out[16];
    for (size_t e = 0; e < ENTRIES; e++) {
        if (strcmp(table[e].who, who) == 0 && strcmp(table[e].what, what) == 0) {
            while (runs-- > 0)
                table[e].run(n, out);
            return 0;
        }
    }
    return 2;
}

static double now(void)
{
    struct timespec t;
    clock_gettime(CLOCK_MONOTONIC, &t);
    return t.tv_sec * 1e9 + t.tv_nsec;
}

/* The three who do one thing take turns, so that what disturbs the machine disturbs all. */
static void time_all(void)
{
    enum { ROUNDS = 400 };
    double best[ENTRIES][SIZES];
    uint8_t out[16];
    for (int round = 0; round < ROUNDS; round++) {
        for (size_t s = 0; s < SIZES; s++) {
            for (size_t e = 0; e < ENTRIES; e++) {
                size_t calls = 1 + 16384 / (sizes[s] + 128);
                double start = now();
                for (size_t i = 0; i < calls; i++)
                    table[e].run(sizes[s], out);
                double each = (now() - start) / calls;
                if (round == 0 || each < best[e][s])
                    best[e][s] = each;
            }
        }
    }
    for (size_t e = 0; e < ENTRIES; e++)
        for (size_t s = 0; s < SIZES; s++)
            printf("%s %s %zu %.1f\n", table[e].who, table[e].what, sizes[s], best[e][s]);
}

/* What is measured must be the same thing. */
static int agree(void)
{
    for (size_t s = 0; s < SIZES; s++) {
        uint8_t out[ENTRIES][16];
        memset(out, 0, sizeof out);
        for (size_t e = 0; e < ENTRIES; e++) {
            table[e].run(sizes[s], out[e]);
            if (memcmp(out[e], out[e / 3 * 3], 16) != 0) {
                fprintf(stderr, "digests: %s and %s differ in %s of %zu bytes\n", table[e].who, table[e / 3 * 3].who, table[e].what, sizes[s]);
                return 0;
            }
        }
    }
    return 1;
}

int main(int argc, char **argv)
{
    for (size_t i = 0; i < sizeof message; i++)
        message[i] = (uint8_t)(i * 7 + 1);
    if (argc == 6 && strcmp(argv[1], "count") == 0)
        return count(argv[2], argv[3], strtoul(argv[4], NULL, 10), strtol(argv[5], NULL, 10));
    if (argc == 2 && strcmp(argv[1], "time") == 0 && agree()) {
        time_all();
        return 0;
    }
    return 2;
}
