/* What one reading of a packet by the rules takes: reading verdict|authenticator RUNS, for callgrind to count. The verdict on a request
 * less its authenticator is all rules from D1 to cause 6, which is what a step reads again. */
#include <stdio.h>
#include <stdlib.h>
#include <string.h>

#include "packets.h"

uint32_t probe_verdict(const uint8_t *p, size_t p_len, const uint8_t *secret, size_t secret_len, uint32_t address, const uint8_t *name,
                       size_t name_len, uint32_t clock, int64_t *skew, uint32_t *stamped);
uint32_t probe_authenticator(const uint8_t *p, size_t p_len, size_t n, const uint8_t *auth, size_t auth_len, const uint8_t *secret,
                             size_t secret_len, uint8_t *out, size_t out_len);

static int verdict_passes(void)
{
    int64_t skew;
    uint32_t stamped;
    return probe_verdict(packet, length, secret, sizeof secret, nas_ip, nas_id, sizeof nas_id, clock_now, &skew, &stamped) == 0;
}

static int authenticator_right(void)
{
    static const uint8_t zeros[16];
    uint8_t out[16];
    return probe_authenticator(packet, length, length, zeros, sizeof zeros, secret, sizeof secret, out, sizeof out) == 0 &&
           memcmp(out, packet + 4, sizeof out) == 0;
}

int main(int argc, char **argv)
{
    if (argc != 3)
        return 2;
    make_disconnect(0, ALICE);
    for (long runs = strtol(argv[2], NULL, 10); runs > 0; runs--) {
        if (!(strcmp(argv[1], "verdict") == 0 ? verdict_passes() : authenticator_right())) {
            fprintf(stderr, "reading: the %s is not as it must be\n", argv[1]);
            return 1;
        }
    }
    return 0;
}
