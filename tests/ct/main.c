/* subjects: lists them. subjects GROUP NAME: runs one, and prints how many calls it made where each is answered as it must be. */
#include <stdio.h>
#include <string.h>
#include <valgrind/memcheck.h>

#include "ct.h"

void hide(void *at, size_t size) { VALGRIND_MAKE_MEM_UNDEFINED(at, size); }

void show(void *at, size_t size) { VALGRIND_MAKE_MEM_DEFINED(at, size); }

void expect_open(const void *at, size_t size) { VALGRIND_CHECK_MEM_IS_DEFINED(at, size); }

int is_hidden_right(const uint8_t *buffer, size_t size, size_t packet_len, int has_mac)
{
    uint8_t bits[4096];
    int right = VALGRIND_GET_VBITS(buffer, bits, size) == 1;
    for (size_t k = 0; k < size; k++) {
        int in_authenticator = packet_len > 0 && k >= 4 && k < 20;
        int in_mac = has_mac && k + 16 >= packet_len && k < packet_len;
        right &= (bits[k] != 0) == (in_authenticator || in_mac);
    }
    return right;
}

struct bytes secret_of(int k)
{
    static const size_t sizes[SECRETS] = {1, 10, 64};
    static uint8_t secret[64];
    show(secret, sizeof secret);
    for (size_t j = 0; j < sizeof secret; j++)
        secret[j] = 37 * j + 11;
    return (struct bytes){secret, sizes[k]};
}

static const struct { const char *name; int (*run)(const struct kind *); } groups[] = {
    {"handle", handle}, {"step", step}, {"check reply", check}, {"write", write_one}, {"wrong handle", handle_in_c},
};

static int done(int calls)
{
    if (calls < 0)
        return 1;
    printf("%d\n", calls);
    return 0;
}

static void list(void)
{
    for (const struct subject *s = digests; s->group != NULL; s++)
        printf("%s\t%s\n", s->group, s->name);
    for (size_t k = 0; k < sizeof groups / sizeof *groups; k++)
        for (size_t j = 0; j < KINDS; j++)
            printf("%s\t%s\n", groups[k].name, kinds[j].name);
}

int main(int argc, char **argv)
{
    if (argc != 3) {
        list();
        return 0;
    }
    for (const struct subject *s = digests; s->group != NULL; s++)
        if (strcmp(s->group, argv[1]) == 0 && strcmp(s->name, argv[2]) == 0)
            return done(s->run());
    for (size_t k = 0; k < sizeof groups / sizeof *groups; k++)
        for (size_t j = 0; j < KINDS; j++)
            if (strcmp(groups[k].name, argv[1]) == 0 && strcmp(kinds[j].name, argv[2]) == 0)
                return done(groups[k].run(&kinds[j]));
    return 2;
}
