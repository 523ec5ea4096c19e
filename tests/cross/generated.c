/* generated SEEDS COUNT: COUNT inputs to one of the programs of tests/fuzz, which holds the library beside the model. The inputs are its
 * seeds (files 0, 1, 2 .. in the folder SEEDS) with changes that are drawn by chance, the same on every machine. Prints ten dots on the
 * way, and a digest of all that the calls told and wrote. */
#include <signal.h>
#include <stdio.h>
#include <stdlib.h>
#include <string.h>

#include "../fuzz/harness.h"

#define MOST_INPUT 10000
#define MOST_SEEDS 1000

struct seed {
    uint8_t *bytes;
    size_t size;
};

/* What libFuzzer gives elsewhere, and the function of tests/fuzz/parts.c that calls it. */
size_t LLVMFuzzerMutate(uint8_t *data, size_t size, size_t most);
size_t LLVMFuzzerCustomMutator(uint8_t *data, size_t size, size_t most, unsigned seed);

static volatile unsigned long number; /* of the input */
static uint64_t digest = 0xCBF29CE484222325; /* FNV's first value */

static void digest_word(uint64_t word)
{
    digest = (digest ^ word) * 0x100000001B3; /* FNV's prime */
    digest ^= digest >> 32;                   /* high bits count below too */
}

/* Eight bytes at a time, low byte first, whatever the machine's order is; then the rest and the size. */
static void digest_bytes(const uint8_t *bytes, size_t size)
{
    size_t k = 0;
    for (; size - k >= 8; k += 8) {
        const uint8_t *b = bytes + k;
        digest_word((uint64_t)b[7] << 56 | (uint64_t)b[6] << 48 | (uint64_t)b[5] << 40 | (uint64_t)b[4] << 32 | (uint64_t)b[3] << 24 |
                    (uint64_t)b[2] << 16 | (uint64_t)b[1] << 8 | b[0]);
    }
    for (; k < size; k++)
        digest_word(bytes[k]);
    digest_word(size);
}

/* A number below `below`, by chance: xorshift64*, as the C library's own generators differ. */
static uint32_t drawn(uint32_t below)
{
    static uint64_t state = 3576;
    state ^= state >> 12;
    state ^= state << 25;
    state ^= state >> 27;
    return (uint32_t)((state * 0x2545F4914F6CDD1D) >> 32) % below;
}

static size_t put_in(uint8_t *data, size_t size, size_t most, const uint8_t *bytes, size_t count)
{
    size_t at = drawn(size + 1);
    if (count > most - size)
        return size;
    memmove(data + at + count, data + at, size - at);
    memcpy(data + at, bytes, count);
    return size + count;
}

/* Of a type 26: mostly our vendor, and rates and empty groups. */
static void put_items(uint8_t *one)
{
    static const uint8_t ours[4] = {0x00, 0x00, 0x7E, 0xD9}; /* 32473 */
    if (one[1] < 6 || drawn(4) == 0)
        return;
    memcpy(one + 2, ours, sizeof ours);
    for (size_t at = 6; at + 1 < one[1]; at += one[at + 1]) {
        one[at] = 1 + drawn(3);
        one[at + 1] = one[at] == 3 ? 2 : 6;
    }
}

/* An attribute of a type that a request may have, or one beside it. */
static size_t put_attribute(uint8_t *data, size_t size, size_t most)
{
    static const uint8_t kinds[] = {1, 4, 5, 6, 8, 11, 24, 27, 28, 31, 32, 33, 44, 55, 80, 26, 101};
    static const uint8_t sizes[] = {6, 6, 6, 7, 18, 2, 34, 35};
    uint8_t one[40];
    for (size_t k = 0; k < sizeof one; k++)
        one[k] = drawn(256);
    one[0] = kinds[drawn(sizeof kinds)];
    one[1] = sizes[drawn(sizeof sizes)];
    if (one[0] == 26)
        put_items(one);
    return put_in(data, size, most, one, one[1]);
}

/* One change of a part of an input. */
size_t LLVMFuzzerMutate(uint8_t *data, size_t size, size_t most)
{
    static const uint8_t ends[] = {0, 1, 2, 127, 128, 254, 255};
    uint8_t any = drawn(256);
    unsigned what = size == 0 ? 6 : drawn(8);
    size_t at = size == 0 ? 0 : drawn(size), run = size == 0 ? 0 : 1 + drawn(size - at < 32 ? size - at : 32);
    switch (what) {
    case 0: data[at] ^= 1 << any % 8; break;
    case 1: data[at] = any; break;
    case 2: data[at] = ends[any % sizeof ends]; break;
    case 3: /* takes some bytes out */
        memmove(data + at, data + at + run, size - at - run);
        return size - run;
    case 4: return drawn(4) == 0 ? at : size; /* a part cut short */
    case 5: memmove(data + at, data + drawn(size - run + 1), run); break;
    case 6: return put_in(data, size, most, &any, 1);
    default: return put_attribute(data, size, most);
    }
    return size;
}

static size_t read_seeds(const char *folder, struct seed seeds[])
{
    static uint8_t bytes[MOST_INPUT];
    char name[4096];
    for (size_t k = 0; k < MOST_SEEDS; k++) {
        snprintf(name, sizeof name, "%s/%u", folder, (unsigned)k);
        FILE *file = fopen(name, "rb");
        if (file == NULL)
            return k;
        seeds[k].size = fread(bytes, 1, sizeof bytes, file);
        fclose(file);
        seeds[k].bytes = malloc(seeds[k].size + 1);
        expect(seeds[k].bytes != NULL, "no memory for the seeds");
        memcpy(seeds[k].bytes, bytes, seeds[k].size);
    }
    return MOST_SEEDS;
}

/* The seed as it is at first, later with one to four changes. */
static size_t draft_input(uint8_t *data, const struct seed *seed, int is_changed)
{
    size_t size = seed->size;
    memcpy(data, seed->bytes, size);
    for (uint32_t changes = is_changed ? 1 + drawn(4) : 0; changes > 0; changes--) {
        size_t changed = LLVMFuzzerCustomMutator(data, size, MOST_INPUT, drawn(65536));
        size = changed > 0 ? changed : size; /* 0: too large to be changed */
    }
    return size;
}

/* Something is wrong, or a fence was touched. With this COUNT the program ends here again. */
static void tell_input(int signal_number)
{
    fprintf(stderr, "generated: at input %lu\n", number);
    signal(signal_number, SIG_DFL);
    raise(signal_number);
}

int main(int argc, char **argv)
{
    static struct seed seeds[MOST_SEEDS];
    static uint8_t data[MOST_INPUT];
    unsigned long count = argc == 3 ? strtoul(argv[2], NULL, 10) : 0;
    size_t seed_count = argc == 3 ? read_seeds(argv[1], seeds) : 0;
    if (count == 0 || seed_count == 0) {
        fputs("usage: generated SEEDS COUNT, with a folder that has seeds\n", stderr);
        return 2;
    }
    signal(SIGABRT, tell_input);
    signal(SIGSEGV, tell_input);
    watching = digest_bytes;
    for (number = 1; number <= count; number++) {
        size_t size = draft_input(data, &seeds[number % seed_count], number > seed_count);
        LLVMFuzzerTestOneInput(data, size);
        if (number * 10 / count > (number - 1) * 10 / count) {
            putchar('.');
            fflush(stdout);
        }
    }
    printf(" digest %016llx\n", (unsigned long long)digest);
    return 0;
}
