#include "parts.h"

#include <string.h>

#define MOST_INPUT 65535

/* libFuzzer's, and what it calls. */
size_t LLVMFuzzerMutate(uint8_t *data, size_t size, size_t most);
size_t LLVMFuzzerCustomMutator(uint8_t *data, size_t size, size_t most, unsigned seed);

void split(const uint8_t *data, size_t size, struct bytes parts[])
{
    size_t at = 0;
    for (size_t k = 0; k < part_count; k++) {
        size_t asked = size - at >= 2 ? data[at] * 256u + data[at + 1] : 0;
        at += size - at >= 2 ? 2 : size - at;
        parts[k] = (struct bytes){data + at, asked < size - at ? asked : size - at};
        at += parts[k].size;
    }
}

static size_t join(uint8_t *data, const struct bytes parts[])
{
    size_t at = 0;
    for (size_t k = 0; k < part_count; k++) {
        data[at] = parts[k].size / 256;
        data[at + 1] = parts[k].size % 256;
        memcpy(data + at + 2, parts[k].at, parts[k].size);
        at += 2 + parts[k].size;
    }
    return at;
}

size_t LLVMFuzzerCustomMutator(uint8_t *data, size_t size, size_t most, unsigned seed)
{
    static uint8_t old[MOST_INPUT], mutated[MOST_INPUT];
    struct bytes parts[MOST_PARTS];
    if (size > sizeof old)
        return 0;
    memcpy(old, data, size);
    split(old, size, parts);
    size_t whole = 2 * part_count, k = seed % part_count;
    for (size_t j = 0; j < part_count; j++)
        whole += parts[j].size;
    if (whole >= most || most > sizeof mutated)
        return 0;
    memcpy(mutated, parts[k].at, parts[k].size);
    parts[k].size = LLVMFuzzerMutate(mutated, parts[k].size, parts[k].size + most - whole);
    parts[k].at = mutated;
    return join(data, parts);
}

uint32_t take(struct bytes *part, size_t bytes)
{
    uint32_t value = 0;
    for (; bytes > 0; bytes--) {
        value = value << 8 | (part->size > 0 ? part->at[0] : 0);
        part->at += part->size > 0;
        part->size -= part->size > 0;
    }
    return value;
}

void repeat(uint8_t *to, size_t size, struct bytes part)
{
    for (size_t k = 0; k < size; k++)
        to[k] = part.size > 0 ? part.at[k % part.size] : 0;
}
