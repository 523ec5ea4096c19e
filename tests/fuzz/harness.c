#include "harness.h"

#include <stdio.h>
#include <stdlib.h>
#include <string.h>

static const struct numbers unwritten = {-0x1122334455667788, 0xEEEEEEEE, 0xDDDDDDDD, 0xCCCCCCCC, 0};
static struct room numbers;
static unsigned long answers[1000];

static void print_answers(void)
{
    fputs("answers:", stderr);
    for (int k = 0; k < 1000; k++)
        if (answers[k] > 0)
            fprintf(stderr, " %d(%lu)", k, answers[k]);
    fputs("\ntype 26:", stderr);
    for (int k = FITS + 1; k < EVENTS; k++)
        if (events[k] > 0)
            fprintf(stderr, " %s(%lu)", event_names[k], events[k]);
    fputs("\n", stderr);
}

void expect_number(uint32_t told, uint32_t wanted, const char *wrong)
{
    uint8_t bytes[4];
    expect(told == wanted, wrong);
    put_be32(bytes, told);
    if (watching != NULL)
        watching(bytes, sizeof bytes);
}

void expect_answer(uint32_t answer, uint32_t wanted, const char *wrong)
{
    static int counting;
    if (!counting)
        counting = atexit(print_answers) == 0;
    expect_number(answer, wanted, wrong);
    answers[answer % 1000]++;
}

size_t buffer_size(uint32_t drawn)
{
    static const size_t sizes[16] = {4096, 4096, 4096, 4096, 4096, 4096, 4096, 4097, 4099, MOST_BUFFER, 0, 1, 20, 2048, 4095, 4095};
    return sizes[drawn % 16];
}

size_t table_size(uint32_t slots, uint32_t other)
{
    return slots >= 128 ? other % MOST_TABLE : slots % 65 * FBK_SLOT_SIZE;
}

struct bytes short_of(struct bytes part, size_t most) { return (struct bytes){part.at, part.size % most}; }

size_t copy_packet(uint8_t *p, struct bytes part)
{
    size_t size = part.size < MOST_PACKET ? part.size : MOST_PACKET;
    memcpy(p, part.at, size);
    return size;
}

int is_refused(const struct told *t) { return t->answer >= 1 && t->answer <= 99; }

int is_reply(const struct told *t) { return t->answer == 0 || (t->answer > 400 && t->answer < 600); }

struct numbers *lay_numbers(enum side side)
{
    return (struct numbers *)lay(&numbers, &unwritten, sizeof unwritten, side == NEAR ? AT_END : side, 0); /* they are aligned */
}

void expect_told(uint32_t answer, const struct told *wanted)
{
    struct numbers after = {wanted->skew, wanted->changed, wanted->reply_len, wanted->stamped, 0};
    expect_answer(answer, wanted->answer, "the answer");
    must_become(&numbers, is_refused(wanted) ? &unwritten : &after);
    expect_room(&numbers, "the numbers");
}
