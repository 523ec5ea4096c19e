/* The scheduler's calls with something wrong in them, which the environment's WRONG names. */
#include <string.h>

#include "wrong.h"

/* What a scheduler is taken apart into, as parameters and as arguments. */
#define ROWS uint32_t (*words)[4], uint32_t (*kinds)[2], size_t (*places)[2], uint8_t (*marks)[FBK_SLOTS_MAX]
#define SCHEDULER ROWS, const uint8_t *secret, size_t secret_len, uint32_t nas_ip, const uint8_t *nas_id, size_t nas_id_len
#define TAKEN_APART words, kinds, places, marks, secret, secret_len, nas_ip, nas_id, nas_id_len

__typeof__(fbk_make_lent) __real_fbk_make_lent;
__typeof__(fbk_open_lent) __real_fbk_open_lent;
__typeof__(fbk_step_lent) __real_fbk_step_lent;
__typeof__(fbk_drop_lent) __real_fbk_drop_lent;
__typeof__(fbk_start_lent) __real_fbk_start_lent;
__typeof__(fbk_end_lent) __real_fbk_end_lent;

/* The rows as they were before a call, to be put back. */
static fbk_scheduler before;

static void remember(ROWS)
{
    memcpy(before.words, words, sizeof before.words);
    memcpy(before.kinds, kinds, sizeof before.kinds);
    memcpy(before.places, places, sizeof before.places);
    memcpy(before.marks, marks, sizeof before.marks);
}

static void put_back(ROWS, uint32_t job)
{
    memcpy(words[job], before.words[job], sizeof before.words[job]);
    memcpy(kinds[job], before.kinds[job], sizeof before.kinds[job]);
    memcpy(places[job], before.places[job], sizeof before.places[job]);
    memcpy(marks[job], before.marks[job], sizeof before.marks[job]);
}

static void put_all_back(ROWS)
{
    for (uint32_t job = 0; job < FBK_JOBS; job++)
        put_back(words, kinds, places, marks, job);
}

uint32_t __wrap_fbk_make_lent(ROWS, uint8_t *kept, size_t *kept_len, uint32_t *ip, uint8_t *id, size_t *id_len, const uint8_t *secret,
                              size_t secret_len, uint32_t nas_ip, const uint8_t *nas_id, size_t nas_id_len)
{
    uint32_t answer = __real_fbk_make_lent(words, kinds, places, marks, kept, kept_len, ip, id, id_len, secret, secret_len, nas_ip, nas_id,
                                           nas_id_len);
    if (is_wrong("keeps_a_length_when_refused") && answer == 3)
        *kept_len = secret_len;
    return answer;
}

uint32_t __wrap_fbk_open_lent(SCHEDULER, const uint8_t *packet, size_t packet_len, uint32_t clock, uint8_t *store, size_t store_len, uint32_t *job)
{
    uint32_t answer = __real_fbk_open_lent(TAKEN_APART, packet, packet_len, clock, store, store_len, job);
    if (is_wrong("copies_the_padding") && answer == 0 && packet_len <= 4096)
        memcpy(store + 4096 * *job, packet, packet_len);
    if (is_wrong("marks_when_discarded") && answer == 103)
        marks[0][0] ^= 1;
    return answer;
}

uint32_t __wrap_fbk_step_lent(SCHEDULER, uint32_t job, uint8_t *table, size_t table_len, uint8_t *reply, size_t reply_size, const uint8_t *store,
                              size_t store_len, uint32_t *changed, uint32_t *reply_len, int64_t *skew, uint32_t *stamped)
{
    static uint8_t table_before[FBK_SLOTS_MAX * FBK_SLOT_SIZE];
    remember(words, kinds, places, marks);
    if (slot_count(table_len) > 0)
        memcpy(table_before, table, table_len);
    uint32_t answer = __real_fbk_step_lent(TAKEN_APART, job, table, table_len, reply, reply_size, store, store_len, changed, reply_len, skew,
                                           stamped);
    if (is_wrong("never_ends") && answer == 600 && before.places[job][0] == 2)
        put_back(words, kinds, places, marks, job);
    if (is_wrong("frees_no_discarded_job") && answer == 104)
        put_back(words, kinds, places, marks, job);
    if (is_wrong("writes_the_reply_early") && answer == 600)
        reply[0] ^= 1;
    if (is_wrong("tells_while_it_goes_on") && answer == 600)
        *stamped = 1;
    if (is_wrong("writes_to_the_secret") && answer == 503)
        ((uint8_t *)secret)[63] ^= 1;
    if (is_wrong("commits_no_rate") && answer == 0 && reply[0] == 44)
        for (size_t at = 0; at < table_len; at += FBK_SLOT_SIZE)
            memcpy(table + at + 181, table_before + at + 181, 8);
    return answer;
}

uint32_t __wrap_fbk_drop_lent(SCHEDULER, uint32_t job)
{
    uint32_t answer = __real_fbk_drop_lent(TAKEN_APART, job);
    if (is_wrong("drops_the_next_job_too") && answer == 0)
        kinds[(job + 1) % FBK_JOBS][0] = 0;
    return answer;
}

uint32_t __wrap_fbk_start_lent(SCHEDULER, uint8_t *table, size_t table_len, uint32_t nas_port, uint32_t framed_ip, uint32_t session_timeout,
                               uint32_t idle_timeout, const uint8_t *user, size_t user_len, const uint8_t *id, size_t id_len,
                               const uint8_t *station, size_t station_len, const uint8_t *filter, size_t filter_len, uint32_t *slot)
{
    remember(words, kinds, places, marks);
    uint32_t answer = __real_fbk_start_lent(TAKEN_APART, table, table_len, nas_port, framed_ip, session_timeout, idle_timeout, user, user_len, id,
                                            id_len, station, station_len, filter, filter_len, slot);
    if (is_wrong("commits_marks_of_before_a_start") && answer == 0)
        put_all_back(words, kinds, places, marks);
    if (is_wrong("starts_with_a_rate") && answer == 0)
        table[*slot * FBK_SLOT_SIZE + 188] = 1;
    return answer;
}

uint32_t __wrap_fbk_end_lent(SCHEDULER, uint8_t *table, size_t table_len, uint32_t slot)
{
    remember(words, kinds, places, marks);
    uint32_t answer = __real_fbk_end_lent(TAKEN_APART, table, table_len, slot);
    if (is_wrong("sends_no_job_back_by_an_end") && answer == 0)
        put_all_back(words, kinds, places, marks);
    if (is_wrong("ends_a_slot_beyond") && answer == 11)
        memset(table, 0, FBK_SLOT_SIZE);
    return answer;
}
