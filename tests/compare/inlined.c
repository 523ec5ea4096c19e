/* The header's six inline functions, each under a name by which a test can call it: what firmware compiles of them. */
#include "../../include/fumbokeri.h"

#ifdef __cplusplus
extern "C" {
#endif

uint32_t inlined_make(fbk_scheduler *s, const uint8_t *secret, size_t secret_len, uint32_t nas_ip, const uint8_t *nas_id, size_t nas_id_len)
{
    return fbk_make(s, secret, secret_len, nas_ip, nas_id, nas_id_len);
}

uint32_t inlined_open(fbk_scheduler *s, const uint8_t *packet, size_t packet_len, uint32_t clock, uint8_t *store, size_t store_len, uint32_t *job)
{
    return fbk_open(s, packet, packet_len, clock, store, store_len, job);
}

uint32_t inlined_step(fbk_scheduler *s, uint32_t job, uint8_t *table, size_t table_len, uint8_t *reply, size_t reply_size, const uint8_t *store,
                      size_t store_len, uint32_t *changed, uint32_t *reply_len, int64_t *skew, uint32_t *stamped)
{
    return fbk_step(s, job, table, table_len, reply, reply_size, store, store_len, changed, reply_len, skew, stamped);
}

uint32_t inlined_drop(fbk_scheduler *s, uint32_t job)
{
    return fbk_drop(s, job);
}

uint32_t inlined_start(fbk_scheduler *s, uint8_t *table, size_t table_len, uint32_t nas_port, uint32_t framed_ip, uint32_t session_timeout,
                       uint32_t idle_timeout, const uint8_t *user, size_t user_len, const uint8_t *id, size_t id_len, const uint8_t *station,
                       size_t station_len, const uint8_t *filter, size_t filter_len, uint32_t *slot)
{
    return fbk_start(s, table, table_len, nas_port, framed_ip, session_timeout, idle_timeout, user, user_len, id, id_len, station, station_len,
                     filter, filter_len, slot);
}

uint32_t inlined_end(fbk_scheduler *s, uint8_t *table, size_t table_len, uint32_t slot)
{
    return fbk_end(s, table, table_len, slot);
}

#ifdef __cplusplus
}
#endif
