/* Packets and sessions in words, for the samples. */
#include <stddef.h>
#include <stdint.h>

/* A number in four bytes, high byte first. */
uint32_t number_at(const uint8_t *p);

/* The name of a packet's code: RFC 3576, 3. */
const char *code_name(uint8_t code);

/* The name of an Error-Cause: RFC 3576, 3.2. */
const char *cause_name(uint32_t cause);

/* The packet in hex, and then by its attributes. */
void show_packet(const char *what, const uint8_t *packet);

/* Slot k of a session table in a line. */
void show_slot(const char *when, size_t k, const uint8_t *slot);

/* The two rates of a session. */
void show_rates(const uint8_t *slot);

/* What fbk_handle told. */
void show_answer(uint32_t answer, uint32_t changed, int64_t skew, uint32_t stamped);

/* What fbk_check_reply told. */
void show_check(uint32_t answer);
