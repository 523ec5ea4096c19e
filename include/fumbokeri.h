/** \file fumbokeri.h
 *
 * # Fumbokeri: the receiving side of RADIUS Dynamic Authorization
 *
 * The library judges Disconnect-Requests and CoA-Requests (RFC 3576), ends
 * or alters the sessions that they name in a table of the caller's, and
 * writes the reply. It is for the firmware of an access gate (a NAS). For the
 * other side, which sends the requests, it writes them and checks the replies.
 *
 * ## Conventions
 *
 *  - **Memory.** All buffers are the caller's. The library allocates
 *    nothing, keeps no pointer after a call returns, holds no global state,
 *    opens no socket and reads no clock.
 *
 *  - **Buffers must not overlap.** What one call is given (buffers, numbers
 *    to be written, a scheduler) must be apart from each other. The library
 *    cannot test this; where it does not hold, nothing is promised.
 *
 *  - **Lengths** must be true: `x_len` bytes are readable at `x` (and
 *    writable, where `x` is not `const`). A length may have any value: what
 *    does not fit is refused by a number. `NULL` is allowed for a buffer
 *    exactly where its length is 0. Pointers to numbers (`uint32_t *`,
 *    `int64_t *`) and to a scheduler are aligned and never `NULL`.
 *
 *  - **Threads.** Calls from several threads at once are safe where nothing
 *    that one of them writes is given to another: a table, a reply buffer, an
 *    output, a scheduler and a packet store for each thread. What is only read
 *    may be shared: secret, name, packet, attributes.
 *
 *  - **Numbers in packet and table** have their high byte first. The
 *    parameters of this header are numbers of the machine.
 *
 *  - **Every call returns.** Whatever the bytes are, no call faults or hangs.
 *
 *  - **Platform.** 64-bit, little-endian Linux: x86-64, and aarch64 and riscv64
 *    by archives of their own. `size_t` has 64 bits there, and the library is
 *    compiled for that: lengths and the numbers of a scheduler are so wide.
 *
 * ## Answers
 *
 * Each call answers by one number.
 *
 *   | answer     | meaning                                               |
 *   |------------|-------------------------------------------------------|
 *   | 0          | done: acknowledged (ACK); written; right; made, ..    |
 *   | 1 to 99    | refused: an argument is unfit, see below              |
 *   | 101 to 106 | the packet is to be discarded silently, see below     |
 *   | 201 to 206 | the reply is not right, see below                     |
 *   | 401 to 599 | not acknowledged (NAK), with this Error-Cause         |
 *   | 600        | fbk_step(): the job is not finished                   |
 *
 * ## The session table
 *
 * 1 to 64 slots of FBK_SLOT_SIZE bytes, one after the other:
 *
 *   | bytes       | content                                              |
 *   |-------------|------------------------------------------------------|
 *   | 0-1         | mark 5A 4C                                           |
 *   | 2-5         | NAS-Port                                             |
 *   | 6-9         | Framed-IP-Address                                    |
 *   | 10-13       | Session-Timeout                                      |
 *   | 14-17       | Idle-Timeout                                         |
 *   | 18, 19-81   | length 1 to 63, User-Name                            |
 *   | 82, 83-114  | length 1 to 32, Acct-Session-Id                      |
 *   | 115, 116-147| length 0 to 32, Calling-Station-Id                   |
 *   | 148, 149-180| length 0 to 32, Filter-Id                            |
 *   | 181-184     | down rate, zero at the start                         |
 *   | 185-188     | up rate, zero at the start                           |
 *   | 189-191     | zero when written, not read                          |
 *
 * A slot is live exactly if mark and four lengths are as above; any other
 * content is a free slot. So a table of zeros is empty.
 *
 * Sessions are started by fbk_start() and ended by fbk_end(). They take a
 * scheduler, since it has to know: where only fbk_handle() is used, make one,
 * open nothing on it, and give it to these two calls alone.
 *
 * ## Rate limits
 *
 * A CoA-Request may set the rates of a session by one Vendor-Specific
 * attribute (26) of vendor 32473: 00 00 7E D9, then items one after the other,
 * each of type, length (counting both) and value.
 *
 *   | item | length | value                                              |
 *   |------|--------|----------------------------------------------------|
 *   | 1    | 6      | the down rate                                      |
 *   | 2    | 6      | the up rate                                        |
 *   | 3    | any    | a group: items, which fill it exactly              |
 *
 * Each rate stands at most once in the whole attribute, and groups stand in
 * each other at most four deep; beyond their items they mean nothing. A rate
 * is written with all 32 bits, one that is not named stays as it was. So
 * 1A 0E 00 00 7E D9 03 08 01 06 00 00 FA 00 sets the down rate to 64,000 and
 * leaves the up rate. A request that sets both has them in one attribute: a
 * second Vendor-Specific is 404.
 *
 * ## The scheduler
 *
 * fbk_handle() works on a request from its first byte to its reply. Where
 * that takes too long at once, a scheduler keeps up to FBK_JOBS requests in
 * work and does each of them in small steps: fbk_make() makes it, fbk_open()
 * takes a packet, and fbk_step() is called for that job until its answer is
 * not 600. A step is one of
 *
 *  - one 64-byte block of the request authenticator's MD5, at most 66 of them;
 *  - all of 104 to 106 and of the NAKs but 503, once;
 *  - one slot of the table, looked at for a match;
 *  - 503, or the changes and the ACK, once.
 *
 * Jobs may be stepped in any order, and sessions started and ended in between
 * by fbk_start() and fbk_end(). The answers, the replies and the table are
 * those of handling each request whole at the step that finished it. So an
 * ACK, a start and an end send all other jobs that look for matches, or have
 * looked at all slots, back to slot 0. A lone job is finished by its 132nd
 * step, all open jobs by the 912th, where nothing is opened, started, ended or
 * dropped in between.
 *
 * **No outside writes.** All this holds as long as table and packet store are
 * written to by calls on this scheduler alone, and are the same ones in all
 * of them. fbk_handle(), or any write of the caller's, on a table that a
 * scheduler with open jobs works on is an outside write, and so is any write
 * to the store. Answers stay safe then: each job goes on with what it finds,
 * or is discarded by 101. But they are no longer those of handling each
 * request whole.
 */

#ifndef FUMBOKERI_H__
#define FUMBOKERI_H__

#include <stddef.h>
#include <stdint.h>

#ifdef __cplusplus
extern "C" {
#endif

/** \brief Bytes of a slot of the session table. */
#define FBK_SLOT_SIZE   192

/** \brief Slots that a session table may have at most. */
#define FBK_SLOTS_MAX   64

/** \brief Bytes that a reply buffer has at least. */
#define FBK_REPLY_SIZE   4096

/** \brief Bytes that an output for a request has at least. */
#define FBK_REQUEST_SIZE   4096

/** \brief Requests that a scheduler may have in work at once. */
#define FBK_JOBS   4

/** \brief Bytes of a packet store: 4,096 for each job. */
#define FBK_STORE_SIZE   16384

/**
 * \brief Handle one request.
 *
 * The packet is judged, the sessions that it names are ended (Disconnect) or
 * altered (CoA) in the table, and the reply is written, ready to be sent.
 * Every live session matches that has all of the User-Name (1), NAS-Port (5),
 * Framed-IP-Address (8), Calling-Station-Id (31) and Acct-Session-Id (44) that
 * the request has, texts byte for byte with equal length. All matching
 * sessions are changed. A session that ends has its slot filled with zeros. A
 * CoA-Request writes Filter-Id (11), Session-Timeout (27), Idle-Timeout (28)
 * and the rates of its Vendor-Specific attribute (26), those of them that it
 * has, and no other byte of the slot.
 *
 * The answer is the first of these that applies:
 *
 *   |   | refused: nothing at all is written                             |
 *   |---|----------------------------------------------------------------|
 *   | 1 | `table_len` is not `FBK_SLOT_SIZE` times 1 to `FBK_SLOTS_MAX`  |
 *   | 2 | `secret_len` is not 1 to 64                                    |
 *   | 3 | `nas_id_len` is not 1 to 32                                    |
 *   | 4 | `reply_size` is under `FBK_REPLY_SIZE`                         |
 *
 *   |     | discarded: send nothing; table and reply stay as they were   |
 *   |-----|--------------------------------------------------------------|
 *   | 101 | under 20 bytes; Length below 20, above 4,096 or `packet_len` |
 *   | 102 | code not 40 (Disconnect-Request) or 43 (CoA-Request)         |
 *   | 103 | the attributes do not fill Length, or one has length 0 or 1  |
 *   | 104 | wrong request authenticator                                  |
 *   | 105 | Message-Authenticator (80) repeated, not of length 18, wrong |
 *   | 106 | Event-Timestamp (55) not there once with length 6, or more   |
 *   |     | than 300 seconds from `clock` either way                     |
 *
 *   |     | NAK: send the reply; the table stays as it was               |
 *   |-----|--------------------------------------------------------------|
 *   | 401 | an attribute that this request does not support: in a        |
 *   |     | CoA-Request also a Vendor-Specific (26) of another vendor    |
 *   | 405 | Service-Type (6): Authorize Only is not served               |
 *   | 404 | a type but Proxy-State (33) repeated; 4, 5, 8, 27 or 28 not  |
 *   |     | of length 6; 1, 11, 24, 31, 32, 33 or 44 with no value; 26   |
 *   |     | under length 6 or not as "Rate limits" has it                |
 *   | 403 | NAS-IP-Address (4) or NAS-Identifier (32) of another NAS     |
 *   | 402 | names no session, or a CoA-Request that changes nothing: it  |
 *   |     | has none of 11, 27, 28 and no 26 that sets a rate            |
 *   | 506 | Filter-Id of more than 32 bytes                              |
 *   | 503 | no live session matches                                      |
 *
 *   |   | ACK: send the reply; the table holds the changes               |
 *   |---|----------------------------------------------------------------|
 *   | 0 | every matching session is changed, one at least                |
 *
 * The reply stands in the first `*reply_len` bytes of its buffer; those after
 * stay as they were. It is never longer than the request.
 *
 * \param table        session table; written only where the answer is 0.
 * \param table_len    its length in bytes.
 * \param secret       secret shared with the sender.
 * \param secret_len   its length in bytes, 1 to 64.
 * \param nas_ip       own NAS-IP-Address, its first byte highest: 192.0.2.7
 *                     is 0xC0000207.
 * \param nas_id       own NAS-Identifier.
 * \param nas_id_len   its length in bytes, 1 to 32.
 * \param reply        buffer for the reply; written only where the answer is
 *                     0 or a NAK.
 * \param reply_size   room in it, in bytes, `FBK_REPLY_SIZE` or more.
 * \param packet       packet as it was received, not altered.
 * \param packet_len   bytes received; those after the packet's Length are
 *                     ignored.
 * \param clock        time now, in seconds as Event-Timestamp counts them.
 * \param changed      receives the number of sessions changed: 0 unless the
 *                     answer is 0.
 * \param reply_len    receives the length of the reply: 0 where there is none
 *                     (discarded).
 * \param skew         receives the time in the packet minus `clock`, which is
 *                     from -4294967295 to 4294967295; 0 where no stamp is
 *                     usable.
 * \param stamped      receives 1, or 0 where no stamp is usable: at 101 to 105,
 *                     and at 106 if Event-Timestamp is not there once with
 *                     length 6.
 *
 * A refusal leaves `*changed`, `*reply_len`, `*skew` and `*stamped` unchanged;
 * any other answer writes all four.
 *
 * \return  the answer, one of the numbers above.
 */
uint32_t fbk_handle(uint8_t *table, size_t table_len,
	const uint8_t *secret, size_t secret_len,
	uint32_t nas_ip, const uint8_t *nas_id, size_t nas_id_len,
	uint8_t *reply, size_t reply_size,
	const uint8_t *packet, size_t packet_len, uint32_t clock,
	uint32_t *changed, uint32_t *reply_len,
	int64_t *skew, uint32_t *stamped);

/**
 * \brief Write one request.
 *
 * The request is made of `code`, `identifier`, its Length, the authenticator
 * and the attributes as they are given, and is signed with the secret, ready to
 * be sent. If asked for, a Message-Authenticator (80) is added after the
 * attributes; it is worked out before the authenticator.
 *
 * A gate that has the same secret never discards what is written as 101 to
 * 105. Nothing else is judged: whether the attributes name a session, are
 * supported, or have the Event-Timestamp (55) without which a gate of ours
 * discards them (106) is for the caller to see to.
 *
 * The answer is the first of these that applies:
 *
 *   |    | refused: nothing at all is written                            |
 *   |----|---------------------------------------------------------------|
 *   | 2  | `secret_len` is not 1 to 64                                   |
 *   | 4  | `out_size` is under `FBK_REQUEST_SIZE`                        |
 *   | 12 | `code` is not 40 (Disconnect-Request) or 43 (CoA-Request)     |
 *   | 13 | the attributes do not fill `attributes_len`, one has length 0 |
 *   |    | or 1, one is a Message-Authenticator (80), or they have more  |
 *   |    | than 4,076 bytes (4,058 if one is to be added)                |
 *
 *   |   | written                                                        |
 *   |---|----------------------------------------------------------------|
 *   | 0 | the output holds the request                                   |
 *
 * The request stands in the first `*out_len` bytes of the output; those after
 * stay as they were.
 *
 * \param code            40 or 43; any other number is refused, 296 too.
 * \param identifier      by which the reply will be known.
 * \param attributes      attributes, each type, length, value; the length, 2
 *                        to 255, counts all three. There may be none.
 * \param attributes_len  their length in bytes.
 * \param add_mac         whether to add a Message-Authenticator: 0 no, any
 *                        other number yes.
 * \param secret          secret shared with the gate.
 * \param secret_len      its length in bytes, 1 to 64.
 * \param out             buffer for the request; written only where the
 *                        answer is 0.
 * \param out_size        room in it, in bytes, `FBK_REQUEST_SIZE` or more.
 * \param out_len         receives the length of the request; written only
 *                        where the answer is 0.
 *
 * \return  the answer, one of the numbers above.
 */
uint32_t fbk_write(uint32_t code, uint8_t identifier,
	const uint8_t *attributes, size_t attributes_len, uint32_t add_mac,
	const uint8_t *secret, size_t secret_len,
	uint8_t *out, size_t out_size, uint32_t *out_len);

/**
 * \brief Check the reply to a request.
 *
 * Nothing is written. The answer is the first of these that applies:
 *
 *   |   | refused                                                        |
 *   |---|----------------------------------------------------------------|
 *   | 2 | `secret_len` is not 1 to 64                                    |
 *
 *   |     | not right: ignore the reply                                  |
 *   |-----|--------------------------------------------------------------|
 *   | 201 | the request is none: a gate would discard it as 101 to 103   |
 *   | 202 | the reply is under 20 bytes; its Length is below 20, above   |
 *   |     | 4,096 or `reply_len`; its attributes do not fill Length, or  |
 *   |     | one has length 0 or 1                                        |
 *   | 203 | its code is not the request's plus 1 (ACK) or 2 (NAK)        |
 *   | 204 | its identifier is not the request's                          |
 *   | 205 | wrong authenticator                                          |
 *   | 206 | Message-Authenticator (80) repeated, not of length 18, wrong |
 *
 *   |   | right                                                          |
 *   |---|----------------------------------------------------------------|
 *   | 0 | none of the above: a reply to this request                     |
 *
 * A reply without a Message-Authenticator may be right, also where the request
 * has one. The request's own authenticator, Message-Authenticator and
 * Event-Timestamp are not judged. Every reply that fbk_handle() writes is right
 * for its packet and its secret, and every reply that fbk_step() writes for the
 * packet of its opening and the scheduler's secret.
 *
 * \param secret       secret shared with the gate.
 * \param secret_len   its length in bytes, 1 to 64.
 * \param request      request as it was sent.
 * \param request_len  its length in bytes; those after its Length are ignored.
 * \param reply        reply as it was received.
 * \param reply_len    bytes received; those after its Length are ignored.
 *
 * \return  the answer, one of the numbers above.
 */
uint32_t fbk_check_reply(const uint8_t *secret, size_t secret_len,
	const uint8_t *request, size_t request_len,
	const uint8_t *reply, size_t reply_len);

/**
 * \brief A scheduler: up to FBK_JOBS requests in work.
 *
 * Made by fbk_make() and given to each call; it may be copied and moved, as it
 * holds no pointers. Its fields are the library's: to be neither read nor
 * written. It holds a copy of the secret.
 */
typedef struct fbk_scheduler {
	/* Of each job: the chaining words of its MD5. */
	uint32_t words[FBK_JOBS][4];
	/* Its kind (0 free, 1 Hash, 2 Check, 3 Match), and its clock. */
	uint32_t kinds[FBK_JOBS][2];
	/* Its place (the next block or slot), and its packet's Length. */
	size_t places[FBK_JOBS][2];
	/* Which slots match. */
	uint8_t marks[FBK_JOBS][FBK_SLOTS_MAX];
	/* What it was made with: only fbk_make() writes these. */
	uint8_t secret[64];
	size_t secret_len;
	uint8_t nas_id[32];
	size_t nas_id_len;
	uint32_t nas_ip;
} fbk_scheduler;

/*
 * The library is built for 64-bit, little-endian Linux. A compiler that is set
 * to other sizes would hand it arrays of another form, and is stopped here.
 */
#if defined(__cplusplus) && __cplusplus >= 201103L
static_assert(sizeof(fbk_scheduler) == 536,
	"fbk_scheduler is not as the library reads it");
#elif !defined(__cplusplus) && defined(__STDC_VERSION__) \
	&& __STDC_VERSION__ >= 201112L
_Static_assert(sizeof(fbk_scheduler) == 536,
	"fbk_scheduler is not as the library reads it");
#else
typedef char fbk_scheduler_is_not_as_the_library_reads_it[
	sizeof(fbk_scheduler) == 536 ? 1 : -1];
#endif

/*
 * Not to be called directly: what fbk_make() to fbk_end() call, which only take
 * the scheduler apart into its arrays and numbers. Each array has all its
 * FBK_JOBS rows, or all its bytes, whatever the length beside it says. In
 * fbk_start_lent() and fbk_end_lent() words and kinds are only read; they are
 * not `const`, since C would then ask for a cast.
 */
uint32_t fbk_make_lent(uint32_t (*words)[4], uint32_t (*kinds)[2],
	size_t (*places)[2], uint8_t (*marks)[FBK_SLOTS_MAX],
	uint8_t *kept, size_t *kept_len,
	uint32_t *ip, uint8_t *id, size_t *id_len,
	const uint8_t *secret, size_t secret_len,
	uint32_t nas_ip, const uint8_t *nas_id, size_t nas_id_len);

uint32_t fbk_open_lent(uint32_t (*words)[4], uint32_t (*kinds)[2],
	size_t (*places)[2], uint8_t (*marks)[FBK_SLOTS_MAX],
	const uint8_t *secret, size_t secret_len,
	uint32_t nas_ip, const uint8_t *nas_id, size_t nas_id_len,
	const uint8_t *packet, size_t packet_len, uint32_t clock,
	uint8_t *store, size_t store_len, uint32_t *job);

uint32_t fbk_step_lent(uint32_t (*words)[4], uint32_t (*kinds)[2],
	size_t (*places)[2], uint8_t (*marks)[FBK_SLOTS_MAX],
	const uint8_t *secret, size_t secret_len,
	uint32_t nas_ip, const uint8_t *nas_id, size_t nas_id_len,
	uint32_t job, uint8_t *table, size_t table_len,
	uint8_t *reply, size_t reply_size,
	const uint8_t *store, size_t store_len,
	uint32_t *changed, uint32_t *reply_len,
	int64_t *skew, uint32_t *stamped);

uint32_t fbk_drop_lent(uint32_t (*words)[4], uint32_t (*kinds)[2],
	size_t (*places)[2], uint8_t (*marks)[FBK_SLOTS_MAX],
	const uint8_t *secret, size_t secret_len,
	uint32_t nas_ip, const uint8_t *nas_id, size_t nas_id_len,
	uint32_t job);

uint32_t fbk_start_lent(uint32_t (*words)[4], uint32_t (*kinds)[2],
	size_t (*places)[2], uint8_t (*marks)[FBK_SLOTS_MAX],
	const uint8_t *secret, size_t secret_len,
	uint32_t nas_ip, const uint8_t *nas_id, size_t nas_id_len,
	uint8_t *table, size_t table_len, uint32_t nas_port, uint32_t framed_ip,
	uint32_t session_timeout, uint32_t idle_timeout,
	const uint8_t *user_name, size_t user_name_len,
	const uint8_t *acct_session_id, size_t acct_session_id_len,
	const uint8_t *calling_station_id, size_t calling_station_id_len,
	const uint8_t *filter_id, size_t filter_id_len, uint32_t *slot);

uint32_t fbk_end_lent(uint32_t (*words)[4], uint32_t (*kinds)[2],
	size_t (*places)[2], uint8_t (*marks)[FBK_SLOTS_MAX],
	const uint8_t *secret, size_t secret_len,
	uint32_t nas_ip, const uint8_t *nas_id, size_t nas_id_len,
	uint8_t *table, size_t table_len, uint32_t slot);

/**
 * \brief Make a scheduler with no request in work.
 *
 * Secret and identity are copied, and hold for all its requests. The memory is
 * the caller's, and must have a value before the call, as all that is lent:
 *
 *     fbk_scheduler s = {0};
 *
 * or `= {}` in C++. A refusal leaves it as it was, and then it must not be
 * used: zeros read as a scheduler whose secret is one byte, 0.
 *
 *   |   | refused: nothing at all is written                             |
 *   |---|----------------------------------------------------------------|
 *   | 2 | `secret_len` is not 1 to 64                                    |
 *   | 3 | `nas_id_len` is not 1 to 32                                    |
 *
 * \param s            receives the scheduler; `{0}` before, as above.
 * \param secret       secret shared with the senders.
 * \param secret_len   its length in bytes, 1 to 64.
 * \param nas_ip       own NAS-IP-Address, its first byte highest.
 * \param nas_id       own NAS-Identifier.
 * \param nas_id_len   its length in bytes, 1 to 32.
 *
 * \return  0 where it is made, else the number of the refusal.
 */
static inline uint32_t fbk_make(fbk_scheduler *s,
	const uint8_t *secret, size_t secret_len,
	uint32_t nas_ip, const uint8_t *nas_id, size_t nas_id_len)
{
	return fbk_make_lent(s->words, s->kinds, s->places, s->marks,
		s->secret, &s->secret_len,
		&s->nas_ip, s->nas_id, &s->nas_id_len,
		secret, secret_len, nas_ip, nas_id, nas_id_len);
}

/**
 * \brief Open a job: take a packet into work.
 *
 * The lowest free job takes it. Its bytes up to Length are copied to the front
 * of the job's part of the store, and no other byte of the store is written,
 * so `packet` is not needed any longer. A packet that is discarded uses no job.
 *
 *   |     | refused: nothing at all is written                           |
 *   |-----|--------------------------------------------------------------|
 *   | 5   | `store_len` is not `FBK_STORE_SIZE`                          |
 *   | 6   | no job is free                                               |
 *
 *   |     | discarded: nothing at all is written                         |
 *   |-----|--------------------------------------------------------------|
 *   | 101 | under 20 bytes; Length below 20, above 4,096 or `packet_len` |
 *   | 102 | code not 40 (Disconnect-Request) or 43 (CoA-Request)         |
 *   | 103 | the attributes do not fill Length, or one has length 0 or 1  |
 *
 * \param s            scheduler.
 * \param packet       packet as it was received, not altered.
 * \param packet_len   bytes received; those after the packet's Length are
 *                     ignored.
 * \param clock        time now, in seconds as Event-Timestamp counts them.
 * \param store        packet store, the same one in all calls; its content
 *                     before the first does not matter.
 * \param store_len    its length in bytes, `FBK_STORE_SIZE`.
 * \param job          receives the job's number, 0 to 3; written only where
 *                     the answer is 0.
 *
 * \return  0 where the packet is in work, else one of the numbers above.
 */
static inline uint32_t fbk_open(fbk_scheduler *s,
	const uint8_t *packet, size_t packet_len, uint32_t clock,
	uint8_t *store, size_t store_len, uint32_t *job)
{
	return fbk_open_lent(s->words, s->kinds, s->places, s->marks,
		s->secret, s->secret_len,
		s->nas_ip, s->nas_id, s->nas_id_len,
		packet, packet_len, clock, store, store_len, job);
}

/**
 * \brief Do one step of a job.
 *
 * Where the answer is 600, the job goes on: table, reply and store are as they
 * were. Any other answer that is no refusal is that of fbk_handle() for the
 * packet and the clock of its opening, with the table as it is now, and the
 * job is free again.
 *
 *   |   | refused: nothing at all is written                             |
 *   |---|----------------------------------------------------------------|
 *   | 1 | `table_len` is not `FBK_SLOT_SIZE` times 1 to `FBK_SLOTS_MAX`  |
 *   | 4 | `reply_size` is under `FBK_REPLY_SIZE`                         |
 *   | 5 | `store_len` is not `FBK_STORE_SIZE`                            |
 *   | 7 | no such job, or it is free                                     |
 *
 * \param s            scheduler.
 * \param job          number of the job.
 * \param table        session table; written only where the answer is 0.
 * \param table_len    its length in bytes.
 * \param reply        buffer for the reply; written only where the answer is
 *                     0 or a NAK. It may be another one in each step.
 * \param reply_size   room in it, in bytes, `FBK_REPLY_SIZE` or more.
 * \param store        packet store.
 * \param store_len    its length in bytes, `FBK_STORE_SIZE`.
 * \param changed      these four are as in fbk_handle(); 0 where the answer is
 *                     600.
 * \param reply_len    length of the reply.
 * \param skew         time in the packet minus the clock of its opening.
 * \param stamped      1, or 0 where no stamp is usable.
 *
 * A refusal leaves `*changed`, `*reply_len`, `*skew` and `*stamped` unchanged;
 * any other answer writes all four.
 *
 * \return  the answer: 600, one of the refusals above, or as fbk_handle().
 */
static inline uint32_t fbk_step(fbk_scheduler *s, uint32_t job,
	uint8_t *table, size_t table_len, uint8_t *reply, size_t reply_size,
	const uint8_t *store, size_t store_len,
	uint32_t *changed, uint32_t *reply_len,
	int64_t *skew, uint32_t *stamped)
{
	return fbk_step_lent(s->words, s->kinds, s->places, s->marks,
		s->secret, s->secret_len,
		s->nas_ip, s->nas_id, s->nas_id_len,
		job, table, table_len, reply, reply_size, store, store_len,
		changed, reply_len, skew, stamped);
}

/**
 * \brief Drop a job: it is free again, and nothing else is changed.
 *
 * \param s     scheduler.
 * \param job   number of the job.
 *
 * \return  0 where it is dropped; 7 where there is no such job or it is free:
 *          nothing is written.
 */
static inline uint32_t fbk_drop(fbk_scheduler *s, uint32_t job)
{
	return fbk_drop_lent(s->words, s->kinds, s->places, s->marks,
		s->secret, s->secret_len,
		s->nas_ip, s->nas_id, s->nas_id_len,
		job);
}

/**
 * \brief Start a session.
 *
 * All bytes of the lowest free slot are written.
 *
 *   |    | refused: nothing at all is written                            |
 *   |----|---------------------------------------------------------------|
 *   | 1  | `table_len` is not `FBK_SLOT_SIZE` times 1 to `FBK_SLOTS_MAX` |
 *   | 8  | a text's length is outside of its limits                      |
 *   | 9  | a live session has this Acct-Session-Id                       |
 *   | 10 | no slot is free                                               |
 *
 * \param s                        scheduler that works on this table.
 * \param table                    session table.
 * \param table_len                its length in bytes.
 * \param nas_port                 NAS-Port.
 * \param framed_ip                Framed-IP-Address, its first byte highest.
 * \param session_timeout          Session-Timeout, in seconds.
 * \param idle_timeout             Idle-Timeout, in seconds.
 * \param user_name                User-Name.
 * \param user_name_len            its length in bytes, 1 to 63.
 * \param acct_session_id          Acct-Session-Id.
 * \param acct_session_id_len      its length in bytes, 1 to 32.
 * \param calling_station_id       Calling-Station-Id.
 * \param calling_station_id_len   its length in bytes, 0 to 32.
 * \param filter_id                Filter-Id.
 * \param filter_id_len            its length in bytes, 0 to 32.
 * \param slot                     receives the slot's number; written only
 *                                 where the answer is 0.
 *
 * \return  0 where the session is started, else the number of the refusal.
 */
static inline uint32_t fbk_start(fbk_scheduler *s,
	uint8_t *table, size_t table_len, uint32_t nas_port, uint32_t framed_ip,
	uint32_t session_timeout, uint32_t idle_timeout,
	const uint8_t *user_name, size_t user_name_len,
	const uint8_t *acct_session_id, size_t acct_session_id_len,
	const uint8_t *calling_station_id, size_t calling_station_id_len,
	const uint8_t *filter_id, size_t filter_id_len, uint32_t *slot)
{
	return fbk_start_lent(s->words, s->kinds, s->places, s->marks,
		s->secret, s->secret_len,
		s->nas_ip, s->nas_id, s->nas_id_len,
		table, table_len, nas_port, framed_ip,
		session_timeout, idle_timeout,
		user_name, user_name_len, acct_session_id, acct_session_id_len,
		calling_station_id, calling_station_id_len,
		filter_id, filter_id_len, slot);
}

/**
 * \brief End a session: its slot is filled with zeros.
 *
 *   |    | refused: nothing at all is written                            |
 *   |----|---------------------------------------------------------------|
 *   | 1  | `table_len` is not `FBK_SLOT_SIZE` times 1 to `FBK_SLOTS_MAX` |
 *   | 11 | no such slot, or no live session in it                        |
 *
 * \param s           scheduler that works on this table.
 * \param table       session table.
 * \param table_len   its length in bytes.
 * \param slot        number of the slot, as fbk_start() gave it.
 *
 * \return  0 where the session is ended, else the number of the refusal.
 */
static inline uint32_t fbk_end(fbk_scheduler *s,
	uint8_t *table, size_t table_len, uint32_t slot)
{
	return fbk_end_lent(s->words, s->kinds, s->places, s->marks,
		s->secret, s->secret_len,
		s->nas_ip, s->nas_id, s->nas_id_len,
		table, table_len, slot);
}

#ifdef __cplusplus
}
#endif

#endif
