/* The station gate for C. Link target/staticlib/libcapi.a, which `scripts/build capi` makes for x86-64-v2; beside it a program
 * needs only memcpy and memset.
 *
 * Each function's reply, and what it leaves in the memory that it is lent, is proved for every input (contracts in
 * crates/capi/src/lib.rt, theorems in specs/Theorems.antt of crates/packing, crates/slot_packing and crates/session_logs): it
 * returns, never traps, and reads and writes nothing else. A policy is never written. No function allocates, keeps a pointer
 * or has a state of its own.
 *
 * For a watchdog: a round or a preview tries at most 65,535 sets of credentials, and no other function tries any. The deepest
 * stack below the caller was measured as 17,776 bytes in gate_round, 18,064 in gate_round_at, 18,027 in gate_preview_at, and
 * 8,080 for the model; the test and the disclosable set take less, and the others were not measured (docs/PERFORMANCE.md).
 *
 * The caller owes what C cannot show: pointers that are not null (also where a length is 0), aligned for their type, to
 * memory that is there and has been written before; no overlap of what one call writes with anything else that it is
 * given; and that nobody else writes that memory while the call runs, or reads what it writes. */
#ifndef GATE_H
#define GATE_H

#include <stddef.h>
#include <stdint.h>

#ifdef __cplusplus
extern "C" {
#endif

/* A set of credentials is a number of 16 bits, bit k for credential k.
 *
 * A session is ten bytes, lent by the caller:
 *
 *   0, 1   request                        6      count of rounds
 *   2, 3   shown set                      7      phase: 0 fresh, 1 waiting, 2 closed with grant, 3 closed with deny
 *   4, 5   declined set                   8, 9   the set asked for where the phase is 1, else 0
 *
 * Numbers of two bytes have the lower byte first. Any ten bytes at all may be handed in, at any address. They may be
 * stored, copied and compared: a session has just one record. */
typedef struct {
    uint8_t bytes[10];
} gate_session;

static inline uint16_t gate_two_bytes(const uint8_t *at) {
    return (uint16_t)(at[0] | at[1] << 8);
}

/* What stands in a session, of a pointer to it, which is evaluated once. */
#define GATE_REQUEST(session) gate_two_bytes((session)->bytes)
#define GATE_SHOWN(session) gate_two_bytes((session)->bytes + 2)
#define GATE_DECLINED(session) gate_two_bytes((session)->bytes + 4)
#define GATE_COUNT(session) ((session)->bytes[6])
#define GATE_PHASE(session) ((session)->bytes[7])
#define GATE_ASKED(session) gate_two_bytes((session)->bytes + 8)

enum { GATE_FRESH = 0, GATE_WAITING = 1, GATE_GRANTED = 2, GATE_DENIED = 3 };

/* A reply is a number. Bytes that are not named here are 0.
 *
 *   0                   nothing is refused, and there is no more to say; never of a round or a preview
 *   byte 0 is not 0     refused with that number, 1 to 16; with 1 to 6, 12 and 13, the policy's, byte 1 is the
 *                       number of its record, counted from 0, or with 6 the number of all its records
 *   byte 0 is 0         a round or a preview, not refused: byte 1 is 1 for grant, 2 for deny, 3 for a question; the set
 *                       asked for is GATE_ASKED of the session that the round leaves, or the preview gives
 *                       two logs that part: byte 1 is 4
 *
 * Every function but gate_log_record gives a reply; that one gives a number of bytes. */
#define GATE_REFUSAL(reply) ((uint32_t)(reply) & 0xff)
#define GATE_RECORD(reply) ((uint32_t)(reply) >> 8 & 0xff) /* of a refusal of the policy */
#define GATE_ENDING(reply) ((uint32_t)(reply) >> 8 & 0xff) /* of a round, preview or comparison not refused */

enum { GATE_GRANT = 1, GATE_DENY = 2, GATE_ASK = 3, GATE_PART = 4 };

/* The policy's test: 0 exactly where the policy is of the written form, else its refusal, 1 to 6, 12 or 13. */
uint32_t gate_check(const uint8_t *policy, size_t length);

/* The model of the access rules and a set of credentials: 0, and the model in *set, bit k for atom k; or the policy's
 * refusal, 1 to 6, 12 or 13, and *set as it was. */
uint32_t gate_model(const uint8_t *policy, size_t length, uint16_t credentials, uint64_t *set);

/* The disclosable set of what is shown: 0, and the set in *set; or the policy's refusal, 1 to 6, 12 or 13, and
 * *set as it was. */
uint32_t gate_disclosable(const uint8_t *policy, size_t length, uint16_t shown, uint16_t *set);

/* Opening: 0, and a fresh session for the request in *session; or 7, where the request is not 16 to 62, and *session as it
 * was. */
uint32_t gate_open(uint16_t request, gate_session *session);

/* A round in which a set of credentials is shown: grant, deny or a question, and the next session in *session; or the first
 * refusal that applies, and *session as it was: 1 to 6, 12 or 13 for the policy; 8 where the ten bytes are no session (a phase
 * above 3, or something asked for in a session that is not waiting); 7 for its request; 8 where it is not sound; 9 where it is
 * closed. */
uint32_t gate_round(const uint8_t *policy, size_t length, gate_session *session, uint16_t shown);

/* A table (document 02, R-5) is slots, lent by the caller, each empty or holding an owner and a session. A slot is twelve bytes:
 *
 *   0      the owner                      2 to 11   the session
 *   1      1 where the slot is held
 *
 * An empty slot is twelve bytes that are 0, and nothing else is. Any other twelve bytes with byte 1 not 1, or with bytes 2 to 11
 * no session (gate_round says which are none), stand for no slot. Any bytes at all may be handed in, at any address: what is no
 * slot is never written, is refused 8, and counts for no owner. */
typedef struct {
    uint8_t owner;
    uint8_t held;
    gate_session session;
} gate_slot;

/* A table has bytes / 12 slots, numbered from 0; bytes left over at its end belong to none. Only the first 64 can be named: bytes
 * from 768 on are neither read nor written. A call writes at most the twelve bytes of its slot there, and none where it is refused.
 *
 * Opening at a slot for an owner: 0, and the slot holds the owner and a fresh session for the request. The slot has to be empty,
 * or its session closed, whoever owned it. Or the first refusal that applies, and the table as it was: 7 where the request is not
 * 16 to 62; 14 where there is no slot of that number, or it is above 63; 8 where the twelve bytes are no slot; 15 where the
 * slot's session is fresh or waiting; 16 where the owner has four or more fresh or waiting sessions in the first 64 slots. */
uint32_t gate_open_at(gate_slot *slots, size_t bytes, size_t slot, uint8_t owner, uint16_t request);

/* A round of the session at a slot, as gate_round: grant, deny or a question, and the next session in the slot; or the first
 * refusal that applies, and the table as it was: 1 to 6, 12 or 13 for the policy; 14 where there is no slot of that number, or it
 * is above 63; 8 where the slot is empty or no slot; 7 for the session's request; 8 where it is not sound; 9 where it is
 * closed. */
uint32_t gate_round_at(
    const uint8_t *policy, size_t length, gate_slot *slots, size_t bytes, size_t slot, uint16_t shown);

/* A preview of that round (document 02, R-6), with nothing played: the reply is that of gate_round_at for the same policy, table,
 * slot and shown set, refusals included, and neither the policy nor the table is written. *preview is always written; like all
 * memory that is lent it has to have been written before (gate_slot preview = {0}), and it must not overlap the policy or the
 * table, so it is no slot of the table. Where a session is given it is the slot as the round would leave it: the owner, 1, and the
 * next session, or, where the round would be refused, be it for the policy, the slot's own. No session is given where the slot is
 * empty, where there is no slot of that number, or it is above 63, and where the twelve bytes are no slot: *preview is then an
 * empty slot. So preview->held is 1 exactly where a session is given, and else 0, whatever the reply is. */
uint32_t gate_preview_at(
    const uint8_t *policy, size_t length, const gate_slot *slots, size_t bytes, size_t slot, uint16_t shown,
    gate_slot *preview);

/* A log (document 02, R-1) is records of eight bytes, one for each round that was not refused, and nothing else:
 *
 *   0, 1   the set shown in that round    5      count of rounds
 *   2      1 grant, 2 deny, 3 ask         6, 7   0
 *   3, 4   the set asked for, or 0 */
typedef struct {
    uint8_t bytes[8];
} gate_record;

/* The log record of a round, from what was shown, what gate_round replied, and the session that it left. What comes back is no
 * reply but the number of bytes to append to a log: 8, and the record in *record, where the round was not refused; else 0, and
 * *record as it was. Where the three are not of one round there is no record, or one that belongs to no round, which
 * gate_compare_logs does not refuse. */
size_t gate_log_record(uint16_t shown, uint32_t reply, const gate_session *session, gate_record *record);

/* Two logs held against each other, record by record: they agree at a record if answer and asked set are equal. 0 where they
 * agree throughout; or 0x400 (byte 1 is GATE_PART), and in *place the first record, from 0, where they part, be it that one of
 * them ends there; or a refusal. Where they do not part *place is as it was. Refused are 10, a length that is not a multiple
 * of 8, and 11, a record with another answer than 1 to 3, bytes 6 and 7 not 0, nothing asked for with 3, or something without.
 * The first log is tested first, by 10 and then by 11. The two may be the same memory. The time is linear in their lengths. */
uint32_t gate_compare_logs(
    const uint8_t *first, size_t first_length, const uint8_t *second, size_t second_length, size_t *place);

#ifdef __cplusplus
}
#endif

#endif
