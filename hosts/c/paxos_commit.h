/*
 * The proved Paxos Commit record, for C and C++.
 *
 * The calls are written in Rattle and proved to answer and store exactly what document 01 says, as Papers 1
 * to 6 of document 02 change it. Each group below is a static library of its own; a host links those that it needs, and
 * none has another role's code. They link into x86-64 programs, position independent or not, and use less than 8 KiB of
 * stack. libhost_message.a wants nothing, the others `memset`.
 *
 *     libhost_message.a     paxos_commit_read, paxos_commit_write, paxos_commit_length
 *     libhost_deliver.a     paxos_commit_deliver
 *     libhost_rm.a          paxos_commit_rm_step
 *     libhost_acceptor.a    paxos_commit_acceptor_step
 *     libhost_leader.a      paxos_commit_leader_step
 *     libhost_record.a      paxos_commit_open, paxos_commit_step, paxos_commit_ending
 *     libhost_batch.a       paxos_commit_run
 *
 * What is lent is any bytes of any length: there is nothing to check before a call. A call accepts, or answers one
 * refusal, the first that applies in the order 1 to 6, 19, 20, 7 to 18; a refusal changes no byte. Every call ends.
 *
 * What is the caller's affair, as everywhere in C: a pointer is followed by the number of bytes behind it, all
 * readable, and writable where the pointer is not to const. No pointer is null, also with length 0 (then any other
 * pointer will do). A table that may be written overlaps nothing else that is lent to the same call. With other
 * pointers nothing is promised.
 *
 * Calls keep nothing between them: no state, no pointer, no lock. Several threads may call at once, each on tables that
 * no other call uses at that time.
 *
 * Every named number says by its prefix what it is: REFUSAL_, STATE_, VALUE_, DECISION_, ENDING_, MAP_, KIND_ or
 * ANSWER_. The Rust crate has the same names for the refusals. docs/HOSTS.md shows a whole host, says what is asked of
 * one, and what to do about each refusal.
 */
#ifndef PAXOS_COMMIT_H
#define PAXOS_COMMIT_H

#include <stddef.h>
#include <stdint.h>
#include <string.h>

#ifdef __cplusplus
extern "C" {
#endif

/* The plan: `rms` resource managers (document 01: weights), 1 to 16; `acceptors`, 1 to 7; `leaders`, 1 to 4; each
 * numbered from 0; and `order`, the order's number, any of two bytes, which stands in every message of the order. All
 * calls on a record are given the plan that it was opened with: the tables do not keep it, and no call compares the
 * counts; a message of another order number in a table is damage (5, 6). docs/HOSTS.md says how to choose it. */

/* Sizes in bytes. N (network) has `slots` slots, at most 1,024, and so has each inbox of I (inboxes); 0 is allowed. The
 * summary has a byte for each leader and instance, a leader's own call is lent its part of it. */
#define PAXOS_COMMIT_EVENT 4
#define PAXOS_COMMIT_SLOT 8
#define PAXOS_COMMIT_MAX_SLOTS 1024
#define PAXOS_COMMIT_STATES_SIZE(rms) ((size_t)(rms))
#define PAXOS_COMMIT_VOTES_SIZE(rms, acceptors) ((size_t)3 * (rms) * (acceptors))
#define PAXOS_COMMIT_NETWORK_SIZE(slots) ((size_t)8 * (slots))
#define PAXOS_COMMIT_INBOX_SIZE(slots) ((size_t)8 * (slots))
#define PAXOS_COMMIT_INBOXES_SIZE(leaders, slots) ((size_t)8 * (slots) * (leaders))
#define PAXOS_COMMIT_SUMMARY_SIZE(rms, leaders) ((size_t)(rms) * (leaders))
#define PAXOS_COMMIT_LEADER_SUMMARY_SIZE(rms) ((size_t)(rms))

/* The largest plan and tables: 16 + 336 + 8,192 + 32,768 + 64 bytes. */
#define PAXOS_COMMIT_STATES_MAX 16
#define PAXOS_COMMIT_VOTES_MAX 336
#define PAXOS_COMMIT_NETWORK_MAX 8192
#define PAXOS_COMMIT_INBOXES_MAX 32768
#define PAXOS_COMMIT_SUMMARY_MAX 64

/* Why a call was refused: of the reasons that apply, the first in the order 1 to 6, 19, 20, 7 to 18. 0 is no refusal. */
enum paxos_commit_refusal {
    /* every call: rms, acceptors or leaders out of range */
    PAXOS_COMMIT_REFUSAL_BAD_PLAN = 1,
    /* a table's length: not the plan's, not whole slots, or over 1,024 slots */
    PAXOS_COMMIT_REFUSAL_BAD_LENGTHS = 2,
    /* a byte of W above 3 */
    PAXOS_COMMIT_REFUSAL_BAD_STATES = 3,
    /* in Q a val above 2, or val 0 with a bal that is not 0 */
    PAXOS_COMMIT_REFUSAL_BAD_VOTES = 4,
    /* in N a slot that is neither unused nor a readable message of this order followed by zeros, or a used slot after
       an unused */
    PAXOS_COMMIT_REFUSAL_BAD_NETWORK = 5,
    /* the same in an inbox */
    PAXOS_COMMIT_REFUSAL_BAD_INBOX = 6,
    /* not four bytes, a kind above 8 or of another role, who or instance out of range, or a byte that should be 0 */
    PAXOS_COMMIT_REFUSAL_BAD_EVENT = 7,
    /* the slot is unused or beyond N */
    PAXOS_COMMIT_REFUSAL_NO_MESSAGE = 8,
    /* the slot's message is not one that this role takes: a weight a decision; an acceptor a 1a or 2a; a leader a 1b, a
       2b or a 2a at ballot 0 */
    PAXOS_COMMIT_REFUSAL_WRONG_ROLE = 9,
    /* kinds 5 and 6: the leader does not own the ballot (it does when ballot > 0 and (ballot - 1) mod leaders = who) */
    PAXOS_COMMIT_REFUSAL_NOT_OWNED = 10,
    /* kind 2: Commit while working or aborted, Abort while committed. Proved never to come on a record opened fresh */
    PAXOS_COMMIT_REFUSAL_CONTRADICTION = 11,
    /* the action is not enabled */
    PAXOS_COMMIT_REFUSAL_NOT_ENABLED = 12,
    /* the message to send or deliver is not in N, and N has no unused slot */
    PAXOS_COMMIT_REFUSAL_NETWORK_FULL = 13,
    /* likewise for the inbox */
    PAXOS_COMMIT_REFUSAL_INBOX_FULL = 14,
    /* reader, delivery: no bytes, or an unknown map; writer: a map that is none of the six */
    PAXOS_COMMIT_REFUSAL_UNKNOWN_MAP = 15,
    /* reader, delivery: the length is not the map's */
    PAXOS_COMMIT_REFUSAL_WRONG_LENGTH = 16,
    /* reader, writer, delivery: ins, acc or val out of range, or a 1a with bal 0 */
    PAXOS_COMMIT_REFUSAL_OUT_OF_RANGE = 17,
    /* reader, delivery: nothing else is wrong, but the message has another order number */
    PAXOS_COMMIT_REFUSAL_OTHER_ORDER = 18,
    /* the list call: not whole events, or the answers are not one byte for each event */
    PAXOS_COMMIT_REFUSAL_BAD_LIST = 19,
    /* the summary's length is not the plan's, or, except at opening, a byte of it is above 3; comes before 7 */
    PAXOS_COMMIT_REFUSAL_BAD_SUMMARY = 20
};

/* A weight's state, a byte of W. */
enum paxos_commit_state {
    PAXOS_COMMIT_STATE_WORKING = 0,
    PAXOS_COMMIT_STATE_PREPARED = 1,
    PAXOS_COMMIT_STATE_COMMITTED = 2,
    PAXOS_COMMIT_STATE_ABORTED = 3
};

/* A value, `val` of a 1b, 2a or 2b; in Q 0 is no vote. 2 is aborted here, and committed as a state. In the summary a
 * value is its own bit: byte l * rms + i has VALUE_PREPARED where leader l has heard that prepared is decided for
 * instance i, and VALUE_ABORTED where it has heard that aborted is, or that weight i declined: its own 2a, at ballot 0.
 * So VALUE_ABORTED does not say that a majority has voted. */
enum paxos_commit_value { PAXOS_COMMIT_VALUE_PREPARED = 1, PAXOS_COMMIT_VALUE_ABORTED = 2 };

/* What a leader decided, `val` of a decision. */
enum paxos_commit_decision { PAXOS_COMMIT_DECISION_COMMIT = 1, PAXOS_COMMIT_DECISION_ABORT = 2 };

/* How an order stands: all weights committed, all aborted, or anything else. Numbered as a decision is. */
enum paxos_commit_ending {
    PAXOS_COMMIT_ENDING_OPEN = 0,
    PAXOS_COMMIT_ENDING_COMMITTED = 1,
    PAXOS_COMMIT_ENDING_ABORTED = 2
};

/* A message's first byte, its bit map; then one byte for each field whose bit stands: bit 0 ins, 1 acc, 2 mbal, 3 bal,
 * 4 val; then, since bit 5 always stands, the order number in two bytes, the high one first. */
enum paxos_commit_map {
    PAXOS_COMMIT_MAP_1A = 0x29,      /* ins, bal from 1: 5 bytes */
    PAXOS_COMMIT_MAP_1B = 0x27,      /* ins, acc, mbal: no vote; 6 bytes */
    PAXOS_COMMIT_MAP_1B_VOTE = 0x3F, /* ins, acc, mbal, bal, val: 8 bytes */
    PAXOS_COMMIT_MAP_2A = 0x39,      /* ins, bal, val: 6 bytes */
    PAXOS_COMMIT_MAP_2B = 0x3B,      /* ins, acc, bal, val: 7 bytes */
    PAXOS_COMMIT_MAP_DECISION = 0x30 /* val, a decision's: 4 bytes */
};

/* An event's first byte. An event is four bytes: kind, who, high, low. For kinds 2, 3 and 4, 256 * high + low is a slot
 * of N; for 5 and 6 high is the instance and low the ballot; otherwise both are 0. */
enum paxos_commit_kind {
    PAXOS_COMMIT_KIND_PREPARE = 0,         /* weight: sends 2a(who, 0, prepared) */
    PAXOS_COMMIT_KIND_CHOOSE_TO_ABORT = 1, /* weight: declines, sends 2a(who, 0, aborted) */
    PAXOS_COMMIT_KIND_TAKE_DECISION = 2,   /* weight: takes the decision in the slot; quiet */
    PAXOS_COMMIT_KIND_VOTE = 3,            /* acceptor: answers the 1a in the slot by a 1b, or the 2a there by a 2b */
    PAXOS_COMMIT_KIND_RECEIPT = 4,         /* leader: takes the 1b, the 2b or the 2a at ballot 0 in the slot into its
                                              inbox; quiet. A 2b for a value that its inbox then decides sets that bit
                                              of the summary, a 2a for aborted that of aborted */
    PAXOS_COMMIT_KIND_PHASE_1A = 5,        /* leader: sends 1a(high, low) */
    PAXOS_COMMIT_KIND_PHASE_2A = 6,        /* leader: sends 2a(high, low, v), kept in its inbox, whose 1b say v */
    PAXOS_COMMIT_KIND_COMMIT = 7,          /* leader: sends Commit, if its summary has all instances as prepared */
    PAXOS_COMMIT_KIND_ABORT = 8            /* leader: sends Abort, if its summary has some instance as aborted */
};

/* What a step answers: below 1,024 the slot of N where the sent message stands; ANSWER_QUIET for an accepted step that
 * sends nothing (kinds 2 and 4); or ANSWER_REFUSED and the refusal's number added, so that every refused answer is
 * above ANSWER_REFUSED and none is a slot. A delivery and the ending refuse so too. */
#define PAXOS_COMMIT_ANSWER_QUIET ((uint32_t)65535)
#define PAXOS_COMMIT_ANSWER_REFUSED ((uint32_t)65536)

/* The refusal that such an answer is; 0 for an accepted call. */
static inline uint8_t paxos_commit_refusal_of(uint32_t answer) {
    return answer < PAXOS_COMMIT_ANSWER_REFUSED ? 0 : (uint8_t)(answer - PAXOS_COMMIT_ANSWER_REFUSED);
}

/* Byte k of what the reader or the writer answers, byte 0 the lowest. */
static inline uint8_t paxos_commit_byte(uint64_t answer, unsigned k) { return (uint8_t)(answer >> (8 * k)); }

/* ---- libhost_message.a ---- */

/* The reader. `bytes` must be exactly one message. Byte 0 of the answer is 0, byte 1 the map, bytes 2 to 6 ins, acc,
 * mbal, bal and val, 0 for one that the message does not have, and byte 7 is 0. Refused: byte 0 is 1, 15, 16, 17 or 18
 * and the others are 0. */
uint64_t paxos_commit_read(uint8_t rms, uint8_t acceptors, uint8_t leaders, uint16_t order, const uint8_t *bytes,
                           size_t bytes_len);

/* The writer, of the message with this map; fields that it does not have are not looked at. `val` is a VALUE_, in a
 * decision a DECISION_. The eight bytes of the answer, byte 0 first, are the message and zeros, as in a slot; byte 0 is
 * the map, which is never 0, and paxos_commit_length says how many of them to send. Refused: byte 0 is 0, byte 1 is 1,
 * 15 (a map that is none of the six) or 17, and the others are 0. */
uint64_t paxos_commit_write(uint8_t rms, uint8_t acceptors, uint8_t leaders, uint16_t order, uint8_t map, uint8_t ins,
                            uint8_t acc, uint8_t mbal, uint8_t bal, uint8_t val);

/* How many bytes the message has that begins with this map, 4 to 8; 0 for a byte that is no message's map, as byte 0 of
 * a refusal of the writer. */
uint32_t paxos_commit_length(uint8_t map);

/* ---- libhost_deliver.a ---- */

/* The delivery: what another host sent, or any other bytes, came to this host, whose N is lent. The message goes into
 * the first unused slot unless it stands in N. The answer is the first slot where it stands, which events of kinds 2, 3
 * and 4 name. Refused: 1, 2, 5, 13, 15, 16, 17 or 18. */
uint32_t paxos_commit_deliver(uint8_t rms, uint8_t acceptors, uint8_t leaders, uint16_t order, uint8_t *network,
                              size_t network_len, const uint8_t *bytes, size_t bytes_len);

/* ---- libhost_rm.a ---- */

/* The step of a resource manager: kinds 0, 1 and 2. `states` is W, PAXOS_COMMIT_STATES_SIZE bytes. Refused: 1, 2, 3, 5,
 * 7, 8, 9, 11, 12 or 13. */
uint32_t paxos_commit_rm_step(uint8_t rms, uint8_t acceptors, uint8_t leaders, uint16_t order, uint8_t *states,
                              size_t states_len, uint8_t *network, size_t network_len, const uint8_t *event,
                              size_t event_len);

/* ---- libhost_acceptor.a ---- */

/* The step of an acceptor: kind 3. `votes` is Q, PAXOS_COMMIT_VOTES_SIZE bytes: mbal, bal and val of acceptor a for
 * instance i from byte 3 * (i * acceptors + a). Refused: 1, 2, 4, 5, 7, 8, 9, 12 or 13. */
uint32_t paxos_commit_acceptor_step(uint8_t rms, uint8_t acceptors, uint8_t leaders, uint16_t order, uint8_t *votes,
                                    size_t votes_len, uint8_t *network, size_t network_len, const uint8_t *event,
                                    size_t event_len);

/* ---- libhost_leader.a ---- */

/* The step of a leader: kinds 4 to 8. `inbox` is that leader's inbox alone, whole slots, and `summary` its part of the
 * summary, PAXOS_COMMIT_LEADER_SUMMARY_SIZE bytes, byte i for instance i; nothing ties them to the event's `who`, nor
 * to each other, which is the host's to see to. Kinds 7 and 8 read the summary alone, as it is. Refused: 1, 2, 5, 6,
 * 20, 7, 8, 9, 10, 12, 13 or 14, in this order. */
uint32_t paxos_commit_leader_step(uint8_t rms, uint8_t acceptors, uint8_t leaders, uint16_t order, uint8_t *inbox,
                                  size_t inbox_len, uint8_t *summary, size_t summary_len, uint8_t *network,
                                  size_t network_len, const uint8_t *event, size_t event_len);

/* ---- libhost_record.a ---- */

/* Opens a record: 0, and every byte of the five tables is 0. Refused: 1, 2 or 20. `inboxes` is I,
 * PAXOS_COMMIT_INBOXES_SIZE bytes; leader l's inbox is its l-th equal part. `summary` is PAXOS_COMMIT_SUMMARY_SIZE
 * bytes; leader l's part is its l-th equal part, `rms` bytes. */
uint8_t paxos_commit_open(uint8_t rms, uint8_t acceptors, uint8_t leaders, uint16_t order, uint8_t *states,
                          size_t states_len, uint8_t *votes, size_t votes_len, uint8_t *network, size_t network_len,
                          uint8_t *inboxes, size_t inboxes_len, uint8_t *summary, size_t summary_len);

/* The event call, all nine kinds. It judges all five tables first, whatever the event. Refused: 1 to 6, 20, 7 to 14, in
 * this order. */
uint32_t paxos_commit_step(uint8_t rms, uint8_t acceptors, uint8_t leaders, uint16_t order, uint8_t *states,
                           size_t states_len, uint8_t *votes, size_t votes_len, uint8_t *network, size_t network_len,
                           uint8_t *inboxes, size_t inboxes_len, uint8_t *summary, size_t summary_len,
                           const uint8_t *event, size_t event_len);

/* How the order with this W stands: an ENDING_. Refused: 1, 2 or 3. */
uint32_t paxos_commit_ending(uint8_t rms, uint8_t acceptors, uint8_t leaders, uint16_t order, const uint8_t *states,
                             size_t states_len);

/* ---- libhost_batch.a ---- */

/* The list call: a backlog of events in one list, PAXOS_COMMIT_EVENT bytes each, any number of them. It judges all five
 * tables once, then runs the events in order and goes on after one that is refused. Accepted: 0, and byte k of
 * `answers`, which has a byte for each event, is 0 where event k was accepted, and else its refusal, 7 to 14; answers
 * and tables are those of paxos_commit_step called for one event after the other. Refused: 1 to 6, 19 or 20; then no
 * byte of the tables changes, and none of `answers`. */
uint8_t paxos_commit_run(uint8_t rms, uint8_t acceptors, uint8_t leaders, uint16_t order, uint8_t *states,
                         size_t states_len, uint8_t *votes, size_t votes_len, uint8_t *network, size_t network_len,
                         uint8_t *inboxes, size_t inboxes_len, uint8_t *summary, size_t summary_len,
                         const uint8_t *events, size_t events_len, uint8_t *answers, size_t answers_len);

/* ---- what a host does around the calls; plain C, tested and not proved ---- */

/* The bytes of an event; `who` is the host's own number. Kinds 0, 1, 7 and 8: */
static inline void paxos_commit_event(uint8_t kind, uint8_t who, uint8_t event[PAXOS_COMMIT_EVENT]) {
    event[0] = kind;
    event[1] = who;
    event[2] = 0;
    event[3] = 0;
}

/* Kinds 2, 3 and 4, with the slot of N that a delivery or a step answered. A refused answer names no slot: then it is
 * 65535, which is beyond every N. */
static inline void paxos_commit_event_at_slot(uint8_t kind, uint8_t who, uint32_t slot,
                                              uint8_t event[PAXOS_COMMIT_EVENT]) {
    if (slot >= PAXOS_COMMIT_ANSWER_REFUSED)
        slot = 65535;
    event[0] = kind;
    event[1] = who;
    event[2] = (uint8_t)(slot >> 8);
    event[3] = (uint8_t)slot;
}

/* Kinds 5 and 6, with an instance and a ballot. */
static inline void paxos_commit_event_at_ballot(uint8_t kind, uint8_t who, uint8_t ins, uint8_t bal,
                                                uint8_t event[PAXOS_COMMIT_EVENT]) {
    event[0] = kind;
    event[1] = who;
    event[2] = ins;
    event[3] = bal;
}

/* Whether a leader owns a ballot: leader 0 owns ballot 1, leader 1 ballot 2, and so on by turns; nobody owns ballot 0. */
static inline int paxos_commit_owns(uint8_t leaders, uint8_t leader, uint8_t bal) {
    return leaders > 0 && bal > 0 && (bal - 1) % leaders == leader;
}

/* The lowest ballot above `bal` that a leader owns, with which it goes on when it has heard of `bal`; with `bal` 0 its
 * first. 0 where there is none up to 255, and where `leader` is no leader's number. */
static inline uint8_t paxos_commit_next_ballot(uint8_t leaders, uint8_t leader, uint8_t bal) {
    unsigned next = bal;
    while (++next <= 255)
        if (paxos_commit_owns(leaders, leader, (uint8_t)next))
            return (uint8_t)next;
    return 0;
}

/* What a step with this answer sent, as it goes over the wire: the message's bytes, and its length, which is 2 and the
 * number of bits in the map. 0 where nothing was sent: the step was quiet or refused. */
static inline size_t paxos_commit_sent(const uint8_t *network, size_t network_len, uint32_t answer,
                                       uint8_t message[PAXOS_COMMIT_SLOT]) {
    size_t len = 2;
    if (answer >= network_len / PAXOS_COMMIT_SLOT || answer >= PAXOS_COMMIT_MAX_SLOTS)
        return 0;
    memcpy(message, network + PAXOS_COMMIT_SLOT * (size_t)answer, PAXOS_COMMIT_SLOT);
    for (unsigned bit = 0; bit < 6; bit++)
        len += message[0] >> bit & 1;
    return len;
}

/* A refusal in words, with its number; "no refusal" for 0 and for a number above 20. */
static inline const char *paxos_commit_refusal_name(uint8_t number) {
    switch (number) {
    case PAXOS_COMMIT_REFUSAL_BAD_PLAN:
        return "plan out of range (1)";
    case PAXOS_COMMIT_REFUSAL_BAD_LENGTHS:
        return "lengths of the tables do not fit the plan (2)";
    case PAXOS_COMMIT_REFUSAL_BAD_STATES:
        return "W holds a byte that is no state (3)";
    case PAXOS_COMMIT_REFUSAL_BAD_VOTES:
        return "Q holds a vote that is none (4)";
    case PAXOS_COMMIT_REFUSAL_BAD_NETWORK:
        return "N is damaged (5)";
    case PAXOS_COMMIT_REFUSAL_BAD_INBOX:
        return "an inbox is damaged (6)";
    case PAXOS_COMMIT_REFUSAL_BAD_EVENT:
        return "no event (7)";
    case PAXOS_COMMIT_REFUSAL_NO_MESSAGE:
        return "the slot is unused or beyond N (8)";
    case PAXOS_COMMIT_REFUSAL_WRONG_ROLE:
        return "the message is not for this role (9)";
    case PAXOS_COMMIT_REFUSAL_NOT_OWNED:
        return "ballot not owned (10)";
    case PAXOS_COMMIT_REFUSAL_CONTRADICTION:
        return "the decision contradicts the state (11)";
    case PAXOS_COMMIT_REFUSAL_NOT_ENABLED:
        return "not enabled (12)";
    case PAXOS_COMMIT_REFUSAL_NETWORK_FULL:
        return "N is full (13)";
    case PAXOS_COMMIT_REFUSAL_INBOX_FULL:
        return "the inbox is full (14)";
    case PAXOS_COMMIT_REFUSAL_UNKNOWN_MAP:
        return "no message, or an unknown one (15)";
    case PAXOS_COMMIT_REFUSAL_WRONG_LENGTH:
        return "the length is not the message's (16)";
    case PAXOS_COMMIT_REFUSAL_OUT_OF_RANGE:
        return "a field of the message is out of range (17)";
    case PAXOS_COMMIT_REFUSAL_OTHER_ORDER:
        return "the message is of another order (18)";
    case PAXOS_COMMIT_REFUSAL_BAD_LIST:
        return "the list is not whole events with an answer each (19)";
    case PAXOS_COMMIT_REFUSAL_BAD_SUMMARY:
        return "the summary does not fit the plan, or holds a byte above 3 (20)";
    default:
        return "no refusal";
    }
}

#ifdef __cplusplus
}
#endif

#endif
