/*
 * The arm controller's reservation network: the proved calls, for C and C++.
 *
 * Link with target/staticlib/libexport.a, which tools/library.sh writes.
 *
 * The rules are those of documents 01 and 02; the state's bytes are laid out in docs/STATE.md.
 *
 * - A plan and a state are bytes of the caller: a pointer and a count. Nothing is kept between calls and no memory is
 *   asked for. The calls may be used from several threads at once on different states.
 * - A pointer is not null, also where its count is 0. State and `out` do not overlap each other or the plan.
 * - An answer is 0 (PANDABRASS_ACCEPTED) or the number of the first refusal that applies. A refusal alters no byte.
 * - Every call but pandabrass_walk and pandabrass_size answers Load's refusals, 1 to 6, first; these two answer 0 then.
 *   Every call on a state but Start answers 7 for bytes that are not a state of the plan: any bytes may be handed in.
 * - Numbers count from 0. What the plan does not have is answered 9: an active, a passive, a router, a side from 4 on,
 *   a slot from S on. pandabrass_walk answers 0 then.
 * - Bytes past the state are never written; the buffer may be longer than the state.
 * - `out` has eight bytes. Only an accepted call writes there, and only the bytes that its answer fills: of Look
 *   out[0] to out[4], of Entry out[0], of Remaining all eight. The others stay as they were.
 */
#ifndef PANDABRASS_H
#define PANDABRASS_H

#include <stddef.h>
#include <stdint.h>

#ifdef __cplusplus
extern "C" {
#endif

/* What a call answers. */
enum pandabrass_answer {
    PANDABRASS_ACCEPTED = 0,
    /* of the plan */
    PANDABRASS_TOO_SHORT = 1,    /* fewer than six bytes */
    PANDABRASS_OUT_OF_RANGE = 2, /* R, A, P, S or a capacity outside its range */
    PANDABRASS_WRONG_LENGTH = 3, /* wrong length or a fill bit set */
    PANDABRASS_BAD_FIELD = 4,    /* a later field outside its range */
    PANDABRASS_BAD_JOINT = 5,    /* a router joint not named back, a joint to the same router, or an interface without
                                    exactly one joint */
    PANDABRASS_HAS_RING = 6,     /* a ring */
    /* of the state and the call */
    PANDABRASS_NOT_STATE = 7,     /* not a state; of Start: state buffer too short */
    PANDABRASS_WRONG_PHASE = 8,   /* another phase */
    PANDABRASS_BAD_NUMBER = 9,    /* a number or a choice out of range */
    PANDABRASS_NOT_SERVED = 10,   /* pair not served */
    PANDABRASS_NO_ALLOWANCE = 11, /* allowance 0 */
    PANDABRASS_QUEUE_FULL = 12,   /* out-queue full */
    PANDABRASS_QUEUE_EMPTY = 13,  /* in-queue empty */
    PANDABRASS_FLAG_UP = 14,      /* in-queue flag up */
    PANDABRASS_UNMARKED = 15,     /* head is an unmarked NACK */
    PANDABRASS_NOT_ACCEPTED = 16  /* connection not accepted */
};

/* A packet's kind, out[0] of pandabrass_look. */
enum pandabrass_kind {
    PANDABRASS_SETUP = 0,
    PANDABRASS_TDOWN = 1,
    PANDABRASS_ACK = 2,
    PANDABRASS_NACK = 3 /* with hub 0 it is marked */
};

/* What pandabrass_reply takes; 2 and more are answered 9. */
enum pandabrass_choice { PANDABRASS_DECLINE = 0, PANDABRASS_ACCEPT = 1 };

/* out[0] of pandabrass_entry where the entry is free. */
#define PANDABRASS_FREE 4

/* The most bytes that a state of any plan has, and the most that a plan has. */
#define PANDABRASS_LARGEST_STATE 26130
#define PANDABRASS_LARGEST_PLAN 262

/* How many bytes a state of this plan has; 0 if the plan does not load. */
uint32_t pandabrass_size(const uint8_t *plan, size_t n);

/* Load: 0, or 1 to 6. */
uint32_t pandabrass_load(const uint8_t *plan, size_t n);

/* The number of routers on the walk of a served pair; 0 where the plan does not load, a number is out of range or the
 * pair is not served. */
uint32_t pandabrass_walk(const uint8_t *plan, size_t n, uint32_t active, uint32_t passive);

/* Start: 0, or 1 to 7. 7 means that the state buffer is too short for the plan: its length l is below pandabrass_size.
 * What the buffer holds does not matter; an accepted Start writes its first pandabrass_size bytes, all of them. */
uint32_t pandabrass_start(const uint8_t *plan, size_t n, uint8_t *state, size_t l);

/* Read: 0, or 1 to 8. Each wire's packet joins its queue, each raised flag becomes a credit. */
uint32_t pandabrass_read(const uint8_t *plan, size_t n, uint8_t *state, size_t l);

/* Execute: 0, or 1 to 8. Units handle heads, outputs pick senders in turn, declined set-ups are torn down. */
uint32_t pandabrass_execute(const uint8_t *plan, size_t n, uint8_t *state, size_t l);

/* Write: 0, or 1 to 8. Each picked head enters its wire and its output remembers the sender; the slot grows by
 * one. */
uint32_t pandabrass_write(const uint8_t *plan, size_t n, uint8_t *state, size_t l);

/* Launch, in READ: 0, or 1 to 12. A SETUP joins the active's out-queue, and the active's allowance falls by one. */
uint32_t pandabrass_launch(const uint8_t *plan, size_t n, uint8_t *state, size_t l, uint32_t active, uint32_t passive,
                           uint32_t slot);

/* Close, in READ: 0, or 1 to 10, 16, 12. Gives back the slots of a connection that is accepted: its ACK was dropped,
 * and it was not closed since. `slot` is its start slot, the one it was launched with; of an ACK it is slot minus hub
 * modulo S. The connection is closed at once, so a second Close answers 16. Its slots are free when the TDOWN that
 * joins the active's out-queue has passed its routers; 12 means that the out-queue has no room, and the connection
 * stays accepted. Takes no allowance. */
uint32_t pandabrass_close(const uint8_t *plan, size_t n, uint8_t *state, size_t l, uint32_t active, uint32_t passive,
                          uint32_t slot);

/* Reply, in WRITE: 0, or 1 to 9, 14, 13, 12. The head of the passive's in-queue becomes an ACK (choice 1) or a NACK
 * (choice 0) in its out-queue; a choice of 2 or more is answered 9. One packet a round: a second Reply answers 14. */
uint32_t pandabrass_reply(const uint8_t *plan, size_t n, uint8_t *state, size_t l, uint32_t passive, uint32_t choice);

/* Look, in every phase: 0, or 1 to 7, 9, 13. Shows the head of the active's in-queue, which stays there: kind, active,
 * passive, slot and hub stand in out[0] to out[4]. Writes no byte of the state. A NACK is shown marked or not; right
 * after a Drop the next head is shown. */
uint32_t pandabrass_look(const uint8_t *plan, size_t n, const uint8_t *state, size_t l, uint32_t active,
                         uint8_t out[8]);

/* Drop, in WRITE: 0, or 1 to 9, 14, 13, 15. The head of the active's in-queue, the packet that a Look just before
 * shows, leaves it, and the active's allowance grows by one. An ACK's connection is accepted from then on, and not when
 * it was looked at. One packet a round: a second Drop answers 14. 15 means that the head is a NACK whose TDOWN has not
 * joined the out-queue yet. */
uint32_t pandabrass_drop(const uint8_t *plan, size_t n, uint8_t *state, size_t l, uint32_t active);

/* Entry, in every phase: 0, or 1 to 7, 9. out[0] is the side, 0 to 3, by which the booking came in, or
 * PANDABRASS_FREE. */
uint32_t pandabrass_entry(const uint8_t *plan, size_t n, const uint8_t *state, size_t l, uint32_t router, uint32_t side,
                          uint32_t slot, uint8_t out[8]);

/* Remaining, in every phase: 0, or 1 to 7. How many packets are in queues and on wires, N, in out[0] to out[3], and how
 * many rounds to wait before a wash, 256 x S x N, in out[4] to out[7], lowest byte first. Writes no byte of the state.
 *
 * Asked in READ it tells a round that can be relied on: if from then on no Launch and no Close is accepted, each
 * passive that can reply in a WRITE does so in it, accepting or declining, and each active that can drop in a WRITE
 * does so in it, then after so many whole rounds (an accepted Read, Execute and Write), and ever after, every queue and
 * every wire is empty and the table is the accepted connections' own. This is proved of these calls (KnownRound in
 * crates/claims_drain/specs/Emptied.antt), for every plan that loads and every state reached from pandabrass_start. Most
 * networks are empty much sooner: ask again, 0 means empty. Within a round N may grow, when a declined set-up is torn
 * down; the round that was told stays. */
uint32_t pandabrass_remaining(const uint8_t *plan, size_t n, const uint8_t *state, size_t l, uint8_t out[8]);

/* A packet, by name. */
struct pandabrass_packet {
    uint8_t kind; /* enum pandabrass_kind */
    uint8_t active;
    uint8_t passive;
    uint8_t slot;
    uint8_t hub;
};

/* What an accepted pandabrass_look put into out. */
static inline struct pandabrass_packet pandabrass_packet_of(const uint8_t out[8])
{
    struct pandabrass_packet packet;
    packet.kind = out[0];
    packet.active = out[1];
    packet.passive = out[2];
    packet.slot = out[3];
    packet.hub = out[4];
    return packet;
}

/* What is left, by name. */
struct pandabrass_left {
    uint32_t packets;
    uint32_t rounds;
};

/* What an accepted pandabrass_remaining put into out. */
static inline struct pandabrass_left pandabrass_left_of(const uint8_t out[8])
{
    struct pandabrass_left left;
    left.packets = (uint32_t)out[0] | (uint32_t)out[1] << 8 | (uint32_t)out[2] << 16 | (uint32_t)out[3] << 24;
    left.rounds = (uint32_t)out[4] | (uint32_t)out[5] << 8 | (uint32_t)out[6] << 16 | (uint32_t)out[7] << 24;
    return left;
}

#ifdef __cplusplus
}
#endif

#endif
