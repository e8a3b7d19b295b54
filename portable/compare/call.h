/* A call and its answer, the same on every chip: what the comparison makes, and what a replay reads. */
#ifndef CALL_H
#define CALL_H
#include <stdbool.h>
#include <stddef.h>
#include <stdint.h>

#include "kosmydore.h"

enum { SET_UP, HEAR, TICK, REQUEST, NEXT_FRAME, FRESH, COUNT, NUMBERS, WILD, DUE, KINDS };

/* The node by value, and in lent bytes. */
enum { BY_VALUE, LENT, FORMS };

/* How many nodes of each form are driven side by side; the bytes of an output or a payload, and of the guard behind an output
 * or a lent node, which stand at every alignment; the counts of a tally and behind it; what a call leaves, as bytes. */
enum { NODES = 24, ROOM = 1024, GUARD = 64, NODE_ROOM = KOSMYDORE_NODE_BYTES + GUARD + 1, TALLY_ROOM = KOSMYDORE_TALLY_SIZE + 3 };
enum { FLAT = 31 * KOSMYDORE_SLOTS + 2, LEFT = FLAT + NODE_ROOM + 4 * TALLY_ROOM };

struct call {
    uint32_t number, code, payload_seed, output_seed;
    uint32_t s[4], role, class_, dlc;
    uint16_t payload_length, output_length, node_length;
    uint8_t kind, form, node, tally_length, pad[2];
};

struct answer {
    uint64_t left, output; /* sums of what is left of node and tally, and of every byte of the output's room */
    uint32_t reply, written, id, numbers, told, dropped, delivered, pad;
};

/* What a call is made with, and what it leaves. */
struct bench {
    struct kosmydore_node nodes[NODES];
    uint8_t lent[NODES][NODE_ROOM];
    uint32_t tally[NODES][TALLY_ROOM];
    uint8_t output[ROOM + GUARD];
    uint8_t payload[ROOM];
};

bool same_answer(const struct answer *a, const struct answer *b);

uint64_t random_step(uint64_t *state);
/* A call for one of the nodes. */
void random_call(struct call *call, uint64_t *state, const struct bench *bench);

/* Every field of the node of this number, and no padding, byte by byte; every byte of the lent one, and of its tally. */
void left(const struct bench *bench, unsigned number, uint8_t to[LEFT]);
uint64_t sum_of(const uint8_t *bytes, size_t count);
/* Any node at all, each number of each field being possible; and one whose 32 slots are all due, or all late. In lent bytes
 * also such as no call writes, and with any tally. */
void wild(struct bench *bench, const struct call *call);
/* Fills what is lent before a call. */
void lend(struct bench *bench, const struct call *call);

/* Fills the stack below with what is in no node, so that a value that a call does not write is not right by chance. */
void paint(void);

typedef void make_call(struct bench *, const struct call *, struct answer *);

#endif
