/* The forms of the node that the workloads run over, under one set of names:
 *   LIBRARY_LENT       the library's or the C file's, in lent bytes, with a lent tally;
 *   LIBRARY_BY_VALUE   the library's, by value;
 *   BY_VALUE           the one in C, by value;
 *   otherwise          the one in C, by pointer, or the one in Rust, by reference, on the same node.
 * LENT is the node as a call takes it, and BACK puts the node that the call gave back in its place. */
#ifndef FORMS_H
#define FORMS_H

#include "node.h"

#if defined LIBRARY_LENT || defined LIBRARY_BY_VALUE

#include "kosmydore.h"

typedef struct kosmydore_settings Settings;
#define SETTINGS(role, class_, rd, dc, ra, dd) ((Settings){role, class_, rd, dc, ra, dd})

#else

typedef struct settings Settings;
typedef struct node Node;
typedef struct answered Answered;
typedef struct heard Heard;
typedef struct ticked Ticked;
typedef struct given Given;
#define SETTINGS(role, class_, rd, dc, ra, dd) ((Settings){rd, dc, ra, dd, role, class_})
#define COUNTER_OF(node) ((node).counter)

static inline Node fresh(void)
{
    return (Node){0};
}

#endif

#ifdef LIBRARY_LENT

typedef struct {
    uint8_t bytes[KOSMYDORE_NODE_BYTES];
} Node;
typedef struct {
    uint32_t reply;
} Answered;
typedef struct kosmydore_module_heard Heard;
typedef struct kosmydore_module_ticked Ticked;
typedef struct kosmydore_given_out Given;

static uint32_t tally[KOSMYDORE_TALLY_SIZE];
#define TALLY tally, KOSMYDORE_TALLY_SIZE
/* The counter's two bytes are the last. */
#define COUNTER_OF(node) ((node).bytes[KOSMYDORE_NODE_BYTES - 2] + 256u * (node).bytes[KOSMYDORE_NODE_BYTES - 1])

static inline Node fresh(void)
{
    Node node;

    kosmydore_module_fresh(node.bytes, sizeof node.bytes);
    return node;
}

#define NODE(node) (node)->bytes, sizeof(node)->bytes
#define set_up(node, stream, settings) ((Answered){kosmydore_module_set_up(NODE(node), stream, settings, TALLY)})
#define hear(node, id, dlc, payload, len, out, room) kosmydore_module_hear(NODE(node), id, dlc, payload, len, out, room, TALLY)
#define tick(node, out, room) kosmydore_module_tick(NODE(node), out, room, TALLY)
#define request(node, stream, payload, len) ((Answered){kosmydore_module_request(NODE(node), stream, payload, len, TALLY)})
#define next_frame(node, out, room) kosmydore_module_next_frame(NODE(node), out, room, TALLY)

#endif

#ifdef LIBRARY_BY_VALUE

typedef struct kosmydore_node Node;
typedef struct kosmydore_answered Answered;
typedef struct kosmydore_heard Heard;
typedef struct kosmydore_ticked Ticked;
typedef struct kosmydore_given Given;
#define COUNTER_OF(node) ((node).counter)
#define fresh kosmydore_fresh
#define set_up kosmydore_set_up
#define hear kosmydore_hear
#define tick kosmydore_tick
#define request kosmydore_request
#define next_frame kosmydore_next_frame

#endif

#if defined BY_VALUE || defined LIBRARY_BY_VALUE
#define LENT(node) (node)
#define BACK(node, answer) ((node) = (answer).node)
#else
#define LENT(node) (&(node))
#define BACK(node, answer) ((void)(answer))
#endif

#endif
