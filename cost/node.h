/* The node in plain C, as it would be written by hand for one module: the types, with the fields of the proved node in
 * the same order, and the five calls. With BY_VALUE each call takes the whole node and gives the whole node back, as the
 * proved one does; without it the node is changed where it stands. forms.h has these beside the forms of the library. */
#ifndef NODE_H
#define NODE_H

#include <stdbool.h>
#include <stddef.h>
#include <stdint.h>

#define SLOTS 32
#define MAX_STREAM UINT32_C(134217727)
#define MAX_BUS_ID UINT32_C(536870911)

enum reply {
    DONE,
    BAD_SETTINGS,
    TABLE_FULL,
    TAKEN,
    BAD_FRAME,
    NOT_MINE,
    MISFIT,
    CLASH,
    BUSY,
    NOT_SENDER,
    BAD_LENGTH,
    SHORT_OUTPUT,
    NOTHING,
    IDENTIFIER_TOO_BIG = 18,
    DLC_TOO_BIG,
    PAYLOAD_LENGTH,
    UNWANTED_PAYLOAD
};

/* What a frame did that was heard; TOLD_NOTHING beside every refusal. */
enum told {
    TOLD_NOTHING,
    TOLD_NEW,
    TOLD_DUPLICATE,
    TOLD_CONFIRMED,
    TOLD_CONFIRMED_AGAIN,
    TOLD_ABORT_PENDING,
    TOLD_DROPPED,
    TOLD_NOTHING_TO_DROP,
    TOLD_DELIVERED
};

enum { RECEIVE, SEND };
enum { PLAIN, IMD, TWO_MESSAGE };
enum { CODE_DATA, CODE_CONFIRMATION, CODE_ABORT, CODE_PLAIN };

struct settings {
    uint16_t rd;
    uint16_t dc;
    uint16_t ra;
    uint16_t dd;
    uint8_t role;
    uint8_t class_;
};

struct message {
    uint16_t stamp;
    uint8_t len;
    bool held;
    bool confirmed;
    uint8_t bytes[8];
};

struct pending {
    bool payload;
    bool confirmation;
    bool abort;
};

struct slot {
    uint32_t stream;
    struct settings settings;
    struct message message;
    struct pending pending;
    bool used;
};

struct node {
    struct slot slots[SLOTS];
    uint16_t counter;
};

#ifdef BY_VALUE

struct answered {
    struct node node;
    enum reply reply;
};

struct heard {
    struct node node;
    enum reply reply;
    size_t written;
    enum told told;
};

struct ticked {
    struct node node;
    enum reply reply;
    size_t written;
    uint32_t dropped;
    uint32_t delivered;
};

struct given {
    struct node node;
    enum reply reply;
    uint32_t id;
    size_t length;
};

struct answered set_up(struct node node, uint32_t stream, struct settings settings);
struct heard hear(struct node node, uint32_t id, uint8_t dlc, const uint8_t *payload, size_t len, uint8_t *out,
                  size_t room);
struct ticked tick(struct node node, uint8_t *out, size_t room);
struct answered request(struct node node, uint32_t stream, const uint8_t *payload, size_t len);
struct given next_frame(struct node node, uint8_t *out, size_t room);

#else

struct answered {
    enum reply reply;
};

struct heard {
    enum reply reply;
    size_t written;
    enum told told;
};

struct ticked {
    enum reply reply;
    size_t written;
    uint32_t dropped;
    uint32_t delivered;
};

struct given {
    enum reply reply;
    uint32_t id;
    size_t length;
};

struct answered set_up(struct node *node, uint32_t stream, struct settings settings);
struct heard hear(struct node *node, uint32_t id, uint8_t dlc, const uint8_t *payload, size_t len, uint8_t *out,
                  size_t room);
struct ticked tick(struct node *node, uint8_t *out, size_t room);
struct answered request(struct node *node, uint32_t stream, const uint8_t *payload, size_t len);
struct given next_frame(struct node *node, uint8_t *out, size_t room);

#endif

#endif
