/* What one slot does, shared by both forms of the node. */
#ifndef SLOT_H
#define SLOT_H

#include <string.h>

#include "node.h"

static const bool carries[3][4] = {
    {false, false, false, true}, /* plain */
    {true, false, false, false}, /* IMD */
    {true, true, true, false},   /* 2M */
};

static inline bool legal(uint32_t stream, const struct settings *s)
{
    if (stream > MAX_STREAM || s->role > SEND) {
        return false;
    }
    switch (s->class_) {
    case PLAIN:
        return s->rd == 0 && s->dc == 0 && s->ra == 0 && s->dd == 0;
    case IMD:
        return 1 <= s->rd && s->rd <= 8000 && s->dc == 0 && s->ra == 0 && s->rd <= s->dd && s->dd <= 16000;
    case TWO_MESSAGE:
        return 1 <= s->rd && s->rd <= 8000 && s->rd <= s->dc && s->dc <= 8000 && 1 <= s->ra && s->ra <= 4000 &&
               s->dc + s->ra + 1 <= s->dd && s->dd <= 16000;
    default:
        return false;
    }
}

/* The slots that are used come first, by ascending stream. Where the stream's slot stands, or would stand. */
static inline size_t place(const struct node *node, uint32_t stream)
{
    size_t i = 0;

    while (i < SLOTS && node->slots[i].used && node->slots[i].stream < stream) {
        i++;
    }
    return i;
}

/* Whether the slot at this place is the stream's. */
static inline bool is_of(const struct node *node, size_t i, uint32_t stream)
{
    return i < SLOTS && node->slots[i].used && node->slots[i].stream == stream;
}

static inline size_t find(const struct node *node, uint32_t stream)
{
    size_t i = place(node, stream);

    return is_of(node, i, stream) ? i : SLOTS;
}

/* Puts the slot of a stream in its place, unless it is there or the last slot is used. */
static inline enum reply put_in(struct node *node, uint32_t stream, struct settings settings)
{
    struct slot *slots = node->slots;
    size_t i = place(node, stream);

    if (is_of(node, i, stream)) {
        return TAKEN;
    }
    if (slots[SLOTS - 1].used) {
        return TABLE_FULL;
    }
    memmove(&slots[i + 1], &slots[i], (SLOTS - 1 - i) * sizeof slots[0]);
    slots[i] = (struct slot){.stream = stream, .settings = settings, .used = true};
    return DONE;
}

static inline size_t write_record(uint8_t *out, uint32_t stream, const uint8_t *bytes, size_t len)
{
    out[0] = (uint8_t)(6 + len);
    out[1] = 0;
    out[2] = 1;
    out[3] = 0;
    out[4] = (uint8_t)stream;
    out[5] = (uint8_t)(stream >> 8);
    out[6] = (uint8_t)(stream >> 16);
    out[7] = (uint8_t)(stream >> 24);
    memcpy(out + 8, bytes, len);
    return 8 + len;
}

/* The first fault in a frame; DONE where it has none. */
static inline enum reply fault_in(uint32_t id, uint8_t dlc, size_t len)
{
    uint32_t code = id % 4;
    size_t bytes = dlc > 8 ? 8 : dlc;

    if (id > MAX_BUS_ID) {
        return IDENTIFIER_TOO_BIG;
    }
    if (dlc > 15) {
        return DLC_TOO_BIG;
    }
    if (len != bytes) {
        return PAYLOAD_LENGTH;
    }
    return (code == CODE_CONFIRMATION || code == CODE_ABORT) && dlc != 0 ? UNWANTED_PAYLOAD : DONE;
}

static inline void hold(struct message *m, uint16_t counter, const uint8_t *payload, size_t len)
{
    m->stamp = counter;
    m->len = (uint8_t)len;
    m->held = true;
    m->confirmed = false;
    memset(m->bytes, 0, sizeof m->bytes);
    memcpy(m->bytes, payload, len);
}

/* What a frame that is not plain did; TOLD_NOTHING for a clash. */
static inline enum told hear_by(struct slot *slot, uint16_t counter, uint32_t code, const uint8_t *payload, size_t len)
{
    struct message *m = &slot->message;
    bool confirmed = m->confirmed;

    switch (code) {
    case CODE_DATA:
        if (!m->held) {
            hold(m, counter, payload, len);
            return TOLD_NEW;
        }
        if (m->len == len && memcmp(m->bytes, payload, len) == 0) {
            m->stamp = counter;
            return TOLD_DUPLICATE;
        }
        return TOLD_NOTHING;
    case CODE_CONFIRMATION:
        if (m->held) {
            m->confirmed = true;
            return confirmed ? TOLD_CONFIRMED_AGAIN : TOLD_CONFIRMED;
        }
        slot->pending.abort = true;
        return TOLD_ABORT_PENDING;
    default:
        if (m->held) {
            memset(m, 0, sizeof *m);
            return TOLD_DROPPED;
        }
        return TOLD_NOTHING_TO_DROP;
    }
}

enum fate { KEPT, LATE, DUE };

/* Whether the slot's message is due for delivery now; what is late is dropped, and a sender's hold ends. */
static inline enum fate lapse(struct slot *slot, uint16_t counter)
{
    const struct settings *s = &slot->settings;
    struct message *m = &slot->message;
    uint16_t age = (uint16_t)(counter - m->stamp);

    if (!m->held) {
        return KEPT;
    }
    if (s->role == SEND) {
        if (age > s->rd + s->dd) {
            m->stamp = 0;
            m->held = false;
            m->confirmed = false;
        }
        return KEPT;
    }
    if (s->class_ == TWO_MESSAGE && !m->confirmed) {
        if (age > s->dc) {
            memset(m, 0, sizeof *m);
            slot->pending.abort = true;
            return LATE;
        }
        return KEPT;
    }
    return age > s->dd ? DUE : KEPT;
}

struct happened {
    size_t written;
    uint32_t dropped;
    uint32_t delivered;
};

/* Moves the counter and writes the records of what is due, in the order of the slots. */
static inline struct happened tick_all(struct node *node, uint8_t *out)
{
    struct happened h = {0, 0, 0};

    node->counter++;
    for (size_t i = 0; i < SLOTS; i++) {
        struct slot *slot = &node->slots[i];

        switch (lapse(slot, node->counter)) {
        case KEPT:
            break;
        case LATE:
            h.dropped++;
            break;
        case DUE:
            h.written += write_record(out + h.written, slot->stream, slot->message.bytes, slot->message.len);
            h.delivered++;
            memset(&slot->message, 0, sizeof slot->message);
            break;
        }
    }
    return h;
}

static inline enum reply request_by(struct slot *slot, uint16_t counter, const uint8_t *payload, size_t len)
{
    struct pending *p = &slot->pending;

    if (!slot->used || slot->settings.role != SEND) {
        return NOT_SENDER;
    }
    if (slot->message.held || p->payload || p->confirmation || p->abort) {
        return BUSY;
    }
    hold(&slot->message, counter, payload, len);
    if (slot->settings.class_ == PLAIN) {
        slot->message.stamp = 0;
        slot->message.held = false;
    }
    p->payload = true;
    p->confirmation = slot->settings.class_ == TWO_MESSAGE;
    return DONE;
}

/* The first slot with a frame pending, SLOTS where none is. */
static inline size_t first_pending(const struct node *node)
{
    for (size_t i = 0; i < SLOTS; i++) {
        const struct pending *p = &node->slots[i].pending;

        if (p->payload || p->confirmation || p->abort) {
            return i;
        }
    }
    return SLOTS;
}

/* The lowest code of the pending frames of a slot that has one. */
static inline uint32_t lowest_code(const struct slot *slot)
{
    if (slot->pending.payload && slot->settings.class_ != PLAIN) {
        return CODE_DATA;
    }
    if (slot->pending.confirmation) {
        return CODE_CONFIRMATION;
    }
    return slot->pending.abort ? CODE_ABORT : CODE_PLAIN;
}

/* The slot's frame with this code is given out; its payload goes to the front of the output. */
static inline size_t give_out(struct slot *slot, uint32_t code, uint8_t *out)
{
    switch (code) {
    case CODE_CONFIRMATION:
        slot->pending.confirmation = false;
        return 0;
    case CODE_ABORT:
        slot->pending.abort = false;
        return 0;
    default:
        slot->pending.payload = false;
        memcpy(out, slot->message.bytes, slot->message.len);
        return slot->message.len;
    }
}

#endif
