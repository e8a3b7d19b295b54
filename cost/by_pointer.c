/* The five calls on a node that is changed where it stands. */
#include "slot.h"

struct answered set_up(struct node *node, uint32_t stream, struct settings settings)
{
    return (struct answered){legal(stream, &settings) ? put_in(node, stream, settings) : BAD_SETTINGS};
}

struct heard hear(struct node *node, uint32_t id, uint8_t dlc, const uint8_t *payload, size_t len, uint8_t *out,
                  size_t room)
{
    uint32_t stream = id / 4;
    uint32_t code = id % 4;
    struct slot *slot;
    enum reply reply;
    enum told told;
    size_t i;

    if (room < 16) {
        return (struct heard){SHORT_OUTPUT, 0, TOLD_NOTHING};
    }
    reply = fault_in(id, dlc, len);
    if (reply != DONE) {
        return (struct heard){reply, 0, TOLD_NOTHING};
    }
    i = find(node, stream);
    if (i == SLOTS || node->slots[i].settings.role != RECEIVE) {
        return (struct heard){NOT_MINE, 0, TOLD_NOTHING};
    }
    slot = &node->slots[i];
    if (!carries[slot->settings.class_][code]) {
        return (struct heard){MISFIT, 0, TOLD_NOTHING};
    }
    if (code == CODE_PLAIN) {
        return (struct heard){DONE, write_record(out, stream, payload, len), TOLD_DELIVERED};
    }
    told = hear_by(slot, node->counter, code, payload, len);
    return (struct heard){told == TOLD_NOTHING ? CLASH : DONE, 0, told};
}

struct ticked tick(struct node *node, uint8_t *out, size_t room)
{
    struct happened h;

    if (room < 512) {
        return (struct ticked){SHORT_OUTPUT, 0, 0, 0};
    }
    h = tick_all(node, out);
    return (struct ticked){DONE, h.written, h.dropped, h.delivered};
}

struct answered request(struct node *node, uint32_t stream, const uint8_t *payload, size_t len)
{
    size_t i;

    if (len > 8) {
        return (struct answered){BAD_LENGTH};
    }
    i = find(node, stream);
    if (i == SLOTS) {
        return (struct answered){NOT_SENDER};
    }
    return (struct answered){request_by(&node->slots[i], node->counter, payload, len)};
}

struct given next_frame(struct node *node, uint8_t *out, size_t room)
{
    struct slot *slot;
    uint32_t code;
    size_t i;

    if (room < 8) {
        return (struct given){SHORT_OUTPUT, 0, 0};
    }
    i = first_pending(node);
    if (i == SLOTS) {
        return (struct given){NOTHING, 0, 0};
    }
    slot = &node->slots[i];
    code = lowest_code(slot);
    return (struct given){DONE, slot->stream * 4 + code, give_out(slot, code, out)};
}
