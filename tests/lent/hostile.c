/* One call on a node in lent bytes, whatever bytes, a line:
 *   hostile LINES [SEED]
 * The bytes are random, or slots of random parts, or made by calls and then damaged in one byte. A line has the call, the bytes in hex before it, what
 * is asked, the reply, the identifier, how much was written, what the frame did, how many messages the tick dropped and delivered, the output and the bytes
 * after it. second/src/lent_lines.rs reads the lines. */
#include <stdio.h>
#include <stdlib.h>
#include <string.h>

#include "asked.h"

static uint8_t node[KOSMYDORE_NODE_BYTES];
static uint8_t output[KOSMYDORE_TICK_OUTPUT];
static uint32_t tally[KOSMYDORE_TALLY_SIZE];
#define NODE node, sizeof node
#define TALLY tally, KOSMYDORE_TALLY_SIZE

static bool said;

static void say_bytes(const uint8_t *bytes, size_t length)
{
    static const char digits[] = "0123456789abcdef";

    if (!said)
        return;
    putchar(' ');
    if (length == 0)
        putchar('.');
    for (size_t i = 0; i < length; i++) {
        putchar(digits[bytes[i] / 16]);
        putchar(digits[bytes[i] % 16]);
    }
}

static void say_number(size_t number)
{
    if (said)
        printf(" %lu", (unsigned long)number);
}

static void say_call(const char *name)
{
    if (said)
        fputs(name, stdout);
    say_bytes(NODE);
}

/* What a call answers; a part that it has not is 0. */
struct answer {
    uint32_t reply, id;
    size_t written;
    uint32_t told, dropped, delivered;
};

static void say_answer(struct answer answer, size_t room)
{
    say_number(answer.reply);
    say_number(answer.id);
    say_number(answer.written);
    say_number(answer.told);
    say_number(answer.dropped);
    say_number(answer.delivered);
    say_bytes(output, room);
    say_bytes(NODE);
    if (said)
        putchar('\n');
}

static size_t lend_output(size_t needed)
{
    size_t room = any_room(needed);
    uint8_t fill = (uint8_t)draw();

    memset(output, fill, sizeof output);
    say_number(room);
    say_number(fill);
    return room;
}

/* ---- the calls ---- */
static void set_up(void)
{
    uint32_t stream = any_stream();
    struct kosmydore_settings s = any_settings();

    say_call("set_up");
    say_number(stream);
    say_number(s.role);
    say_number(s.class_);
    say_number(s.data_reach);
    say_number(s.confirm_delay);
    say_number(s.abort_reach);
    say_number(s.deliver_delay);
    say_answer((struct answer){.reply = kosmydore_module_set_up(NODE, stream, s, TALLY)}, 0);
}

static void hear(void)
{
    struct asked f = any_frame();
    struct kosmydore_module_heard h;
    size_t room;

    say_call("hear");
    say_number(f.number);
    say_number(f.dlc);
    say_bytes(f.payload, f.length);
    room = lend_output(KOSMYDORE_HEAR_OUTPUT);
    h = kosmydore_module_hear(NODE, f.number, f.dlc, f.payload, f.length, output, room, TALLY);
    say_answer((struct answer){.reply = h.reply, .written = h.written, .told = h.told}, room);
}

static void tick(void)
{
    struct kosmydore_module_ticked t;
    size_t room;

    say_call("tick");
    room = lend_output(KOSMYDORE_TICK_OUTPUT);
    t = kosmydore_module_tick(NODE, output, room, TALLY);
    say_answer((struct answer){.reply = t.reply, .written = t.written, .dropped = t.dropped, .delivered = t.delivered}, room);
}

static void request(void)
{
    struct asked m = any_message();

    say_call("request");
    say_number(m.number);
    say_bytes(m.payload, m.length);
    say_answer((struct answer){.reply = kosmydore_module_request(NODE, m.number, m.payload, m.length, TALLY)}, 0);
}

static void next_frame(void)
{
    struct kosmydore_given_out g;
    size_t room;

    say_call("next_frame");
    room = lend_output(KOSMYDORE_NEXT_FRAME_OUTPUT);
    g = kosmydore_module_next_frame(NODE, output, room, TALLY);
    say_answer((struct answer){.reply = g.reply, .id = g.id, .written = g.length}, room);
}

static void any_call(void)
{
    static void (*const each[])(void) = {set_up, hear, hear, hear, tick, tick, request, next_frame};

    each[below(sizeof each / sizeof each[0])]();
}

/* ---- the bytes ---- */
static void random_bytes(void)
{
    for (size_t i = 0; i < sizeof node; i++)
        node[i] = (uint8_t)draw();
}

/* Slots of random parts, most or all with a role, a class and frames pending that a node can have. */
static void random_slots(void)
{
    bool all = one_in(2);

    random_bytes();
    for (size_t i = 0; i < KOSMYDORE_SLOTS; i++) {
        uint8_t *slot = node + SLOT_SIZE * i;

        wild_slot(slot, i, two_at(node + COUNTER));
        if (!all && one_in(32))
            continue;
        slot[ROLE] %= 2;
        slot[CLASS] %= 3;
        slot[LENGTH] %= 9;
        if (slot[ROLE] == KOSMYDORE_RECEIVE) {
            slot[PAYLOAD_PENDING] = 0;
            slot[CONFIRMATION_PENDING] = 0;
            if (slot[CLASS] == KOSMYDORE_PLAIN)
                slot[HELD] = 0;
        } else {
            slot[ABORT_PENDING] = 0;
            if (slot[CLASS] == KOSMYDORE_PLAIN)
                slot[CONFIRMATION_PENDING] = 0;
        }
        if (one_in(2))
            slot[PAYLOAD_PENDING] = slot[CONFIRMATION_PENDING] = slot[ABORT_PENDING] = 0;
    }
}

/* Made by calls, from a fresh node with any counter, and then one byte of it damaged. */
static void damaged(void)
{
    kosmydore_module_fresh(NODE);
    node[COUNTER] = (uint8_t)draw();
    node[COUNTER + 1] = (uint8_t)(one_in(2) ? 255 : draw());
    for (uint32_t left = between(40, 200); left > 0; left--)
        any_call();
    if (!one_in(8))
        node[one_in(2) ? below(sizeof node) : SLOT_SIZE * below(4) + below(SLOT_SIZE)] = (uint8_t)(one_in(2) ? draw() : below(4));
}

int main(int argc, char **argv)
{
    static void (*const bytes[])(void) = {random_bytes, random_slots, random_slots, damaged};
    unsigned long lines = argc > 1 ? strtoul(argv[1], NULL, 10) : 10000;

    state = argc > 2 ? strtoull(argv[2], NULL, 10) : 14;
    state = state * 2 + 1;
    while (lines-- > 0) {
        draw_streams();
        said = false;
        bytes[below(sizeof bytes / sizeof bytes[0])]();
        said = true;
        any_call();
    }
    return 0;
}
