/* Random calls on a node in lent bytes and on the same node by value, side by side:
 *   both_forms CALLS [SEED]
 * After each call the replies, the values and the outputs are equal, the lent bytes are the node by value (as decoded here, by the table of
 * crates/node_bytes/src/layout.rt), the tally has the counts that are kept apart, and no byte beside what was lent is another; after a refusal
 * every byte of the node is as it was, and nothing is told. The first difference is printed. Each reply has to occur, of each call that can give it, and
 * each frame's deed that is told. */
#include <stdio.h>
#include <stdlib.h>
#include <string.h>

#include "asked.h"

static struct kosmydore_slot slot_of(const uint8_t *bytes)
{
    struct kosmydore_slot slot;

    memset(&slot, 0, sizeof slot);
    slot.stream = four_at(bytes + STREAM);
    slot.used = bytes[USED] != 0;
    slot.settings.role = bytes[ROLE];
    slot.settings.class_ = bytes[CLASS];
    slot.settings.data_reach = two_at(bytes + DATA_REACH);
    slot.settings.confirm_delay = two_at(bytes + CONFIRM_DELAY);
    slot.settings.abort_reach = two_at(bytes + ABORT_REACH);
    slot.settings.deliver_delay = two_at(bytes + DELIVER_DELAY);
    slot.message.stamp = two_at(bytes + STAMP);
    slot.message.length = bytes[LENGTH];
    slot.message.held = bytes[HELD] != 0;
    slot.message.confirmed = bytes[CONFIRMED] != 0;
    memcpy(slot.message.bytes, bytes + PAYLOAD, sizeof slot.message.bytes);
    slot.pending.payload = bytes[PAYLOAD_PENDING] != 0;
    slot.pending.confirmation = bytes[CONFIRMATION_PENDING] != 0;
    slot.pending.abort = bytes[ABORT_PENDING] != 0;
    return slot;
}

static struct kosmydore_node node_of(const uint8_t *bytes)
{
    struct kosmydore_node node;

    memset(&node, 0, sizeof node);
    for (size_t i = 0; i < KOSMYDORE_SLOTS; i++)
        node.slots[i] = slot_of(bytes + SLOT_SIZE * i);
    node.counter = two_at(bytes + COUNTER);
    return node;
}

static bool same_slot(const struct kosmydore_slot *a, const struct kosmydore_slot *b)
{
    return a->stream == b->stream && a->used == b->used && a->settings.role == b->settings.role &&
           a->settings.class_ == b->settings.class_ && a->settings.data_reach == b->settings.data_reach &&
           a->settings.confirm_delay == b->settings.confirm_delay && a->settings.abort_reach == b->settings.abort_reach &&
           a->settings.deliver_delay == b->settings.deliver_delay && a->message.stamp == b->message.stamp &&
           a->message.length == b->message.length && a->message.held == b->message.held &&
           a->message.confirmed == b->message.confirmed &&
           memcmp(a->message.bytes, b->message.bytes, sizeof a->message.bytes) == 0 && a->pending.payload == b->pending.payload &&
           a->pending.confirmation == b->pending.confirmation && a->pending.abort == b->pending.abort;
}

/* ---- what is lent, with an edge on either side; a second of each for the form by value ---- */
#define EDGE 64
#define AREA(room) (EDGE + (room) + EDGE)

static uint8_t lent[8 + AREA(KOSMYDORE_NODE_BYTES)];
static uint8_t lent_before[sizeof lent];
static uint8_t output[AREA(KOSMYDORE_TICK_OUTPUT)];
static uint8_t output_by_value[AREA(KOSMYDORE_TICK_OUTPUT)];
static uint8_t output_before[AREA(KOSMYDORE_TICK_OUTPUT)];
static uint32_t tally[AREA(KOSMYDORE_TALLY_SIZE)];
static uint32_t counts[AREA(KOSMYDORE_TALLY_SIZE)];
static struct kosmydore_node node;

static uint8_t *lent_node;
static size_t lent_length;
static size_t tally_length;
static const uint32_t numbers[] = KOSMYDORE_TALLY_NUMBERS;

static unsigned long calls;
static bool agreed = true;

enum call { SET_UP, HEAR, TICK, REQUEST, NEXT_FRAME, FRESH, COUNT, CALLS };
static const char *const names[CALLS] = {"set up", "hear", "tick", "request", "next frame", "fresh", "count"};
static unsigned long seen[CALLS][KOSMYDORE_TALLY_SIZE];
/* How often each number was told of a frame. */
static unsigned long seen_told[KOSMYDORE_TOLD_DELIVERED + 1];
static enum call call;

/* Where the count of a reply stands, KOSMYDORE_TALLY_SIZE where it has none. */
static size_t place_of(uint32_t reply)
{
    size_t place = 0;

    while (place < KOSMYDORE_TALLY_SIZE && numbers[place] != reply)
        place++;
    return place;
}

/* ---- what must happen, beside the replies ---- */
enum event {
    ROLLED_OVER, DELIVERED, ALL_DELIVERED, DROPPED, MANY_DROPPED, DROPPED_AND_DELIVERED, TALLY_FULL, TALLY_OTHER, WILD_NODE_DONE, HIGH_DLC, HIGH_SETTING, EVENTS
};
static const char *const event_names[EVENTS] = {
    "a tick that rolls the counter over", "a tick that delivers", "a tick that delivers 32 records", "a tick that drops", "a tick that drops several",
    "a tick that drops and delivers", "a count that stays", "a tally of another length", "a call done on wild bytes", "a DLC above 255 refused",
    "a setting above 65,535 refused",
};
static unsigned long events[EVENTS];
static bool wild;

static void differs(const char *what)
{
    if (agreed)
        printf("call %lu, %s: %s is another\n", calls, names[call], what);
    agreed = false;
}

static void check(const char *what, bool holds)
{
    if (!holds)
        differs(what);
}

/* ---- before and after a call ---- */
static void before(void)
{
    calls++;
    memset(output, (int)below(256), sizeof output);
    memcpy(output_by_value, output, sizeof output);
    memcpy(output_before, output, sizeof output);
    memcpy(lent_before, lent, sizeof lent);
    lent_length = KOSMYDORE_NODE_BYTES;
    if (one_in(64))
        lent_length = one_in(2) ? KOSMYDORE_NODE_BYTES - 1 + 2 * below(2) : below(KOSMYDORE_NODE_BYTES + EDGE);
    tally_length = KOSMYDORE_TALLY_SIZE;
    if (one_in(64))
        tally_length = one_in(2) ? KOSMYDORE_TALLY_SIZE - 1 + 2 * below(2) : below(KOSMYDORE_TALLY_SIZE + EDGE);
}

static bool is_node(void)
{
    return lent_length == KOSMYDORE_NODE_BYTES;
}

/* The reply is counted apart, and the tally has these counts. */
static bool count_apart(uint32_t reply)
{
    size_t place = place_of(reply);

    if (tally_length != KOSMYDORE_TALLY_SIZE) {
        events[TALLY_OTHER]++;
        return false;
    }
    if (place == KOSMYDORE_TALLY_SIZE)
        return false;
    if (counts[EDGE + place] == UINT32_MAX)
        events[TALLY_FULL]++;
    else
        counts[EDGE + place]++;
    return true;
}

static void same_tally(void)
{
    check("the tally", memcmp(tally, counts, sizeof tally) == 0);
}

static void same_lent(void)
{
    check("a byte of the node, or beside it", memcmp(lent, lent_before, sizeof lent) == 0);
}

static void same_node(void)
{
    const uint8_t *bytes = lent_node;
    size_t at = (size_t)(lent_node - lent);

    for (size_t i = 0; i < KOSMYDORE_SLOTS; i++) {
        struct kosmydore_slot slot = slot_of(bytes + SLOT_SIZE * i);

        check("a slot", same_slot(&slot, &node.slots[i]));
    }
    check("the counter", two_at(bytes + COUNTER) == node.counter);
    check("a byte before the node", memcmp(lent, lent_before, at) == 0);
    at += KOSMYDORE_NODE_BYTES;
    check("a byte behind the node", memcmp(lent + at, lent_before + at, sizeof lent - at) == 0);
}

/* The reply of the lent form and, where the bytes had a node's length, that of the form by value; what was written of the output. */
static void after(uint32_t reply, uint32_t expected, size_t written)
{
    size_t at = EDGE + written;

    check("the reply", reply == (is_node() ? expected : KOSMYDORE_BAD_LENGTH));
    if (place_of(reply) < KOSMYDORE_TALLY_SIZE)
        seen[call][place_of(reply)]++;
    if (call != FRESH)
        count_apart(reply);
    same_tally();
    if (reply != KOSMYDORE_DONE) {
        same_lent();
        at = EDGE;
    } else {
        events[WILD_NODE_DONE] += wild;
    }
    same_node();
    check("the room that was written", at <= sizeof output - EDGE);
    check("a byte of the output", memcmp(output, output_by_value, sizeof output) == 0);
    if (agreed) {
        check("a byte before the output", memcmp(output, output_before, EDGE) == 0);
        check("a byte behind what was written", memcmp(output + at, output_before + at, sizeof output - at) == 0);
    }
}

#define NODE lent_node, lent_length
#define TALLY tally + EDGE, tally_length

/* ---- the calls ---- */
static void set_up(void)
{
    uint32_t stream = any_stream();
    struct kosmydore_settings s = any_settings();
    struct kosmydore_answered a = kosmydore_set_up(node, stream, s);
    uint32_t legal = kosmydore_settings_reply(stream, s.role, s.class_, s.data_reach, s.confirm_delay, s.abort_reach, s.deliver_delay);
    uint32_t reply = kosmydore_module_set_up(NODE, stream, s, TALLY);

    check("the judgement of the settings", (legal == KOSMYDORE_BAD_SETTINGS) == (a.reply == KOSMYDORE_BAD_SETTINGS));
    if (is_node())
        node = a.node;
    if (reply == KOSMYDORE_BAD_SETTINGS)
        events[HIGH_SETTING] += s.role > 65535 || s.class_ > 65535 || s.data_reach > 65535 || s.confirm_delay > 65535 ||
                                s.abort_reach > 65535 || s.deliver_delay > 65535;
    after(reply, a.reply, 0);
}

static void hear(void)
{
    struct asked f = any_frame();
    size_t room = any_room(KOSMYDORE_HEAR_OUTPUT);
    struct kosmydore_heard a = kosmydore_hear(node, f.number, f.dlc, f.payload, f.length, output_by_value + EDGE, room);
    struct kosmydore_module_heard w = kosmydore_module_hear(NODE, f.number, f.dlc, f.payload, f.length, output + EDGE, room, TALLY);

    if (is_node())
        node = a.node;
    else
        a.told = KOSMYDORE_TOLD_NOTHING, a.written = 0, memcpy(output_by_value, output_before, sizeof output);
    check("how much is written", w.written == a.written);
    check("what the frame did", w.told == a.told);
    check("whether anything is told", (w.told != KOSMYDORE_TOLD_NOTHING) == (w.reply == KOSMYDORE_DONE));
    check("what is told of a frame delivered at once", (w.told == KOSMYDORE_TOLD_DELIVERED) == (w.written != 0));
    check("the judgement of the DLC", f.dlc <= KOSMYDORE_MAX_DLC || w.reply != KOSMYDORE_DONE);
    events[HIGH_DLC] += f.dlc > 255 && w.reply == KOSMYDORE_DLC_TOO_BIG;
    if (w.told <= KOSMYDORE_TOLD_DELIVERED)
        seen_told[w.told]++;
    after(w.reply, a.reply, w.written);
}

/* The records that stand one after the other. */
static uint32_t records_of(const uint8_t *bytes, size_t length)
{
    uint32_t records = 0;

    for (size_t at = 0; at < length; at += 2 + (size_t)two_at(bytes + at))
        records++;
    return records;
}

static void tick(void)
{
    size_t room = any_room(KOSMYDORE_TICK_OUTPUT);
    struct kosmydore_ticked a = kosmydore_tick(node, output_by_value + EDGE, room);
    struct kosmydore_module_ticked w = kosmydore_module_tick(NODE, output + EDGE, room, TALLY);

    if (is_node()) {
        events[ROLLED_OVER] += a.node.counter < node.counter;
        node = a.node;
    } else {
        a.dropped = 0, a.delivered = 0, a.written = 0, memcpy(output_by_value, output_before, sizeof output);
    }
    check("how much is written", w.written == a.written);
    check("how many were dropped", w.dropped == a.dropped);
    check("how many were delivered", w.delivered == a.delivered && w.delivered == records_of(output + EDGE, w.written));
    check("what a refusal tells", w.reply == KOSMYDORE_DONE || (w.dropped == 0 && w.delivered == 0));
    events[DELIVERED] += w.written != 0;
    events[ALL_DELIVERED] += w.delivered == KOSMYDORE_SLOTS;
    events[DROPPED] += w.dropped != 0;
    events[MANY_DROPPED] += w.dropped > 1;
    events[DROPPED_AND_DELIVERED] += w.dropped != 0 && w.delivered != 0;
    after(w.reply, a.reply, w.written);
}

static void request(void)
{
    struct asked m = any_message();
    struct kosmydore_answered a = kosmydore_request(node, m.number, m.payload, m.length);
    uint32_t reply = kosmydore_module_request(NODE, m.number, m.payload, m.length, TALLY);

    if (is_node())
        node = a.node;
    after(reply, a.reply, 0);
}

static void next_frame(void)
{
    size_t room = any_room(KOSMYDORE_NEXT_FRAME_OUTPUT);
    struct kosmydore_given a = kosmydore_next_frame(node, output_by_value + EDGE, room);
    struct kosmydore_given_out g = kosmydore_module_next_frame(NODE, output + EDGE, room, TALLY);

    if (is_node())
        node = a.node;
    else
        a.id = 0, a.length = 0, memcpy(output_by_value, output_before, sizeof output);
    check("the identifier", g.id == a.id);
    check("the length", g.length == a.length);
    after(g.reply, a.reply, g.length);
}

static void fresh(void)
{
    uint32_t reply = kosmydore_module_fresh(NODE);

    if (is_node())
        node = kosmydore_fresh();
    wild = wild && !is_node();
    after(reply, KOSMYDORE_DONE, 0);
}

/* Counts by hand; numbers that are none of a reply have no count. */
static void count(void)
{
    uint32_t reply = one_in(4) ? draw() : below(KOSMYDORE_TALLY_SIZE + 6);
    bool has = kosmydore_count(TALLY, reply);

    check("whether there is a count", has == count_apart(reply));
    same_tally();
    same_lent();
    seen[call][place_of(has ? KOSMYDORE_DONE : KOSMYDORE_NOTHING)]++;
}

/* ---- where calls begin ---- */

static void wild_bytes(void)
{
    bool tame = one_in(2);

    for (size_t i = 0; i < KOSMYDORE_NODE_BYTES; i++)
        lent_node[i] = (uint8_t)draw();
    if (tame)
        for (size_t i = 0; i < KOSMYDORE_SLOTS; i++)
            wild_slot(lent_node + SLOT_SIZE * i, i, two_at(lent_node + COUNTER));
    node = node_of(lent_node);
    wild = true;
}

/* A node that calls made, all of whose 32 messages come due at one tick. */
static void all_due(void)
{
    struct kosmydore_settings s = {KOSMYDORE_RECEIVE, KOSMYDORE_IMD, 1, 0, 0, 3};
    static const uint8_t payload[8] = {1, 2, 3, 4, 5, 6, 7, 8};

    for (size_t i = 0; i < KOSMYDORE_SLOTS; i++) {
        struct kosmydore_answered a = kosmydore_set_up(node, pool[i], s);

        node = a.node;
        check("a set up", kosmydore_module_set_up(lent_node, KOSMYDORE_NODE_BYTES, pool[i], s, tally, 0) == a.reply);
        node = kosmydore_hear(node, pool[i] * 4, 8, payload, 8, output_by_value, KOSMYDORE_HEAR_OUTPUT).node;
        kosmydore_module_hear(lent_node, KOSMYDORE_NODE_BYTES, pool[i] * 4, 8, payload, 8, output, KOSMYDORE_HEAR_OUTPUT, tally, 0);
    }
}

static void begin(void)
{
    for (size_t i = 0; i < sizeof lent; i++)
        lent[i] = (uint8_t)draw();
    for (size_t i = 0; i < sizeof tally / sizeof tally[0]; i++)
        tally[i] = draw();
    for (size_t i = 0; i < KOSMYDORE_TALLY_SIZE; i++)
        tally[EDGE + i] = one_in(8) ? UINT32_MAX - below(4) : one_in(2) ? 0 : draw();
    memcpy(counts, tally, sizeof counts);
    lent_node = lent + EDGE + below(8);
    draw_streams();
    wild = false;
    if (one_in(4)) {
        wild_bytes();
        return;
    }
    check("the fresh node", kosmydore_module_fresh(lent_node, KOSMYDORE_NODE_BYTES) == KOSMYDORE_DONE);
    node = kosmydore_fresh();
    if (one_in(2)) {
        node.counter = one_in(2) ? (uint16_t)draw() : (uint16_t)(65535 - below(40));
        lent_node[COUNTER] = (uint8_t)node.counter;
        lent_node[COUNTER + 1] = (uint8_t)(node.counter >> 8);
    }
    if (one_in(16))
        all_due();
}

static void any_call(void)
{
    static void (*const each[CALLS])(void) = {set_up, hear, tick, request, next_frame, fresh, count};
    uint32_t x = below(1024);

    call = x < 160 ? SET_UP : x < 560 ? HEAR : x < 720 ? TICK : x < 840 ? REQUEST : x < 990 ? NEXT_FRAME : x < 991 ? FRESH : COUNT;
    before();
    each[call]();
}

/* ---- what has to have occurred ---- */
static unsigned long passed;
static unsigned long failed;

static void occurred(const char *whose, const char *what, uint32_t number, unsigned long times)
{
    if (times == 0) {
        failed++;
        printf("%s%s %lu never occurred\n", whose, what, (unsigned long)number);
    } else {
        passed++;
    }
}

static void all_occurred(void)
{
    static const struct {
        enum call call;
        uint32_t replies[10];
    } each[] = {
        {SET_UP, {KOSMYDORE_BAD_SETTINGS, KOSMYDORE_TAKEN, KOSMYDORE_TABLE_FULL, KOSMYDORE_BAD_LENGTH}},
        {HEAR,
         {KOSMYDORE_SHORT_OUTPUT, KOSMYDORE_IDENTIFIER_TOO_BIG, KOSMYDORE_DLC_TOO_BIG, KOSMYDORE_PAYLOAD_LENGTH, KOSMYDORE_UNWANTED_PAYLOAD,
          KOSMYDORE_NOT_MINE, KOSMYDORE_MISFIT, KOSMYDORE_CLASH, KOSMYDORE_BAD_LENGTH}},
        {TICK, {KOSMYDORE_SHORT_OUTPUT, KOSMYDORE_BAD_LENGTH}},
        {REQUEST, {KOSMYDORE_BAD_LENGTH, KOSMYDORE_NOT_SENDER, KOSMYDORE_BUSY}},
        {NEXT_FRAME, {KOSMYDORE_SHORT_OUTPUT, KOSMYDORE_NOTHING, KOSMYDORE_BAD_LENGTH}},
        {FRESH, {KOSMYDORE_BAD_LENGTH}},
        {COUNT, {KOSMYDORE_NOTHING}},
    };

    for (size_t i = 0; i < sizeof each / sizeof each[0]; i++) {
        occurred(names[each[i].call], ": reply", KOSMYDORE_DONE, seen[each[i].call][place_of(KOSMYDORE_DONE)]);
        for (size_t k = 0; each[i].replies[k] != KOSMYDORE_DONE; k++)
            occurred(names[each[i].call], ": reply", each[i].replies[k], seen[each[i].call][place_of(each[i].replies[k])]);
    }
    for (size_t i = 0; i <= KOSMYDORE_TOLD_DELIVERED; i++)
        occurred(names[HEAR], ": told", (uint32_t)i, seen_told[i]);
    for (size_t i = 0; i < EVENTS; i++)
        occurred(event_names[i], ", event", (uint32_t)i, events[i]);
}

static void say_counts(void)
{
    for (size_t i = 0; i < CALLS; i++) {
        printf("%s:", names[i]);
        for (size_t k = 0; k < KOSMYDORE_TALLY_SIZE; k++)
            if (seen[i][k] != 0)
                printf(" %lu of reply %lu;", seen[i][k], (unsigned long)numbers[k]);
        printf("\n");
    }
    printf("told of a frame:");
    for (size_t i = 0; i <= KOSMYDORE_TOLD_DELIVERED; i++)
        printf(" %lu of %lu;", seen_told[i], (unsigned long)i);
    printf("\n");
    for (size_t i = 0; i < EVENTS; i++)
        printf("%s: %lu\n", event_names[i], events[i]);
}

int main(int argc, char **argv)
{
    unsigned long asked = argc > 1 ? strtoul(argv[1], NULL, 10) : 1000000;
    unsigned long left = 0;

    state = argc > 2 ? strtoull(argv[2], NULL, 10) : 14;
    state = state * 2 + 1;
    while (agreed && calls < asked) {
        if (left == 0) {
            begin();
            left = between(1, 600);
        }
        left--;
        any_call();
    }
    say_counts();
    if (agreed)
        passed++;
    else
        failed++;
    all_occurred();
    printf("%lu calls: %lu passed, %lu failed\n", calls, passed, failed);
    return failed != 0;
}
