/* Calls every function of the C boundary at the edges of what it takes; plain C99, and C++ too. */
#include <stdint.h>
#include <stdio.h>
#include <string.h>

#include "kosmydore.h"

#define TOP UINT32_C(4294967295)

static int passed = 0;
static int failed = 0;

static void same(int line, const char *call, uint32_t answer, uint32_t expected)
{
    if (answer == expected) {
        passed++;
        return;
    }
    failed++;
    printf("line %d: %s is %lu, and not %lu\n", line, call, (unsigned long)answer, (unsigned long)expected);
}

#define SAME(call, expected) same(__LINE__, #call, (call), (expected))

/* A join, and that the parts of its identifier are what was joined. */
static void joins(int line, uint32_t stream, uint32_t code, uint32_t id)
{
    same(line, "join_reply", kosmydore_join_reply(stream, code), KOSMYDORE_DONE);
    same(line, "join", kosmydore_join(stream, code), id);
    same(line, "split_reply", kosmydore_split_reply(id), KOSMYDORE_DONE);
    same(line, "split_stream", kosmydore_split_stream(id), stream);
    same(line, "split_code", kosmydore_split_code(id), code);
}

#define JOINS(stream, code, id) joins(__LINE__, stream, code, id)

static void join_refused(int line, uint32_t stream, uint32_t code)
{
    same(line, "join_reply", kosmydore_join_reply(stream, code), KOSMYDORE_BAD_SETTINGS);
    same(line, "join", kosmydore_join(stream, code), 0);
}

#define JOIN_REFUSED(stream, code) join_refused(__LINE__, stream, code)

static void split_refused(int line, uint32_t id)
{
    same(line, "split_reply", kosmydore_split_reply(id), KOSMYDORE_BAD_FRAME);
    same(line, "split_stream", kosmydore_split_stream(id), 0);
    same(line, "split_code", kosmydore_split_code(id), 0);
}

#define SPLIT_REFUSED(id) split_refused(__LINE__, id)

#define TAKEN(stream, role, class_, rd, dc, ra, dd) \
    SAME(kosmydore_settings_reply(stream, role, class_, rd, dc, ra, dd), KOSMYDORE_DONE)

#define REFUSED(stream, role, class_, rd, dc, ra, dd) \
    SAME(kosmydore_settings_reply(stream, role, class_, rd, dc, ra, dd), KOSMYDORE_BAD_SETTINGS)

static void identifiers(void)
{
    JOINS(0, 0, 0);
    JOINS(0, 3, 3);
    JOINS(1, 0, 4);
    JOINS(5, 0, 20);
    JOINS(5, 1, 21);
    JOINS(5, 2, 22);
    JOINS(5, 3, 23);
    JOINS(KOSMYDORE_MAX_STREAM - 1, 3, KOSMYDORE_MAX_BUS_ID - 4);
    JOINS(KOSMYDORE_MAX_STREAM, 0, KOSMYDORE_MAX_BUS_ID - 3);
    JOINS(KOSMYDORE_MAX_STREAM, KOSMYDORE_MAX_CODE, KOSMYDORE_MAX_BUS_ID);

    JOIN_REFUSED(0, 4);
    JOIN_REFUSED(0, 256);
    JOIN_REFUSED(0, TOP);
    JOIN_REFUSED(KOSMYDORE_MAX_STREAM, 4);
    JOIN_REFUSED(KOSMYDORE_MAX_STREAM + 1, 0);
    JOIN_REFUSED(KOSMYDORE_MAX_STREAM + 1, 3);
    JOIN_REFUSED(UINT32_C(1) << 30, 0);
    JOIN_REFUSED(TOP, 0);
    JOIN_REFUSED(TOP, TOP);

    SPLIT_REFUSED(KOSMYDORE_MAX_BUS_ID + 1);
    SPLIT_REFUSED(UINT32_C(1) << 31);
    SPLIT_REFUSED(TOP);
}

static void stream_role_and_class(void)
{
    TAKEN(0, 0, 0, 0, 0, 0, 0);
    TAKEN(KOSMYDORE_MAX_STREAM, 1, 0, 0, 0, 0, 0);
    REFUSED(KOSMYDORE_MAX_STREAM + 1, 0, 0, 0, 0, 0, 0);
    REFUSED(TOP, 0, 0, 0, 0, 0, 0);
    REFUSED(5, 2, 0, 0, 0, 0, 0);
    REFUSED(5, 256, 0, 0, 0, 0, 0);
    REFUSED(5, 257, 0, 0, 0, 0, 0);
    REFUSED(5, TOP, 0, 0, 0, 0, 0);
    REFUSED(5, 0, 3, 0, 0, 0, 0);
    REFUSED(5, 0, 256, 0, 0, 0, 0);
    REFUSED(5, 0, 258, 2, 3, 2, 6);
    REFUSED(5, 0, TOP, 0, 0, 0, 0);
    REFUSED(TOP, TOP, TOP, TOP, TOP, TOP, TOP);
}

static void plain(void)
{
    REFUSED(5, 0, 0, 1, 0, 0, 0);
    REFUSED(5, 0, 0, 0, 1, 0, 0);
    REFUSED(5, 0, 0, 0, 0, 1, 0);
    REFUSED(5, 0, 0, 0, 0, 0, 1);
    REFUSED(5, 0, 0, 65536, 0, 0, 0);
    REFUSED(5, 0, 0, 0, 0, 0, TOP);
}

static void imd(void)
{
    TAKEN(5, 0, 1, 1, 0, 0, 1);
    TAKEN(5, 1, 1, 8000, 0, 0, 8000);
    TAKEN(5, 1, 1, 8000, 0, 0, 16000);
    REFUSED(5, 0, 1, 0, 0, 0, 1);
    REFUSED(5, 0, 1, 8001, 0, 0, 16000);
    REFUSED(5, 0, 1, 2, 1, 0, 2);
    REFUSED(5, 0, 1, 2, 0, 1, 2);
    REFUSED(5, 0, 1, 2, 0, 0, 1);
    REFUSED(5, 0, 1, 2, 0, 0, 16001);
    REFUSED(5, 0, 1, 65537, 0, 0, 65537);
    REFUSED(5, 0, 1, TOP, 0, 0, TOP);
}

static void two_message(void)
{
    TAKEN(5, 0, 2, 2, 3, 2, 6);
    TAKEN(5, 1, 2, 2, 3, 2, 6);
    REFUSED(5, 0, 2, 2, 3, 2, 5);
    TAKEN(5, 0, 2, 1, 1, 1, 3);
    REFUSED(5, 0, 2, 1, 1, 1, 2);
    TAKEN(5, 0, 2, 8000, 8000, 4000, 12001);
    REFUSED(5, 0, 2, 8000, 8000, 4000, 12000);
    TAKEN(5, 0, 2, 8000, 8000, 4000, 16000);
    REFUSED(5, 0, 2, 8000, 8000, 4000, 16001);
    REFUSED(5, 0, 2, 0, 3, 2, 6);
    REFUSED(5, 0, 2, 8001, 8001, 1, 16000);
    REFUSED(5, 0, 2, 4, 3, 2, 6);
    REFUSED(5, 0, 2, 2, 8001, 2, 16000);
    REFUSED(5, 0, 2, 2, 3, 0, 6);
    REFUSED(5, 0, 2, 2, 3, 4001, 16000);
    REFUSED(5, 0, 2, 2, 3, 2, 65542);
    REFUSED(5, 0, 2, 2, TOP, TOP, 6);
    REFUSED(5, 0, 2, TOP, TOP, TOP, TOP);
}

static void record_length(void)
{
    uint32_t length;

    for (length = 0; length <= KOSMYDORE_MAX_PAYLOAD; length++) {
        SAME(kosmydore_record_length_reply(length), KOSMYDORE_DONE);
        SAME(kosmydore_record_length(length), 8 + length);
    }
    SAME(kosmydore_record_length_reply(9), KOSMYDORE_BAD_LENGTH);
    SAME(kosmydore_record_length(9), 0);
    SAME(kosmydore_record_length_reply(256), KOSMYDORE_BAD_LENGTH);
    SAME(kosmydore_record_length(256), 0);
    SAME(kosmydore_record_length_reply(TOP), KOSMYDORE_BAD_LENGTH);
    SAME(kosmydore_record_length(TOP), 0);
}

/* The node of the header is the library's: its size, its slots, the order of its settings and the outputs that its calls ask for. */
static void node(void)
{
    const uint32_t numbers[] = KOSMYDORE_TALLY_NUMBERS;
    uint8_t output[KOSMYDORE_TICK_OUTPUT];
    struct kosmydore_settings settings;
    struct kosmydore_answered set;
    uint32_t stream;

    SAME(sizeof numbers / sizeof numbers[0], KOSMYDORE_TALLY_SIZE);
    SAME(sizeof(struct kosmydore_node), KOSMYDORE_NODE_SIZE);
    settings.role = KOSMYDORE_SEND;
    settings.class_ = KOSMYDORE_TWO_MESSAGE;
    settings.data_reach = 2;
    settings.confirm_delay = 3;
    settings.abort_reach = 4;
    settings.deliver_delay = 7;
    SAME(kosmydore_set_up(kosmydore_fresh(), 5, settings).reply, KOSMYDORE_BAD_SETTINGS);
    settings.deliver_delay = 8;
    set = kosmydore_set_up(kosmydore_fresh(), 5, settings);
    SAME(set.reply, KOSMYDORE_DONE);
    SAME(set.node.slots[0].settings.role, KOSMYDORE_SEND);
    SAME(set.node.slots[0].settings.deliver_delay, 8);
    SAME(kosmydore_request(set.node, 5, output, 0).reply, KOSMYDORE_DONE);
    SAME(kosmydore_hear(set.node, 20, 0, output, 0, output + 8, KOSMYDORE_HEAR_OUTPUT).reply, KOSMYDORE_NOT_MINE);
    SAME(kosmydore_hear(set.node, 20, 0, output, 0, output + 8, KOSMYDORE_HEAR_OUTPUT - 1).reply, KOSMYDORE_SHORT_OUTPUT);
    SAME(kosmydore_tick(set.node, output, KOSMYDORE_TICK_OUTPUT).reply, KOSMYDORE_DONE);
    SAME(kosmydore_tick(set.node, output, KOSMYDORE_TICK_OUTPUT - 1).reply, KOSMYDORE_SHORT_OUTPUT);
    SAME(kosmydore_next_frame(set.node, output, KOSMYDORE_NEXT_FRAME_OUTPUT).reply, KOSMYDORE_NOTHING);
    SAME(kosmydore_next_frame(set.node, output, KOSMYDORE_NEXT_FRAME_OUTPUT - 1).reply, KOSMYDORE_SHORT_OUTPUT);
    set.node = kosmydore_fresh();
    for (stream = 0; stream < KOSMYDORE_SLOTS; stream++) {
        set = kosmydore_set_up(set.node, stream, settings);
        SAME(set.reply, KOSMYDORE_DONE);
    }
    SAME(kosmydore_set_up(set.node, stream, settings).reply, KOSMYDORE_TABLE_FULL);
}

/* Set up takes what kosmydore_settings_reply says is legal, and nothing else: no number is cut. */
static void set_up_numbers(void)
{
    const uint32_t above[] = {UINT32_C(1) << 8, UINT32_C(1) << 16, UINT32_C(1) << 24};
    uint32_t legal[6] = {KOSMYDORE_RECEIVE, KOSMYDORE_TWO_MESSAGE, 2, 3, 2, 6};
    size_t field, i;

    for (field = 0; field < 6; field++)
        for (i = 0; i < sizeof above / sizeof above[0]; i++) {
            const uint32_t number = legal[field];
            struct kosmydore_settings settings;
            struct kosmydore_answered set;

            legal[field] = number + above[i];
            settings.role = legal[0];
            settings.class_ = legal[1];
            settings.data_reach = legal[2];
            settings.confirm_delay = legal[3];
            settings.abort_reach = legal[4];
            settings.deliver_delay = legal[5];
            set = kosmydore_set_up(kosmydore_fresh(), 5, settings);
            SAME(set.reply, kosmydore_settings_reply(5, legal[0], legal[1], legal[2], legal[3], legal[4], legal[5]));
            SAME(set.node.slots[0].used, set.reply == KOSMYDORE_DONE);
            SAME(set.reply == KOSMYDORE_DONE, field == 5 && above[i] == 256);
            legal[field] = number;
        }
}

/* A frame with this DLC and so many bytes, as a node answers it that receives stream 5 as two-message; a refusal tells nothing. */
static uint32_t heard(struct kosmydore_node receiver, uint32_t id, uint32_t dlc, size_t bytes)
{
    const uint8_t payload[16] = {1, 2, 3, 4, 5, 6, 7, 8, 9};
    uint8_t output[KOSMYDORE_HEAR_OUTPUT];
    struct kosmydore_heard answer;

    answer = kosmydore_hear(receiver, id, dlc, payload, bytes, output, sizeof output);
    SAME(answer.told == KOSMYDORE_TOLD_NOTHING, answer.reply != KOSMYDORE_DONE);
    SAME(answer.written, 0);
    return answer.reply;
}

/* DLC 9 to 15 mean eight bytes, also in what is held, and are duplicates of each other and of DLC 8. */
static void dlcs(void)
{
    const uint8_t payload[8] = {1, 2, 3, 4, 5, 6, 7, 8};
    uint8_t output[KOSMYDORE_HEAR_OUTPUT];
    struct kosmydore_settings settings;
    struct kosmydore_node receiver;
    struct kosmydore_heard first;
    uint32_t dlc, other;

    settings.role = KOSMYDORE_RECEIVE;
    settings.class_ = KOSMYDORE_TWO_MESSAGE;
    settings.data_reach = 2;
    settings.confirm_delay = 3;
    settings.abort_reach = 2;
    settings.deliver_delay = 6;
    receiver = kosmydore_set_up(kosmydore_fresh(), 5, settings).node;
    for (dlc = 8; dlc <= KOSMYDORE_MAX_DLC; dlc++) {
        first = kosmydore_hear(receiver, 20, dlc, payload, KOSMYDORE_MAX_PAYLOAD, output, sizeof output);
        SAME(first.reply, KOSMYDORE_DONE);
        SAME(first.told, KOSMYDORE_TOLD_NEW);
        SAME(first.node.slots[0].message.length, KOSMYDORE_MAX_PAYLOAD);
        for (other = 8; other <= KOSMYDORE_MAX_DLC; other++)
            SAME(heard(first.node, 20, other, KOSMYDORE_MAX_PAYLOAD), KOSMYDORE_DONE);
        SAME(heard(first.node, 20, 7, 7), KOSMYDORE_CLASH);
        SAME(heard(receiver, 20, dlc, 7), KOSMYDORE_PAYLOAD_LENGTH);
        SAME(heard(receiver, 20, dlc, 9), KOSMYDORE_PAYLOAD_LENGTH);
        SAME(heard(receiver, 21, dlc, KOSMYDORE_MAX_PAYLOAD), KOSMYDORE_UNWANTED_PAYLOAD);
        SAME(heard(receiver, 22, dlc, KOSMYDORE_MAX_PAYLOAD), KOSMYDORE_UNWANTED_PAYLOAD);
    }
    SAME(heard(receiver, 20, KOSMYDORE_MAX_DLC, KOSMYDORE_MAX_DLC), KOSMYDORE_PAYLOAD_LENGTH);
    SAME(heard(receiver, 20, KOSMYDORE_MAX_DLC + 1, KOSMYDORE_MAX_PAYLOAD), KOSMYDORE_DLC_TOO_BIG);
    SAME(heard(receiver, 20, KOSMYDORE_MAX_DLC + 1, KOSMYDORE_MAX_DLC + 1), KOSMYDORE_DLC_TOO_BIG);
    SAME(heard(receiver, 20, 255, KOSMYDORE_MAX_PAYLOAD), KOSMYDORE_DLC_TOO_BIG);
    SAME(heard(receiver, 20, 256, 0), KOSMYDORE_DLC_TOO_BIG);
    SAME(heard(receiver, 20, 264, KOSMYDORE_MAX_PAYLOAD), KOSMYDORE_DLC_TOO_BIG);
    SAME(heard(receiver, 20, 271, KOSMYDORE_MAX_PAYLOAD), KOSMYDORE_DLC_TOO_BIG);
    SAME(heard(receiver, 20, 65544, KOSMYDORE_MAX_PAYLOAD), KOSMYDORE_DLC_TOO_BIG);
    SAME(heard(receiver, 21, 256, 0), KOSMYDORE_DLC_TOO_BIG);
    SAME(heard(receiver, 20, TOP, KOSMYDORE_MAX_PAYLOAD), KOSMYDORE_DLC_TOO_BIG);
    SAME(heard(receiver, 20, 7, KOSMYDORE_MAX_PAYLOAD), KOSMYDORE_PAYLOAD_LENGTH);
    SAME(heard(receiver, KOSMYDORE_MAX_BUS_ID + 2, 256, 1), KOSMYDORE_IDENTIFIER_TOO_BIG);
    SAME(heard(receiver, TOP, 0, 0), KOSMYDORE_IDENTIFIER_TOO_BIG);
    SAME(heard(receiver, KOSMYDORE_MAX_BUS_ID, 0, 0), KOSMYDORE_NOT_MINE);
    SAME(heard(receiver, 21, KOSMYDORE_MAX_DLC + 1, 1), KOSMYDORE_DLC_TOO_BIG);
    SAME(heard(receiver, 21, 1, 0), KOSMYDORE_PAYLOAD_LENGTH);
    SAME(heard(receiver, 21, 0, 1), KOSMYDORE_PAYLOAD_LENGTH);
    SAME(heard(receiver, 25, 1, 1), KOSMYDORE_UNWANTED_PAYLOAD);
    SAME(heard(receiver, 20, 7, 7), KOSMYDORE_DONE);
}

/* A lent node and a lent tally with bytes and counts on either side that no call may touch, and how many of the node are lent. */
#define EDGE 8
#define MARK 0xa5

struct lent {
    uint8_t bytes[EDGE + KOSMYDORE_NODE_BYTES + EDGE];
    uint32_t counts[EDGE + KOSMYDORE_TALLY_SIZE + EDGE];
    uint8_t output[EDGE + KOSMYDORE_TICK_OUTPUT + EDGE];
    size_t length;
    size_t tally_length;
};

static struct lent lent;
static struct lent was;

#define NODE lent.bytes + EDGE, lent.length
#define OUTPUT(room) lent.output + EDGE, (room)
#define TALLY lent.counts + EDGE, lent.tally_length

static void lend(void)
{
    size_t i;

    memset(&lent, MARK, sizeof lent);
    lent.length = KOSMYDORE_NODE_BYTES;
    lent.tally_length = KOSMYDORE_TALLY_SIZE;
    for (i = 0; i < KOSMYDORE_TALLY_SIZE; i++)
        lent.counts[EDGE + i] = 0;
}

/* How many bytes differ from those that stood there before. */
static uint32_t changed(const void *now, const void *then, size_t length)
{
    const uint8_t *a = (const uint8_t *)now;
    const uint8_t *b = (const uint8_t *)then;
    uint32_t n = 0;
    size_t i;

    for (i = 0; i < length; i++)
        n += a[i] != b[i];
    return n;
}

/* A reply, that it was counted once and nothing else was, and that nothing past the edges was written. */
static void counted(int line, const char *call, uint32_t reply, uint32_t expected, size_t room)
{
    const uint32_t numbers[] = KOSMYDORE_TALLY_NUMBERS;
    const int tally = lent.tally_length == KOSMYDORE_TALLY_SIZE;
    size_t i;

    same(line, call, reply, expected);
    for (i = 0; i < KOSMYDORE_TALLY_SIZE; i++)
        same(line, "a count", lent.counts[EDGE + i] - was.counts[EDGE + i], tally && numbers[i] == reply && was.counts[EDGE + i] != TOP);
    same(line, "counts before", changed(lent.counts, was.counts, EDGE * sizeof lent.counts[0]), 0);
    same(line, "counts behind", changed(lent.counts + EDGE + KOSMYDORE_TALLY_SIZE, was.counts + EDGE + KOSMYDORE_TALLY_SIZE,
                                        EDGE * sizeof lent.counts[0]), 0);
    same(line, "bytes before", changed(lent.bytes, was.bytes, EDGE), 0);
    same(line, "bytes behind", changed(lent.bytes + EDGE + KOSMYDORE_NODE_BYTES, was.bytes + EDGE + KOSMYDORE_NODE_BYTES, EDGE), 0);
    same(line, "output before", changed(lent.output, was.output, EDGE), 0);
    same(line, "output behind", changed(lent.output + EDGE + room, was.output + EDGE + room, sizeof lent.output - EDGE - room), 0);
    if (reply != KOSMYDORE_DONE) {
        same(line, "bytes after a refusal", changed(lent.bytes, was.bytes, sizeof lent.bytes), 0);
        same(line, "output after a refusal", changed(lent.output, was.output, sizeof lent.output), 0);
    }
}

#define COUNTED(call, expected, room) (was = lent, counted(__LINE__, #call, (call), (expected), (room)))

/* The same of a frame, with what it is told to have done, and of a tick, with how much it is told to have dropped and delivered. */
static void hears(int line, struct kosmydore_module_heard heard, uint32_t reply, uint32_t told, size_t written)
{
    counted(line, "hear", heard.reply, reply, written);
    same(line, "what the frame did", heard.told, told);
    same(line, "what hear wrote", (uint32_t)heard.written, (uint32_t)written);
}

static void ticks(int line, struct kosmydore_module_ticked ticked, uint32_t reply, uint32_t dropped, uint32_t delivered, size_t written)
{
    counted(line, "tick", ticked.reply, reply, written);
    same(line, "what the tick dropped", ticked.dropped, dropped);
    same(line, "what the tick delivered", ticked.delivered, delivered);
    same(line, "what the tick wrote", (uint32_t)ticked.written, (uint32_t)written);
}

#define HEARS(id, dlc, length, room, reply, told) \
    (was = lent, hears(__LINE__, kosmydore_module_hear(NODE, id, dlc, payload, length, OUTPUT(room), TALLY), reply, told, 0))
#define HEAR_REFUSED(id, dlc, length, room, reply) HEARS(id, dlc, length, room, reply, KOSMYDORE_TOLD_NOTHING)
#define TICKS(room, reply, dropped, delivered, written) \
    (was = lent, ticks(__LINE__, kosmydore_module_tick(NODE, OUTPUT(room), TALLY), reply, dropped, delivered, written))

static struct kosmydore_settings two_message_of(uint32_t role)
{
    struct kosmydore_settings settings;

    settings.role = role;
    settings.class_ = KOSMYDORE_TWO_MESSAGE;
    settings.data_reach = 2;
    settings.confirm_delay = 3;
    settings.abort_reach = 2;
    settings.deliver_delay = 6;
    return settings;
}

static void lent_node(void)
{
    const uint8_t payload[16] = {1, 2, 3, 4, 5, 6, 7, 8, 9};
    const size_t other_lengths[] = {0, 1, KOSMYDORE_NODE_BYTES - 1, KOSMYDORE_NODE_BYTES + 1, KOSMYDORE_NODE_SIZE};
    struct kosmydore_settings settings = two_message_of(KOSMYDORE_RECEIVE);
    struct kosmydore_given_out given;
    uint32_t stream;
    size_t i;

    lend();
    SAME(kosmydore_module_fresh(NODE), KOSMYDORE_DONE);
    for (i = 0; i < sizeof other_lengths / sizeof other_lengths[0]; i++) {
        lent.length = other_lengths[i];
        was = lent;
        SAME(kosmydore_module_fresh(NODE), KOSMYDORE_BAD_LENGTH);
        SAME(changed(&lent, &was, sizeof lent), 0);
        COUNTED(kosmydore_module_set_up(NODE, 5, settings, TALLY), KOSMYDORE_BAD_LENGTH, 0);
        HEAR_REFUSED(20, 0, 0, KOSMYDORE_HEAR_OUTPUT, KOSMYDORE_BAD_LENGTH);
        TICKS(KOSMYDORE_TICK_OUTPUT, KOSMYDORE_BAD_LENGTH, 0, 0, 0);
        COUNTED(kosmydore_module_request(NODE, 5, payload, 0, TALLY), KOSMYDORE_BAD_LENGTH, 0);
        COUNTED(kosmydore_module_next_frame(NODE, OUTPUT(KOSMYDORE_NEXT_FRAME_OUTPUT), TALLY).reply, KOSMYDORE_BAD_LENGTH, 0);
    }
    lent.length = KOSMYDORE_NODE_BYTES;

    /* numbers that are judged, and not cut */
    settings.role = 256;
    COUNTED(kosmydore_module_set_up(NODE, 5, settings, TALLY), KOSMYDORE_BAD_SETTINGS, 0);
    settings = two_message_of(KOSMYDORE_RECEIVE);
    settings.data_reach = 65538;
    COUNTED(kosmydore_module_set_up(NODE, 5, settings, TALLY), KOSMYDORE_BAD_SETTINGS, 0);
    settings = two_message_of(KOSMYDORE_RECEIVE);
    COUNTED(kosmydore_module_set_up(NODE, KOSMYDORE_MAX_STREAM + 1, settings, TALLY), KOSMYDORE_BAD_SETTINGS, 0);
    COUNTED(kosmydore_module_set_up(NODE, 5, settings, TALLY), KOSMYDORE_DONE, 0);
    COUNTED(kosmydore_module_set_up(NODE, 5, settings, TALLY), KOSMYDORE_TAKEN, 0);
    HEAR_REFUSED(20, 271, 8, KOSMYDORE_HEAR_OUTPUT, KOSMYDORE_DLC_TOO_BIG);
    HEAR_REFUSED(20, 264, 8, KOSMYDORE_HEAR_OUTPUT, KOSMYDORE_DLC_TOO_BIG);
    HEAR_REFUSED(20, TOP, 8, KOSMYDORE_HEAR_OUTPUT, KOSMYDORE_DLC_TOO_BIG);
    HEAR_REFUSED(TOP, TOP, 8, KOSMYDORE_HEAR_OUTPUT, KOSMYDORE_IDENTIFIER_TOO_BIG);
    HEAR_REFUSED(21, 9, 7, KOSMYDORE_HEAR_OUTPUT, KOSMYDORE_PAYLOAD_LENGTH);
    HEAR_REFUSED(21, 9, 8, KOSMYDORE_HEAR_OUTPUT, KOSMYDORE_UNWANTED_PAYLOAD);

    /* rooms, and a message from its data to its record */
    HEAR_REFUSED(20, 8, 8, KOSMYDORE_HEAR_OUTPUT - 1, KOSMYDORE_SHORT_OUTPUT);
    HEARS(20, 15, 8, KOSMYDORE_HEAR_OUTPUT, KOSMYDORE_DONE, KOSMYDORE_TOLD_NEW);
    HEAR_REFUSED(20, 7, 7, KOSMYDORE_HEAR_OUTPUT, KOSMYDORE_CLASH);
    HEARS(21, 0, 0, KOSMYDORE_HEAR_OUTPUT, KOSMYDORE_DONE, KOSMYDORE_TOLD_CONFIRMED);
    TICKS(KOSMYDORE_TICK_OUTPUT - 1, KOSMYDORE_SHORT_OUTPUT, 0, 0, 0);
    for (i = 0; i < 6; i++)
        TICKS(KOSMYDORE_TICK_OUTPUT, KOSMYDORE_DONE, 0, 0, 0);
    TICKS(KOSMYDORE_TICK_OUTPUT, KOSMYDORE_DONE, 0, 1, 16);
    SAME(lent.output[EDGE], 14);
    SAME(changed(lent.output + EDGE + 8, payload, 8), 0);

    /* requests and frames */
    settings.role = KOSMYDORE_SEND;
    COUNTED(kosmydore_module_set_up(NODE, 6, settings, TALLY), KOSMYDORE_DONE, 0);
    COUNTED(kosmydore_module_next_frame(NODE, OUTPUT(KOSMYDORE_NEXT_FRAME_OUTPUT), TALLY).reply, KOSMYDORE_NOTHING, 0);
    COUNTED(kosmydore_module_request(NODE, 5, payload, 8, TALLY), KOSMYDORE_NOT_SENDER, 0);
    COUNTED(kosmydore_module_request(NODE, 6, payload, 9, TALLY), KOSMYDORE_BAD_LENGTH, 0);
    COUNTED(kosmydore_module_request(NODE, 6, payload, 8, TALLY), KOSMYDORE_DONE, 0);
    COUNTED(kosmydore_module_request(NODE, 6, payload, 8, TALLY), KOSMYDORE_BUSY, 0);
    COUNTED(kosmydore_module_next_frame(NODE, OUTPUT(KOSMYDORE_NEXT_FRAME_OUTPUT - 1), TALLY).reply, KOSMYDORE_SHORT_OUTPUT, 0);
    was = lent;
    given = kosmydore_module_next_frame(NODE, OUTPUT(KOSMYDORE_NEXT_FRAME_OUTPUT), TALLY);
    counted(__LINE__, "next_frame", given.reply, KOSMYDORE_DONE, 8);
    SAME(given.id, 24);
    SAME(given.length, 8);
    SAME(changed(lent.output + EDGE, payload, 8), 0);
    was = lent;
    given = kosmydore_module_next_frame(NODE, OUTPUT(KOSMYDORE_NEXT_FRAME_OUTPUT), TALLY);
    counted(__LINE__, "next_frame", given.reply, KOSMYDORE_DONE, 0);
    SAME(given.id, 25);
    SAME(given.length, 0);

    /* a full table, a tally of another length, and counts at the most */
    for (stream = 7; stream < 7 + KOSMYDORE_SLOTS - 2; stream++)
        COUNTED(kosmydore_module_set_up(NODE, stream, settings, TALLY), KOSMYDORE_DONE, 0);
    COUNTED(kosmydore_module_set_up(NODE, stream, settings, TALLY), KOSMYDORE_TABLE_FULL, 0);
    lent.tally_length = KOSMYDORE_TALLY_SIZE - 1;
    COUNTED(kosmydore_module_set_up(NODE, stream, settings, TALLY), KOSMYDORE_TABLE_FULL, 0);
    lent.tally_length = KOSMYDORE_TALLY_SIZE + 1;
    TICKS(KOSMYDORE_TICK_OUTPUT, KOSMYDORE_DONE, 0, 0, 0);
    lent.tally_length = 0;
    COUNTED(kosmydore_module_next_frame(NODE, OUTPUT(KOSMYDORE_NEXT_FRAME_OUTPUT), TALLY).reply, KOSMYDORE_NOTHING, 0);
    lent.tally_length = KOSMYDORE_TALLY_SIZE;
    for (i = 0; i < KOSMYDORE_TALLY_SIZE; i++)
        lent.counts[EDGE + i] = TOP - 1;
    for (i = 0; i < 3; i++)
        TICKS(KOSMYDORE_TICK_OUTPUT, KOSMYDORE_DONE, 0, 0, 0);
    SAME(lent.counts[EDGE], TOP);
}

/* ---- what a frame did, and what a tick dropped and delivered, in both forms side by side ---- */
static const uint8_t told_payload[KOSMYDORE_MAX_PAYLOAD] = {1, 2, 3, 4, 5, 6, 7, 8};
static struct kosmydore_node by_value;

static void begin(void)
{
    lend();
    SAME(kosmydore_module_fresh(NODE), KOSMYDORE_DONE);
    by_value = kosmydore_fresh();
}

static void has(uint32_t stream, struct kosmydore_settings settings)
{
    const struct kosmydore_answered set = kosmydore_set_up(by_value, stream, settings);

    SAME(set.reply, KOSMYDORE_DONE);
    by_value = set.node;
    COUNTED(kosmydore_module_set_up(NODE, stream, settings, TALLY), KOSMYDORE_DONE, 0);
}

static struct kosmydore_settings settings_of(uint32_t role, uint32_t class_, uint32_t data_reach, uint32_t deliver_delay)
{
    struct kosmydore_settings settings;

    settings.role = role;
    settings.class_ = class_;
    settings.data_reach = data_reach;
    settings.confirm_delay = 0;
    settings.abort_reach = 0;
    settings.deliver_delay = deliver_delay;
    return settings;
}

/* A frame with as many bytes as its DLC says; only what is delivered at once is written. */
static void told(int line, uint32_t id, uint32_t dlc, size_t room, uint32_t reply, uint32_t expected)
{
    const size_t written = expected == KOSMYDORE_TOLD_DELIVERED ? 8 + (size_t)dlc : 0;
    uint8_t output[KOSMYDORE_TICK_OUTPUT];
    const struct kosmydore_heard heard = kosmydore_hear(by_value, id, dlc, told_payload, dlc, output, room);

    by_value = heard.node;
    same(line, "the reply by value", heard.reply, reply);
    same(line, "what the frame did by value", heard.told, expected);
    same(line, "what hear wrote by value", (uint32_t)heard.written, (uint32_t)written);
    was = lent;
    hears(line, kosmydore_module_hear(NODE, id, dlc, told_payload, dlc, OUTPUT(room), TALLY), reply, expected, written);
}

#define TOLD(id, dlc, expected) told(__LINE__, id, dlc, KOSMYDORE_HEAR_OUTPUT, KOSMYDORE_DONE, KOSMYDORE_TOLD_##expected)
#define TOLD_NOTHING(id, dlc, room, reply) told(__LINE__, id, dlc, room, reply, KOSMYDORE_TOLD_NOTHING)

/* A tick; each message that it delivers has eight bytes. */
static void counts(int line, size_t room, uint32_t reply, uint32_t dropped, uint32_t delivered)
{
    uint8_t output[KOSMYDORE_TICK_OUTPUT];
    const struct kosmydore_ticked ticked = kosmydore_tick(by_value, output, room);

    by_value = ticked.node;
    same(line, "the reply by value", ticked.reply, reply);
    same(line, "what the tick dropped by value", ticked.dropped, dropped);
    same(line, "what the tick delivered by value", ticked.delivered, delivered);
    same(line, "what the tick wrote by value", (uint32_t)ticked.written, 16 * delivered);
    was = lent;
    ticks(line, kosmydore_module_tick(NODE, OUTPUT(room), TALLY), reply, dropped, delivered, 16 * delivered);
}

#define COUNTS(dropped, delivered) counts(__LINE__, KOSMYDORE_TICK_OUTPUT, KOSMYDORE_DONE, dropped, delivered)

static void requested(int line, uint32_t stream, uint32_t reply)
{
    const struct kosmydore_answered asked = kosmydore_request(by_value, stream, told_payload, sizeof told_payload);

    by_value = asked.node;
    same(line, "the reply by value", asked.reply, reply);
    same(line, "the reply", kosmydore_module_request(NODE, stream, told_payload, sizeof told_payload, TALLY), reply);
}

static void gives(int line, uint32_t id)
{
    uint8_t output[KOSMYDORE_NEXT_FRAME_OUTPUT];
    const struct kosmydore_given given = kosmydore_next_frame(by_value, output, sizeof output);

    by_value = given.node;
    same(line, "the frame by value", given.id, id);
    same(line, "the frame", kosmydore_module_next_frame(NODE, OUTPUT(KOSMYDORE_NEXT_FRAME_OUTPUT), TALLY).id, id);
}

/* Streams 5 and 6 are received as two-message, 7 as IMD and 8 as plain; 9 is sent. */
static void what_is_told(void)
{
    begin();
    has(5, two_message_of(KOSMYDORE_RECEIVE));
    has(6, two_message_of(KOSMYDORE_RECEIVE));
    has(7, settings_of(KOSMYDORE_RECEIVE, KOSMYDORE_IMD, 2, 3));
    has(8, settings_of(KOSMYDORE_RECEIVE, KOSMYDORE_PLAIN, 0, 0));
    has(9, two_message_of(KOSMYDORE_SEND));
    requested(__LINE__, 9, KOSMYDORE_DONE);
    gives(__LINE__, 36);
    gives(__LINE__, 37);

    TOLD(20, 8, NEW);
    TOLD(20, 8, DUPLICATE);
    TOLD_NOTHING(20, 7, KOSMYDORE_HEAR_OUTPUT, KOSMYDORE_CLASH);
    TOLD_NOTHING(20, 8, KOSMYDORE_HEAR_OUTPUT - 1, KOSMYDORE_SHORT_OUTPUT);
    TOLD(21, 0, CONFIRMED);
    TOLD(21, 0, CONFIRMED_AGAIN);
    TOLD(20, 8, DUPLICATE);
    TOLD_NOTHING(21, 1, KOSMYDORE_HEAR_OUTPUT, KOSMYDORE_UNWANTED_PAYLOAD);
    TOLD(22, 0, DROPPED);
    TOLD(22, 0, NOTHING_TO_DROP);
    TOLD(21, 0, ABORT_PENDING);
    TOLD(21, 0, ABORT_PENDING);
    gives(__LINE__, 22);
    TOLD(24, 8, NEW);
    TOLD(26, 0, DROPPED);
    TOLD(28, 8, NEW);
    TOLD(28, 8, DUPLICATE);
    TOLD_NOTHING(29, 0, KOSMYDORE_HEAR_OUTPUT, KOSMYDORE_MISFIT);
    TOLD(35, 8, DELIVERED);
    TOLD(35, 0, DELIVERED);
    TOLD_NOTHING(35, 8, KOSMYDORE_HEAR_OUTPUT - 1, KOSMYDORE_SHORT_OUTPUT);
    TOLD_NOTHING(38, 0, KOSMYDORE_HEAR_OUTPUT, KOSMYDORE_NOT_MINE);
    TOLD_NOTHING(KOSMYDORE_MAX_BUS_ID + 1, 0, KOSMYDORE_HEAR_OUTPUT, KOSMYDORE_IDENTIFIER_TOO_BIG);

    /* 5 is not confirmed and 7 is due at the fourth tick, 6 at the seventh; the hold of 9 ends at the ninth */
    TOLD(20, 8, NEW);
    TOLD(24, 8, NEW);
    TOLD(25, 0, CONFIRMED);
    COUNTS(0, 0);
    COUNTS(0, 0);
    COUNTS(0, 0);
    counts(__LINE__, KOSMYDORE_TICK_OUTPUT - 1, KOSMYDORE_SHORT_OUTPUT, 0, 0);
    COUNTS(1, 1);
    TOLD(22, 0, NOTHING_TO_DROP);
    TOLD(21, 0, ABORT_PENDING);
    COUNTS(0, 0);
    COUNTS(0, 0);
    COUNTS(0, 1);
    COUNTS(0, 0);
    requested(__LINE__, 9, KOSMYDORE_BUSY);
    COUNTS(0, 0);
    requested(__LINE__, 9, KOSMYDORE_DONE);
}

/* A tick at which every slot is due: so many messages are dropped, and all others delivered. */
static void all_due(uint32_t dropped)
{
    uint32_t stream;

    begin();
    for (stream = 0; stream < KOSMYDORE_SLOTS; stream++) {
        has(stream, stream < dropped ? two_message_of(KOSMYDORE_RECEIVE) : settings_of(KOSMYDORE_RECEIVE, KOSMYDORE_IMD, 2, 3));
        TOLD(4 * stream, 8, NEW);
    }
    COUNTS(0, 0);
    COUNTS(0, 0);
    COUNTS(0, 0);
    COUNTS(dropped, KOSMYDORE_SLOTS - dropped);
    COUNTS(0, 0);
}

/* kosmydore_count, at every number and at other lengths. */
static void count(void)
{
    const uint32_t numbers[] = KOSMYDORE_TALLY_NUMBERS;
    size_t i;

    lend();
    for (i = 0; i < KOSMYDORE_TALLY_SIZE; i++) {
        was = lent;
        SAME(kosmydore_count(TALLY, numbers[i]), true);
        counted(__LINE__, "count", numbers[i], numbers[i], 0);
    }
    was = lent;
    for (i = KOSMYDORE_NOTHING + 1; i < KOSMYDORE_IDENTIFIER_TOO_BIG; i++)
        SAME(kosmydore_count(TALLY, (uint32_t)i), false);
    SAME(kosmydore_count(TALLY, KOSMYDORE_UNWANTED_PAYLOAD + 1), false);
    SAME(kosmydore_count(TALLY, 256), false);
    SAME(kosmydore_count(TALLY, TOP), false);
    SAME(kosmydore_count(lent.counts + EDGE, KOSMYDORE_TALLY_SIZE - 1, 0), false);
    SAME(kosmydore_count(lent.counts + EDGE, KOSMYDORE_TALLY_SIZE + 1, 0), false);
    SAME(kosmydore_count(lent.counts + EDGE, 0, 0), false);
    SAME(changed(&lent, &was, sizeof lent), 0);
    lent.counts[EDGE] = TOP;
    was = lent;
    SAME(kosmydore_count(TALLY, KOSMYDORE_DONE), true);
    SAME(changed(&lent, &was, sizeof lent), 0);
}

int main(void)
{
    identifiers();
    stream_role_and_class();
    plain();
    imd();
    two_message();
    record_length();
    node();
    set_up_numbers();
    dlcs();
    lent_node();
    what_is_told();
    all_due(0);
    all_due(1);
    all_due(KOSMYDORE_SLOTS - 1);
    all_due(KOSMYDORE_SLOTS);
    count();
    printf("%d passed, %d failed\n", passed, failed);
    return failed == 0 ? 0 : 1;
}
