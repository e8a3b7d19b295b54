/*
 * What C firmware does around a node with include/kosmydore.h: it tests its table of streams, makes the
 * controller's acceptance list, and takes apart the records that a call wrote to a lent output.
 */
#include <inttypes.h>
#include <stddef.h>
#include <stdint.h>
#include <stdio.h>

#include "kosmydore.h"

enum role { RECEIVE = 0, SEND = 1 };
enum class_ { PLAIN = 0, IMD = 1, TWO_MESSAGE = 2 };
enum code { DATA = 0, CONFIRMATION = 1, ABORT = 2, PLAIN_FRAME = 3 };

struct stream {
    uint32_t stream, role, class_;
    uint32_t data_reach, confirm_delay, abort_reach, deliver_delay;
};

static const struct stream streams[] = {
    {5, RECEIVE, TWO_MESSAGE, 6, 6, 7, 14},
    {6, SEND, IMD, 8, 0, 0, 8},
    {8, RECEIVE, IMD, 8, 0, 0, 8},
    {9, RECEIVE, PLAIN, 0, 0, 0, 0},
};

#define STREAMS (sizeof streams / sizeof streams[0])

/* Whether the node will take every stream of the table. If not, the module stays off the bus. */
static int table_is_legal(void)
{
    for (size_t i = 0; i < STREAMS; i++) {
        const struct stream *s = &streams[i];
        if (kosmydore_settings_reply(s->stream, s->role, s->class_, s->data_reach, s->confirm_delay,
                                     s->abort_reach, s->deliver_delay) != KOSMYDORE_DONE)
            return 0;
    }
    return 1;
}

/* The identifiers of one stream's frames, by its class, into ids; how many there are. */
static size_t identifiers(const struct stream *s, uint32_t ids[3])
{
    switch (s->class_) {
    case PLAIN:
        ids[0] = kosmydore_join(s->stream, PLAIN_FRAME);
        return 1;
    case IMD:
        ids[0] = kosmydore_join(s->stream, DATA);
        return 1;
    default:
        ids[0] = kosmydore_join(s->stream, DATA);
        ids[1] = kosmydore_join(s->stream, CONFIRMATION);
        ids[2] = kosmydore_join(s->stream, ABORT);
        return 3;
    }
}

struct record {
    uint32_t stream;
    const uint8_t *payload;
    size_t payload_length;
};

/* Takes apart the record at the front of these bytes; answers how many it has, 0 if there is none. */
static size_t take_record(const uint8_t *at, size_t left, struct record *record)
{
    if (left < kosmydore_record_length(0))
        return 0;
    uint32_t follow = at[0] | (uint32_t)at[1] << 8;
    uint32_t kind = at[2] | (uint32_t)at[3] << 8;
    if (kind != 1 || follow < 6 || kosmydore_record_length_reply(follow - 6) != KOSMYDORE_DONE)
        return 0;
    size_t whole = kosmydore_record_length(follow - 6);
    if (left < whole)
        return 0;
    record->stream = at[4] | (uint32_t)at[5] << 8 | (uint32_t)at[6] << 16 | (uint32_t)at[7] << 24;
    record->payload = at + 8;
    record->payload_length = whole - 8;
    return whole;
}

static void print_bytes(const uint8_t *bytes, size_t length)
{
    for (size_t i = 0; i < length; i++)
        printf("%02x", bytes[i]);
    printf("\n");
}

int main(void)
{
    if (!table_is_legal()) {
        printf("the table of streams is refused\n");
        return 1;
    }
    for (size_t i = 0; i < STREAMS; i++) {
        uint32_t ids[3];
        size_t count = streams[i].role == RECEIVE ? identifiers(&streams[i], ids) : 0;
        for (size_t k = 0; k < count; k++)
            printf("accept %" PRIu32 "\n", ids[k]);
    }

    /* The first bytes of an output, as a tick that delivered on two streams left them. */
    static const uint8_t output[512] = {0x08, 0x00, 0x01, 0x00, 0x05, 0x00, 0x00, 0x00, 0x00, 0x07,
                                        0x07, 0x00, 0x01, 0x00, 0x08, 0x00, 0x00, 0x00, 0x2a};
    const size_t written = 19;
    printf("output ");
    print_bytes(output, written);
    struct record record;
    size_t length;
    for (size_t at = 0; (length = take_record(output + at, written - at, &record)) > 0; at += length) {
        printf("stream %" PRIu32 " ", record.stream);
        print_bytes(record.payload, record.payload_length);
    }
    return 0;
}
