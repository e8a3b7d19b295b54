/* What the tests of the lent node draw at random, and where each part of a node stands in its bytes. */
#ifndef ASKED_H
#define ASKED_H

#include <stdbool.h>
#include <stddef.h>
#include <stdint.h>

#include "kosmydore.h"

/* ---- where each part of a node stands ---- */
enum {
    STREAM = 0,
    USED = 4,
    HELD = 5,
    STAMP = 6,
    PAYLOAD_PENDING = 8,
    CONFIRMATION_PENDING = 9,
    ABORT_PENDING = 10,
    CONFIRMED = 11,
    LENGTH = 12,
    ROLE = 13,
    CLASS = 14,
    DATA_REACH = 16,
    CONFIRM_DELAY = 18,
    ABORT_REACH = 20,
    DELIVER_DELAY = 22,
    PAYLOAD = 24,
    SLOT_SIZE = 32,
    COUNTER = SLOT_SIZE * KOSMYDORE_SLOTS
};

static uint16_t two_at(const uint8_t *bytes)
{
    return (uint16_t)(bytes[0] + 256 * bytes[1]);
}

static inline uint32_t four_at(const uint8_t *bytes)
{
    return two_at(bytes) + UINT32_C(65536) * two_at(bytes + 2);
}

/* ---- random numbers ---- */
static uint64_t state;

static uint32_t draw(void)
{
    state ^= state << 13;
    state ^= state >> 7;
    state ^= state << 17;
    return (uint32_t)(state >> 16);
}

static uint32_t below(uint32_t n)
{
    return draw() % n;
}

static bool one_in(uint32_t n)
{
    return below(n) == 0;
}

static uint32_t between(uint32_t low, uint32_t high)
{
    return low + below(high - low + 1);
}

/* ---- what is asked ---- */
/* The streams that are asked of, and how many of them are, in this while. */
enum { POOL = 48 };
static uint32_t pool[POOL];
static uint32_t asked_of;

static uint32_t any_stream(void)
{
    static const uint32_t edges[] = {0, 1, KOSMYDORE_MAX_STREAM, KOSMYDORE_MAX_STREAM + 1, UINT32_MAX, 16777216, 65536, 256};

    if (one_in(16))
        return one_in(2) ? edges[below(sizeof edges / sizeof edges[0])] : draw();
    return pool[below(asked_of)];
}

static void draw_streams(void)
{
    for (size_t i = 0; i < POOL; i++)
        pool[i] = one_in(4) ? below(KOSMYDORE_MAX_STREAM + 1) : between(1, 200);
    asked_of = one_in(2) ? POOL : between(1, 8);
}

static uint32_t any_number(void)
{
    static const uint32_t edges[] = {0, 1, 2, 3999, 4000, 4001, 7999, 8000, 8001, 15999, 16000, 16001, 65535, 65536, 65537, 65538, UINT32_MAX};

    return one_in(4) ? draw() : edges[below(sizeof edges / sizeof edges[0])];
}

static struct kosmydore_settings any_settings(void)
{
    struct kosmydore_settings s = {below(2), below(3), 0, 0, 0, 0};
    bool longest = one_in(8);
    uint32_t *parts[6];

    if (s.class_ != KOSMYDORE_PLAIN)
        s.data_reach = longest ? between(7998, 8000) : between(1, 3);
    if (s.class_ == KOSMYDORE_IMD)
        s.deliver_delay = longest ? between(s.data_reach, 16000) : s.data_reach + below(4);
    if (s.class_ == KOSMYDORE_TWO_MESSAGE) {
        s.confirm_delay = longest ? between(s.data_reach, 8000) : s.data_reach + below(3);
        s.abort_reach = longest ? between(3998, 4000) : between(1, 2);
        s.deliver_delay = s.confirm_delay + s.abort_reach + 1;
        s.deliver_delay = longest ? between(s.deliver_delay, 16000) : s.deliver_delay + below(4);
    }
    parts[0] = &s.role;
    parts[1] = &s.class_;
    parts[2] = &s.data_reach;
    parts[3] = &s.confirm_delay;
    parts[4] = &s.abort_reach;
    parts[5] = &s.deliver_delay;
    switch (below(16)) {
    case 0:
        *parts[below(6)] = any_number();
        break;
    case 1:
        *parts[below(6)] += between(0, 2) - 1;
        break;
    case 2:
        *parts[below(2)] += 256 * between(1, 3);
        break;
    case 3:
        *parts[below(6)] += 65536 * between(1, 3);
        break;
    }
    return s;
}

/* The payload of a stream: its own bytes, now and then another byte. */
static void fill_payload(uint8_t *payload, size_t room, uint32_t stream)
{
    for (size_t i = 0; i < room; i++)
        payload[i] = (uint8_t)(stream + 7 * i);
    if (one_in(4))
        payload[below(8)] ^= (uint8_t)between(1, 255);
}

static size_t any_room(size_t needed)
{
    if (one_in(16))
        return one_in(2) ? needed - 1 : below((uint32_t)needed);
    return one_in(2) ? needed : between((uint32_t)needed, KOSMYDORE_TICK_OUTPUT);
}

/* A frame that is heard, or a message to send: a bus identifier or a stream, and a payload. */
struct asked {
    uint32_t number;
    uint32_t dlc;
    size_t length;
    uint8_t payload[24];
};

static struct asked any_frame(void)
{
    uint32_t stream = any_stream();
    uint32_t code = one_in(4) ? KOSMYDORE_CODE_DATA : below(4);
    bool empty = code == KOSMYDORE_CODE_CONFIRMATION || code == KOSMYDORE_CODE_ABORT;
    struct asked f;

    f.number = one_in(64) ? draw() : stream * 4 + code;
    f.dlc = one_in(16) ? below(16) : empty ? 0 : stream % 16;
    f.length = f.dlc < 8 ? f.dlc : 8;
    switch (below(32)) {
    case 0:
        f.dlc += 256 * between(1, 3);
        break;
    case 1:
        f.dlc = one_in(2) ? between(16, 300) : draw();
        break;
    case 2:
        f.length = below(sizeof f.payload + 1);
        break;
    }
    fill_payload(f.payload, sizeof f.payload, stream);
    return f;
}

static struct asked any_message(void)
{
    struct asked m = {any_stream(), 0, 0, {0}};

    m.length = one_in(16) ? below(sizeof m.payload + 1) : below(9);
    fill_payload(m.payload, sizeof m.payload, m.number);
    return m;
}

/* A slot of any bytes, with settings and a stamp that let something happen. */
static void wild_slot(uint8_t *bytes, size_t i, uint16_t counter)
{
    uint32_t stream = pool[below(asked_of)];
    uint16_t stamp = (uint16_t)(counter - below(8));

    for (size_t k = 0; k < 4; k++)
        bytes[STREAM + k] = (uint8_t)(stream >> 8 * k);
    bytes[STAMP] = (uint8_t)stamp;
    bytes[STAMP + 1] = (uint8_t)(stamp >> 8);
    bytes[LENGTH] = (uint8_t)below(12);
    bytes[ROLE] = (uint8_t)below(3);
    bytes[CLASS] = (uint8_t)below(4);
    for (size_t k = DATA_REACH; k < PAYLOAD; k += 2) {
        bytes[k] = (uint8_t)below(10);
        bytes[k + 1] = 0;
    }
    for (size_t k = USED; k < LENGTH; k++)
        if ((k < STAMP || k >= PAYLOAD_PENDING) && one_in(2))
            bytes[k] = (uint8_t)(i % 2);
}

#endif
