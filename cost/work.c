/* The workloads of crates/cost over the node in C: from each line `WORKLOAD ROUNDS CALLS` of standard input one
 * checksum. A round takes the generator's next number, makes of it what is asked, and asks it of the node; only the
 * first CALLS of the rounds call the node. The line `size 0 0` is answered by the node's size in bytes. */
#include <stdio.h>
#include <string.h>

#include "forms.h"

enum call { CALL_HEAR, CALL_TICK, CALL_REQUEST, CALL_NEXT_FRAME, CALL_SET_UP, ANY_CALL };
enum streams { MIXED, RECEIVED, SENT, TWO_RECEIVED, TWO_SENT, HIGHEST_LAST };

struct asked {
    uint32_t number;
    uint8_t dlc;
    size_t len;
    uint8_t first;
    size_t room;
    Settings settings;
};

static uint32_t next(uint32_t random)
{
    return random * 1664525 + 1013904223;
}

static uint32_t mixed(uint32_t sum, uint32_t x)
{
    return sum * 31 + x;
}

static uint32_t stream_of(uint32_t k)
{
    return (k % 64 * 13 + 7) % 64 * 4099 + 5;
}

/* Of the streams 57 to 88 the last has the highest number of all. */
enum { BELOW_HIGHEST = 57, HIGHEST = 88 };

static Settings settings_of(uint8_t role, uint32_t class_)
{
    switch (class_) {
    case PLAIN:
        return SETTINGS(role, PLAIN, 0, 0, 0, 0);
    case IMD:
        return SETTINGS(role, IMD, 50, 0, 0, 100);
    default:
        return SETTINGS(role, TWO_MESSAGE, 50, 80, 10, 100);
    }
}

static uint8_t role_of(uint32_t k)
{
    return k % 8 == 7 ? SEND : RECEIVE;
}

static uint32_t code_of(uint32_t class_, bool any, uint32_t w)
{
    if (any) {
        return w % 4;
    }
    if (class_ == PLAIN) {
        return CODE_PLAIN;
    }
    if (class_ == IMD || w < 4) {
        return CODE_DATA;
    }
    return w < 7 ? CODE_CONFIRMATION : CODE_ABORT;
}

static uint8_t length_of(uint32_t k, uint32_t code, bool shorter)
{
    uint8_t len = (uint8_t)(k % 9);

    if (code == CODE_CONFIRMATION || code == CODE_ABORT || len == 0) {
        return 0;
    }
    return shorter ? len - 1 : len;
}

static struct asked frame(uint32_t random)
{
    uint32_t h = random / 65536;
    uint32_t k = h % 32;
    uint32_t kind = h / 32 % 16;
    uint32_t other = h / 4096 % 8;
    uint32_t code = code_of(k % 3, kind == 3, h / 512 % 8);
    uint8_t len = length_of(k, code, other == 6);
    uint8_t dlc = (uint8_t)(len + (kind == 1));

    return (struct asked){
        .number = (stream_of(k) + (kind == 2)) * 4 + code,
        .dlc = dlc,
        .len = len,
        .first = (uint8_t)(other / 7),
        .room = kind == 0 ? 15 : 512,
    };
}

/* Data with eight bytes; half with another first byte. */
static struct asked data(uint32_t stream, uint32_t random)
{
    return (struct asked){.number = stream * 4, .dlc = 8, .len = 8, .first = random / 65536 % 2, .room = 512};
}

static struct asked message(uint32_t random)
{
    uint32_t h = random / 65536;
    uint32_t k = h % 32;
    uint32_t kind = h / 32 % 8;

    return (struct asked){
        .number = stream_of(k) + (kind == 0),
        .len = kind == 1 ? 9 : length_of(k, CODE_DATA, false),
        .first = (uint8_t)h,
    };
}

static struct asked stream(uint64_t i, uint32_t random)
{
    uint32_t kind = random / 65536 % 16;
    uint32_t k = kind == 1 ? 0 : (uint32_t)(i % 40);

    return (struct asked){.number = stream_of(k), .settings = settings_of(kind == 0 ? 2 : role_of(k), k % 3)};
}

static const uint8_t fixed[9] = {0, 1, 2, 3, 4, 5, 6, 7, 8};

static Settings settings_in(enum streams which, uint32_t k)
{
    switch (which) {
    case MIXED:
        return settings_of(role_of(k), k % 3);
    case RECEIVED:
        return settings_of(RECEIVE, 1 + k % 2);
    case SENT:
        return settings_of(SEND, k % 3);
    case TWO_RECEIVED:
        return settings_of(RECEIVE, TWO_MESSAGE);
    case TWO_SENT:
        return settings_of(SEND, TWO_MESSAGE);
    default:
        return settings_of(RECEIVE, IMD);
    }
}

static Node streams(enum streams which)
{
    uint32_t first = which == HIGHEST_LAST ? BELOW_HIGHEST : 0;
    Node node = fresh();

    for (uint32_t k = 0; k < 32; k++) {
        Answered a = set_up(LENT(node), stream_of(first + k), settings_in(which, k));

        BACK(node, a);
    }
    return node;
}

static Node ticked(Node node)
{
    uint8_t out[512];
    Ticked a = tick(LENT(node), out, sizeof out);

    BACK(node, a);
    return node;
}

/* The node once it heard data of stream k. */
static Node heard(Node node, uint32_t k)
{
    uint8_t out[16];
    Heard a = hear(LENT(node), stream_of(k) * 4, 8, fixed, 8, out, sizeof out);

    BACK(node, a);
    return node;
}

/* The node once it heard a confirmation of stream k. */
static Node confirmed(Node node, uint32_t k)
{
    uint8_t out[16];
    Heard a = hear(LENT(node), stream_of(k) * 4 + 1, 0, fixed, 0, out, sizeof out);

    BACK(node, a);
    return node;
}

/* The node once it was asked for a message of stream k. */
static Node requested(Node node, uint32_t k)
{
    Answered a = request(LENT(node), stream_of(k), fixed, 8);

    BACK(node, a);
    return node;
}

/* What is done to a stream: data is heard, data and a confirmation are, or a message is asked for. */
enum done { HEARD, CONFIRMED, REQUESTED };

static Node after(Node node, enum done done, uint32_t k)
{
    switch (done) {
    case HEARD:
        return heard(node, k);
    case CONFIRMED:
        return confirmed(heard(node, k), k);
    default:
        return requested(node, k);
    }
}

/* This is done to so many of every four streams, and so many ticks follow; where `apart` is true, one follows each. */
static Node held(enum streams which, enum done done, uint32_t of_four, bool apart, uint32_t ticks)
{
    Node node = streams(which);

    for (uint32_t k = 0; k < 32; k++) {
        if (k % 4 < of_four) {
            node = after(node, done, k);
        }
        if (apart) {
            node = ticked(node);
        }
    }
    for (uint32_t i = 0; i < ticks; i++) {
        node = ticked(node);
    }
    return node;
}

enum {
    HEAR,
    HEAR_LAST,
    HEAR_ABSENT,
    TICK_IDLE,
    TICK_ONE,
    TICK_MANY,
    TICK_DROPPED,
    REQUEST,
    NEXT_ONE,
    NEXT_MANY,
    NEXT_NONE,
    SET_UP,
    MIXED_CALLS,
    WORKS
};

/* The period is after how many rounds the workload starts from its first node again. */
static const struct work {
    const char *name;
    enum call call;
    uint64_t period;
} works[WORKS] = {
    [HEAR] = {"hear", CALL_HEAR, 256},
    [HEAR_LAST] = {"hear-last", CALL_HEAR, 2},
    [HEAR_ABSENT] = {"hear-absent", CALL_HEAR, 256},
    [TICK_IDLE] = {"tick-idle", CALL_TICK, 64},
    [TICK_ONE] = {"tick-one", CALL_TICK, 32},
    [TICK_MANY] = {"tick-many", CALL_TICK, 1},
    [TICK_DROPPED] = {"tick-dropped", CALL_TICK, 1},
    [REQUEST] = {"request", CALL_REQUEST, 32},
    [NEXT_ONE] = {"next-one", CALL_NEXT_FRAME, 1},
    [NEXT_MANY] = {"next-many", CALL_NEXT_FRAME, 1},
    [NEXT_NONE] = {"next-none", CALL_NEXT_FRAME, 256},
    [SET_UP] = {"set-up", CALL_SET_UP, 40},
    [MIXED_CALLS] = {"mixed", ANY_CALL, 65536},
};

static Node start_of(size_t work)
{
    switch (work) {
    case HEAR:
    case HEAR_ABSENT:
    case MIXED_CALLS:
        return streams(MIXED);
    case HEAR_LAST:
        return streams(HIGHEST_LAST);
    case TICK_IDLE:
        return held(RECEIVED, CONFIRMED, 2, false, 0);
    case TICK_ONE:
        return held(RECEIVED, CONFIRMED, 4, true, 68);
    case TICK_MANY:
        return held(RECEIVED, CONFIRMED, 4, false, 100);
    case TICK_DROPPED:
        return held(TWO_RECEIVED, HEARD, 4, false, 80);
    case NEXT_ONE:
        return requested(streams(SENT), 19);
    case NEXT_MANY:
        return held(TWO_SENT, REQUESTED, 4, false, 0);
    case SET_UP:
        return fresh();
    default:
        return streams(SENT);
    }
}

/* Eight ticks, four hears, two next frames, a request and a set up. */
static enum call any_call(uint32_t x)
{
    if (x < 8) {
        return CALL_TICK;
    }
    if (x < 12) {
        return CALL_HEAR;
    }
    if (x < 14) {
        return CALL_NEXT_FRAME;
    }
    return x == 14 ? CALL_REQUEST : CALL_SET_UP;
}

static struct asked frame_of(size_t work, uint32_t random)
{
    switch (work) {
    case HEAR_LAST:
        return data(stream_of(HIGHEST), random);
    case HEAR_ABSENT:
        return data(stream_of(random / 65536 % 32) + 1, random);
    default:
        return frame(random);
    }
}

static struct asked asked_of(size_t work, enum call call, uint64_t i, uint32_t random)
{
    switch (call) {
    case CALL_HEAR:
        return frame_of(work, random);
    case CALL_REQUEST:
        return message(random);
    case CALL_SET_UP:
        return stream(i, random);
    default:
        return (struct asked){.room = 512};
    }
}

/* The checksum with what the node does at a next frame and a tick. */
static uint32_t ended(Node node, uint32_t sum)
{
    uint8_t out[512] = {0};
    Given given = next_frame(LENT(node), out, sizeof out);
    Ticked delivered;

    BACK(node, given);
    delivered = tick(LENT(node), out, sizeof out);
    BACK(node, delivered);
    sum = mixed(sum, given.id);
    sum = mixed(sum, COUNTER_OF(node));
    for (size_t i = 0; i < sizeof out; i++) {
        sum = mixed(sum, out[i]);
    }
    return sum;
}

static uint32_t run(size_t work, uint64_t rounds, uint64_t calls)
{
    uint64_t period = works[work].period;
    Node start = start_of(work);
    Node node = start;
    uint32_t random = 1;
    uint32_t sum = 0;

    for (uint64_t i = 0; i < rounds; i++) {
        uint32_t reply = 0;
        uint32_t id = 0;
        size_t count = 0;
        uint32_t told = 0;
        uint32_t dropped = 0;
        uint32_t delivered = 0;
        enum call call = works[work].call;
        uint8_t out[512] = {0};
        uint8_t payload[9];
        struct asked asked;

        if (i % period == 0) {
            node = start;
        }
        random = next(random);
        if (call == ANY_CALL) {
            call = any_call(random / 4096 % 16);
        }
        asked = asked_of(work, call, i, random);
        memcpy(payload, fixed, sizeof payload);
        payload[0] = asked.first;
        if (i < calls) {
            switch (call) {
            case CALL_HEAR: {
                Heard a = hear(LENT(node), asked.number, asked.dlc, payload, asked.len, out, asked.room);

                BACK(node, a);
                reply = a.reply;
                count = a.written;
                told = a.told;
                break;
            }
            case CALL_TICK: {
                Ticked a = tick(LENT(node), out, asked.room);

                BACK(node, a);
                reply = a.reply;
                count = a.written;
                dropped = a.dropped;
                delivered = a.delivered;
                break;
            }
            case CALL_REQUEST: {
                Answered a = request(LENT(node), asked.number, payload, asked.len);

                BACK(node, a);
                reply = a.reply;
                break;
            }
            case CALL_NEXT_FRAME: {
                Given a = next_frame(LENT(node), out, asked.room);

                BACK(node, a);
                reply = a.reply;
                id = a.id;
                count = a.length;
                break;
            }
            case CALL_SET_UP: {
                Answered a = set_up(LENT(node), asked.number, asked.settings);

                BACK(node, a);
                reply = a.reply;
                break;
            }
            case ANY_CALL:
                break;
            }
        }
        sum = mixed(sum, reply);
        sum = mixed(sum, id);
        sum = mixed(sum, (uint32_t)count);
        sum = mixed(sum, told);
        sum = mixed(sum, dropped);
        sum = mixed(sum, delivered);
        sum = mixed(sum, out[random / 65536 % 16]);
        sum = mixed(sum, out[random / 65536 % 512]);
    }
    return ended(node, sum);
}

static void answer(const char *line)
{
    char name[16];
    unsigned long rounds;
    unsigned long calls;

    if (sscanf(line, "%15s %lu %lu", name, &rounds, &calls) == 3) {
        if (strcmp(name, "size") == 0) {
            printf("%lu\n", (unsigned long)sizeof(Node));
            return;
        }
        for (size_t work = 0; work < WORKS; work++) {
            if (strcmp(name, works[work].name) == 0) {
                printf("%lu\n", (unsigned long)run(work, rounds, calls));
                return;
            }
        }
    }
    puts("?");
}

int main(void)
{
    char line[80];

    while (fgets(line, sizeof line, stdin) != NULL) {
        answer(line);
    }
    return 0;
}
