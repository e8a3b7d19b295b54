/* How many bytes of stack each call takes at most, from its caller in C down, the answer included: from the stack painted before the call, with the
 * form of forms.h that it is built for. Prints a line `CALL BYTES` for each. A caller here holds the answer and puts the node back, and
 * nothing else; its return address is the first of the bytes. */
#include "painted.h"

#include <stdio.h>

#include "forms.h"

static Node node;
static uint8_t out[512];
static const uint8_t payload[8] = {1, 2, 3, 4, 5, 6, 7, 8};
static volatile uint32_t said;

static uint32_t number;
static size_t length;
static Settings settings;

/* ---- the callers ---- */
static void call_set_up(void)
{
    Answered a = set_up(LENT(node), number, settings);

    BACK(node, a);
    said = (uint32_t)a.reply;
}

static void call_hear(void)
{
    Heard a = hear(LENT(node), number, (uint8_t)length, payload, length, out, sizeof out);

    BACK(node, a);
    said = (uint32_t)a.reply + (uint32_t)a.written;
}

static void call_tick(void)
{
    Ticked a = tick(LENT(node), out, sizeof out);

    BACK(node, a);
    said = (uint32_t)a.reply + (uint32_t)a.written;
}

static void call_request(void)
{
    Answered a = request(LENT(node), number, payload, length);

    BACK(node, a);
    said = (uint32_t)a.reply;
}

static void call_next_frame(void)
{
    Given a = next_frame(LENT(node), out, sizeof out);

    BACK(node, a);
    said = (uint32_t)a.reply + a.id + (uint32_t)a.length;
}

/* By two colours, since a byte that is written may have the colour of one. */
static size_t deepest(void (*caller)(void))
{
    Node kept = node;
    size_t a = painted(caller, 0xa5);
    size_t b;

    node = kept;
    b = painted(caller, 0x5a);
    return a > b ? a : b;
}

/* ---- the calls whose stack is looked at ---- */
static size_t most;

static void look(void (*caller)(void))
{
    size_t whole = deepest(caller);

    if (whole > most) {
        most = whole;
    }
}

static void look_at(void (*caller)(void), uint32_t asked_number, size_t asked_length)
{
    number = asked_number;
    length = asked_length;
    look(caller);
}

static void say(const char *name)
{
    printf("%s %lu\n", name, (unsigned long)most);
    most = 0;
}

static const uint32_t classes = 3;

static Settings settings_of(uint32_t role, uint32_t class_)
{
    switch (class_) {
    case PLAIN:
        return SETTINGS((uint8_t)role, PLAIN, 0, 0, 0, 0);
    case IMD:
        return SETTINGS((uint8_t)role, IMD, 1, 0, 0, 3);
    default:
        return SETTINGS((uint8_t)role, TWO_MESSAGE, 1, 1, 1, 3);
    }
}

static void fill(uint32_t role, uint32_t class_, uint32_t count)
{
    node = fresh();
    settings = settings_of(role, class_);
    for (uint32_t i = 0; i < count; i++) {
        number = 10 + i;
        call_set_up();
    }
}

/* Each class, with all 32 slots used; the streams are 10 to 41. */
int main(void)
{
    for (uint32_t c = 0; c < classes; c++) {
        fill(RECEIVE, c, 31);
        look_at(call_set_up, 5, 0);
        look_at(call_set_up, 10, 0);
        fill(RECEIVE, c, 32);
        look_at(call_set_up, 5, 0);
        settings = settings_of(2, c);
        look_at(call_set_up, 5, 0);
    }
    say("set_up");
    for (uint32_t c = 0; c < classes; c++) {
        for (uint32_t code = 0; code < 4; code++) {
            fill(RECEIVE, c, 32);
            for (size_t n = 0; n <= 8; n += 4) {
                look_at(call_hear, 41 * 4 + code, n);
                look_at(call_hear, 10 * 4 + code, n);
                look_at(call_hear, 5 * 4 + code, n);
            }
        }
    }
    say("hear");
    for (uint32_t c = 0; c < classes; c++) {
        for (uint32_t confirmed = 0; confirmed < 2; confirmed++) {
            fill(RECEIVE, c, 32);
            look(call_tick);
            for (number = 10 * 4, length = 8; number < 42 * 4; number += 4) {
                call_hear();
            }
            for (number = 10 * 4 + 1, length = 0; confirmed && number < 42 * 4; number += 4) {
                call_hear();
            }
            for (int i = 0; i < 8; i++) {
                look(call_tick);
            }
        }
        fill(SEND, c, 32);
        for (number = 10, length = 8; number < 42; number++) {
            call_request();
        }
        for (int i = 0; i < 8; i++) {
            look(call_tick);
        }
    }
    say("tick");
    for (uint32_t c = 0; c < classes; c++) {
        fill(SEND, c, 32);
        for (size_t n = 0; n <= 8; n += 4) {
            look_at(call_request, 10 + (uint32_t)n, n);
            look_at(call_request, 5, n);
        }
    }
    say("request");
    for (uint32_t c = 0; c < classes; c++) {
        fill(SEND, c, 32);
        look(call_next_frame);
        for (number = 10, length = 8; number < 42; number++) {
            call_request();
        }
        for (int i = 0; i < 66; i++) {
            look(call_next_frame);
        }
    }
    say("next_frame");
    return 0;
}
