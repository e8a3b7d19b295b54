/*
 * The main loop of a store module in C around one node: receives file numbers on stream 5 and sends its own state on
 * stream 6, with the same script of events and the same output as crates/main_loop. The node and the tally stand in
 * memory of the module's, and each call changes them there. Nothing here uses printf, which needs more stack than all
 * the rest.
 */
#include <stdio.h>

#include "kosmydore.h"

enum { FILES = 5, STATE = 6, TURNS = 60 };

static uint8_t node[KOSMYDORE_NODE_BYTES];
static uint32_t tally[KOSMYDORE_TALLY_SIZE];
static uint32_t dropped; /* file numbers that were held and are delivered by no module: a fault to report */
static bool wanted;
static uint8_t state;

/* ---- the board: what each turn finds, and what it is told ---- */

struct seen {
    bool received, elapsed, ready, wanted;
    uint32_t id;
    uint8_t dlc, bytes[8], state;
};

static struct seen frame(uint32_t id, uint8_t dlc, uint8_t number)
{
    return (struct seen){.received = true, .ready = true, .id = id, .dlc = dlc, .bytes = {0, number}};
}

static struct seen look(int turn)
{
    switch (turn) {
    case 2: case 4: return frame(20, 2, 7);
    case 5: return frame(21, 0, 0);
    case 8: return frame(39, 1, 3);
    case 24: return (struct seen){.elapsed = true, .ready = true, .wanted = true, .state = 1};
    case 26: return (struct seen){.elapsed = true, .ready = true, .wanted = true, .state = 2};
    case 45: return frame(20, 2, 8);
    default: return (struct seen){.elapsed = true, .ready = true};
    }
}

static void print_number(uint32_t number)
{
    char digits[10];
    size_t count = 0;
    do {
        digits[count++] = (char)('0' + number % 10);
        number /= 10;
    } while (number > 0);
    while (count > 0)
        putchar(digits[--count]);
}

static void print_bytes(const uint8_t *bytes, size_t length)
{
    for (size_t i = 0; i < length; i++) {
        putchar("0123456789abcdef"[bytes[i] / 16]);
        putchar("0123456789abcdef"[bytes[i] % 16]);
    }
}

static void deliver(const uint8_t *out, size_t written)
{
    for (size_t at = 0; at < written; at += 2 + (size_t)out[at]) {
        fputs("delivered ", stdout);
        print_bytes(out + at, 2 + (size_t)out[at]);
        putchar('\n');
    }
}

static void sent(uint32_t id, const uint8_t *payload, size_t length)
{
    fputs("sent ", stdout);
    print_number(id);
    if (length > 0)
        putchar(' ');
    print_bytes(payload, length);
    putchar('\n');
}

static void counted(void)
{
    fputs("tally", stdout);
    for (int i = 0; i < KOSMYDORE_TALLY_SIZE; i++) {
        putchar(' ');
        print_number(tally[i]);
    }
    putchar('\n');
}

/* ---- the module ---- */

/* The fresh node with every stream set up; whether all were taken. */
static bool start(void)
{
    const struct kosmydore_settings files = {.role = KOSMYDORE_RECEIVE, .class_ = KOSMYDORE_TWO_MESSAGE,
                                             .data_reach = 6, .confirm_delay = 6, .abort_reach = 7, .deliver_delay = 14};
    const struct kosmydore_settings states = {.role = KOSMYDORE_SEND, .class_ = KOSMYDORE_IMD,
                                              .data_reach = 8, .deliver_delay = 8};
    return kosmydore_module_fresh(node, sizeof node) == KOSMYDORE_DONE
        && kosmydore_module_set_up(node, sizeof node, FILES, files, tally, KOSMYDORE_TALLY_SIZE) == KOSMYDORE_DONE
        && kosmydore_module_set_up(node, sizeof node, STATE, states, tally, KOSMYDORE_TALLY_SIZE) == KOSMYDORE_DONE;
}

/* One turn. The timer waits until all that was received is heard. */
static void once(struct seen seen)
{
    uint8_t out[KOSMYDORE_TICK_OUTPUT];
    if (seen.received) {
        const size_t bytes = seen.dlc < KOSMYDORE_MAX_PAYLOAD ? seen.dlc : KOSMYDORE_MAX_PAYLOAD;
        const struct kosmydore_module_heard heard =
            kosmydore_module_hear(node, sizeof node, seen.id, seen.dlc, seen.bytes, bytes, out, sizeof out,
                                  tally, KOSMYDORE_TALLY_SIZE);
        deliver(out, heard.written);
        dropped += heard.told == KOSMYDORE_TOLD_DROPPED;
    } else if (seen.elapsed) {
        const struct kosmydore_module_ticked ticked =
            kosmydore_module_tick(node, sizeof node, out, sizeof out, tally, KOSMYDORE_TALLY_SIZE);
        deliver(out, ticked.written);
        dropped += ticked.dropped;
    }
    if (seen.wanted) {
        state = seen.state;
        wanted = true;
    }
    if (wanted)
        wanted = kosmydore_module_request(node, sizeof node, STATE, &state, 1, tally, KOSMYDORE_TALLY_SIZE)
            == KOSMYDORE_BUSY;
    if (!seen.ready)
        return;
    const struct kosmydore_given_out given =
        kosmydore_module_next_frame(node, sizeof node, out, sizeof out, tally, KOSMYDORE_TALLY_SIZE);
    if (given.reply == KOSMYDORE_DONE)
        sent(given.id, out, given.length);
}

int main(void)
{
    if (!start())
        return 1;
    for (int turn = 0; turn < TURNS; turn++)
        once(look(turn));
    counted();
    return dropped == 1 ? 0 : 1; /* of the script, the file number that is never confirmed */
}
