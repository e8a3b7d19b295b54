/*
 * A store module: receives file numbers on stream 5, and says on stream 6 which one it has. The node and the tally are the module's, and stand in its memory
 * for good; each call changes them there. The controller and the timer are behind controller.h and timer.h.
 */
#include <string.h>

#include "controller.h"
#include "kosmydore.h"
#include "timer.h"

enum { FILES = 5, STATE = 6 };

static uint8_t node[KOSMYDORE_NODE_BYTES];
static uint32_t tally[KOSMYDORE_TALLY_SIZE];
static uint8_t file; /* the low byte of the file number */
static bool wanted;  /* it is still to be said */

/* The fresh node with every stream set up; whether all were taken. */
static bool start(void)
{
    const struct kosmydore_settings files = {.role = KOSMYDORE_RECEIVE, .class_ = KOSMYDORE_TWO_MESSAGE,
                                             .data_reach = 6, .confirm_delay = 6, .abort_reach = 7, .deliver_delay = 14};
    const struct kosmydore_settings states = {.role = KOSMYDORE_SEND, .class_ = KOSMYDORE_IMD,
                                              .data_reach = 8, .deliver_delay = 8};
    return kosmydore_module_fresh(node, sizeof node) == KOSMYDORE_DONE
        && kosmydore_module_set_up(node, sizeof node, FILES, files, tally, KOSMYDORE_TALLY_SIZE) == KOSMYDORE_DONE
        && kosmydore_module_set_up(node, sizeof node, STATE, states, tally, KOSMYDORE_TALLY_SIZE) == KOSMYDORE_DONE;
}

/* What was delivered, record by record: the module's own work begins here. */
static void deliver(const uint8_t *out, size_t written)
{
    for (size_t at = 0; at < written; at += 2 + (size_t)out[at]) {
        const uint32_t stream = out[at + 4] | (uint32_t)out[at + 5] << 8 | (uint32_t)out[at + 6] << 16 | (uint32_t)out[at + 7] << 24;
        const size_t length = (size_t)out[at] - 6;
        if (stream == FILES && length > 0) {
            file = out[at + 8 + length - 1];
            wanted = true;
        }
    }
}

/* All that was received is heard before the tick. */
static void hear_or_tick(void)
{
    uint8_t out[KOSMYDORE_TICK_OUTPUT];
    struct frame frame;
    size_t written = 0;
    if (controller_received(&frame)) {
        const size_t bytes = frame.dlc < KOSMYDORE_MAX_PAYLOAD ? frame.dlc : KOSMYDORE_MAX_PAYLOAD;
        written = kosmydore_module_hear(node, sizeof node, frame.id, frame.dlc, frame.bytes, bytes, out, sizeof out,
                                        tally, KOSMYDORE_TALLY_SIZE).written;
    } else if (timer_elapsed()) {
        written = kosmydore_module_tick(node, sizeof node, out, sizeof out, tally, KOSMYDORE_TALLY_SIZE).written;
    }
    deliver(out, written);
}

/* The node's next frame goes to the controller once it has nothing of this module left to send. */
static void give(void)
{
    uint8_t out[KOSMYDORE_NEXT_FRAME_OUTPUT];
    if (!controller_idle())
        return;
    const struct kosmydore_given_out given =
        kosmydore_module_next_frame(node, sizeof node, out, sizeof out, tally, KOSMYDORE_TALLY_SIZE);
    if (given.reply == KOSMYDORE_DONE) {
        struct frame frame = {.id = given.id, .dlc = (uint8_t)given.length};
        memcpy(frame.bytes, out, given.length);
        controller_send(&frame);
    }
}

int main(void)
{
    if (!start())
        return 1; /* half a table: the module stays off the bus */
    timer_start();
    for (;;) {
        hear_or_tick();
        if (wanted)
            wanted = kosmydore_module_request(node, sizeof node, STATE, &file, 1, tally, KOSMYDORE_TALLY_SIZE)
                == KOSMYDORE_BUSY;
        give();
    }
}
