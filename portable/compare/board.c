/* Stands for the controller and the timer of examples/cortex-m4: has a script of what each turn of its loop finds, prints what is sent in which turn, and
 * ends the program. File number 7 comes twice and is confirmed; 8 is not confirmed; the last one has a DLC of 12, and so eight bytes. In turn 52 the
 * controller still sends. */
#include <stdio.h>
#include <stdlib.h>

#include "controller.h"
#include "timer.h"

static int turn;
static bool idle;

bool controller_received(struct frame *frame)
{
    idle = false;
    switch (++turn) {
    case 2: case 4: *frame = (struct frame){20, 2, {0, 7}}; return true;
    case 5: case 61: *frame = (struct frame){21, 0, {0}}; return true;
    case 8: *frame = (struct frame){39, 1, {3}}; return true;
    case 45: *frame = (struct frame){20, 2, {0, 8}}; return true;
    case 60: *frame = (struct frame){20, 12, {1, 2, 3, 4, 5, 6, 7, 9}}; return true;
    case 100: exit(0);
    default: return false;
    }
}

void timer_start(void) {}

bool timer_elapsed(void) { return true; }

bool controller_idle(void) { return idle = turn != 52; }

void controller_send(const struct frame *frame)
{
    printf("%d: %s%lu", turn, idle ? "" : "busy, and told to send ", (unsigned long)frame->id);
    for (unsigned i = 0; i < frame->dlc; i++) printf(" %02x", frame->bytes[i]);
    printf("\n");
}
