/* The controller of the chip, behind three functions: fill them in for yours (controller.c). What it must do besides is in docs/INTEGRATION.md,
 * "What the controller must do". */
#ifndef CONTROLLER_H
#define CONTROLLER_H

#include <stdbool.h>
#include <stddef.h>
#include <stdint.h>

/* A data frame with a 29-bit identifier; its DLC as it is on the bus, 0 to 15, and the bytes that it means, eight at most. */
struct frame {
    uint32_t id;
    uint8_t dlc, bytes[8];
};

/* Takes the oldest frame out of the controller's receive queue, if there is one. */
bool controller_received(struct frame *frame);

/* Whether nothing of this module is left to send. */
bool controller_idle(void);

/* Hands a frame over to be sent, and repeated until it is through. The controller is idle then. */
void controller_send(const struct frame *frame);

#endif
