/* To fill in: each function reads and writes the registers of the chip's CAN controller. The words in brackets are what ST's bxCAN has; M_CAN, FlexCAN
 * and others have the same under other names. Clocks, pins, bit timing and the acceptance filter are for SystemInit, which comes with the chip (startup.c);
 * automatic retransmission is on there (NART = 0), and automatic recovery from bus-off is off (ABOM = 0). */
#include "controller.h"

bool controller_received(struct frame *frame)
{
    /* If the queue holds a frame (RF0R.FMP0): its identifier, DLC and bytes (RI0R, RDT0R, RDL0R, RDH0R), then let it go (RF0R.RFOM0). Frames with an 11-bit
     * identifier and remote frames are let go, and not handed on. */
    (void)frame;
    return false;
}

bool controller_idle(void)
{
    /* No transmit buffer waits or is being sent (TSR.TME0, TME1 and TME2). */
    return false;
}

void controller_send(const struct frame *frame)
{
    /* Identifier, DLC and bytes into one transmit buffer, always the same (TI0R, TDT0R, TDL0R, TDH0R), then the request to send it (TI0R.TXRQ). */
    (void)frame;
}
