/* The ticks by SysTick, the timer that every Cortex-M4 has. Modules whose timers run freely run apart: docs/INTEGRATION.md, "One tick for all", says what a
 * harness of several modules puts in this place. */
#include "timer.h"

#include <stdint.h>

/* To fill in: the processor's clock in Hz, as SystemInit leaves it, and how many ticks there are in a second. */
#define CLOCK UINT32_C(16000000)
#define TICKS_PER_SECOND UINT32_C(1000)

#define SYSTICK_CONTROL (*(volatile uint32_t *)0xE000E010)
#define SYSTICK_RELOAD (*(volatile uint32_t *)0xE000E014)
#define SYSTICK_VALUE (*(volatile uint32_t *)0xE000E018)

static volatile uint32_t periods;
static uint32_t taken;

/* The handler in the vector table. */
void systick(void);

void systick(void) { periods++; }

void timer_start(void)
{
    SYSTICK_RELOAD = CLOCK / TICKS_PER_SECOND - 1;
    SYSTICK_VALUE = 0;
    SYSTICK_CONTROL = 7; /* counts the processor's clock, with the interrupt */
}

bool timer_elapsed(void)
{
    if (taken == periods)
        return false;
    taken++;
    return true;
}
