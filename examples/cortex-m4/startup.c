/* From reset to main on a Cortex-M4, and what stands for a C library. */
#include <stddef.h>
#include <stdint.h>
#include <string.h>

/* Set by cortex-m4.ld. */
extern uint32_t stack_top[], data_from[], data_start[], data_end[], bss_start[], bss_end[];

int main(void);
void systick(void);
void reset(void);
void SystemInit(void);

/* The chip's own: clocks, pins, the controller's bit timing and filter. It comes from the chip's maker; this one does nothing. */
__attribute__((weak)) void SystemInit(void) {}

/* Nothing more is called, so the module says nothing more on the bus. */
static void stop(void)
{
    for (;;) {
    }
}

void reset(void)
{
    memcpy(data_start, data_from, (size_t)((uintptr_t)data_end - (uintptr_t)data_start));
    memset(bss_start, 0, (size_t)((uintptr_t)bss_end - (uintptr_t)bss_start));
    SystemInit();
    main();
    stop();
}

/* The processor's vectors. Those of the chip's interrupts follow here where they are used. */
__attribute__((section(".vectors"), used)) static const struct {
    uint32_t *stack;
    void (*handlers[15])(void);
} vectors = {stack_top, {reset, stop, stop, stop, stop, stop, 0, 0, 0, 0, stop, stop, 0, stop, systick}};
