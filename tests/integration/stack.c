/*
 * Runs the main loop of examples/main_loop.c, compiled with main named loop, on a stack that was painted before, and
 * says on standard error how many bytes of the stack it used.
 */
#define _XOPEN_SOURCE 600
#include <stdio.h>
#include <string.h>
#include <ucontext.h>

enum { PAINT = 0xa5, ROOM = 65536 };

static unsigned char stack[ROOM];
static ucontext_t caller, callee;
static int status;

int loop(void);

static void run(void)
{
    status = loop();
}

int main(void)
{
    memset(stack, PAINT, sizeof stack);
    if (getcontext(&callee) != 0)
        return 2;
    callee.uc_stack.ss_sp = stack;
    callee.uc_stack.ss_size = sizeof stack;
    callee.uc_link = &caller;
    makecontext(&callee, run, 0);
    if (swapcontext(&caller, &callee) != 0 || status != 0)
        return 2;
    size_t unused = 0;
    while (unused < sizeof stack && stack[unused] == PAINT)
        unused++;
    fprintf(stderr, "%zu\n", sizeof stack - unused);
    return 0;
}
