/* The stack that a function takes: it is run on a stack of its own, painted before, and what is no longer of that colour was written. */
#ifndef PAINTED_H
#define PAINTED_H

#define _XOPEN_SOURCE 700
#include <stddef.h>
#include <stdint.h>
#include <string.h>
#include <ucontext.h>

enum { ROOM = 65536 };
static uint8_t stack[ROOM];
static ucontext_t here;
static ucontext_t there;
static void (*volatile asked)(void);

static void on_painted(void)
{
    asked();
}

/* How far down from its top the stack is written. */
static size_t depth(void (*caller)(void), int paint)
{
    size_t low = 0;

    memset(stack, paint, sizeof stack);
    getcontext(&there);
    there.uc_stack.ss_sp = stack;
    there.uc_stack.ss_size = sizeof stack;
    there.uc_link = &here;
    asked = caller;
    makecontext(&there, on_painted, 0);
    swapcontext(&here, &there);
    while (low < sizeof stack && stack[low] == (uint8_t)paint) {
        low++;
    }
    return sizeof stack - low;
}

static void nothing(void)
{
}

/* In bytes, from its return address on. */
static size_t painted(void (*function)(void), int paint)
{
    return depth(function, paint) - depth(nothing, paint) + sizeof(void *);
}

#endif
