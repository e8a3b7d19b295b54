/* The bytes of stack that the main loop of examples/main_loop.c takes whole, its output included: a line `main_loop BYTES`. What it prints is left out,
 * for a module does not print. */
#include "painted.h"

#include <inttypes.h>
#include <stdio.h>

static int no_character(int character)
{
    return character;
}

static int no_text(const char *text, FILE *to)
{
    (void)text;
    (void)to;
    return 0;
}

#undef putchar
#define main main_loop
#define putchar no_character
#define fputs no_text
#include "../examples/main_loop.c"
#undef main
#undef putchar
#undef fputs

static void loop(void)
{
    main_loop();
}

int main(void)
{
    size_t a = painted(loop, 0xa5);
    size_t b = painted(loop, 0x5a);

    printf("main_loop %lu\n", (unsigned long)(a > b ? a : b));
    return 0;
}
