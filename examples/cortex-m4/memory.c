/* What the C file and the compiler call, for a program without a C library; leave this file out where there is one. */
#include <stddef.h>
#include <stdint.h>
#include <string.h>

void *memcpy(void *to, const void *from, size_t count)
{
    uint8_t *t = to;
    const uint8_t *f = from;
    while (count--) *t++ = *f++;
    return to;
}

void *memmove(void *to, const void *from, size_t count)
{
    uint8_t *t = to;
    const uint8_t *f = from;
    if (t <= f) return memcpy(to, from, count);
    while (count--) t[count] = f[count];
    return to;
}

void *memset(void *to, int byte, size_t count)
{
    uint8_t *t = to;
    while (count--) *t++ = (uint8_t)byte;
    return to;
}

int memcmp(const void *a, const void *b, size_t count)
{
    const uint8_t *x = a, *y = b;
    for (; count; count--, x++, y++)
        if (*x != *y) return *x < *y ? -1 : 1;
    return 0;
}

/* The names by which compilers for Arm call them: of bytes, and of bytes at an address that can be divided by 4 or 8. */
#define MOVES(name, as)                                                                                                \
    void name(void *to, const void *from, size_t count);                                                               \
    void name(void *to, const void *from, size_t count) { as(to, from, count); }
#define FILLS(name)                                                                                                    \
    void name(void *to, size_t count, int byte);                                                                       \
    void name(void *to, size_t count, int byte) { memset(to, byte, count); }
#define CLEARS(name)                                                                                                   \
    void name(void *to, size_t count);                                                                                 \
    void name(void *to, size_t count) { memset(to, 0, count); }

MOVES(__aeabi_memcpy, memcpy)
MOVES(__aeabi_memcpy4, memcpy)
MOVES(__aeabi_memcpy8, memcpy)
MOVES(__aeabi_memmove, memmove)
MOVES(__aeabi_memmove4, memmove)
MOVES(__aeabi_memmove8, memmove)
FILLS(__aeabi_memset)
FILLS(__aeabi_memset4)
FILLS(__aeabi_memset8)
CLEARS(__aeabi_memclr)
CLEARS(__aeabi_memclr4)
CLEARS(__aeabi_memclr8)
