/* The replay on 32-bit x86 Linux without a C library: a size_t of 4 bytes where no other chip is at hand. Reads calls and
 * answers from standard input, as `compare` writes them. The exit status is 0 where none differs. */
#include "call.h"

make_call portable_call;

static int system_call(int number, int a, void *b, unsigned c)
{
    int answer;
    __asm__ volatile("int $0x80" : "=a"(answer) : "a"(number), "b"(a), "c"(b), "d"(c) : "memory");
    return answer;
}

void *memcpy(void *to, const void *from, size_t count)
{
    uint8_t *t = to;
    const uint8_t *f = from;
    while (count--) *t++ = *f++;
    return to;
}

void *memmove(void *to, const void *from, size_t count)
{
    uint8_t *t = to;
    const uint8_t *f = from;
    if (t <= f) return memcpy(to, from, count);
    while (count--) t[count] = f[count];
    return to;
}

void *memset(void *to, int byte, size_t count)
{
    uint8_t *t = to;
    while (count--) *t++ = (uint8_t)byte;
    return to;
}

/* What the compiler makes of 64-bit / and %. */
uint64_t __udivmoddi4(uint64_t a, uint64_t b, uint64_t *rest)
{
    uint64_t answer = 0, r = 0;
    for (int bit = 63; bit >= 0; bit--) {
        r = r << 1 | (a >> bit & 1);
        answer <<= 1;
        if (r >= b) {
            r -= b;
            answer |= 1;
        }
    }
    if (rest) *rest = r;
    return answer;
}

uint64_t __udivdi3(uint64_t a, uint64_t b) { return __udivmoddi4(a, b, 0); }

uint64_t __umoddi3(uint64_t a, uint64_t b)
{
    uint64_t rest;
    __udivmoddi4(a, b, &rest);
    return rest;
}

static int read_whole(void *to, unsigned count)
{
    unsigned have = 0;
    while (have < count) {
        int got = system_call(3, 0, (uint8_t *)to + have, count - have);
        if (got <= 0) return 0;
        have += (unsigned)got;
    }
    return 1;
}

static void say(const char *text, unsigned long number)
{
    char digits[24];
    unsigned count = 0, at = sizeof digits;
    while (text[count]) count++;
    system_call(4, 1, (void *)text, count);
    do digits[--at] = (char)('0' + number % 10);
    while (number /= 10);
    system_call(4, 1, digits + at, (unsigned)sizeof digits - at);
}

void run(void)
{
    static struct bench bench;
    static struct call call;
    static struct answer expected, answer;
    static uint8_t x[LEFT];
    unsigned long calls = 0, wrong = 0;
    while (read_whole(&call, sizeof call) && read_whole(&expected, sizeof expected)) {
        lend(&bench, &call);
        portable_call(&bench, &call, &answer);
        left(&bench, call.node, x);
        answer.left = sum_of(x, LEFT);
        answer.output = sum_of(bench.output, sizeof bench.output);
        wrong += !same_answer(&answer, &expected);
        calls++;
    }
    say("size_t of ", sizeof(size_t));
    say(" bytes, calls ", calls);
    say(", differ ", wrong);
    system_call(4, 1, (void *)"\n", 1);
    system_call(1, wrong != 0 || calls == 0, 0, 0);
}

__asm__(".globl _start\n_start: and $-16, %esp\ncall run\n");
