/* Tests the C of flows.source: each function against the same written by hand. */
#include <stdbool.h>
#include <stdint.h>
#include <stdio.h>

#include "flows.h"

static int passed, failed;

static void same(int line, uint32_t is, uint32_t due)
{
    if (is == due) {
        passed++;
        return;
    }
    failed++;
    printf("line %d: %lu, and not %lu\n", line, (unsigned long)is, (unsigned long)due);
}

#define SAME(is, due) same(__LINE__, (is), (due))

static uint64_t state = 7;

static uint32_t some(uint32_t below)
{
    state = state * UINT64_C(6364136223846793005) + UINT64_C(1442695040888963407);
    return (uint32_t)(state >> 33) % below;
}

/* Of x: heard where 1, cut where 2; a cut is from x % 7 to x % 5. */
static uint32_t event(uint32_t x) { return x % 3; }

static uint32_t match(uint32_t x)
{
    if (event(x) == 0) return 6;
    if (event(x) == 1) return x == 7 ? 1 : x > 100 ? 2 : 3;
    return x % 7 == 0 ? 4 : x % 7 == x % 5 ? 5 : x % 7;
}

static uint32_t pair(uint32_t x, uint32_t y)
{
    if (event(x) == 0 && event(y) == 0) return 1;
    if (event(x) == 1 && event(y) == 1) return x ^ y;
    return event(x) == 1 || event(y) == 1 ? 2 : 3;
}

static uint32_t loop(const uint8_t *xs)
{
    uint32_t sum = 0;
    for (int i = 0; i < 8; i++) {
        uint32_t x = xs[i];
        if (event(x) == 0 || (event(x) == 2 && x % 7 == x % 5)) continue;
        if (event(x) == 1 && x >= 5 && x <= 40) break;
        if (event(x) == 2 && x % 7 > 4 && x % 5 < 3) break;
        sum = (sum + (event(x) == 1 ? x : 1)) * 3;
    }
    return sum;
}

static uint32_t or_else(const uint8_t *xs)
{
    uint32_t sum = 0;
    for (int i = 0; i < 8; i++) {
        if (event(xs[i]) != 1) continue;
        if (i == 5 || xs[i] == 31) break;
        sum = sum * 3 + xs[i];
    }
    return sum;
}

static uint32_t if_let(const uint8_t *xs)
{
    uint32_t sum = 0;
    for (int i = 0; i < 8; i++) {
        if (event(xs[i]) == 2) {
            sum += xs[i] % 7u;
            if (xs[i] % 5 == 4) return sum;
        } else if (xs[i] == 9) {
            break;
        }
    }
    return sum + 1;
}

static uint32_t two_loops(const uint8_t *xs, const uint8_t *ys)
{
    for (uint32_t i = 0; i < 8; i++)
        for (uint32_t j = 0; j < 8; j++) {
            if (xs[i] == ys[j]) return i * 8 + j;
            if (ys[j] == 0) break;
        }
    return 100;
}

int main(void)
{
    uint8_t xs[8], ys[8];
    for (uint32_t turn = 0; turn < 50000; turn++) {
        uint32_t a = some(10), b = some(10), c = some(10);
        SAME(flows_and(a, b), a > 3 && b > 3 ? 2 : a > 7 || b > 7 ? 3 : 1);
        SAME(flows_and_or(a, b, c), (a > 3 && b > 3) || c > 3 ? 5 : a == b && b == c ? 6 : 7);
        SAME(flows_match(turn % 300), match(turn % 300));
        SAME(flows_pair(a, b), pair(a, b));
        SAME(flows_matches(a), a == 4 || a == 7 || a % 3 == 0);
        for (int i = 0; i < 8; i++) {
            xs[i] = (uint8_t)(some(3) ? some(12) : some(256));
            ys[i] = (uint8_t)(some(3) ? some(30) : some(256));
        }
        SAME(flows_loop(xs), loop(xs));
        SAME(flows_else(xs), or_else(xs));
        SAME(flows_if_let(ys), if_let(ys));
        SAME(flows_nested(xs, ys), two_loops(xs, ys));
        a = some(3) ? some(40) : some(UINT32_MAX);
        SAME(flows_question(a), a < 3 || (a - 3) * UINT64_C(2) > 50 ? 99 : (a - 3) * 2);
    }
    printf("%d passed, %d failed\n", passed, failed);
    return failed != 0;
}
