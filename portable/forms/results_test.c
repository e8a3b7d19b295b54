/* Tests the C of results.source: each function against the same written by hand, over numbers of all kinds. */
#include <stdbool.h>
#include <stddef.h>
#include <stdint.h>
#include <stdio.h>
#include <string.h>

#include "results.h"

static int passed, failed;

#define SAME(value, wanted)                                                                                    \
    do {                                                                                                       \
        unsigned long long is = (unsigned long long)(value), due = (unsigned long long)(wanted);               \
        if (is == due) {                                                                                       \
            passed++;                                                                                          \
        } else {                                                                                               \
            failed++;                                                                                          \
            printf("line %d: %llu and not %llu\n", __LINE__, is, due);                                         \
        }                                                                                                      \
    } while (0)

static uint64_t state = 5;

static uint32_t some(uint32_t below)
{
    state = state * UINT64_C(6364136223846793005) + UINT64_C(1442695040888963407);
    return (uint32_t)(state >> 33) % below;
}

static uint32_t hear(struct results_node *node, uint32_t x, uint8_t *out, size_t out_length, const uint8_t *from, size_t from_length)
{
    static const uint8_t zero[8];
    uint32_t i = 0;
    if (x > 3) return 1;
    while (i < 32 && !(node->slots[i].used && node->slots[i].n == x)) i++;
    if (i == 32) return 2;
    if (x + 75 == 77) return 1;
    if (x + 75 == 78) return 2;
    node->slots[i].n = x + 75 + 1;
    node->turns++;
    if (out_length < 8 || from_length != 8) return 3;
    memcpy(out, from, 8);
    memcpy(node->bytes, from, 8);
    return 256 + 8 * i + (memcmp(from, zero, 8) == 0 ? 0 : 1) + (x != 0 ? 1000 : 0);
}

static uint32_t four(const uint8_t *at)
{
    return at[0] + at[1] * UINT32_C(256) + at[2] * UINT32_C(65536) + at[3] * UINT32_C(16777216);
}

/* The functions of one line or two */
static void others(uint32_t turn)
{
    uint8_t a[8], b[8], c[8], long_one[40];
    uint32_t many[8], wanted[8], sum = 0, more = 0, most = 0, x, y;
    struct results_slot slots[4];
    uint64_t wide = 0;
    for (uint32_t i = 0; i < 8; i++) {
        a[i] = (uint8_t)some(some(2) ? 3 : 256);
        b[i] = (uint8_t)(some(3) ? a[i] : some(256));
        many[i] = wanted[i] = some(UINT32_MAX) + some(2);
        wide = wide + ((uint64_t)a[i] << 8 * i);
    }
    for (uint32_t i = 0; i < 40; i++) long_one[i] = (uint8_t)some(256);
    SAME(results_kind((uint8_t)turn), turn % 256 < 2 ? 1 : turn % 256 == 2 ? 2 : 100 + turn % 256);
    SAME(results_frame((uint8_t)turn, a[0]), (uint8_t)turn == a[0]);
    SAME(results_array(a, b), memcmp(a, b, 8) == 0);
    SAME(results_array(a, a), 1);
    x = some(9);
    y = some(2) ? x : some(9);
    SAME(results_slices(a, x, b, y), x == y && memcmp(a, b, x) == 0);
    SAME(results_slices(long_one, 33 + x % 8, long_one, 33 + y % 8), x % 8 == y % 8);
    SAME(results_starts(a, x, b, y), y <= x && memcmp(a, b, y) == 0);
    SAME(results_starts(long_one, 33, long_one, y * 4), y * 4 <= 33);
    x = some(10);
    y = some(10);
    SAME(results_compare(x, y), x < y ? 0 : x == y ? 1 : 2);
    SAME(results_tally(turn), turn);
    for (uint32_t i = 0; i < 8; i++) sum += many[i] * i;
    SAME(results_enumerate(many), sum);
    results_iter_mut(many);
    for (uint32_t i = 0; i < 8; i++) SAME(many[i], ++wanted[i]);
    memset(slots, 1, sizeof(slots));
    results_each(slots);
    for (uint32_t i = 0; i < 4; i++) SAME(slots[i].n * 2 + slots[i].used, 14);
    sum = more = 0;
    for (uint32_t i = 0; i < 8; i++) {
        sum += (uint32_t)(a[i] ^ b[i]);
        more += a[i];
    }
    SAME(results_zip(a, b), sum);
    SAME(results_sum_by(a), more);
    x = some(9);
    sum = more = most = 0;
    for (uint32_t i = 0; i < x; i++) {
        sum = sum * 31 + a[i];
        more += a[i] > 3;
        if (a[i] > most) most = a[i];
    }
    SAME(results_fold(a, x), sum);
    SAME(results_count(a, x), more);
    SAME(results_most(a, x), x == 0 ? 1000 : most);
    most = 0;
    for (uint32_t i = 0; i < 8; i++) if (many[i] > most) most = many[i];
    SAME(results_most_copied(many), most);
    x = some(20);
    sum = more = 0;
    for (uint32_t i = x; i > 0; i--) sum = sum * 3 + i - 1;
    for (uint32_t i = 1; i <= x; i++) more = more * 3 + i;
    SAME(results_rev((uint8_t)x), sum);
    SAME(results_step(x), more);
    x = some(3) ? some(20) : UINT32_MAX - some(5);
    y = some(10);
    sum = x + y < 5 ? 0 : x + y - 5;
    SAME(results_checked(x, y), x + y < x ? 0 : sum * 2 ^ (x > y ? x - y : y - x));
    x = some(400);
    SAME(results_small(x), x < 256 ? x : 999);
    results_swap(many);
    SAME(many[0], wanted[7]);
    SAME(many[1], wanted[2]);
    SAME(many[2], wanted[1]);
    SAME(many[3], wanted[4]);
    SAME(many[4], 9);
    SAME(many[5], wanted[5]);
    SAME(many[7], wanted[0]);
    x = some(30);
    SAME(results_take(x), x > 3 ? x + 1 : 77);
    SAME(results_is(x), (x > 3 && x < 10) || x == 20);
    SAME(results_long(a), wide % 65521);
    results_bytes(turn * 77, c);
    wide = (uint64_t)turn * 77 * 65537;
    for (int i = 0; i < 8; i++) SAME(c[i], i == 0 ? wide >> 32 & 255 : wide >> 8 * i & 255);
    for (uint32_t i = 0; i < 4; i++) {
        slots[i].used = some(2);
        slots[i].n = 1 + some(3);
    }
    sum = 0;
    for (uint32_t i = 4; i > 0; i--) if (slots[i - 1].used && slots[i - 1].n == 2) sum = 2;
    SAME(results_find(slots, 2), sum);
    x = some(UINT32_MAX);
    SAME(results_apply(x, turn), (x + turn) ^ (x * turn));
    SAME(results_chunks(a), ((a[0] * 7 + a[2]) * 7 + a[4]) * 7 + a[6]);
    x = some(9);
    SAME(results_array_of(a, x), x < 4 ? 0 : four(a));
    SAME(results_try_array(a, x), x == 4 ? four(a) : 0);
    for (int i = 0; i < 8; i++) c[i] = (uint8_t)(a[i] + 1);
    SAME(results_map(a), four(c));
    SAME(results_table((uint8_t)turn), "\3\1\4\1"[turn % 4]);
    memcpy(c, a, 8);
    y = some(9);
    SAME(results_get_mut(a, x, (uint8_t)y), y < x);
    if (y < x) c[y] = 0;
    SAME(memcmp(a, c, 8), 0);
    SAME(results_range(a, x, (uint8_t)y), y <= x ? x - y : 999);
}

int main(void)
{
    struct results_node node, other;
    uint8_t bytes[40], from[16], out[16], wanted[16];
    uint32_t many[8], more[8];
    for (int turn = 0; turn < 20000; turn++) {
        memset(&node, 0, sizeof(node));
        for (int i = 0; i < 32; i++) {
            node.slots[i].used = some(2);
            node.slots[i].n = some(40);
        }
        node.turns = some(3) == 0 ? UINT32_MAX : some(70000);
        for (int i = 0; i < 8; i++) node.bytes[i] = (uint8_t)some(256);
        other = node;
        bool zero = some(3) == 0;
        for (int i = 0; i < 16; i++) {
            from[i] = zero && some(40) ? 0 : (uint8_t)some(256);
            out[i] = wanted[i] = (uint8_t)some(256);
        }
        uint32_t x = some(5), out_length = 6 + some(10), from_length = 7 + some(3);
        SAME(results_hear(&node, x, out, out_length, from, from_length), hear(&other, x, wanted, out_length, from, from_length));
        SAME(memcmp(&node, &other, sizeof(node)), 0);
        SAME(memcmp(out, wanted, sizeof(out)), 0);
        x = some(2) ? some(200) : some(UINT32_MAX);
        SAME(results_event(&node, x), x == 0 ? 1 : x < 100 ? x : x % 65536 * 65536 + node.turns % 65536);
        uint32_t sum = 0, length = some(41), least = some(20), any = 0, all = 1, has = 0;
        for (uint32_t i = 0; i < length; i++) {
            bytes[i] = (uint8_t)(some(3) ? some(256) : some(20));
            sum += bytes[i];
            any |= bytes[i] >= least;
            all &= bytes[i] >= least;
            has |= bytes[i] == least;
        }
        SAME(results_sum(bytes, length), sum);
        SAME(results_any(bytes, length, (uint8_t)least), any + 2 * all);
        SAME(results_has(bytes, length, (uint8_t)least), has);
        x = some(50);
        SAME(results_at(bytes, length, x), (x < length ? bytes[x] : 1000u) + (length ? bytes[0] : 0u));
        uint32_t a = some(3), b = some(3);
        SAME(results_differ(a, b), (a != 0) != (b != 0));
        a = some(9);
        b = some(9);
        SAME(results_least(a, b), (a < b ? a : b) < 3 ? 3 : a < b ? a : b);
        uint16_t n = (uint16_t)some(65536);
        SAME(results_numbers(&node, n), n + node.bytes[0] * UINT32_C(65536) + node.bytes[1] * UINT32_C(16777216));
        SAME(results_width(n), 48005 - 5 + 40);
        memcpy(wanted, out, sizeof(out));
        a = some(16);
        b = some(16);
        if (a <= 12 && b <= 12) memmove(wanted + b, wanted + a, 4);
        SAME(results_shift(out, (uint8_t)a, (uint8_t)b), a <= 12 && b <= 12);
        SAME(memcmp(out, wanted, sizeof(out)), 0);
        length = some(9);
        for (int i = 0; i < 8; i++) many[i] = more[i] = some(UINT32_MAX);
        if (length > 0 && some(2)) more[some(8)] ^= UINT32_C(1) << some(32);
        a = some(4) ? length : some(9);
        SAME(results_same(many, length, more, a), length == a && memcmp(many, more, 4 * length) == 0);
        length = some(17);
        memcpy(wanted, out, sizeof(out));
        memset(wanted, (int)n & 255, length);
        results_fill(out, length, (uint8_t)n);
        SAME(memcmp(out, wanted, sizeof(out)), 0);
    }
    for (uint32_t turn = 0; turn < 20000; turn++) others(turn);
    printf("%d passed, %d failed\n", passed, failed);
    return failed != 0;
}
