/* The functions of forms.source in C, against what its text says; the last line counts. */
#include <stdio.h>
#include <string.h>

#include "forms.h"

static int passed = 0, failed = 0;

static void same(int line, unsigned long is, unsigned long due)
{
    if (is == due) {
        passed++;
        return;
    }
    failed++;
    printf("line %d: %lu, and not %lu\n", line, is, due);
}

#define SAME(is, due) same(__LINE__, (unsigned long)(is), (unsigned long)(due))

static uint32_t bits(uint32_t x, uint32_t y, uint32_t shift)
{
    uint32_t a = (x ^ ~y) & 255, b = (x << 3 | (y & 65535) >> 2) & 65535, c = x << shift ^ y >> shift;
    uint64_t d = (uint64_t)x << 20 & (uint64_t)y << 12;
    return (a ^ b ^ c ^ (uint32_t)(d >> 16) ^ (uint32_t)((x < y) != (x == y))) & ~shift;
}

static uint32_t search(uint32_t n)
{
    for (uint32_t a = 2; a < n; a++)
        for (uint32_t b = 1; n % a == 0 && b * b <= a + 1; b++)
            if (b * b == a + 1) return a;
    return 0;
}

int main(void)
{
    uint32_t numbers[] = {5, 6, 7, 8, 0, 9}, tally[4] = {0, 0, 0, 0};
    uint8_t bytes[] = {1, 2, 3, 4, 5, 6, 7};
    struct forms_pair pair = {2, {10, 20, 30}, 40}, from = {9, {11, 21, 31}, 41};
    struct forms_sums sums;
    for (uint32_t i = 0; i < 7; i++) SAME(forms_colour(i), 1u << i % 3);
    for (uint32_t i = 1; i != 0x80000000u; i <<= 1)
        for (uint32_t j = 3; j < 0x40000000u; j = j * 5 + 1)
            for (uint32_t shift = 0; shift < 32; shift += 5) SAME(forms_bits(i * 77 + j, j, shift), bits(i * 77 + j, j, shift));
    SAME(forms_count(numbers, 6), 4);
    SAME(numbers[0] * 100000 + numbers[1] * 10000 + numbers[2] * 1000 + numbers[3] * 100 + numbers[5], 677909);
    SAME(forms_count(numbers, 2), 2);
    SAME(forms_count(numbers, 0), 0);
    sums = forms_parts(bytes, 7, 256 + 10);
    SAME(sums.first, 2 + 3 * 10 + 6 + 7);
    SAME(sums.count, 3);
    SAME(memcmp(bytes, "\1\2\12\12\12\6\7", 7), 0);
    SAME(sums.pair.a, 1);
    SAME(sums.pair.b[2], 77);
    SAME(sums.pair.c, 2 + 30 + 7700 - 0 * 400);
    sums = forms_parts(bytes, 4, 1);
    SAME(sums.first + sums.count, 0);
    SAME(sums.pair.c, 5);
    forms_touch(&pair, &from, tally);
    SAME(pair.a, 9);
    SAME(pair.b[0] * 10000 + pair.b[1] * 100 + pair.b[2], 103130);
    SAME(pair.c, 41);
    SAME(tally[2] * 100 + tally[0] + tally[1] + tally[3], 100);
    forms_touch(&pair, &from, tally);
    SAME(tally[0] + tally[1] + tally[2] + tally[3], 1);
    for (uint32_t n = 0; n < 200; n++) SAME(forms_search(n), search(n));
    printf("%d passed, %d failed\n", passed, failed);
    return failed != 0;
}
