/* The functions of results.source. */
#ifndef RESULTS_H
#define RESULTS_H

#include <stdbool.h>
#include <stddef.h>
#include <stdint.h>

struct results_slot {
    bool used;
    uint32_t n;
};

struct results_node {
    struct results_slot slots[32];
    uint32_t turns;
    uint8_t bytes[8];
};

uint32_t results_hear(struct results_node *node, uint32_t x, uint8_t *out, size_t out_length, const uint8_t *from, size_t from_length);

uint32_t results_event(const struct results_node *node, uint32_t x);

uint32_t results_sum(const uint8_t *xs, size_t xs_length);

bool results_differ(uint32_t a, uint32_t b);

void results_fill(uint8_t *xs, size_t xs_length, uint8_t with);

uint32_t results_least(uint32_t a, uint32_t b);

uint32_t results_numbers(const struct results_node *node, uint16_t n);

uint32_t results_at(const uint8_t *xs, size_t xs_length, uint32_t i);

bool results_shift(uint8_t *xs, uint8_t from, uint8_t to);

bool results_same(const uint32_t *a, size_t a_length, const uint32_t *b, size_t b_length);

bool results_has(const uint8_t *xs, size_t xs_length, uint8_t x);

uint32_t results_any(const uint8_t *xs, size_t xs_length, uint8_t least);

uint32_t results_width(uint16_t x);

uint32_t results_kind(uint8_t n);

bool results_frame(uint8_t a, uint8_t b);

bool results_array(const uint8_t *a, const uint8_t *b);

bool results_slices(const uint8_t *a, size_t a_length, const uint8_t *b, size_t b_length);

bool results_starts(const uint8_t *a, size_t a_length, const uint8_t *b, size_t b_length);

uint32_t results_compare(uint32_t a, uint32_t b);

uint32_t results_tally(uint32_t n);

uint32_t results_enumerate(const uint32_t *xs);

void results_iter_mut(uint32_t *xs);

void results_each(struct results_slot *xs);

uint32_t results_zip(const uint8_t *xs, const uint8_t *ys);

uint32_t results_fold(const uint8_t *xs, size_t xs_length);

uint32_t results_count(const uint8_t *xs, size_t xs_length);

uint32_t results_most(const uint8_t *xs, size_t xs_length);

uint32_t results_most_copied(const uint32_t *xs);

uint32_t results_rev(uint8_t n);

uint32_t results_step(uint32_t n);

uint32_t results_checked(uint32_t a, uint32_t b);

uint32_t results_small(uint32_t n);

void results_swap(uint32_t *xs);

uint32_t results_take(uint32_t n);

bool results_is(uint32_t n);

uint32_t results_long(const uint8_t *xs);

void results_bytes(uint32_t n, uint8_t *out);

uint32_t results_find(const struct results_slot *slots, uint32_t n);

uint32_t results_apply(uint32_t n, uint32_t k);

uint32_t results_sum_by(const uint8_t *xs);

uint32_t results_chunks(const uint8_t *xs);

uint32_t results_array_of(const uint8_t *xs, size_t xs_length);

uint32_t results_try_array(const uint8_t *xs, size_t xs_length);

uint32_t results_map(const uint8_t *xs);

uint32_t results_table(uint8_t n);

bool results_get_mut(uint8_t *xs, size_t xs_length, uint8_t i);

uint32_t results_range(const uint8_t *xs, size_t xs_length, uint8_t i);

#endif
