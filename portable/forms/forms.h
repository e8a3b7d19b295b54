/* The functions of forms.source. */
#ifndef FORMS_H
#define FORMS_H

#include <stddef.h>
#include <stdint.h>

struct forms_pair {
    uint8_t a;
    uint16_t b[3];
    uint32_t c;
};

struct forms_sums {
    uint32_t first;
    size_t count;
    struct forms_pair pair;
};

uint32_t forms_colour(uint32_t times);

uint32_t forms_bits(uint32_t x, uint32_t y, uint32_t shift);

uint32_t forms_count(uint32_t *numbers, size_t numbers_length);

struct forms_sums forms_parts(uint8_t *bytes, size_t bytes_length, uint32_t with);

void forms_touch(struct forms_pair *pair, const struct forms_pair *from, uint32_t *tally);

uint32_t forms_search(uint32_t n);

#endif
