/* The functions of flows.source. */
#ifndef FLOWS_H
#define FLOWS_H

#include <stdbool.h>
#include <stdint.h>

uint32_t flows_and(uint32_t a, uint32_t b);

uint32_t flows_and_or(uint32_t a, uint32_t b, uint32_t c);

uint32_t flows_match(uint32_t x);

uint32_t flows_pair(uint32_t x, uint32_t y);

bool flows_matches(uint32_t x);

uint32_t flows_loop(const uint8_t *xs);

uint32_t flows_else(const uint8_t *xs);

uint32_t flows_if_let(const uint8_t *xs);

uint32_t flows_nested(const uint8_t *xs, const uint8_t *ys);

uint32_t flows_question(uint32_t x);

#endif
