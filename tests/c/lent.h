/*
 * Lent buffers, watched. Two arenas hold the same random bytes. The library is lent buffers in one, the model the same
 * places of the other; afterwards the arenas are compared whole. So a byte that the library writes before, after or
 * between the buffers shows, and so does one of theirs that should have stayed.
 */
#ifndef LENT_H
#define LENT_H

#include "model.h"

/* Each calls library and model with buffers of these lengths, and checks answers and arenas. */
void lend_block(struct triple t, enum direction d, size_t width, size_t n, size_t m);
void lend_addresses(struct triple t, size_t n);
void lend_arp(struct triple t, size_t n);
void lend_encoder(uint32_t k, const uint8_t *input, size_t n, const size_t lengths[3]); /* of a copy of the input */

#endif
