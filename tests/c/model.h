/*
 * A plain model of every call, from the definitions: acceptance marks every position, the explanation lists the first
 * position of each address, the reciprocal is searched for, the inverse is tried at every address, blocks are moved out
 * of place, the bits of a coder are sums of earlier ones. It shares no code with the libraries.
 */
#ifndef MODEL_H
#define MODEL_H

#include "check.h"
#include "qpp.h"
#include "turbo.h"

#define ROWS 188
extern const struct triple rows[ROWS]; /* of the standard, ascending */

enum direction { INTERLEAVE, DEINTERLEAVE };

/* What the encoder is lent to write into. */
struct lists {
    uint8_t *d[3];
    size_t n[3];
};

uint32_t model_f(struct triple t, uint32_t x);
uint32_t model_accept(struct triple t);
struct qpp_reason model_explain(struct triple t);
struct qpp_value model_address(struct triple t, uint32_t x);
struct qpp_value model_reciprocal(struct triple t);
uint32_t model_spread_of(const uint16_t *addresses, uint32_t k); /* slow: k times the square of the spread */
struct qpp_value model_spread(struct triple t);                  /* the same of a shuffle */
struct qpp_arp model_arp(struct triple t, uint16_t *list, size_t n);
struct qpp_start model_start(struct triple t);
struct qpp_step model_step(struct qpp_walker w);
uint32_t model_addresses(struct triple t, uint16_t *list, size_t n);
/* width: the bytes of a symbol */
uint32_t model_move(struct triple t, enum direction d, size_t width, void *block, size_t n, uint8_t *scratch, size_t m);
uint32_t model_limit(uint32_t k, uint32_t j); /* below which the j-th coefficient stays */
uint32_t model_value(const struct qpp_inverse *g, uint32_t k, uint32_t y); /* g(y) mod K */
/* Has the answer every property that is promised of the inverse? No second answer has them all. */
bool model_fits_inverse(struct triple t, const struct qpp_inverse *answer);
struct turbo_row model_row(uint32_t k);
uint32_t model_encode(uint32_t k, const uint8_t *input, size_t n, struct lists lists);

#endif
