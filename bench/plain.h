/* The same jobs in plain C: same tests, same answers, same methods, unless it says otherwise. */
#ifndef PLAIN_H
#define PLAIN_H

#include "qpp.h"
#include "turbo.h"

uint32_t plain_accept(uint32_t k, uint32_t f1, uint32_t f2);
uint32_t plain_accept_marking(uint32_t k, uint32_t f1, uint32_t f2); /* marks every position */
struct qpp_reason plain_explain(uint32_t k, uint32_t f1, uint32_t f2);
struct qpp_reason plain_explain_table(uint32_t k, uint32_t f1, uint32_t f2); /* one walk, and 16 KiB of positions */
struct qpp_value plain_address(uint32_t k, uint32_t f1, uint32_t f2, uint32_t x);
struct qpp_value plain_reciprocal(uint32_t k, uint32_t f1, uint32_t f2);
struct qpp_value plain_spread(uint32_t k, uint32_t f1, uint32_t f2);
struct qpp_inverse plain_inverse(uint32_t k, uint32_t f1, uint32_t f2);
struct qpp_arp plain_arp(uint32_t k, uint32_t f1, uint32_t f2, uint16_t *list, size_t n);
struct qpp_step plain_walker_step(struct qpp_walker w);
uint32_t plain_loop(uint32_t k, uint32_t f1, uint32_t f2); /* the sum of all addresses, with no walker */
uint32_t plain_addresses(uint32_t k, uint32_t f1, uint32_t f2, uint16_t *list, size_t n);

/*
 * plain_: the cycles followed in place. quick_: the same with a multiplication in place of the division, and full bytes
 * of marks passed over. table_: out of place, through a list of the addresses; it tests nothing.
 */
#define MOVERS(TYPE, NAME)                                                                                      \
    uint32_t plain_interleave_##NAME(uint32_t k, uint32_t f1, uint32_t f2, TYPE *block, size_t n, uint8_t *s,   \
                                     size_t m);                                                                 \
    uint32_t plain_deinterleave_##NAME(uint32_t k, uint32_t f1, uint32_t f2, TYPE *block, size_t n, uint8_t *s, \
                                       size_t m);                                                               \
    uint32_t quick_interleave_##NAME(uint32_t k, uint32_t f1, uint32_t f2, TYPE *block, size_t n, uint8_t *s,   \
                                     size_t m);                                                                 \
    uint32_t quick_deinterleave_##NAME(uint32_t k, uint32_t f1, uint32_t f2, TYPE *block, size_t n, uint8_t *s, \
                                       size_t m);                                                               \
    void table_interleave_##NAME(size_t k, const uint16_t *table, const TYPE *from, TYPE *to);                  \
    void table_deinterleave_##NAME(size_t k, const uint16_t *table, const TYPE *from, TYPE *to);
MOVERS(uint8_t, u8)
MOVERS(int16_t, i16)
#undef MOVERS

struct turbo_row plain_turbo_row(uint32_t k);
uint32_t plain_turbo_encode(uint32_t k, const uint8_t *input, size_t n, uint8_t *restrict d0, size_t n0,
                            uint8_t *restrict d1, size_t n1, uint8_t *restrict d2, size_t n2);

#endif
