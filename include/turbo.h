/*
 * The turbo encoder of 3GPP TS 36.212, clause 5.1.3: two eight-state coders with an interleaver between them, for
 * blocks of K bits, K one of the standard's 188 lengths from 40 to 6144. A byte holds a bit, 0 or 1.
 *
 * Every call takes any numbers and answers or refuses by a number. A refused call changes no byte of what it was
 * lent and hands back zeros beside its number. No call keeps a pointer.
 *
 * What C must keep: n, n0, n1 and n2 count the bytes of the input and of the three lists; each pointer is good for its
 * length; the input and the lists of one call do not overlap. A buffer of length 0 may be NULL: no call reads or writes
 * through it, and each refuses it by its number (4 for the input, 7 for a list) unless an earlier test refuses. Each
 * call takes less than a kilobyte of stack.
 */
#ifndef SLATTERFORD_TURBO_H
#define SLATTERFORD_TURBO_H

#include <stddef.h>
#include <stdint.h>

#ifdef __cplusplus
extern "C" {
#endif

/* The numbers of refusal, in the order of their tests. */
#define TURBO_DONE 0u
#define TURBO_NO_ROW 9u   /* K is not among the standard's lengths */
#define TURBO_NO_BLOCK 4u /* the input is not K bytes, or one of them is neither 0 nor 1 */
#define TURBO_NO_LIST 7u  /* one of the three lists is shorter than K + 4 */

struct turbo_row {
    uint32_t number;
    uint32_t f1;
    uint32_t f2;
};

/* The coefficients of the standard's interleaver of length K, f(i) = (f1*i + f2*i*i) mod K. Refusal 9. */
struct turbo_row turbo_row(uint32_t k);

/*
 * Encodes the input c(0) to c(K-1). Into each list go K + 4 bits; later entries stay, and the input is only read.
 * Refusals 9, 4, 7.
 *
 * Each coder feeds back 1 + D^2 + D^3 and puts out 1 + D + D^3, and starts with zeros. The first takes in c(i), the
 * second c(f(i)); z and z' are what they put out. At i below K the lists hold c(i), z(i) and z'(i). Then each coder is
 * brought back to zeros by three bits more of its own, x and x', and from K on the lists hold
 *   d0: x(K)    z(K+1)  x'(K)    z'(K+1)
 *   d1: z(K)    x(K+2)  z'(K)    x'(K+2)
 *   d2: x(K+1)  z(K+2)  x'(K+1)  z'(K+2)
 */
uint32_t turbo_encode(uint32_t k, const uint8_t *input, size_t n, uint8_t *d0, size_t n0, uint8_t *d1, size_t n1,
                      uint8_t *d2, size_t n2);

#ifdef __cplusplus
}
#endif

#endif
