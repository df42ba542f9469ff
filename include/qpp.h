/*
 * The interleaver f(x) = (f1*x + f2*x*x) mod K of a turbo code, K from 2 to 8192.
 *
 * Every call takes any numbers and answers or refuses by a number. A refused call changes no byte of what it was
 * lent and hands back zeros beside its number. No call keeps a pointer.
 *
 * What C must keep: n counts the entries or symbols of a buffer, and m the bytes of a scratch; each pointer is good for
 * its length; the block and the scratch of one call do not overlap. A buffer of length 0 may be NULL: no call reads or
 * writes through it, and each refuses it by its number (4 for a block, 5 for a scratch, 7 for a list) unless an earlier
 * test refuses. qpp_spread takes a little over 16 KiB of stack, qpp_explain a little over 1 KiB, every other call less
 * than 600 bytes.
 *
 * The odd form of a triple: where K and f1 are even, K/2 is added to f1 and to f2 modulo K. f stays the same.
 */
#ifndef QPP_H
#define QPP_H

#include <stddef.h>
#include <stdint.h>

#ifdef __cplusplus
extern "C" {
#endif

/* The numbers of refusal, in the order of their tests. */
#define QPP_DONE 0u
#define QPP_NO_LENGTH 1u          /* K below 2 or above 8192 */
#define QPP_NO_COEFFICIENT 2u     /* f1 >= K or f2 >= K */
#define QPP_NO_SHUFFLE 3u         /* f does not permute the positions */
#define QPP_NO_BLOCK 4u           /* the block's length is not K */
#define QPP_NO_SCRATCH 5u         /* the scratch is shorter than K/8 bytes, rounded up */
#define QPP_NO_POSITION 6u        /* the position of a walker made by hand is K or more */
#define QPP_NO_LIST 7u            /* the list is shorter than K entries, or than Q for ARP shifts */
#define QPP_NOTHING_TO_EXPLAIN 8u /* f permutes the positions */

struct qpp_value {
    uint32_t number;
    uint32_t value;
};

struct qpp_reason {
    uint32_t number;
    uint32_t y;
    uint32_t x;
    uint32_t address;
    uint32_t prime;
};

/* a[0] is a1; the places past the degree are zero. */
struct qpp_inverse {
    uint32_t number;
    uint32_t degree;
    uint32_t a[13];
};

struct qpp_arp {
    uint32_t number;
    uint32_t p;
    uint32_t q;
};

struct qpp_walker {
    uint32_t k;
    uint32_t f1;
    uint32_t f2;
    uint32_t at;
};

struct qpp_start {
    uint32_t number;
    struct qpp_walker walker;
};

struct qpp_step {
    uint32_t number;
    uint32_t address;
    struct qpp_walker walker;
};

/* Is the triple a shuffle? 0, 1, 2 or 3. */
uint32_t qpp_accept(uint32_t k, uint32_t f1, uint32_t f2);

/*
 * Why a triple in range is no shuffle: y is the smallest position whose address an earlier position, x, has too, and
 * address the one they share; prime is the least prime of K such that the quadratic does not permute modulo the largest
 * power of that prime that divides K. Refusals 1, 2, 8.
 */
struct qpp_reason qpp_explain(uint32_t k, uint32_t f1, uint32_t f2);

/*
 * The address f(x mod K) of the position x. Any x will do: a counter need not return to zero at a block's end.
 * Refusals 1, 2, 3.
 */
struct qpp_value qpp_address(uint32_t k, uint32_t f1, uint32_t f2, uint32_t x);

/* The r below K with r*f1 mod K = 1, f1 of the odd form. Refusals 1, 2, 3. */
struct qpp_value qpp_reciprocal(uint32_t k, uint32_t f1, uint32_t f2);

/*
 * The largest s from 1 to K such that any two different positions less than s apart have addresses at least s apart,
 * both distances measured the shorter way round: position K-1 stands next to position 0. Refusals 1, 2, 3.
 */
struct qpp_value qpp_spread(uint32_t k, uint32_t f1, uint32_t f2);

/*
 * The polynomial without a constant, of least degree, that sends every address back, each ak below K/gcd(K, k!).
 * Refusals 1, 2, 3.
 */
struct qpp_inverse qpp_inverse(uint32_t k, uint32_t f1, uint32_t f2);

/*
 * The ARP form, f(i) = (P*i + S[i mod Q]) mod K, with P the f1 of the odd form: P, Q, and S[0] to S[Q-1] into the list;
 * later entries stay. Refusals 1, 2, 3, 7.
 */
struct qpp_arp qpp_arp(uint32_t k, uint32_t f1, uint32_t f2, uint16_t *list, size_t n);

/* A walker at position 0. Refusals 1, 2, 3. */
struct qpp_start qpp_walker_start(uint32_t k, uint32_t f1, uint32_t f2);

/* The present address, and the walker moved on; after K-1 comes 0. A walker made by hand: refusals 1, 2, 6. */
struct qpp_step qpp_walker_step(struct qpp_walker w);

/* f(0) to f(K-1) into the list; later entries stay. Refusals 1, 2, 3, 7. */
uint32_t qpp_addresses(uint32_t k, uint32_t f1, uint32_t f2, uint16_t *list, size_t n);

/*
 * Moving a block of n symbols in place. The scratch may hold anything; afterwards its first K/8 bytes, rounded up, are
 * zero and the rest stays.
 */

/* Place i comes to hold the byte that stood at f(i). Refusals 1, 2, 3, 4, 5. */
uint32_t qpp_interleave_u8(uint32_t k, uint32_t f1, uint32_t f2, uint8_t *block, size_t n, uint8_t *scratch, size_t m);

/* Place f(i) comes to hold the byte that stood at i. Refusals 1, 2, 3, 4, 5. */
uint32_t qpp_deinterleave_u8(uint32_t k, uint32_t f1, uint32_t f2, uint8_t *block, size_t n, uint8_t *scratch, size_t m);

/* Place i comes to hold the signed 16-bit value that stood at f(i). Refusals 1, 2, 3, 4, 5. */
uint32_t qpp_interleave_i16(uint32_t k, uint32_t f1, uint32_t f2, int16_t *block, size_t n, uint8_t *scratch, size_t m);

/* Place f(i) comes to hold the signed 16-bit value that stood at i. Refusals 1, 2, 3, 4, 5. */
uint32_t qpp_deinterleave_i16(uint32_t k, uint32_t f1, uint32_t f2, int16_t *block, size_t n, uint8_t *scratch, size_t m);

#ifdef __cplusplus
}
#endif

#endif
