#include "lent.h"
#include <string.h>

#define GUARD 32     /* bytes before, between and after the buffers */
#define LONGEST 8300 /* symbols, entries or bytes of a buffer */

/* Aligned to 16-bit values; a block of bytes begins at an odd place. */
static _Alignas(16) uint8_t ours[4 * LONGEST + 5 * GUARD + 1], theirs[sizeof ours];

/* Fills both arenas up to the end and a guard; the random bytes come from a pool, from another place each time. */
static size_t fill(size_t end) {
    static uint8_t pool[2 * sizeof ours];
    static bool filled;
    for (size_t i = 0; !filled && i < sizeof pool; i++)
        pool[i] = (uint8_t)any();
    filled = true;
    size_t size = end + GUARD;
    memcpy(ours, pool + below(sizeof ours), size);
    memcpy(theirs, ours, size);
    return size;
}

void lend_block(struct triple t, enum direction d, size_t width, size_t n, size_t m) {
    size_t block = GUARD + (width == 1), scratch = block + n * width + GUARD;
    size_t size = fill(scratch + m);
    uint8_t *b = ours + block, *s = ours + scratch;
    int16_t *w = (int16_t *)(void *)b;
    uint32_t number;
    if (width == 1)
        number = d == INTERLEAVE ? qpp_interleave_u8(t.k, t.f1, t.f2, b, n, s, m)
                                 : qpp_deinterleave_u8(t.k, t.f1, t.f2, b, n, s, m);
    else
        number = d == INTERLEAVE ? qpp_interleave_i16(t.k, t.f1, t.f2, w, n, s, m)
                                 : qpp_deinterleave_i16(t.k, t.f1, t.f2, w, n, s, m);
    CHECK(number == model_move(t, d, width, theirs + block, n, theirs + scratch, m));
    CHECK(memcmp(ours, theirs, size) == 0);
}

void lend_addresses(struct triple t, size_t n) {
    size_t size = fill(GUARD + 2 * n);
    uint32_t number = qpp_addresses(t.k, t.f1, t.f2, (uint16_t *)(void *)(ours + GUARD), n);
    CHECK(number == model_addresses(t, (uint16_t *)(void *)(theirs + GUARD), n));
    CHECK(memcmp(ours, theirs, size) == 0);
}

void lend_arp(struct triple t, size_t n) {
    size_t size = fill(GUARD + 2 * n);
    struct qpp_arp r = qpp_arp(t.k, t.f1, t.f2, (uint16_t *)(void *)(ours + GUARD), n);
    struct qpp_arp model = model_arp(t, (uint16_t *)(void *)(theirs + GUARD), n);
    CHECK(r.number == model.number && r.p == model.p && r.q == model.q);
    CHECK(memcmp(ours, theirs, size) == 0);
}

/* The input lies between the lists, so that it is watched like all around them. */
void lend_encoder(uint32_t k, const uint8_t *input, size_t n, const size_t lengths[3]) {
    struct triple t = {k, model_row(k).f1, model_row(k).f2};
    size_t first = GUARD + 1, block = first + lengths[0] + GUARD, second = block + n + GUARD;
    size_t third = second + lengths[1] + GUARD, size = fill(third + lengths[2]);
    if (n > 0) {
        memcpy(ours + block, input, n);
        memcpy(theirs + block, input, n);
    }
    struct lists lists = {{theirs + first, theirs + second, theirs + third}, {lengths[0], lengths[1], lengths[2]}};
    uint32_t number =
        turbo_encode(k, ours + block, n, ours + first, lengths[0], ours + second, lengths[1], ours + third, lengths[2]);
    CHECK(number == model_encode(k, theirs + block, n, lists));
    CHECK(memcmp(ours, theirs, size) == 0);
}

/* Both sides of every length, for one triple, accepted or refused. */
static void around(struct triple t) {
    size_t k = t.k <= 8192 ? t.k : 8192, bytes = (k + 7) / 8;
    struct qpp_arp arp = qpp_arp(t.k, t.f1, t.f2, (uint16_t *)(void *)ours, LONGEST);
    for (size_t n = k - (k > 0); n <= k + 1; n++) {
        for (size_t m = bytes - (bytes > 0); m <= bytes + 2; m++)
            for (size_t width = 1; width <= 2; width++) {
                lend_block(t, INTERLEAVE, width, n, m);
                lend_block(t, DEINTERLEAVE, width, n, m);
            }
        lend_addresses(t, n);
    }
    for (size_t n = arp.q - (arp.q > 0); n <= arp.q + 2; n++)
        lend_arp(t, n);
}

void test_guards(void) {
    static const struct triple refused[] = {
        {0, 0, 0}, {1, 0, 0}, {8193, 1, 2}, {9, 9, 3}, {9, 1, 9}, {9, 1, 1}, {8192, 2, 2}, {6144, 263, 481},
    };
    static const struct triple accepted[] = {
        {1504, 23, 94}, {6016, 23, 94}, {6144, 263, 480}, {8191, 8190, 0}, {8192, 1, 2}, {8192, 8191, 8190},
    };
    for (size_t i = 0; i < sizeof refused / sizeof *refused; i++)
        around(refused[i]);
    for (size_t i = 0; i < sizeof accepted / sizeof *accepted; i++)
        around(accepted[i]);
    for (uint32_t k = 2; k <= 70; k++) /* every remainder of K by 8 */
        for (uint32_t f1 = 0; f1 < k; f1++)
            for (uint32_t f2 = 0; f2 < k; f2++) {
                struct triple t = {k, f1, f2};
                if (model_accept(t) == 0)
                    around(t);
            }
}
