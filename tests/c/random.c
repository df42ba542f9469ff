/* Random inputs of every kind, from valid to nonsense, against the model. */
#include "lent.h"
#include <string.h>

#define INPUTS 3000000

/* The product of the primes that divide k. */
static uint32_t radical(uint32_t k) {
    uint32_t product = 1;
    for (uint32_t p = 2; p <= k; p++)
        if (k % p == 0) {
            product *= p;
            while (k % p == 0)
                k /= p;
        }
    return product;
}

/* f2 is a multiple of the step, which divides K. */
static struct triple with_step(uint32_t k, uint32_t step) {
    return (struct triple){k, below(k), step * below(k / step)};
}

/* A triple that has a fair chance to be a shuffle: f2 is a multiple of every prime of K. */
static struct triple likely(uint32_t k) { return with_step(k, radical(k)); }

/* The same but for one prime of K, of which f2 need not be a multiple: so it may be the only one that fails. */
static struct triple lacking(uint32_t longest) {
    static const uint32_t primes[] = {2, 3, 5, 7, 11, 13};
    uint32_t p = primes[below(6)], k = longest - longest % p, others = k;
    while (others % p == 0)
        others /= p;
    return with_step(k, radical(others));
}

/* A number at or near a limit. */
static uint32_t edge(uint32_t k) {
    static const uint32_t others[] = {0, 1, 2, 8191, 8192, 8193, 0x7fffffff, 0x80000000, 0xfffffffe, 0xffffffff};
    return below(2) ? k - 1 + below(3) : others[below(10)];
}

/* Long K are rare: the model goes through all positions. */
static struct triple draw(void) {
    uint32_t k = 2 + below(62);
    switch (below(16)) {
    case 0:
        return (struct triple){any(), any(), any()};
    case 1:
        k = edge(below(100) ? k : 8192);
        return (struct triple){k, edge(k), edge(k)};
    case 2:
        return (struct triple){k, below(2) ? edge(k) : below(k), below(2) ? edge(k) : below(k)};
    case 3:
        if (below(50))
            return (struct triple){4 * below(17) + 2, below(70), below(70)}; /* where the odd form matters */
        return rows[below(ROWS)];
    case 4:
        if (below(100))
            return likely(64 + below(200));
        return likely(8192 - below(6000));
    case 5:
        return (struct triple){k, below(k), below(k)};
    case 6:
        return lacking(below(100) ? 64 + below(200) : 8192 - below(6000));
    case 7:
        return (struct triple){1u << (1 + below(7)), below(128), below(128)};
    default:
        return likely(k);
    }
}

/* A length near the one asked for, and at times any; never longer than a buffer can be. */
static size_t near(size_t n) {
    if (below(8) == 0)
        return below(100);
    return n + below(4) - (n > 0 && below(4) == 0);
}

static void numbers(struct triple t) {
    CHECK(qpp_accept(t.k, t.f1, t.f2) == model_accept(t));
    uint32_t x = below(2) ? below(t.k ? t.k : 1) : below(2) ? edge(t.k) : any();
    struct qpp_value address = qpp_address(t.k, t.f1, t.f2, x), model = model_address(t, x);
    CHECK(address.number == model.number && address.value == model.value);
    struct qpp_value reciprocal = qpp_reciprocal(t.k, t.f1, t.f2);
    model = model_reciprocal(t);
    CHECK(reciprocal.number == model.number && reciprocal.value == model.value);
}

static void explaining(struct triple t) {
    struct qpp_reason reason = qpp_explain(t.k, t.f1, t.f2), model = model_explain(t);
    CHECK(memcmp(&reason, &model, sizeof reason) == 0);
}

static void walking(struct triple t) {
    struct qpp_start start = qpp_walker_start(t.k, t.f1, t.f2), begun = model_start(t);
    CHECK(memcmp(&start, &begun, sizeof start) == 0);
    /* made by hand: any triple, any position */
    struct qpp_walker w = {t.k, t.f1, t.f2, below(4) ? below(t.k ? t.k : 1) : edge(t.k)};
    struct qpp_step step = qpp_walker_step(w), model = model_step(w);
    CHECK(memcmp(&step, &model, sizeof step) == 0);
}

/* The model's spread is slow, so that long shuffles are seldom asked for theirs. */
static void inverse_and_spread(struct triple t) {
    struct qpp_inverse inverse = qpp_inverse(t.k, t.f1, t.f2);
    CHECK(model_fits_inverse(t, &inverse));
    if (model_accept(t) != 0 || t.k <= 64 || below(64) == 0) {
        struct qpp_value spread = qpp_spread(t.k, t.f1, t.f2), model = model_spread(t);
        CHECK(spread.number == model.number && spread.value == model.value);
    }
}

static void lending(struct triple t) {
    size_t k = t.k <= 8192 ? t.k : below(100);
    switch (below(4)) {
    case 0:
        lend_addresses(t, near(k));
        break;
    case 1:
        lend_arp(t, below(2) ? near(k) : below(12)); /* Q is often small */
        break;
    default:
        lend_block(t, below(2) ? INTERLEAVE : DEINTERLEAVE, 1 + below(2), below(4) ? k : near(k), near((k + 7) / 8));
    }
}

/* Mostly a short row, since the model goes through all bits; at times a length that is none. */
static uint32_t draw_length(void) {
    switch (below(16)) {
    case 0:
        return any();
    case 1:
        return edge(rows[below(ROWS)].k);
    case 2:
        return below(20) ? below(100) : rows[below(ROWS)].k;
    default:
        return rows[below(10)].k;
    }
}

/* Bits, and seldom a byte that is none; seldom an input that is not K bytes or a list that is too short. */
static void encoding(void) {
    static uint8_t input[8300];
    uint32_t k = draw_length();
    size_t fitting = k <= 8192 ? k : below(100), n = below(8) ? fitting : near(fitting), lengths[3];
    for (size_t i = 0; i < n; i++)
        input[i] = any() >> 31;
    if (n > 0 && below(8) == 0)
        input[below((uint32_t)n)] = (uint8_t)any();
    for (int i = 0; i < 3; i++)
        lengths[i] = below(8) ? fitting + 4 + below(3) : near(fitting + 4);
    lend_encoder(k, input, n, lengths);
}

void test_random(void) {
    for (uint32_t i = 0; i < INPUTS; i++) {
        struct triple t = draw();
        numbers(t);
        explaining(t);
        walking(t);
        lending(t);
        inverse_and_spread(t);
        if (i % 8 == 0)
            encoding();
    }
}
