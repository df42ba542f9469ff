/* The cases of the scope, with exact expectations, and each call on both sides of each of its limits. */
#include "model.h"
#include <string.h>

static uint8_t bytes[8200];
static int16_t words[8200];
static uint8_t scratch[1025];
static uint16_t list[8200];

static bool same_walker(struct qpp_walker a, struct qpp_walker b) {
    return a.k == b.k && a.f1 == b.f1 && a.f2 == b.f2 && a.at == b.at;
}

static bool same_reason(struct qpp_reason a, struct qpp_reason b) { return memcmp(&a, &b, sizeof a) == 0; }

/*
 * With buffers that fit, every call that judges the triple gives this number, and zeros beside a refusal. What is
 * refused by 3 is explained, and what is accepted leaves nothing to explain.
 */
static void every_call(uint32_t k, uint32_t f1, uint32_t f2, uint32_t number) {
    struct triple t = {k, f1, f2};
    const struct qpp_walker none = {0, 0, 0, 0};
    const uint32_t zeros[13] = {0};
    size_t n = k <= 8192 ? k : 8192;
    CHECK(qpp_accept(k, f1, f2) == number);
    struct qpp_reason unexplained = {number == 0 ? 8 : number, 0, 0, 0, 0};
    CHECK(same_reason(qpp_explain(k, f1, f2), number == 3 ? model_explain(t) : unexplained));
    struct qpp_value address = qpp_address(k, f1, f2, 0);
    CHECK(address.number == number && address.value == 0); /* f(0) = 0 */
    struct qpp_value reciprocal = qpp_reciprocal(k, f1, f2);
    CHECK(reciprocal.number == number && (reciprocal.value != 0) == (number == 0));
    struct qpp_value spread = qpp_spread(k, f1, f2);
    CHECK(spread.number == number && (spread.value != 0) == (number == 0));
    struct qpp_inverse inverse = qpp_inverse(k, f1, f2);
    CHECK(inverse.number == number && (inverse.degree != 0) == (number == 0));
    CHECK((memcmp(inverse.a, zeros, sizeof zeros) != 0) == (number == 0));
    struct qpp_arp arp = qpp_arp(k, f1, f2, list, 8200);
    CHECK(arp.number == number && (arp.p != 0) == (number == 0) && (arp.q != 0) == (number == 0));
    struct qpp_start start = qpp_walker_start(k, f1, f2);
    CHECK(start.number == number);
    CHECK(same_walker(start.walker, number == 0 ? (struct qpp_walker){k, f1, f2, 0} : none));
    CHECK(qpp_addresses(k, f1, f2, list, 8200) == number);
    CHECK(qpp_interleave_u8(k, f1, f2, bytes, n, scratch, 1025) == number);
    CHECK(qpp_deinterleave_u8(k, f1, f2, bytes, n, scratch, 1025) == number);
    CHECK(qpp_interleave_i16(k, f1, f2, words, n, scratch, 1025) == number);
    CHECK(qpp_deinterleave_i16(k, f1, f2, words, n, scratch, 1025) == number);
}

static void judging(void) {
    static const uint32_t cases[][4] = {
        /* K, f1, f2, number */
        /* 1: the length, before anything else */
        {0, 0, 0, 1},
        {1, 0, 0, 1},
        {2, 1, 0, 0},
        {8192, 1, 2, 0},
        {8193, 1, 2, 1},
        {9000, 1, 0, 1},
        {0xffffffff, 1, 2, 1},
        {1, 7, 7, 1},
        {8193, 9000, 9000, 1},
        {0, 0xffffffff, 0xffffffff, 1},
        /* 2: the coefficients, before the question whether f permutes */
        {5, 4, 0, 0},
        {5, 5, 0, 2},
        {5, 1, 5, 2},
        {5, 5, 5, 2},
        {9, 1, 6, 0},
        {9, 1, 9, 2},
        {9, 1, 0xffffffff, 2},
        {8192, 8191, 8190, 0},
        {8192, 8192, 2, 2},
        {8192, 1, 8192, 2},
        {2, 2, 1, 2},
        {2, 0, 2, 2},
        /* 3: no two positions share a value */
        {2, 0, 1, 0},
        {2, 1, 1, 3},
        {2, 0, 0, 3},
        {3, 1, 1, 3},
        {4, 1, 2, 0},
        {4, 1, 1, 3},
        {5, 0, 0, 3},
        {6, 2, 3, 0},
        {8, 1, 4, 0},
        {8, 2, 4, 3},
        {9, 1, 3, 0},
        {40, 3, 10, 0},
        {40, 5, 10, 3},
        {1504, 23, 94, 0},
        {6016, 23, 94, 0},
        {6144, 263, 480, 0},
        {6144, 263, 481, 3},
        {8192, 2, 2, 3},
        {8192, 1, 1, 3},
        {8191, 1, 0, 0},
        {8191, 1, 1, 3},
    };
    for (size_t i = 0; i < sizeof cases / sizeof *cases; i++)
        every_call(cases[i][0], cases[i][1], cases[i][2], cases[i][3]);
}

static void reasons(void) {
    static const struct {
        struct triple t;
        struct qpp_reason reason;
    } cases[] = {
        {{8, 2, 4}, {0, 4, 0, 0, 2}},
        {{4, 0, 1}, {0, 2, 0, 0, 2}}, /* modulo 2 it permutes, modulo 4 it does not */
        {{4, 1, 1}, {0, 2, 1, 2, 2}},
        {{30, 1, 6}, {0, 10, 4, 10, 5}},
        {{36, 5, 4}, {0, 7, 3, 15, 3}},
        {{45, 2, 3}, {0, 10, 1, 5, 5}},
        {{8191, 1, 1}, {0, 4096, 4094, 6144, 8191}},
        {{60, 7, 30}, {8, 0, 0, 0, 0}},
    };
    for (size_t i = 0; i < sizeof cases / sizeof *cases; i++) {
        struct triple t = cases[i].t;
        CHECK(same_reason(qpp_explain(t.k, t.f1, t.f2), cases[i].reason));
        CHECK(same_reason(model_explain(t), cases[i].reason));
    }
    for (uint32_t k = 0; k <= 64; k++) /* in range and out of it */
        for (uint32_t f1 = 0; f1 < k + 2; f1++)
            for (uint32_t f2 = 0; f2 < k + 2; f2++) {
                struct triple t = {k, f1, f2};
                CHECK(same_reason(qpp_explain(k, f1, f2), model_explain(t)));
            }
}

static void inverses(void) {
    static const struct {
        struct triple t;
        uint32_t degree, a[4];
    } cases[] = {
        {{2, 0, 1}, 1, {1}},
        {{4, 1, 2}, 1, {3}},
        {{6, 2, 3}, 1, {5}},
        {{8, 1, 4}, 1, {5}},
        {{9, 1, 3}, 2, {1, 6}},
        {{40, 3, 10}, 2, {27, 10}},
        {{1504, 23, 94}, 3, {1079, 470, 376}},
        {{6016, 23, 94}, 4, {1831, 2350, 1880, 376}},
    };
    for (size_t i = 0; i < sizeof cases / sizeof *cases; i++) {
        struct triple t = cases[i].t;
        struct qpp_inverse r = qpp_inverse(t.k, t.f1, t.f2);
        CHECK(r.number == 0 && r.degree == cases[i].degree);
        for (uint32_t j = 0; j < 13; j++)
            CHECK(r.a[j] == (j < 4 ? cases[i].a[j] : 0));
        CHECK(model_fits_inverse(t, &r));
    }
}

/* A printed inverse of 6016 (23,94) is the same map outside the limits: two coefficients are not below theirs. */
static void printed_inverse(void) {
    struct triple t = {6016, 23, 94};
    const struct qpp_inverse printed = {0, 4, {1831, 3854, 1880, 4888}};
    struct qpp_inverse ours = qpp_inverse(t.k, t.f1, t.f2);
    for (uint32_t y = 0; y < t.k; y++)
        CHECK(model_value(&printed, t.k, y) == model_value(&ours, t.k, y));
    for (uint32_t j = 1; j <= 4; j++) {
        CHECK(ours.a[j - 1] < model_limit(t.k, j));
        CHECK((printed.a[j - 1] >= model_limit(t.k, j)) == (j == 2 || j == 4));
    }
}

static void values(void) {
    struct triple t = {40, 3, 10};
    CHECK(qpp_reciprocal(40, 3, 10).value == 27);
    CHECK(qpp_spread(40, 3, 10).value == 3);
    t = (struct triple){8, 1, 4};
    CHECK(qpp_spread(8, 1, 4).value == 2);
}

/* A shuffle has the same spread along the line. These lists are no quadratics, and along the line each has one more. */
static void model_spreads(void) {
    static const struct {
        uint32_t k, spread;
        uint16_t addresses[17];
    } cases[] = {
        {6, 1, {0, 3, 5, 2, 4, 1}},                                          /* 0 and 1 at the ends */
        {6, 1, {0, 5, 2, 4, 1, 3}},                                          /* 0 and 5 side by side */
        {12, 2, {0, 3, 6, 9, 1, 4, 7, 10, 2, 5, 11, 8}},                     /* 11 and 0 two apart, across the end */
        {11, 1, {0, 10, 3, 6, 2, 7, 4, 9, 5, 8, 1}},                         /* 10*x*x*x mod 11 */
        {17, 1, {0, 13, 11, 1, 7, 2, 10, 4, 8, 12, 6, 14, 9, 15, 5, 3, 16}}, /* (3*x + 6*x*x + 4*x*x*x) mod 17 */
    };
    for (size_t i = 0; i < sizeof cases / sizeof *cases; i++) {
        struct triple t = {cases[i].k, 0, 0};
        CHECK(model_spread_of(cases[i].addresses, t.k) == cases[i].spread);
    }
}

static void address_at(struct triple t, uint32_t x) {
    struct qpp_value r = qpp_address(t.k, t.f1, t.f2, x), model = model_address(t, x);
    CHECK(r.number == model.number && r.value == model.value);
}

/* A running counter goes past the end of a block, and a walker goes with it. */
static void counter(struct triple t) {
    static const uint32_t late[] = {0x7fffffff, 0x80000000, 0xfffffffb, 0xfffffffc, 0xfffffffd, 0xfffffffe, 0xffffffff};
    struct qpp_walker w = qpp_walker_start(t.k, t.f1, t.f2).walker;
    for (uint32_t x = 0; x <= 3 * t.k; x++) {
        struct qpp_step s = qpp_walker_step(w);
        address_at(t, x);
        CHECK(s.number == 0 && s.address == qpp_address(t.k, t.f1, t.f2, x).value);
        w = s.walker;
    }
    for (size_t i = 0; i < sizeof late / sizeof *late; i++)
        address_at(t, late[i]);
}

static void counters(void) {
    struct triple t = {9, 1, 3};
    CHECK(qpp_address(9, 1, 3, 8).number == 0 && qpp_address(9, 1, 3, 8).value == 2);
    CHECK(qpp_address(9, 1, 3, 9).number == 0 && qpp_address(9, 1, 3, 9).value == 0);
    CHECK(qpp_address(9, 1, 3, 0xffffffff).number == 0 && qpp_address(9, 1, 3, 0xffffffff).value == 3);
    CHECK(qpp_address(9, 1, 1, 9).number == 3 && qpp_address(9, 9, 1, 9).number == 2);
    for (uint32_t k = 2; k <= 24; k++)
        for (uint32_t f1 = 0; f1 < k; f1++)
            for (uint32_t f2 = 0; f2 < k; f2++) {
                t = (struct triple){k, f1, f2};
                if (model_accept(t) == 0)
                    counter(t);
            }
    counter((struct triple){8192, 8191, 8190});
}

/* Addresses written into a list of n entries; the entry after them stays. */
static void lists(void) {
    static const uint16_t of_4[] = {0, 3, 2, 1}, of_6[] = {0, 5, 4, 3, 2, 1};
    struct triple t = {4, 1, 2};
    list[4] = 77;
    CHECK(qpp_addresses(4, 1, 2, list, 5) == 0 && memcmp(list, of_4, sizeof of_4) == 0 && list[4] == 77);
    CHECK(qpp_addresses(4, 1, 2, list, 4) == 0 && qpp_addresses(4, 1, 2, list, 3) == 7 &&
          qpp_addresses(4, 1, 2, list, 0) == 7);
    CHECK(qpp_addresses(4, 1, 1, list, 3) == 3); /* 3 before 7 */
    CHECK(qpp_addresses(8192, 1, 2, list, 8192) == 0 && qpp_addresses(8192, 1, 2, list, 8191) == 7);
    t = (struct triple){6, 2, 3};
    CHECK(qpp_addresses(6, 2, 3, list, 6) == 0 && memcmp(list, of_6, sizeof of_6) == 0);
    t = (struct triple){8, 1, 4};
    list[2] = 77;
    struct qpp_arp r = qpp_arp(8, 1, 4, list, 3);
    CHECK(r.number == 0 && r.p == 1 && r.q == 2 && list[0] == 0 && list[1] == 4 && list[2] == 77);
    CHECK(qpp_arp(8, 1, 4, list, 2).number == 0);
    r = qpp_arp(8, 1, 4, list, 1);
    CHECK(r.number == 7 && r.p == 0 && r.q == 0 && qpp_arp(8, 2, 4, list, 1).number == 3);
    t = (struct triple){40, 3, 10};
    r = qpp_arp(40, 3, 10, list, 2);
    CHECK(r.number == 0 && r.p == 3 && r.q == 2);
}

/* A walker goes round twice; one made by hand is refused by 1, 2, 6 and may be of no shuffle. */
static void walkers(void) {
    static const uint32_t refused[][5] = {
        {0, 0, 0, 0, 1}, {1, 0, 0, 0, 1}, {8193, 1, 2, 0, 1},       {1, 9, 9, 9, 1},       {9, 9, 3, 9, 2},
        {9, 1, 9, 0, 2}, {9, 1, 3, 9, 6}, {9, 1, 3, 0xffffffff, 6}, {8192, 1, 2, 8192, 6}, {3, 1, 1, 3, 6},
    };
    struct triple t = {9, 1, 3};
    struct qpp_walker w = qpp_walker_start(9, 1, 3).walker;
    for (uint32_t x = 0; x < 18; x++) {
        struct qpp_step s = qpp_walker_step(w);
        CHECK(s.number == 0 && s.address == model_f(t, x % 9) && s.walker.at == (x + 1) % 9);
        w = s.walker;
    }
    for (size_t i = 0; i < sizeof refused / sizeof *refused; i++) {
        w = (struct qpp_walker){refused[i][0], refused[i][1], refused[i][2], refused[i][3]};
        struct qpp_step s = qpp_walker_step(w);
        CHECK(s.number == refused[i][4] && s.address == 0 && same_walker(s.walker, (struct qpp_walker){0, 0, 0, 0}));
    }
    static const struct qpp_walker served[] = {{2, 1, 1, 1}, {9, 8, 8, 8}, {8192, 1, 2, 8191}, {8192, 8191, 8191, 8190}};
    for (size_t i = 0; i < sizeof served / sizeof *served; i++) {
        w = served[i];
        t = (struct triple){w.k, w.f1, w.f2};
        struct qpp_walker next = {w.k, w.f1, w.f2, (w.at + 1) % w.k};
        struct qpp_step s = qpp_walker_step(w);
        CHECK(s.number == 0 && s.address == model_f(t, w.at) && same_walker(s.walker, next));
    }
    t = (struct triple){3, 1, 1};
    for (uint32_t x = 0; x < 3; x++) /* addresses 0, 2, 0 */
        CHECK(qpp_walker_step((struct qpp_walker){3, 1, 1, x}).address == (x == 1 ? 2 : 0));
}

static void blocks(void) {
    uint8_t six[] = "ABCDEF", nine[] = "ABCDEFGHI";
    int16_t wide[9];
    struct triple t = {6, 2, 3};
    CHECK(qpp_interleave_u8(6, 2, 3, six, 6, scratch, 1) == 0 && memcmp(six, "AFEDCB", 6) == 0);
    t = (struct triple){9, 1, 3};
    CHECK(qpp_interleave_u8(9, 1, 3, nine, 9, scratch, 2) == 0 && memcmp(nine, "AEFDHIGBC", 9) == 0);
    CHECK(qpp_deinterleave_u8(9, 1, 3, nine, 9, scratch, 2) == 0 && memcmp(nine, "ABCDEFGHI", 9) == 0);
    CHECK(qpp_deinterleave_u8(9, 1, 3, nine, 9, scratch, 2) == 0 && memcmp(nine, "AHIDBCGEF", 9) == 0);
    for (int i = 0; i < 9; i++)
        wide[i] = (int16_t)(-32768 + i); /* no byte of a symbol is lost */
    CHECK(qpp_interleave_i16(9, 1, 3, wide, 9, scratch, 2) == 0);
    for (int i = 0; i < 9; i++)
        CHECK(wide[i] == -32768 + "AEFDHIGBC"[i] - 'A');
    CHECK(qpp_deinterleave_i16(9, 1, 3, wide, 9, scratch, 2) == 0);
    for (int i = 0; i < 9; i++)
        CHECK(wide[i] == -32768 + i);
}

/* 4 and 5: the lengths of block and scratch, in this order, after the triple. */
static void lengths(void) {
    static const struct {
        struct triple t;
        uint32_t n, m, number;
    } cases[] = {
        {{9, 1, 3}, 9, 2, 0},          {{9, 1, 3}, 8, 2, 4},          {{9, 1, 3}, 10, 2, 4},
        {{9, 1, 3}, 0, 0, 4},          {{9, 1, 3}, 9, 1, 5},          {{9, 1, 3}, 9, 0, 5},
        {{9, 1, 3}, 8, 1, 4},          {{9, 1, 1}, 8, 1, 3},          {{9, 9, 1}, 8, 1, 2},
        {{1, 0, 0}, 8, 0, 1},          {{8, 1, 4}, 8, 1, 0},          {{8, 1, 4}, 8, 0, 5},
        {{8192, 1, 2}, 8192, 1024, 0}, {{8192, 1, 2}, 8192, 1023, 5}, {{8192, 1, 2}, 8191, 1024, 4},
        {{8192, 1, 2}, 8193, 1024, 4},
    };
    for (size_t i = 0; i < sizeof cases / sizeof *cases; i++) {
        struct triple t = cases[i].t;
        uint32_t n = cases[i].n, m = cases[i].m;
        CHECK(qpp_interleave_u8(t.k, t.f1, t.f2, bytes, n, scratch, m) == cases[i].number);
        CHECK(qpp_deinterleave_u8(t.k, t.f1, t.f2, bytes, n, scratch, m) == cases[i].number);
        CHECK(qpp_interleave_i16(t.k, t.f1, t.f2, words, n, scratch, m) == cases[i].number);
        CHECK(qpp_deinterleave_i16(t.k, t.f1, t.f2, words, n, scratch, m) == cases[i].number);
    }
}

/* The numbers of the movers and of the calls that write a list, which are lent nothing. */
static void no_buffers(struct triple t, uint32_t moving, uint32_t listing) {
    CHECK(qpp_interleave_u8(t.k, t.f1, t.f2, NULL, 0, NULL, 0) == moving);
    CHECK(qpp_deinterleave_u8(t.k, t.f1, t.f2, NULL, 0, NULL, 0) == moving);
    CHECK(qpp_interleave_i16(t.k, t.f1, t.f2, NULL, 0, NULL, 0) == moving);
    CHECK(qpp_deinterleave_i16(t.k, t.f1, t.f2, NULL, 0, NULL, 0) == moving);
    CHECK(qpp_interleave_u8(t.k, t.f1, t.f2, NULL, 0, scratch, sizeof scratch) == moving);
    CHECK(qpp_deinterleave_u8(t.k, t.f1, t.f2, NULL, 0, scratch, sizeof scratch) == moving);
    CHECK(qpp_interleave_i16(t.k, t.f1, t.f2, NULL, 0, scratch, sizeof scratch) == moving);
    CHECK(qpp_deinterleave_i16(t.k, t.f1, t.f2, NULL, 0, scratch, sizeof scratch) == moving);
    CHECK(qpp_addresses(t.k, t.f1, t.f2, NULL, 0) == listing);
    struct qpp_arp arp = qpp_arp(t.k, t.f1, t.f2, NULL, 0);
    CHECK(arp.number == listing && arp.p == 0 && arp.q == 0);
}

/* A buffer of no entries may be NULL. Every call that is lent one refuses by the number that comes first. */
static void nothing_lent(void) {
    static const uint32_t refused[][4] = {
        {0, 0, 0, 1}, {8193, 1, 2, 1}, {9, 9, 3, 2}, {9, 1, 9, 2}, {9, 1, 1, 3}, {8192, 2, 2, 3},
    };
    static const struct triple accepted[] = {{2, 0, 1}, {9, 1, 3}, {6144, 263, 480}, {8192, 1, 2}};
    for (size_t i = 0; i < sizeof refused / sizeof *refused; i++)
        no_buffers((struct triple){refused[i][0], refused[i][1], refused[i][2]}, refused[i][3], refused[i][3]);
    for (size_t i = 0; i < sizeof accepted / sizeof *accepted; i++) {
        struct triple t = accepted[i];
        no_buffers(t, 4, 7);
        CHECK(qpp_interleave_u8(t.k, t.f1, t.f2, bytes, t.k, NULL, 0) == 5);
        CHECK(qpp_deinterleave_u8(t.k, t.f1, t.f2, bytes, t.k, NULL, 0) == 5);
        CHECK(qpp_interleave_i16(t.k, t.f1, t.f2, words, t.k, NULL, 0) == 5);
        CHECK(qpp_deinterleave_i16(t.k, t.f1, t.f2, words, t.k, NULL, 0) == 5);
    }
}

void test_calls(void) {
    judging();
    reasons();
    inverses();
    printed_inverse();
    values();
    model_spreads();
    counters();
    lists();
    walkers();
    blocks();
    lengths();
    nothing_lent();
}
