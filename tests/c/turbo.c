/* The encoder: cases by hand, every length, each limit from both sides, and the interleaver's library beside it. */
#include "lent.h"
#include <string.h>

#define LONGEST 6144

static uint8_t input[LONGEST + 2], lists[3][LONGEST + 8];

static struct triple row_of(uint32_t k) { return (struct triple){k, model_row(k).f1, model_row(k).f2}; }

/* Into the lists of this file, each just long enough. */
static uint32_t encode(uint32_t k, const uint8_t *block) {
    return turbo_encode(k, block, k, lists[0], k + 4, lists[1], k + 4, lists[2], k + 4);
}

static void row_at(uint32_t k) {
    struct triple t = row_of(k);
    struct turbo_row r = turbo_row(k), model = model_row(k);
    CHECK(memcmp(&r, &model, sizeof r) == 0);
}

static void row_calls(void) {
    static const uint32_t others[] = {8191,  8192,  8193,       65536,      65576,      65536 + 6144,
                                      65535, 65537, 0x7fffffff, 0x80000000, 0x80000028, 0xffffffff};
    struct triple t = {40, 3, 10};
    CHECK(turbo_row(40).number == 0 && turbo_row(40).f1 == 3 && turbo_row(40).f2 == 10);
    CHECK(turbo_row(6144).number == 0 && turbo_row(6144).f1 == 263 && turbo_row(6144).f2 == 480);
    CHECK(turbo_row(41).number == 9 && turbo_row(41).f1 == 0 && turbo_row(41).f2 == 0);
    for (uint32_t k = 0; k <= 6300; k++)
        row_at(k);
    for (size_t i = 0; i < sizeof others / sizeof *others; i++)
        row_at(others[i]);
    for (int i = 0; i < ROWS; i++)
        CHECK(i == 0 || rows[i - 1].k < rows[i].k);
}

/*
 * One bit in a block of 40. Long division of 1 + D + D^3 by 1 + D^2 + D^3 gives 1 and then 1110010 again and again;
 * f(0) = 0, f(26) = 38, f(23) = 39, so that the second coder has the bit at these.
 */
static void by_hand(void) {
    static const char response[] = "1111001011100101110010111001011100101110";
    static const struct {
        uint32_t first, second;
        const char *tails[3];
    } cases[] = {
        {0, 0, {"0101", "0101", "0101"}},
        {38, 26, {"1110", "0010", "1000"}},
        {39, 23, {"0010", "1101", "1111"}},
    };
    struct triple t = {40, 3, 10};
    for (size_t c = 0; c < sizeof cases / sizeof *cases; c++) {
        uint32_t first = cases[c].first, second = cases[c].second;
        memset(input, 0, 40);
        input[first] = 1;
        CHECK(encode(40, input) == 0);
        for (uint32_t i = 0; i < 40; i++) {
            CHECK(lists[0][i] == input[i]);
            CHECK(lists[1][i] == (i < first ? 0 : response[i - first] - '0'));
            CHECK(lists[2][i] == (i < second ? 0 : response[i - second] - '0'));
        }
        for (int list = 0; list < 3; list++)
            for (int i = 0; i < 4; i++)
                CHECK(lists[list][40 + i] == cases[c].tails[list][i] - '0');
    }
}

/* Zeros, ones, and then random bits. */
static void fill_input(uint32_t n, int what) {
    for (uint32_t i = 0; i < n; i++)
        input[i] = what < 2 ? (uint8_t)what : any() >> 31;
}

/* Into lists just long enough, and longer. */
static void every_length(void) {
    for (int i = 0; i < ROWS; i++) {
        uint32_t k = rows[i].k;
        for (int what = 0; what < 5; what++) {
            fill_input(k, what);
            lend_encoder(k, input, k, (size_t[]){k + 4, k + 4, k + 4});
            lend_encoder(k, input, k, (size_t[]){k + 4 + below(4), k + 4 + below(4), k + 4 + below(4)});
        }
    }
}

/* Both sides of the length of the input and of each list. */
static void limits(uint32_t k) {
    fill_input(k + 1, 2);
    for (size_t n = k - 1; n <= k + 1; n++)
        for (size_t n0 = k + 3; n0 <= k + 5; n0++)
            for (size_t n1 = k + 3; n1 <= k + 5; n1++)
                for (size_t n2 = k + 3; n2 <= k + 5; n2++)
                    lend_encoder(k, input, n, (size_t[]){n0, n1, n2});
}

static void refused_block(uint32_t k) {
    struct triple t = row_of(k);
    CHECK(encode(k, input) == 4);
    lend_encoder(k, input, k, (size_t[]){k + 4, k + 4, k + 4});
}

/* A byte that is no bit, at this place, among zeros, ones and random bits. */
static void no_bit(uint32_t k, uint32_t place, uint8_t value) {
    for (int what = 0; what < 3; what++) {
        fill_input(k, what);
        input[place] = value;
        refused_block(k);
    }
}

static void both_sides(void) {
    static const uint32_t lengths[] = {40, 512, 528, 1024, 1056, 2048, 2112, 6144};
    for (size_t i = 0; i < sizeof lengths / sizeof *lengths; i++) {
        uint32_t k = lengths[i];
        limits(k);
        memset(input, 2, k); /* no one of them may hide another */
        refused_block(k);
        for (int value = 2; value <= 255; value += k == 40 ? 1 : 23) {
            no_bit(k, 0, (uint8_t)value);
            no_bit(k, k / 2, (uint8_t)value);
            no_bit(k, k - 1, (uint8_t)value);
            no_bit(k, below(k), (uint8_t)value);
        }
    }
    for (uint32_t place = 0; place < 40; place++)
        no_bit(40, place, 2);
    memset(input, 1, sizeof input);
    for (int i = 0; i < ROWS; i++)
        for (uint32_t k = rows[i].k - 1; k <= rows[i].k + 1; k += 2) {
            struct triple t = {k, 0, 0};
            CHECK(encode(k, input) == 9);
            lend_encoder(k, input, k, (size_t[]){k + 4, k + 4, k + 4});
        }
}

/* 9 before 4 before 7. */
static void order(void) {
    static const struct {
        uint32_t k, n, last, n0, n1, n2, number;
    } cases[] = {
        {40, 40, 1, 44, 44, 44, 0}, {40, 40, 1, 43, 44, 44, 7},    {40, 40, 1, 44, 43, 44, 7},
        {40, 40, 1, 44, 44, 43, 7}, {40, 40, 1, 0, 0, 0, 7},       {40, 40, 2, 44, 44, 44, 4},
        {40, 40, 2, 43, 43, 43, 4}, {40, 39, 1, 44, 44, 44, 4},    {40, 39, 1, 0, 44, 44, 4},
        {40, 41, 1, 44, 0, 44, 4},  {40, 41, 1, 45, 45, 45, 4},    {40, 41, 2, 44, 44, 0, 4},
        {39, 39, 1, 44, 44, 44, 9}, {41, 41, 1, 45, 45, 45, 9},    {41, 40, 1, 45, 45, 45, 9},
        {41, 41, 2, 45, 45, 45, 9}, {41, 41, 1, 44, 45, 45, 9},    {41, 40, 2, 0, 0, 0, 9},
        {0, 0, 0, 4, 4, 4, 9},      {0, 40, 1, 44, 44, 44, 9},     {48, 40, 1, 44, 44, 44, 4},
        {48, 48, 1, 44, 44, 44, 7}, {65576, 40, 1, 44, 44, 44, 9},
    };
    for (size_t i = 0; i < sizeof cases / sizeof *cases; i++) {
        struct triple t = row_of(cases[i].k);
        size_t n = cases[i].n, n0 = cases[i].n0, n1 = cases[i].n1, n2 = cases[i].n2;
        memset(input, 1, sizeof input);
        input[n > 0 ? n - 1 : 0] = (uint8_t)cases[i].last;
        CHECK(turbo_encode(t.k, input, n, lists[0], n0, lists[1], n1, lists[2], n2) == cases[i].number);
        lend_encoder(t.k, input, n, (size_t[]){n0, n1, n2});
    }
}

/* A buffer of no entries may be NULL. */
static void nothing_lent(void) {
    static const struct triple refused[] = {{0, 0, 0}, {39, 0, 0}, {6145, 0, 0}, {0xffffffff, 0, 0}};
    memset(input, 0, sizeof input);
    for (size_t i = 0; i < sizeof refused / sizeof *refused; i++) {
        struct triple t = refused[i];
        CHECK(turbo_encode(t.k, NULL, 0, NULL, 0, NULL, 0, NULL, 0) == 9);
    }
    for (int i = 0; i < ROWS; i++) {
        struct triple t = rows[i];
        size_t n = t.k + 4;
        CHECK(turbo_encode(t.k, NULL, 0, NULL, 0, NULL, 0, NULL, 0) == 4);
        CHECK(turbo_encode(t.k, NULL, 0, lists[0], n, lists[1], n, lists[2], n) == 4);
        CHECK(turbo_encode(t.k, input, t.k, NULL, 0, NULL, 0, NULL, 0) == 7);
        CHECK(turbo_encode(t.k, input, t.k, NULL, 0, lists[1], n, lists[2], n) == 7);
        CHECK(turbo_encode(t.k, input, t.k, lists[0], n, NULL, 0, lists[2], n) == 7);
        CHECK(turbo_encode(t.k, input, t.k, lists[0], n, lists[1], n, NULL, 0) == 7);
    }
}

/* The interleaver's library accepts each row; a block that it shuffled is to the first coder what the second sees. */
static void two_libraries(void) {
    static uint8_t shuffled[LONGEST], scratch[LONGEST / 8], second[LONGEST];
    for (int i = 0; i < ROWS; i++) {
        uint32_t k = rows[i].k;
        struct turbo_row r = turbo_row(k);
        struct triple t = {k, r.f1, r.f2};
        CHECK(qpp_accept(k, r.f1, r.f2) == 0);
        fill_input(k, 2);
        CHECK(encode(k, input) == 0);
        memcpy(second, lists[2], k);
        memcpy(shuffled, input, k);
        CHECK(qpp_interleave_u8(k, r.f1, r.f2, shuffled, k, scratch, sizeof scratch) == 0);
        CHECK(encode(k, shuffled) == 0);
        CHECK(memcmp(lists[0], shuffled, k) == 0 && memcmp(lists[1], second, k) == 0);
    }
}

void test_turbo(void) {
    row_calls();
    by_hand();
    every_length();
    both_sides();
    order();
    nothing_lent();
    two_libraries();
}
