/* The encoder's archive alone: no header and no archive beside its own. */
#include "turbo.h"
#include <stdbool.h>
#include <stdio.h>
#include <string.h>

#define K 40

static unsigned checks, failed;

static void check(bool held, const char *what) {
    checks++;
    if (held)
        return;
    failed++;
    printf("%s\n", what);
}

#define CHECK(condition) check((condition), #condition)

/* The letters of "state", eight bits each, and what the second program makes of them. */
static const char block[] = "0111001101110100011000010111010001100101";
static const char *const coded[] = {
    "01110011011101000110000101110100011001011010",
    "01011001111001010011011010010111110101000110",
    "01000001111101000100011101000111001000001100",
};

static uint8_t input[K + 1], d0[K + 5], d1[K + 5], d2[K + 5];

static void prepare(void) {
    for (size_t i = 0; i < K; i++)
        input[i] = (uint8_t)(block[i] - '0');
    memset(d0, 7, sizeof d0);
    memset(d1, 8, sizeof d1);
    memset(d2, 9, sizeof d2);
}

static bool same(const uint8_t *bits, const char *text) {
    for (size_t i = 0; text[i] != 0; i++)
        if (bits[i] != text[i] - '0')
            return false;
    return true;
}

static bool untouched(void) {
    for (size_t i = 0; i < K + 5; i++)
        if (d0[i] != 7 || d1[i] != 8 || d2[i] != 9)
            return false;
    return same(input, block);
}

static void encoding(void) {
    prepare();
    CHECK(turbo_encode(K, input, K, d0, K + 5, d1, K + 5, d2, K + 5) == TURBO_DONE);
    CHECK(same(d0, coded[0]) && same(d1, coded[1]) && same(d2, coded[2]));
    CHECK(d0[K + 4] == 7 && d1[K + 4] == 8 && d2[K + 4] == 9 && same(input, block));
    prepare();
    CHECK(turbo_encode(K, input, K, d0, K + 4, d1, K + 4, d2, K + 4) == TURBO_DONE);
    CHECK(same(d0, coded[0]) && same(d1, coded[1]) && same(d2, coded[2]));
}

static void refusals(void) {
    prepare();
    CHECK(turbo_encode(K + 1, input, K + 1, d0, K + 5, d1, K + 5, d2, K + 5) == TURBO_NO_ROW);
    CHECK(turbo_encode(K + 1, input, K, d0, K, d1, K, d2, K) == TURBO_NO_ROW);
    CHECK(turbo_encode(K, input, K - 1, d0, K + 4, d1, K + 4, d2, K + 4) == TURBO_NO_BLOCK);
    CHECK(turbo_encode(K, input, K + 1, d0, K, d1, K, d2, K) == TURBO_NO_BLOCK);
    CHECK(turbo_encode(K, input, K, d0, K + 3, d1, K + 4, d2, K + 4) == TURBO_NO_LIST);
    CHECK(turbo_encode(K, input, K, d0, K + 4, d1, K + 3, d2, K + 4) == TURBO_NO_LIST);
    CHECK(turbo_encode(K, input, K, d0, K + 4, d1, K + 4, d2, K + 3) == TURBO_NO_LIST);
    CHECK(turbo_encode(K, NULL, 0, NULL, 0, NULL, 0, NULL, 0) == TURBO_NO_BLOCK);
    CHECK(turbo_encode(K, input, K, NULL, 0, NULL, 0, NULL, 0) == TURBO_NO_LIST);
    CHECK(untouched());
    input[K - 1] = 2;
    CHECK(turbo_encode(K, input, K, d0, K + 4, d1, K + 4, d2, K + 4) == TURBO_NO_BLOCK);
    input[K - 1] = (uint8_t)(block[K - 1] - '0');
    CHECK(untouched());
}

static void rows(void) {
    struct turbo_row shortest = turbo_row(40), longest = turbo_row(6144), none = turbo_row(6145);
    CHECK(shortest.number == TURBO_DONE && shortest.f1 == 3 && shortest.f2 == 10);
    CHECK(longest.number == TURBO_DONE && longest.f1 == 263 && longest.f2 == 480);
    CHECK(none.number == TURBO_NO_ROW && none.f1 == 0 && none.f2 == 0);
}

int main(void) {
    encoding();
    refusals();
    rows();
    printf("turbo: %u checks, %u failed\n", checks, failed);
    return failed != 0;
}
