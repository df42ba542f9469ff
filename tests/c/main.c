#include "check.h"
#include "qpp.h"
#include "turbo.h"
#include <stdio.h>

/* The layout that a caller in another language relies on. */
_Static_assert(sizeof(struct qpp_value) == 8, "number, value");
_Static_assert(offsetof(struct qpp_value, value) == 4, "value");
_Static_assert(sizeof(struct qpp_reason) == 20, "number, y, x, address, prime");
_Static_assert(offsetof(struct qpp_reason, y) == 4 && offsetof(struct qpp_reason, x) == 8, "y, x");
_Static_assert(offsetof(struct qpp_reason, address) == 12, "address");
_Static_assert(offsetof(struct qpp_reason, prime) == 16, "prime");
_Static_assert(sizeof(struct qpp_inverse) == 60, "number, degree, thirteen places");
_Static_assert(offsetof(struct qpp_inverse, degree) == 4, "degree");
_Static_assert(offsetof(struct qpp_inverse, a) == 8, "a1");
_Static_assert(sizeof(struct qpp_arp) == 12, "number, P, Q");
_Static_assert(offsetof(struct qpp_arp, p) == 4 && offsetof(struct qpp_arp, q) == 8, "P, Q");
_Static_assert(sizeof(struct qpp_walker) == 16, "K, f1, f2, position");
_Static_assert(offsetof(struct qpp_walker, f1) == 4 && offsetof(struct qpp_walker, f2) == 8, "f1, f2");
_Static_assert(offsetof(struct qpp_walker, at) == 12, "position");
_Static_assert(sizeof(struct qpp_start) == 20, "number, walker");
_Static_assert(offsetof(struct qpp_start, walker) == 4, "walker");
_Static_assert(sizeof(struct qpp_step) == 24, "number, address, walker");
_Static_assert(offsetof(struct qpp_step, address) == 4 && offsetof(struct qpp_step, walker) == 8, "address, walker");
_Static_assert(sizeof(struct turbo_row) == 12, "number, f1, f2");
_Static_assert(offsetof(struct turbo_row, f1) == 4 && offsetof(struct turbo_row, f2) == 8, "f1, f2");

static unsigned long checks, failed;

void check(bool held, const char *what, const char *file, int line, struct triple t) {
    checks++;
    if (held)
        return;
    if (failed++ < 20)
        printf("%s:%d: at %u (%u,%u): %s\n", file, line, t.k, t.f1, t.f2, what);
}

/* splitmix64, from a fixed seed: a failure comes again. */
uint32_t any(void) {
    static uint64_t state = 6144;
    uint64_t z = state += 0x9e3779b97f4a7c15u;
    z = (z ^ z >> 30) * 0xbf58476d1ce4e5b9u;
    z = (z ^ z >> 27) * 0x94d049bb133111ebu;
    return (uint32_t)(z >> 32);
}

uint32_t below(uint32_t n) { return any() % n; }

int main(void) {
    test_calls();
    test_guards();
    test_turbo();
    test_random();
    printf("c: %lu checks, %lu failed\n", checks, failed);
    return failed != 0;
}
