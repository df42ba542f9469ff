/* Counts checks; the first failures are printed, with the triple at hand. */
#ifndef CHECK_H
#define CHECK_H

#include <stdbool.h>
#include <stdint.h>

struct triple {
    uint32_t k, f1, f2;
};

void check(bool held, const char *what, const char *file, int line, struct triple t);

/* The enclosing function has a `struct triple t`. */
#define CHECK(condition) check((condition), #condition, __FILE__, __LINE__, t)

/* Repeatable random numbers. */
uint32_t any(void);
uint32_t below(uint32_t n); /* n is not 0 */

void test_calls(void);  /* worked cases, and each call on both sides of each limit */
void test_guards(void); /* not a byte is written that should not be */
void test_turbo(void);  /* the same of the encoder, and the two libraries together */
void test_random(void); /* everything from valid to nonsense, against the model */

#endif
