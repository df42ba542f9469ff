/*
 * Each row sets a call of the library against C for the same job.
 *   bench rows    prints the rows, a line each
 *   bench count   makes each call once between drive_begin and drive_end, for a tool that counts instructions
 *   bench time    prints nanoseconds: the library's and C's, a line for each row
 * Every function of this file that may run in between, but for the walks, is main or has a name that begins with
 * drive_, so that it can be left out of the count.
 */
#include "plain.h"
#include <stdbool.h>
#include <stdio.h>
#include <stdlib.h>
#include <string.h>
#include <time.h>

struct row {
    const char *call, *against;
    uint32_t k, f1, f2;
    void (*ours)(const struct row *), (*theirs)(const struct row *);
};

/* Not a multiple of 4096 bytes apart: there a processor takes a load for one of what has just been stored. */
static struct {
    uint8_t bytes[8192], gap1[832], bytes_to[8192], gap2[832], scratch[1024];
    int16_t words[8192], gap3[416], words_to[8192], gap4[416];
    uint16_t list[8192], gap5[416], table[8192], gap6[416];
    uint8_t bits[6144], gap7[832];
    struct coded {
        uint8_t d0[6148], gap1[828], d1[6148], gap2[828], d2[6148];
    } coded;
} room;
static uint8_t *const bytes = room.bytes, *const bytes_to = room.bytes_to, *const scratch = room.scratch;
static int16_t *const words = room.words, *const words_to = room.words_to;
static uint16_t *const list = room.list, *const table = room.table;
static uint8_t *const bits = room.bits;
static struct coded *const coded = &room.coded;

/* What the call answered, so that the two can be compared: they do the same job. */
static struct qpp_inverse answer;

#define MOVE(NAME, FUNCTION, BLOCK)                                                         \
    static void drive_##NAME(const struct row *r) {                                         \
        answer.number = FUNCTION(r->k, r->f1, r->f2, BLOCK, r->k, scratch, (r->k + 7) / 8); \
    }
#define MOVES(WHAT, TYPE, BLOCK)                                   \
    MOVE(our_##WHAT##_##TYPE, qpp_##WHAT##_##TYPE, BLOCK)          \
    MOVE(plain_##WHAT##_##TYPE, plain_##WHAT##_##TYPE, BLOCK)      \
    MOVE(quick_##WHAT##_##TYPE, quick_##WHAT##_##TYPE, BLOCK)      \
    static void drive_table_##WHAT##_##TYPE(const struct row *r) { \
        table_##WHAT##_##TYPE(r->k, table, BLOCK, BLOCK##_to);     \
        answer.number = 0;                                         \
    }
MOVES(interleave, u8, bytes)
MOVES(deinterleave, u8, bytes)
MOVES(interleave, i16, words)
MOVES(deinterleave, i16, words)

#define NUMBER(NAME, CALL) \
    static void drive_##NAME(const struct row *r) { answer.number = CALL(r->k, r->f1, r->f2); }
NUMBER(our_accept, qpp_accept)
NUMBER(plain_accept, plain_accept)
NUMBER(marking, plain_accept_marking)

#define REASON(NAME, CALL)                                                \
    static void drive_##NAME(const struct row *r) {                       \
        struct qpp_reason v = CALL(r->k, r->f1, r->f2);                   \
        answer.number = v.number, answer.degree = v.y, answer.a[0] = v.x; \
        answer.a[1] = v.address, answer.a[2] = v.prime;                   \
    }
REASON(our_explain, qpp_explain)
REASON(plain_explain, plain_explain)
REASON(explain_table, plain_explain_table)

#define VALUE(NAME, CALL)                                  \
    static void drive_##NAME(const struct row *r) {        \
        struct qpp_value v = CALL;                         \
        answer.number = v.number, answer.degree = v.value; \
    }
VALUE(our_address, qpp_address(r->k, r->f1, r->f2, UINT32_MAX))
VALUE(plain_address, plain_address(r->k, r->f1, r->f2, UINT32_MAX))
VALUE(our_reciprocal, qpp_reciprocal(r->k, r->f1, r->f2))
VALUE(plain_reciprocal, plain_reciprocal(r->k, r->f1, r->f2))
VALUE(our_spread, qpp_spread(r->k, r->f1, r->f2))
VALUE(plain_spread, plain_spread(r->k, r->f1, r->f2))

static void drive_our_inverse(const struct row *r) { answer = qpp_inverse(r->k, r->f1, r->f2); }
static void drive_plain_inverse(const struct row *r) { answer = plain_inverse(r->k, r->f1, r->f2); }

#define LIST(NAME, CALL) \
    static void drive_##NAME(const struct row *r) { answer.number = CALL(r->k, r->f1, r->f2, list, 8192); }
LIST(our_addresses, qpp_addresses)
LIST(plain_addresses, plain_addresses)

#define FORM(NAME, CALL)                                                  \
    static void drive_##NAME(const struct row *r) {                       \
        struct qpp_arp v = CALL(r->k, r->f1, r->f2, list, 8192);          \
        answer.number = v.number, answer.degree = v.q, answer.a[0] = v.p; \
    }
FORM(our_arp, qpp_arp)
FORM(plain_arp, plain_arp)

/* K steps, with the loop that a caller writes: it is part of the count. */
#define WALK(NAME, STEP)                                                  \
    static __attribute__((noinline)) uint32_t NAME(struct qpp_walker w) { \
        uint32_t sum = 0;                                                 \
        for (uint32_t x = 0; x < w.k; x++) {                              \
            struct qpp_step s = STEP(w);                                  \
            sum += s.address;                                             \
            w = s.walker;                                                 \
        }                                                                 \
        return sum;                                                       \
    }                                                                     \
    static void drive_##NAME(const struct row *r) { answer.number = NAME((struct qpp_walker){r->k, r->f1, r->f2, 0}); }
WALK(our_walk, qpp_walker_step)
WALK(plain_walk, plain_walker_step)
NUMBER(loop, plain_loop)

#define ENCODE(NAME, CALL)                                                                \
    static void drive_##NAME(const struct row *r) {                                       \
        uint32_t n = r->k + 4;                                                            \
        answer.number = CALL(r->k, bits, r->k, coded->d0, n, coded->d1, n, coded->d2, n); \
    }
ENCODE(our_encode, turbo_encode)
ENCODE(plain_encode, plain_turbo_encode)

#define STANDARD(NAME, CALL)                                                \
    static void drive_##NAME(const struct row *r) {                         \
        struct turbo_row v = CALL(r->k);                                    \
        answer.number = v.number, answer.degree = v.f1, answer.a[0] = v.f2; \
    }
STANDARD(our_row, turbo_row)
STANDARD(plain_row, plain_turbo_row)

#define MOVE_ROWS(TEXT, WHAT, K, F1, F2)                                                 \
    {TEXT, "cycles in C", K, F1, F2, drive_our_##WHAT, drive_plain_##WHAT},              \
        {TEXT, "cycles in C, tuned", K, F1, F2, drive_our_##WHAT, drive_quick_##WHAT}, { \
        TEXT, "table, out of place", K, F1, F2, drive_our_##WHAT, drive_table_##WHAT     \
    }
#define SIZE_ROWS(K, F1, F2)                                                                                        \
    MOVE_ROWS("interleave u8", interleave_u8, K, F1, F2), MOVE_ROWS("deinterleave u8", deinterleave_u8, K, F1, F2), \
        MOVE_ROWS("interleave i16", interleave_i16, K, F1, F2),                                                     \
        MOVE_ROWS("deinterleave i16", deinterleave_i16, K, F1, F2)
#define ROWS(TEXT, NAME, AGAINST, THEIRS)                               \
    {TEXT, AGAINST, 40, 3, 10, drive_our_##NAME, drive_##THEIRS}, {     \
        TEXT, AGAINST, 6144, 263, 480, drive_our_##NAME, drive_##THEIRS \
    }
/* A pair of positions that is found at once, and one that takes about as long as any. */
#define REASON_ROWS(AGAINST, THEIRS)                                           \
    {"explain", AGAINST, 6144, 263, 481, drive_our_explain, drive_##THEIRS}, { \
        "explain", AGAINST, 8191, 1, 1, drive_our_explain, drive_##THEIRS      \
    }

static const struct row rows[] = {
    SIZE_ROWS(40, 3, 10),
    SIZE_ROWS(1024, 31, 64),
    SIZE_ROWS(6144, 263, 480),
    SIZE_ROWS(8192, 1, 2),
    ROWS("accept", accept, "marking every position", marking),
    ROWS("accept", accept, "the same in C", plain_accept),
    REASON_ROWS("the same in C", plain_explain),
    REASON_ROWS("table of positions", explain_table),
    ROWS("address", address, "the same in C", plain_address),
    ROWS("reciprocal", reciprocal, "the same in C", plain_reciprocal),
    ROWS("inverse", inverse, "the same in C", plain_inverse),
    {"inverse", "the same in C", 6016, 23, 94, drive_our_inverse, drive_plain_inverse},
    {"inverse", "the same in C", 8192, 1, 2, drive_our_inverse, drive_plain_inverse},
    ROWS("address list", addresses, "the same in C", plain_addresses),
    ROWS("ARP form", arp, "the same in C", plain_arp),
    ROWS("spread", spread, "the same in C", plain_spread),
    ROWS("walker, K steps", walk, "the same in C", plain_walk),
    ROWS("walker, K steps", walk, "loop with no walker", loop),
    ROWS("turbo encode", encode, "the same in C", plain_encode),
    {"turbo encode", "the same in C", 1024, 31, 64, drive_our_encode, drive_plain_encode},
    ROWS("turbo row", row, "the same in C", plain_row),
};
enum { COUNT = sizeof rows / sizeof *rows };

static void prepare(const struct row *r) {
    for (int i = 0; i < 8192; i++) {
        bytes[i] = (uint8_t)(i * 7);
        words[i] = (int16_t)(i * 12345);
    }
    memset(scratch, 0xaa, sizeof room.scratch);
    memset(list, 0, sizeof room.list);
    memset(&answer, 0, sizeof answer);
    for (uint32_t i = 0; i < sizeof room.bits; i++)
        bits[i] = i * 2654435761u >> 13 & 1;
    memset(coded, 9, sizeof *coded);
    plain_addresses(r->k, r->f1, r->f2, table, 8192);
}

/* Both sides answer the same, or the row says nothing. A table's result is elsewhere, and is fetched first; it uses no scratch. */
static void compare(const struct row *r) {
    static uint8_t b[8192];
    static int16_t w[8192];
    static uint16_t l[8192];
    static uint8_t s[1024];
    static struct coded c;
    prepare(r);
    r->ours(r);
    struct qpp_inverse a = answer;
    memcpy(b, bytes, sizeof b);
    memcpy(w, words, sizeof w);
    memcpy(l, list, sizeof l);
    memcpy(s, scratch, sizeof s);
    memcpy(&c, coded, sizeof c);
    prepare(r);
    r->theirs(r);
    bool moved = strcmp(r->against, "table, out of place") == 0;
    if (moved && strstr(r->call, "u8"))
        memcpy(bytes, bytes_to, r->k);
    if (moved && strstr(r->call, "i16"))
        memcpy(words, words_to, 2 * r->k);
    if (memcmp(&a, &answer, sizeof a) || memcmp(b, bytes, sizeof b) || memcmp(w, words, sizeof w) ||
        memcmp(l, list, sizeof l) || (!moved && memcmp(s, scratch, sizeof s)) || memcmp(&c, coded, sizeof c)) {
        fprintf(stderr, "%s at %u: the two sides differ\n", r->call, r->k);
        exit(1);
    }
}

/* The marks of the counting tool. */
__attribute__((noinline)) void drive_begin(void) { __asm__ volatile(""); }
__attribute__((noinline)) void drive_end(void) { __asm__ volatile(""); }

static void drive_count(void (*side)(const struct row *), const struct row *r) {
    drive_begin();
    side(r);
    drive_end();
}

static double now(void) {
    struct timespec t;
    clock_gettime(CLOCK_MONOTONIC, &t);
    return 1e9 * (double)t.tv_sec + (double)t.tv_nsec;
}

static double lap(void (*side)(const struct row *), const struct row *r, int calls) {
    double begin = now();
    for (int i = 0; i < calls; i++)
        side(r);
    return (now() - begin) / calls;
}

/*
 * The best of many laps: the two sides in turn, and all rows again and again, so that what else the machine does falls
 * on both sides and not on one row alone.
 */
static void clock_rows(void) {
    static double ours[COUNT], theirs[COUNT];
    for (int i = 0; i < COUNT; i++)
        ours[i] = theirs[i] = 1e30;
    for (int laps = 0; laps < 100; laps++)
        for (int i = 0; i < COUNT; i++) {
            const struct row *r = &rows[i];
            prepare(r);
            int calls = 1 + (int)(100000 / (1 + lap(r->ours, r, 3)));
            double a = lap(r->ours, r, calls), b = lap(r->theirs, r, calls);
            ours[i] = a < ours[i] ? a : ours[i];
            theirs[i] = b < theirs[i] ? b : theirs[i];
        }
    for (int i = 0; i < COUNT; i++)
        printf("%.1f %.1f\n", ours[i], theirs[i]);
}

int main(int argc, char **argv) {
    const char *what = argc > 1 ? argv[1] : "";
    if (strcmp(what, "time") == 0)
        clock_rows();
    for (int i = 0; i < COUNT; i++) {
        const struct row *r = &rows[i];
        if (strcmp(what, "rows") == 0) {
            compare(r);
            printf("%s|%u (%u,%u)|%s\n", r->call, r->k, r->f1, r->f2, r->against);
        } else if (strcmp(what, "count") == 0) {
            plain_addresses(r->k, r->f1, r->f2, table, 8192);
            drive_count(r->ours, r);
            drive_count(r->theirs, r);
        }
    }
    return 0;
}
