#include "plain.h"
#include <stdbool.h>
#include <string.h>

struct pair {
    uint32_t f1, f2;
};

/* In 64 bits: f2*x*x reaches nearly 2 to the 39th. */
static inline uint32_t place(uint32_t k, uint32_t f1, uint32_t f2, uint32_t x) {
    return (uint32_t)((f1 + (uint64_t)f2 * x) * x % k);
}

static inline struct pair odd_form(uint32_t k, uint32_t f1, uint32_t f2) {
    if ((k | f1) & 1)
        return (struct pair){f1, f2};
    uint32_t half = k / 2;
    return (struct pair){(f1 + half) % k, (f2 + half) % k};
}

static inline uint32_t gcd(uint32_t a, uint32_t b) {
    while (b != 0) {
        uint32_t rest = a % b;
        a = b;
        b = rest;
    }
    return a;
}

static inline uint32_t range(uint32_t k, uint32_t f1, uint32_t f2) {
    if (k < 2 || k > 8192)
        return QPP_NO_LENGTH;
    if (f1 >= k || f2 >= k)
        return QPP_NO_COEFFICIENT;
    return QPP_DONE;
}

/* By one gcd and four squares, as the library does it. */
static inline uint32_t judge(uint32_t k, uint32_t f1, uint32_t f2) {
    uint32_t number = range(k, f1, f2);
    if (number != QPP_DONE)
        return number;
    struct pair odd = odd_form(k, f1, f2);
    if (gcd(odd.f1, k) != 1)
        return QPP_NO_SHUFFLE;
    uint32_t f = odd.f2;
    for (int i = 0; i < 4; i++)
        f = f * f % k;
    return f == 0 ? QPP_DONE : QPP_NO_SHUFFLE;
}

uint32_t plain_accept(uint32_t k, uint32_t f1, uint32_t f2) { return judge(k, f1, f2); }

uint32_t plain_accept_marking(uint32_t k, uint32_t f1, uint32_t f2) {
    bool met[8192];
    uint32_t number = range(k, f1, f2);
    if (number != QPP_DONE)
        return number;
    memset(met, 0, k);
    for (uint32_t x = 0; x < k; x++) {
        uint32_t y = place(k, f1, f2, x);
        if (met[y])
            return QPP_NO_SHUFFLE;
        met[y] = true;
    }
    return QPP_DONE;
}

static inline void mark(uint8_t *s, size_t i) { s[i / 8] |= (uint8_t)(1 << i % 8); }
static inline bool marked(const uint8_t *s, size_t i) { return s[i / 8] >> i % 8 & 1; }

/* n modulo k, for n below 2*k */
static inline uint32_t reduced(uint32_t n, uint32_t k) { return n < k ? n : n - k; }

/* a - b modulo k */
static inline size_t lowered(size_t a, size_t b, size_t k) { return a < b ? a + k - b : a - b; }

/* The addresses in a row, each from the one before by two differences, which take less time here than sums. */
struct walk {
    size_t address, fall, twice;
};

static inline struct walk walk_start(uint32_t k, uint32_t f1, uint32_t f2) {
    return (struct walk){0, lowered(lowered(0, f1, k), f2, k), reduced(2 * f2, k)};
}

static inline struct walk walk_on(struct walk w, uint32_t k) {
    return (struct walk){lowered(w.address, w.fall, k), lowered(w.fall, w.twice, k), w.twice};
}

/* The least prime at whose full power a refused triple fails. The last is not tried: it fails if no other does. */
static inline uint32_t failing_prime(uint32_t k, uint32_t f1, uint32_t f2) {
    uint32_t rest = k;
    for (uint32_t p = 2; p * p <= rest; p += p == 2 ? 1 : 2) {
        uint32_t power = 1;
        for (; rest % p == 0; rest /= p)
            power *= p;
        if (power > 1 && judge(power, f1 % power, f2 % power) != QPP_DONE)
            return p;
    }
    return rest;
}

static inline struct qpp_reason unexplained(uint32_t number) {
    return (struct qpp_reason){number == QPP_DONE ? QPP_NOTHING_TO_EXPLAIN : number, 0, 0, 0, 0};
}

/* A bit marks each address that was met; the position that had the one met again is found by another walk. */
struct qpp_reason plain_explain(uint32_t k, uint32_t f1, uint32_t f2) {
    uint8_t met[1024];
    uint32_t number = judge(k, f1, f2), y = 0, x = 0;
    if (number != QPP_NO_SHUFFLE)
        return unexplained(number);
    memset(met, 0, (k + 7) / 8);
    struct walk later = walk_start(k, f1, f2), earlier = later;
    for (; !marked(met, later.address); y++) {
        mark(met, later.address);
        later = walk_on(later, k);
    }
    for (; earlier.address != later.address; x++)
        earlier = walk_on(earlier, k);
    return (struct qpp_reason){QPP_DONE, y, x, later.address, failing_prime(k, f1, f2)};
}

struct qpp_reason plain_explain_table(uint32_t k, uint32_t f1, uint32_t f2) {
    uint16_t position[8192];
    uint32_t number = judge(k, f1, f2), y = 0;
    if (number != QPP_NO_SHUFFLE)
        return unexplained(number);
    memset(position, 0xff, k * sizeof *position);
    struct walk w = walk_start(k, f1, f2);
    for (; position[w.address] == UINT16_MAX; y++) {
        position[w.address] = (uint16_t)y;
        w = walk_on(w, k);
    }
    return (struct qpp_reason){QPP_DONE, y, position[w.address], w.address, failing_prime(k, f1, f2)};
}

struct qpp_value plain_address(uint32_t k, uint32_t f1, uint32_t f2, uint32_t x) {
    uint32_t number = judge(k, f1, f2);
    if (number != QPP_DONE)
        return (struct qpp_value){number, 0};
    return (struct qpp_value){QPP_DONE, place(k, f1, f2, x % k)};
}

static inline uint32_t unit(uint32_t k, uint32_t a) {
    uint32_t upper = k, upper_by = 0, lower = a, lower_by = 1;
    while (lower != 0) {
        uint32_t quotient = upper / lower, rest = upper % lower;
        uint32_t rest_by = (upper_by + quotient * (k - lower_by)) % k;
        upper = lower;
        upper_by = lower_by;
        lower = rest;
        lower_by = rest_by;
    }
    return upper_by;
}

struct qpp_value plain_reciprocal(uint32_t k, uint32_t f1, uint32_t f2) {
    uint32_t number = judge(k, f1, f2);
    if (number != QPP_DONE)
        return (struct qpp_value){number, 0};
    return (struct qpp_value){QPP_DONE, unit(k, odd_form(k, f1, f2).f1)};
}

static inline void fill(uint32_t k, uint32_t f1, uint32_t f2, uint16_t *list, uint32_t n) {
    struct walk w = walk_start(k, f1, f2);
    for (uint32_t x = 0; x < n; x++, w = walk_on(w, k))
        list[x] = (uint16_t)w.address;
}

uint32_t plain_addresses(uint32_t k, uint32_t f1, uint32_t f2, uint16_t *list, size_t n) {
    uint32_t number = judge(k, f1, f2);
    if (number != QPP_DONE)
        return number;
    if (n < k)
        return QPP_NO_LIST;
    fill(k, f1, f2, list, k);
    return QPP_DONE;
}

struct qpp_arp plain_arp(uint32_t k, uint32_t f1, uint32_t f2, uint16_t *list, size_t n) {
    uint32_t number = judge(k, f1, f2);
    if (number != QPP_DONE)
        return (struct qpp_arp){number, 0, 0};
    struct pair odd = odd_form(k, f1, f2);
    uint32_t q = k / gcd(k, 2 * odd.f2);
    if (q % 2 != 0 && odd.f2 * q % k != 0)
        q *= 2;
    if (n < q)
        return (struct qpp_arp){QPP_NO_LIST, 0, 0};
    fill(k, 0, odd.f2, list, q);
    return (struct qpp_arp){QPP_DONE, odd.f1, q};
}

/*
 * The addresses listed; then the least distance at each step apart, from 1 up, until one settles it. For each step the
 * list goes on from its start by one, so that a single loop has the pairs across the end too; no step is above half of
 * K. Round the circle two addresses are closest where they are closest along the line, or farthest. 16 bits with a
 * sign, since of these alone x86-64 takes the lesser and the greater in vectors.
 */
struct qpp_value plain_spread(uint32_t k, uint32_t f1, uint32_t f2) {
    uint16_t list[8192 + 4096];
    uint32_t number = judge(k, f1, f2);
    if (number != QPP_DONE)
        return (struct qpp_value){number, 0};
    fill(k, f1, f2, list, k);
    uint16_t s = 1;
    int16_t least = (int16_t)k, greatest = 0;
    for (; s < least && s < k - greatest; s++) {
        list[k + s - 1] = list[s - 1];
        const uint16_t *later = list + s;
        for (size_t x = 0; x < k; x++) {
            int16_t a = (int16_t)list[x], b = (int16_t)later[x];
            int16_t high = a > b ? a : b, low = a > b ? b : a;
            int16_t apart = (int16_t)(high - low);
            least = apart < least ? apart : least;
            greatest = apart > greatest ? apart : greatest;
        }
        if (least <= s || k - greatest <= s)
            break;
    }
    return (struct qpp_value){QPP_DONE, s};
}

static const uint32_t catalan[13] = {1, 1, 2, 5, 14, 42, 132, 429, 1430, 4862, 16796, 58786, 208012};
/* y(y+1)...(y+n-1): of each n from 1 to 13 the coefficients at the places 1 to n */
static const uint32_t rising[91] = {
    1,        1,       1,      2,     3,     1,     6,         11,         6,          1,          24,        50,
    35,       10,      1,      120,   274,   225,   85,        15,         1,          720,        1764,      1624,
    735,      175,     21,     1,     5040,  13068, 13132,     6769,       1960,       322,        28,        1,
    40320,    109584,  118124, 67284, 22449, 4536,  546,       36,         1,          362880,     1026576,   1172700,
    723680,   269325,  63273,  9450,  870,   45,    1,         3628800,    10628640,   12753576,   8409500,   3416930,
    902055,   157773,  18150,  1320,  55,    1,     39916800,  120543840,  150917976,  105258076,  45995730,  13339535,
    2637558,  357423,  32670,  1925,  66,    1,     479001600, 1486442880, 1931559552, 1414014888, 657206836, 206070150,
    44990231, 6926634, 749463, 55770, 2717,  78,    1,
};

/* The series, as far as its powers are not 0; then from its top place down what is above the limit taken away. */
struct qpp_inverse plain_inverse(uint32_t k, uint32_t f1, uint32_t f2) {
    struct qpp_inverse r = {judge(k, f1, f2), 0, {0}};
    if (r.number != QPP_DONE)
        return r;
    struct pair odd = odd_form(k, f1, f2);
    uint32_t power = unit(k, odd.f1), limit[14] = {k}, top = 0;
    uint32_t step = (k - 1) * (odd.f2 * (power * power % k) % k) % k;
    for (; top < 13 && power != 0; top++) {
        r.a[top] = power * catalan[top];
        power = power * step % k;
    }
    for (uint32_t j = 1; j <= top; j++)
        limit[j] = limit[j - 1] / gcd(limit[j - 1], j);
    for (uint32_t n = top; n > 0; n--) {
        uint32_t a = r.a[n - 1] %= k;
        if (a >= limit[n]) {
            uint32_t rest = r.a[n - 1] = a % limit[n], times = k - (a - rest);
            const uint32_t *row = rising + n * (n - 1) / 2;
            for (uint32_t j = 0; j < n - 1; j++)
                r.a[j] += times * (row[j] % k);
        }
    }
    for (r.degree = top; r.degree > 0 && r.a[r.degree - 1] == 0;)
        r.degree--;
    return r;
}

struct qpp_step plain_walker_step(struct qpp_walker w) {
    uint32_t number = range(w.k, w.f1, w.f2);
    if (number == QPP_DONE && w.at >= w.k)
        number = QPP_NO_POSITION;
    if (number != QPP_DONE)
        return (struct qpp_step){number, 0, {0, 0, 0, 0}};
    uint32_t next = w.at + 1 == w.k ? 0 : w.at + 1;
    return (struct qpp_step){QPP_DONE, place(w.k, w.f1, w.f2, w.at), {w.k, w.f1, w.f2, next}};
}

uint32_t plain_loop(uint32_t k, uint32_t f1, uint32_t f2) {
    uint32_t sum = 0;
    for (uint32_t x = 0; x < k; x++)
        sum += place(k, f1, f2, x);
    return sum;
}

static inline uint32_t movable(uint32_t k, uint32_t f1, uint32_t f2, size_t n, size_t m) {
    uint32_t number = judge(k, f1, f2);
    if (number != QPP_DONE)
        return number;
    if (n != k)
        return QPP_NO_BLOCK;
    if (m < (k + 7) / 8)
        return QPP_NO_SCRATCH;
    return QPP_DONE;
}

/* The first place from i on that has no mark; n or more if there is none. */
static inline size_t next_free(const uint8_t *s, size_t i, size_t n) {
    while (i < n && marked(s, i))
        i++;
    return i;
}

/*
 * The same, passing over a byte that is full. To count the zeros of a byte takes fewer instructions and more time: the
 * next cycle must wait for the count, where a test of a bit is foreseen.
 */
static inline size_t quick_next_free(const uint8_t *s, size_t i, size_t n) {
    while (i < n && marked(s, i))
        i = s[i / 8] == 255 ? i / 8 * 8 + 8 : i + 1;
    return i;
}

/*
 * f with no division. one is 2 to the 64th divided by k, rounded up; by1 and by2 are f1 and f2 times that. The
 * product's lower half is the fraction of f1*x + f2*x*x by k, and k times it has the remainder above the point.
 */
struct map {
    uint64_t by1, by2;
};

static inline struct map quick_map(uint32_t k, uint32_t f1, uint32_t f2) {
    uint64_t one = UINT64_MAX / k + 1;
    return (struct map){one * f1, one * f2};
}

static inline size_t quick_place(struct map q, uint32_t k, size_t x) {
    return (size_t)((unsigned __int128)((q.by1 + q.by2 * x) * x) * k >> 64);
}

/* Each place takes the symbol of the place that f leads to. WITH declares what PLACE, f at i, makes use of. */
#define INTERLEAVE(FUNCTION, TYPE, NEXT_FREE, WITH, PLACE)                                                 \
    uint32_t FUNCTION(uint32_t k, uint32_t f1, uint32_t f2, TYPE *block, size_t n, uint8_t *s, size_t m) { \
        uint32_t number = movable(k, f1, f2, n, m);                                                        \
        if (number != QPP_DONE)                                                                            \
            return number;                                                                                 \
        WITH;                                                                                              \
        memset(s, 0, (n + 7) / 8);                                                                         \
        for (size_t start = 0; start < n; start = NEXT_FREE(s, start + 1, n)) {                            \
            TYPE first = block[start];                                                                     \
            size_t i = start;                                                                              \
            for (;;) {                                                                                     \
                mark(s, i);                                                                                \
                size_t next = PLACE;                                                                       \
                if (next == start)                                                                         \
                    break;                                                                                 \
                block[i] = block[next];                                                                    \
                i = next;                                                                                  \
            }                                                                                              \
            block[i] = first;                                                                              \
        }                                                                                                  \
        memset(s, 0, (n + 7) / 8);                                                                         \
        return QPP_DONE;                                                                                   \
    }

/* Each symbol goes to the place that f leads to, and the one that stood there is carried on. */
#define DEINTERLEAVE(FUNCTION, TYPE, NEXT_FREE, WITH, PLACE)                                               \
    uint32_t FUNCTION(uint32_t k, uint32_t f1, uint32_t f2, TYPE *block, size_t n, uint8_t *s, size_t m) { \
        uint32_t number = movable(k, f1, f2, n, m);                                                        \
        if (number != QPP_DONE)                                                                            \
            return number;                                                                                 \
        WITH;                                                                                              \
        memset(s, 0, (n + 7) / 8);                                                                         \
        for (size_t start = 0; start < n; start = NEXT_FREE(s, start + 1, n)) {                            \
            TYPE carried = block[start];                                                                   \
            size_t i = start;                                                                              \
            do {                                                                                           \
                mark(s, i);                                                                                \
                i = PLACE;                                                                                 \
                TYPE held = block[i];                                                                      \
                block[i] = carried;                                                                        \
                carried = held;                                                                            \
            } while (i != start);                                                                          \
        }                                                                                                  \
        memset(s, 0, (n + 7) / 8);                                                                         \
        return QPP_DONE;                                                                                   \
    }

#define DIVIDED next_free, , (f1 + (uint64_t)f2 * i) * i % n
#define MULTIPLIED quick_next_free, struct map map = quick_map(k, f1, f2), quick_place(map, k, i)
#define EXPAND(WHAT, ...) WHAT(__VA_ARGS__)
EXPAND(INTERLEAVE, plain_interleave_u8, uint8_t, DIVIDED)
EXPAND(INTERLEAVE, plain_interleave_i16, int16_t, DIVIDED)
EXPAND(DEINTERLEAVE, plain_deinterleave_u8, uint8_t, DIVIDED)
EXPAND(DEINTERLEAVE, plain_deinterleave_i16, int16_t, DIVIDED)
EXPAND(INTERLEAVE, quick_interleave_u8, uint8_t, MULTIPLIED)
EXPAND(INTERLEAVE, quick_interleave_i16, int16_t, MULTIPLIED)
EXPAND(DEINTERLEAVE, quick_deinterleave_u8, uint8_t, MULTIPLIED)
EXPAND(DEINTERLEAVE, quick_deinterleave_i16, int16_t, MULTIPLIED)

#define THROUGH_TABLE(TYPE, NAME)                                                                          \
    void table_interleave_##NAME(size_t k, const uint16_t *table, const TYPE *from, TYPE *restrict to) {   \
        for (size_t i = 0; i < k; i++)                                                                     \
            to[i] = from[table[i]];                                                                        \
    }                                                                                                      \
    void table_deinterleave_##NAME(size_t k, const uint16_t *table, const TYPE *from, TYPE *restrict to) { \
        for (size_t i = 0; i < k; i++)                                                                     \
            to[table[i]] = from[i];                                                                        \
    }
THROUGH_TABLE(uint8_t, u8)
THROUGH_TABLE(int16_t, i16)

static const struct standard {
    uint16_t k, f1, f2;
} standard[] = {
#include "rows.inc"
};

/* The lengths go up by 8, from 512 on by 16, from 1024 on by 32, from 2048 on by 64. */
static inline const struct standard *standard_row(uint32_t k) {
    if (k < 40 || k > 6144)
        return NULL;
    uint32_t i = k <= 512 ? k / 8 - 5 : k <= 1024 ? k / 16 + 27 : k <= 2048 ? k / 32 + 59 : k / 64 + 91;
    return standard[i].k == k ? &standard[i] : NULL;
}

struct turbo_row plain_turbo_row(uint32_t k) {
    const struct standard *row = standard_row(k);
    return row ? (struct turbo_row){TURBO_DONE, row->f1, row->f2} : (struct turbo_row){TURBO_NO_ROW, 0, 0};
}

/*
 * For each bit taken in, the state that each state leads to, and what is put out. A state is 4*w(n-1) + 2*w(n-2) +
 * w(n-3). Two tables of bytes take less time than one of pairs, and than sums with no table.
 */
static const uint8_t next_state[2][8] = {{0, 4, 5, 1, 2, 6, 7, 3}, {4, 0, 1, 5, 6, 2, 3, 7}};
static const uint8_t parity[2][8] = {{0, 0, 1, 1, 1, 1, 0, 0}, {1, 1, 0, 0, 0, 0, 1, 1}};

struct tail {
    uint8_t x[3], z[3];
};

/* The bit taken in is the one fed back, so that a 0 goes into the state. */
static inline struct tail tail(uint32_t state) {
    struct tail t;
    for (int i = 0; i < 3; i++) {
        t.x[i] = (state >> 1 ^ state) & 1;
        t.z[i] = parity[t.x[i]][state];
        state >>= 1;
    }
    return t;
}

static inline bool all_bits(const uint8_t *input, size_t n) {
    uint8_t met = 0;
    for (size_t i = 0; i < n; i++)
        met |= input[i];
    return met <= 1;
}

/* Beside the coders two sums for an address take less time than two differences. */
uint32_t plain_turbo_encode(uint32_t k, const uint8_t *input, size_t n, uint8_t *restrict d0, size_t n0,
                            uint8_t *restrict d1, size_t n1, uint8_t *restrict d2, size_t n2) {
    const struct standard *row = standard_row(k);
    if (!row)
        return TURBO_NO_ROW;
    if (n != k || !all_bits(input, n))
        return TURBO_NO_BLOCK;
    if (n0 < k + 4 || n1 < k + 4 || n2 < k + 4)
        return TURBO_NO_LIST;
    uint32_t address = 0, rise = reduced(row->f1 + row->f2, k), twice = reduced(2u * row->f2, k);
    size_t first = 0, second = 0;
    for (uint32_t i = 0; i < k; i++) {
        uint8_t a = input[i], b = input[address];
        d0[i] = a;
        d1[i] = parity[a][first];
        d2[i] = parity[b][second];
        first = next_state[a][first];
        second = next_state[b][second];
        address = reduced(address + rise, k);
        rise = reduced(rise + twice, k);
    }
    struct tail a = tail(first), b = tail(second);
    const uint8_t tails[3][4] = {
        {a.x[0], a.z[1], b.x[0], b.z[1]},
        {a.z[0], a.x[2], b.z[0], b.x[2]},
        {a.x[1], a.z[2], b.x[1], b.z[2]},
    };
    memcpy(d0 + k, tails[0], 4);
    memcpy(d1 + k, tails[1], 4);
    memcpy(d2 + k, tails[2], 4);
    return TURBO_DONE;
}
