#include "model.h"
#include <string.h>

#define LONGEST 8192

const struct triple rows[ROWS] = {
#include "rows.inc"
};

/* Asked only for numbers in range: f2*x*x reaches nearly 2 to the 39th. */
uint32_t model_f(struct triple t, uint32_t x) {
    uint64_t y = x;
    return (uint32_t)((t.f1 * y + t.f2 * y * y) % t.k);
}

static uint32_t range(struct triple t) {
    if (t.k < 2 || t.k > LONGEST)
        return 1;
    if (t.f1 >= t.k || t.f2 >= t.k)
        return 2;
    return 0;
}

static bool permutes(struct triple t) {
    bool met[LONGEST];
    memset(met, 0, t.k);
    for (uint32_t x = 0; x < t.k; x++) {
        uint32_t y = model_f(t, x);
        if (met[y])
            return false;
        met[y] = true;
    }
    return true;
}

uint32_t model_accept(struct triple t) {
    /* The tests ask for the same triple many times over, so that the last answer is kept. */
    static struct triple last;
    static uint32_t number = 1;
    if (t.k != last.k || t.f1 != last.f1 || t.f2 != last.f2) {
        last = t;
        number = range(t) ? range(t) : permutes(t) ? 0 : 3;
    }
    return number;
}

static bool is_prime(uint32_t n) {
    for (uint32_t d = 2; d < n; d++)
        if (n % d == 0)
            return false;
    return n >= 2;
}

/* The power of p that divides k while the next does not; p divides k. */
static uint32_t full_power(uint32_t k, uint32_t p) {
    uint32_t power = p;
    while (k % (power * p) == 0)
        power *= p;
    return power;
}

static bool fails_at(struct triple t, uint32_t p) {
    return t.k % p == 0 && is_prime(p) && !permutes((struct triple){full_power(t.k, p), t.f1, t.f2});
}

/* From the first position of each address: y is the smallest that is not the first of its own. */
struct qpp_reason model_explain(struct triple t) {
    static uint32_t first[LONGEST];
    uint32_t number = model_accept(t), y = 0, prime = 2;
    if (number != 3)
        return (struct qpp_reason){number == 0 ? 8 : number, 0, 0, 0, 0};
    for (uint32_t x = t.k; x-- > 0;)
        first[model_f(t, x)] = x;
    while (first[model_f(t, y)] == y)
        y++;
    while (!fails_at(t, prime))
        prime++;
    return (struct qpp_reason){0, y, first[model_f(t, y)], model_f(t, y), prime};
}

struct qpp_value model_address(struct triple t, uint32_t x) {
    struct qpp_value r = {model_accept(t), 0};
    if (r.number == 0)
        r.value = model_f(t, x % t.k);
    return r;
}

/* The odd form of an accepted triple. */
static struct triple odd_form(struct triple t) {
    if (t.k % 2 != 0 || t.f1 % 2 != 0)
        return t;
    uint32_t half = t.k / 2;
    return (struct triple){t.k, (t.f1 + half) % t.k, (t.f2 + half) % t.k};
}

struct qpp_value model_reciprocal(struct triple t) {
    struct qpp_value r = {model_accept(t), 0};
    if (r.number == 0)
        while (r.value * odd_form(t).f1 % t.k != 1)
            r.value++;
    return r;
}

/* The shorter way round modulo k. */
static uint32_t distance(uint32_t k, uint32_t a, uint32_t b) {
    uint32_t along = a < b ? b - a : a - b;
    return along < k - along ? along : k - along;
}

/* May s be the spread? Any two positions less than s apart, across the end too, have addresses at least s apart. */
static bool spreads(const uint16_t *addresses, uint32_t k, uint32_t s) {
    for (uint32_t x = 0; x < k; x++)
        for (uint32_t d = 1; d < s; d++)
            if (distance(k, addresses[x], addresses[(x + d) % k]) < s)
                return false;
    return true;
}

/* What spreads by s spreads by less, so that the first s that fails ends the search. */
uint32_t model_spread_of(const uint16_t *addresses, uint32_t k) {
    uint32_t s = 1;
    while (s < k && spreads(addresses, k, s + 1))
        s++;
    return s;
}

struct qpp_value model_spread(struct triple t) {
    static uint16_t addresses[LONGEST];
    struct qpp_value r = {model_addresses(t, addresses, LONGEST), 0};
    if (r.number == 0)
        r.value = model_spread_of(addresses, t.k);
    return r;
}

/* f2*i*i mod K */
static uint32_t square_part(struct triple t, uint64_t i) { return (uint32_t)(t.f2 * i * i % t.k); }

static bool repeats(struct triple t, uint32_t q) {
    for (uint32_t i = 0; i < t.k; i++)
        if (square_part(t, i) != square_part(t, i + q))
            return false;
    return true;
}

struct qpp_arp model_arp(struct triple t, uint16_t *list, size_t n) {
    struct qpp_arp r = {model_accept(t), 0, 0};
    if (r.number != 0)
        return r;
    struct triple odd = odd_form(t);
    uint32_t q = 1;
    while (t.k % q != 0 || !repeats(odd, q))
        q++;
    if (n < q)
        return (struct qpp_arp){7, 0, 0};
    for (uint32_t j = 0; j < q; j++)
        list[j] = (uint16_t)square_part(odd, j);
    return (struct qpp_arp){0, odd.f1, q};
}

struct qpp_start model_start(struct triple t) {
    struct qpp_start r = {model_accept(t), {0, 0, 0, 0}};
    if (r.number == 0)
        r.walker = (struct qpp_walker){t.k, t.f1, t.f2, 0};
    return r;
}

struct qpp_step model_step(struct qpp_walker w) {
    struct triple t = {w.k, w.f1, w.f2};
    struct qpp_step r = {range(t), 0, {0, 0, 0, 0}};
    if (r.number == 0 && w.at >= w.k)
        r.number = 6;
    if (r.number == 0) {
        r.address = model_f(t, w.at);
        r.walker = w;
        r.walker.at = w.at == w.k - 1 ? 0 : w.at + 1;
    }
    return r;
}

uint32_t model_addresses(struct triple t, uint16_t *list, size_t n) {
    if (model_accept(t) != 0)
        return model_accept(t);
    if (n < t.k)
        return 7;
    for (uint32_t x = 0; x < t.k; x++)
        list[x] = (uint16_t)model_f(t, x);
    return 0;
}

uint32_t model_move(struct triple t, enum direction d, size_t width, void *block, size_t n, uint8_t *scratch,
                    size_t m) {
    static uint8_t old[2 * LONGEST];
    uint8_t *new = block;
    if (model_accept(t) != 0)
        return model_accept(t);
    if (n != t.k)
        return 4;
    if (m < (t.k + 7) / 8)
        return 5;
    memcpy(old, block, n * width);
    for (uint32_t i = 0; i < t.k; i++) {
        uint32_t other = model_f(t, i);
        if (d == INTERLEAVE)
            memcpy(new + i *width, old + other * width, width);
        else
            memcpy(new + other *width, old + i * width, width);
    }
    memset(scratch, 0, (t.k + 7) / 8);
    return 0;
}

/* K divided by gcd(K, j!), the divisor found by trying every one. */
uint32_t model_limit(uint32_t k, uint32_t j) {
    uint64_t factorial = 1;
    for (uint32_t i = 2; i <= j; i++)
        factorial *= i;
    uint32_t d = k;
    while (k % d != 0 || factorial % d != 0)
        d--;
    return k / d;
}

uint32_t model_value(const struct qpp_inverse *g, uint32_t k, uint32_t y) {
    uint64_t sum = 0, power = 1;
    for (int j = 0; j < 13; j++) {
        power = power * y % k;
        sum += g->a[j] * power;
    }
    return (uint32_t)(sum % k);
}

bool model_fits_inverse(struct triple t, const struct qpp_inverse *g) {
    bool refused = model_accept(t) != 0;
    if (g->number != model_accept(t))
        return false;
    if (refused ? g->degree != 0 : g->degree < 1 || g->degree > 13 || g->a[g->degree - 1] == 0)
        return false;
    for (uint32_t j = g->degree; j < 13; j++)
        if (g->a[j] != 0)
            return false;
    if (refused)
        return true;
    for (uint32_t j = 1; j <= g->degree; j++)
        if (g->a[j - 1] >= model_limit(t.k, j))
            return false;
    static uint32_t back[LONGEST];
    for (uint32_t x = 0; x < t.k; x++) {
        back[model_f(t, x)] = x;
        if (model_value(g, t.k, model_f(t, x)) != x)
            return false;
    }
    /* Least degree: the D-th difference of a polynomial of lower degree is 0 everywhere. Here it is not, at 0. The
     * table is gone on with from its start where it is short, since polynomials modulo K repeat with period K. */
    int64_t difference[14];
    for (uint32_t y = 0; y <= g->degree; y++)
        difference[y] = back[y % t.k];
    for (uint32_t left = g->degree; left > 0; left--)
        for (uint32_t y = 0; y < left; y++)
            difference[y] = difference[y + 1] - difference[y];
    return difference[0] % t.k != 0;
}

struct turbo_row model_row(uint32_t k) {
    for (size_t i = 0; i < ROWS; i++)
        if (rows[i].k == k)
            return (struct turbo_row){0, rows[i].f1, rows[i].f2};
    return (struct turbo_row){9, 0, 0};
}

/* The bit so many places before n. Before time 0 all are 0. */
static uint8_t before(const uint8_t *bits, uint32_t n, uint32_t places) { return n < places ? 0 : bits[n - places]; }

struct coded {
    uint8_t x[LONGEST + 3], z[LONGEST + 3];
};

/* One coder: x has K bits and gets three more, which leave nothing of the block behind. */
static void model_code(uint32_t k, struct coded *c) {
    static uint8_t w[LONGEST + 3];
    for (uint32_t n = 0; n < k + 3; n++) {
        uint8_t back = before(w, n, 2) ^ before(w, n, 3);
        if (n >= k)
            c->x[n] = back;
        w[n] = c->x[n] ^ back;
        c->z[n] = w[n] ^ before(w, n, 1) ^ before(w, n, 3);
    }
}

static uint32_t encodable(uint32_t k, const uint8_t *input, size_t n, struct lists lists) {
    if (model_row(k).number != 0)
        return 9;
    if (n != k)
        return 4;
    for (size_t i = 0; i < n; i++)
        if (input[i] != 0 && input[i] != 1)
            return 4;
    for (int i = 0; i < 3; i++)
        if (lists.n[i] < k + 4)
            return 7;
    return 0;
}

uint32_t model_encode(uint32_t k, const uint8_t *input, size_t n, struct lists lists) {
    static struct coded a, b;
    uint32_t number = encodable(k, input, n, lists);
    if (number != 0)
        return number;
    struct triple t = {k, model_row(k).f1, model_row(k).f2};
    for (uint32_t i = 0; i < k; i++) {
        a.x[i] = input[i];
        b.x[i] = input[model_f(t, i)];
    }
    model_code(k, &a);
    model_code(k, &b);
    const uint8_t *bodies[3] = {input, a.z, b.z};
    const uint8_t tails[3][4] = {
        {a.x[k], a.z[k + 1], b.x[k], b.z[k + 1]},
        {a.z[k], a.x[k + 2], b.z[k], b.x[k + 2]},
        {a.x[k + 1], a.z[k + 2], b.x[k + 1], b.z[k + 2]},
    };
    for (int i = 0; i < 3; i++) {
        memcpy(lists.d[i], bodies[i], k);
        memcpy(lists.d[i] + k, tails[i], 4);
    }
    return 0;
}
