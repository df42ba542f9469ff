/*
 * Rows of the table: the encoder against that of IT++, in time. IT++ is given the same polynomials and our interleaver.
 * It is asked for its bits before it puts them into one list, which is the quicker of its two calls. First every bit is
 * compared, the twelve of the tail too: they stand elsewhere, so that each is held against its own.
 */
#include "turbo.h"
#include <algorithm>
#include <cstdio>
#include <cstdlib>
#include <ctime>
#include <itpp/itcomm.h>

static const uint32_t lengths[] = {40, 1024, 6144};
enum { LONGEST = 6144, COUNT = sizeof lengths / sizeof *lengths };

/* Not a multiple of 4096 bytes apart, as in bench.c. */
static struct {
    uint8_t input[LONGEST], gap1[832], d0[LONGEST + 4], gap2[828], d1[LONGEST + 4], gap3[828], d2[LONGEST + 4];
} room;

struct row {
    uint32_t k;
    struct turbo_row of;
    itpp::Turbo_Codec codec;
    itpp::bvec input, x, x2;
    itpp::bmat z, z2;
};

static void prepare(row &r, uint32_t k) {
    itpp::ivec polynomials(2), addresses(static_cast<int>(k));
    polynomials(0) = 013;
    polynomials(1) = 015;
    r.k = k;
    r.of = turbo_row(k);
    for (uint64_t i = 0; i < k; i++)
        addresses(static_cast<int>(i)) = static_cast<int>((r.of.f1 * i + r.of.f2 * i * i) % k);
    r.codec.set_parameters(polynomials, polynomials, 4, addresses);
    r.input.set_size(static_cast<int>(k));
    for (uint32_t i = 0; i < k; i++)
        r.input(static_cast<int>(i)) = room.input[i];
}

static void ours(row &r) {
    uint32_t n = r.k + 4;
    if (turbo_encode(r.k, room.input, r.k, room.d0, n, room.d1, n, room.d2, n) != TURBO_DONE)
        exit(1);
}

static void theirs(row &r) { r.codec.encode_block(r.input, r.x, r.x2, r.z, r.z2); }

/* Position i of the three lists. */
static bool holds(int i, itpp::bin a, itpp::bin b, itpp::bin c) {
    return room.d0[i] == a.value() && room.d1[i] == b.value() && room.d2[i] == c.value();
}

/* x and x2 are what the two coders take in, z and z2 what they put out, each with its tail. */
static bool same(row &r) {
    const int k = static_cast<int>(r.k);
    bool held = true;
    for (int i = 0; i < k; i++)
        held = held && holds(i, r.x(i), r.z(i, 0), r.z2(i, 0));
    return held && holds(k, r.x(k), r.z(k, 0), r.x(k + 1)) && holds(k + 1, r.z(k + 1, 0), r.x(k + 2), r.z(k + 2, 0)) &&
           holds(k + 2, r.x2(k), r.z2(k, 0), r.x2(k + 1)) && holds(k + 3, r.z2(k + 1, 0), r.x2(k + 2), r.z2(k + 2, 0));
}

static double now() {
    struct timespec t;
    clock_gettime(CLOCK_MONOTONIC, &t);
    return 1e9 * static_cast<double>(t.tv_sec) + static_cast<double>(t.tv_nsec);
}

static double lap(void (*side)(row &), row &r, int calls) {
    double begin = now();
    for (int i = 0; i < calls; i++)
        side(r);
    return (now() - begin) / calls;
}

int main() {
    static row rows[COUNT];
    double best[COUNT][2];
    for (int i = 0; i < LONGEST; i++)
        room.input[i] = static_cast<uint8_t>(i * 2654435761u >> 13 & 1);
    for (int i = 0; i < COUNT; i++) {
        row &r = rows[i];
        prepare(r, lengths[i]);
        ours(r);
        theirs(r);
        if (!same(r)) {
            fprintf(stderr, "turbo encode at %u: IT++ differs\n", r.k);
            return 1;
        }
        best[i][0] = best[i][1] = 1e30;
    }
    for (int laps = 0; laps < 100; laps++)
        for (int i = 0; i < COUNT; i++) {
            int calls = 1 + static_cast<int>(100000 / (1 + lap(ours, rows[i], 3)));
            best[i][0] = std::min(best[i][0], lap(ours, rows[i], calls));
            best[i][1] = std::min(best[i][1], lap(theirs, rows[i], 1 + calls / 8));
        }
    for (int i = 0; i < COUNT; i++)
        printf("turbo encode|%u (%u,%u)|IT++|-|-|%.1f|%.1f\n", rows[i].k, rows[i].of.f1, rows[i].of.f2, best[i][0],
               best[i][1]);
}
