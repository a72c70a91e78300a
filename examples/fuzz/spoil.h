/* For fuzz: what calls go on from, and the arguments of a call, as they should be or spoilt. */
#ifndef SPOIL_H
#define SPOIL_H

#include "expected.h"
enum { STATE, STORE, IN, OUT, OUTPUT, KEYS, DEADLINES, REGIONS };
#include "guarded.h"
#include <math.h>

static uint64_t rng;

static uint64_t any(void)
{
    rng ^= rng << 13, rng ^= rng >> 7, rng ^= rng << 17;
    return rng * 0x2545F4914F6CDD1Du;
}

static uint64_t below(uint64_t n)
{
    return (any() >> 16) % n;
}

static int chance(unsigned in)
{
    return below(in) == 0;
}

/* ---- what calls go on from */

#define WORDS 26      /* of a state, some more than it needs */
#define CAPACITY 6000 /* of the output */
#define TIMERS 6
#define POOL 24

static struct end {
    uint64_t words[WORDS];
    uint8_t store[PINDRELO_STORE_SIZE(PINDRELO_MAX_WINDOW)];
} sender, receiver;
static uint8_t output[CAPACITY];
static uint64_t timer_words[PINDRELO_TIMERS_WORDS], deadlines[TIMERS], now, single[PINDRELO_SINGLE_TIMER_WORDS];
static uint32_t keys[TIMERS];
static uint64_t estimator[PINDRELO_ESTIMATOR_WORDS];
static double factors[PINDRELO_ESTIMATOR_DOUBLES];
static struct { uint8_t bytes[PINDRELO_MAX_DATAGRAM]; size_t n; } pool[POOL];
static int wild; /* this call's arguments are spoilt */

static void remember(const uint8_t *d, size_t n)
{
    unsigned i = (unsigned)below(POOL);
    memcpy(pool[i].bytes, d, n);
    pool[i].n = n;
}

/* ---- spoiling */

static uint64_t boundary(uint64_t near)
{
    static const uint64_t at[] = {0, 1, 2, 31, 32, 33, 255, 256, 257, 258, 259, 260, 261, 262, 263, 264, 512, 1400,
                                  1401, 65535, 65536, UINT32_MAX, NUMBERS_END, PINDRELO_MAX_TIME,
                                  PINDRELO_MAX_DURATION, COUNTS_END, UINT64_C(1) << 32, UINT64_C(1) << 56,
                                  UINT64_C(1) << 63, UINT64_MAX};
    switch (below(4)) {
    case 0: return any() >> below(64);
    case 1: return near + below(5) - 2;
    default: return at[below(sizeof at / sizeof *at)] + below(3) - 1;
    }
}

/* a length: n, in a wild call at times another up to most */
static size_t length(size_t n, size_t most)
{
    if (!wild || !chance(4))
        return n < most ? n : most;
    size_t other[] = {0, 1, n ? n - 1 : 0, n + 1, n / 2, below(most + 1), below(40)};
    n = other[below(sizeof other / sizeof *other)];
    return n < most ? n : most;
}

static void *give(int i, const void *bytes, size_t have, size_t n)
{
    return lend(i, bytes, have, n, chance(2), chance(2));
}

static uint64_t *give_words(const uint64_t *words, size_t n)
{
    uint64_t w[WORDS];
    memcpy(w, words, n * sizeof *w);
    if (wild && chance(3))
        for (int i = chance(3) ? 2 : 1; i--;) {
            size_t at = below(n);
            w[at] = boundary(w[at]);
        }
    return give(STATE, w, n * sizeof *w, 8 * length(n, WORDS));
}

static double any_double(void)
{
    static const double at[] = {0, -0.0, 0.125, 0.25, 1, 1.0000000000000002, 4, 16, 16.000000000000004, -1, 1e308,
                                5e-324, INFINITY, -INFINITY, NAN};
    return at[below(sizeof at / sizeof *at)];
}

static double *give_doubles(const double *doubles, size_t n)
{
    double d[PINDRELO_ESTIMATOR_DOUBLES];
    memcpy(d, doubles, n * sizeof *d);
    if (wild && chance(4))
        d[below(n)] = any_double();
    return give(DEADLINES, d, n * sizeof *d, 8 * length(n, n + 2));
}

/* how many slots words speak of */
static size_t slots_of(const struct end *e)
{
    return e->words[1] <= PINDRELO_MAX_WINDOW ? e->words[1] : 0;
}

static uint8_t *give_store(struct end *e)
{
    size_t n = PINDRELO_STORE_SIZE(slots_of(e));
    uint8_t *store = give(STORE, e->store, n, length(n + (chance(8) ? below(20) : 0), n + SLOT_SIZE));
    if (wild && chance(4) && regions[STORE].length >= SLOT_SIZE) { /* a length, a mark, the flags, a byte */
        size_t at = below(regions[STORE].length / SLOT_SIZE) * SLOT_SIZE + (chance(4) ? below(SLOT_SIZE) : below(4));
        store[at] = chance(2) ? (uint8_t)below(4) : (uint8_t)any();
        regions[STORE].copy[at] = store[at];
    }
    return store;
}

static struct words state_lent(void)
{
    return (struct words){(const uint64_t *)(const void *)regions[STATE].at, regions[STATE].length / 8};
}

static struct bytes lent(int i)
{
    return (struct bytes){regions[i].at, regions[i].length};
}

/* a packet of any kind, numbered near an end's base, its checksum mostly right */
static size_t craft(uint8_t *d)
{
    static const size_t lengths[] = {0, 1, 2, 3, 1399, 1400, 1401, 1500, 65535};
    size_t n = lengths[below(chance(8) ? 9 : 6)];
    uint64_t number = (chance(2) ? sender : receiver).words[2] + below(70) - 35;
    if (chance(8))
        number = boundary(NUMBERS_END);
    for (int i = 0; i < 4; i++)
        d[i] = (uint8_t)(number >> (24 - 8 * i));
    d[4] = (uint8_t)(1 + below(3));
    d[5] = (uint8_t)below(2);
    d[6] = (uint8_t)(n >> 8), d[7] = (uint8_t)n;
    memset(d + 10, (int)any(), n);
    unsigned sum = checksum(d, 10 + n);
    d[8] = (uint8_t)(sum >> 8), d[9] = (uint8_t)sum;
    return 10 + n;
}

static uint8_t *give_datagram(void)
{
    static uint8_t d[ROOM];
    size_t n;
    if (chance(3))
        n = craft(d);
    else if (chance(12)) {
        n = below(30);
        for (size_t i = 0; i < n; i++)
            d[i] = (uint8_t)below(4);
    } else {
        unsigned i = (unsigned)below(POOL);
        n = pool[i].n;
        memcpy(d, pool[i].bytes, n);
    }
    if (wild && n && chance(3))
        d[chance(2) && n > 9 ? below(10) : below(n)] ^= (uint8_t)(1u << below(8));
    return give(IN, d, n, length(n, n + 100));
}

static uint8_t *give_out(int i, size_t n)
{
    uint8_t *out = give(i, NULL, 0, length(n, ROOM - PAGE));
    memset(regions[i].at, 0x5A, regions[i].length);
    memset(regions[i].copy, 0x5A, regions[i].length);
    return out;
}

#endif
