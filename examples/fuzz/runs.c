/* runs: pindrelo_run with wild arguments.
 *
 *     runs [CALLS [SEED]]
 *
 * Setups, files, rolls and lengths are random, every second time with some of them spoilt; what is lent lies in guarded
 * memory (guarded.h). Each status is compared with the one worked out from the header, every lent byte after a refusal
 * with what it was, and of a run that was made what the header promises: the outcome's place, the output up to the fill
 * mark and no further, the file where it says so, and "ended" with the sizes that it names. */
#define _GNU_SOURCE
enum {
    NUMBERS, REALS, DATA, FORWARD, REVERSE, SENDER, RECEIVER, OUTPUT, NOTES, EVENTS, FORWARD_RECORDS, FORWARD_PLACES,
    REVERSE_RECORDS, REVERSE_PLACES, KEYS, DEADLINES, WORDS, ESTIMATOR, DOUBLES, REGIONS
};
#include "../../include/pindrelo.h"
#include "guarded.h"
#include <math.h>
#include <signal.h>
#include <stdio.h>
#include <stdlib.h>
#include <unistd.h>

#define PLACE 1410
#define MOST_CHUNKS 12
#define MOST_RESENDS 12

static uint64_t rng;
static unsigned long long calls, seed, met[16], completed;
static size_t count[REGIONS], size[REGIONS]; /* elements lent, bytes of one */

static uint64_t below(uint64_t n)
{
    rng ^= rng << 13;
    rng ^= rng >> 7;
    rng ^= rng << 17;
    return rng % n;
}

static void fault(int number)
{
    char s[120];
    int n = snprintf(s, sizeof s, "runs: signal %d, call %llu of seed %llu\n", number, calls, seed);
    if (write(2, s, (size_t)n) < 0)
        _exit(2);
    _exit(1);
}

static void fail(const char *what, pindrelo_answer a, unsigned expected)
{
    fprintf(stderr, "runs: %s: answer %u with %llu, expected status %u; call %llu of seed %llu\n", what,
            pindrelo_status(a), (unsigned long long)pindrelo_value(a), expected, calls, seed);
    exit(1);
}

/* ---- a setup */

static uint64_t numbers[PINDRELO_SETUP_NUMBERS];
static double reals[PINDRELO_SETUP_DOUBLES], forward[16 * 24], reverse[16 * 24];
static uint8_t file[MOST_CHUNKS * 1400];

static uint64_t chunk_count(uint64_t bytes, uint64_t chunk)
{
    return bytes == 0 || chunk == 0 ? 1 : (bytes + chunk - 1) / chunk;
}

static void rolls(double *to, size_t n)
{
    for (size_t i = 0; i < n; i++)
        to[i] = (double)below(1u << 20) / (1u << 20);
}

static void set_up(void)
{
    static const uint64_t windows[] = {1, 2, 3, 5, 8, 32}, chunks[] = {1, 2, 7, 100, 1399, 1400};
    static const uint64_t delays[] = {0, 1, 5, 60000}, times[] = {0, 4000000, 1000000000, UINT64_C(86400000000000)};
    uint64_t values[PINDRELO_SETUP_NUMBERS] = {1 + below(3), 1, windows[below(6)], chunks[below(6)], delays[below(4)],
        delays[below(3)], delays[below(4)], 1000000000, 1000000000, UINT64_C(60000000000), 1000000, times[below(4)],
        below(MOST_RESENDS + 1)};
    double factors[PINDRELO_SETUP_DOUBLES] = {0, 0, 0, 0, 0.125, 0.25, 4, 1};
    if (values[0] != 3 && below(3) == 0)
        values[1] = 2;
    else if (below(2)) {
        values[7] = below(3) * 100000000;
        values[8] = below(2) * 1000000;
        values[9] = values[8] + below(2) * 1000000000;
        factors[4 + below(4)] = 1;
    }
    for (int i = 0; i < 4; i++)
        factors[i] = below(2) ? 0 : 0.2;
    memcpy(numbers, values, sizeof values);
    memcpy(reals, factors, sizeof factors);
    for (size_t i = 0; i < sizeof file; i++)
        file[i] = (uint8_t)below(256);
    rolls(forward, sizeof forward / sizeof *forward);
    rolls(reverse, sizeof reverse / sizeof *reverse);
    size_t n = MOST_CHUNKS + MOST_RESENDS;
    size_t room[REGIONS] = {PINDRELO_SETUP_NUMBERS, PINDRELO_SETUP_DOUBLES, below(numbers[3] * MOST_CHUNKS + 1), 8 * n,
        16 * n, PINDRELO_STORE_SIZE(numbers[2]), PINDRELO_STORE_SIZE(numbers[2]), 0, MOST_CHUNKS, n, 2 * n,
        2 * n * PLACE, 2 * n, 2 * n * PLACE, 32, 32, PINDRELO_OUTCOME_WORDS, PINDRELO_ESTIMATOR_WORDS,
        PINDRELO_ESTIMATOR_DOUBLES};
    room[OUTPUT] = room[DATA] + below(3);
    memcpy(count, room, sizeof room);
}

static double wild_double(void)
{
    static const double at[] = {-1, 1, 1.5, 16.5, 1e308, -0.0};
    return below(7) == 0 ? NAN : at[below(6)];
}

static void spoil(void)
{
    static const uint64_t at[] = {0, 1, 2, 3, 4, 33, 1401, 60001, UINT64_C(86400000000001), UINT64_MAX};
    for (uint64_t n = 1 + below(3); n > 0; n--) {
        size_t i = below(REGIONS);
        switch (below(5)) {
        case 0: numbers[below(PINDRELO_SETUP_NUMBERS)] = at[below(10)]; break;
        case 1: reals[below(PINDRELO_SETUP_DOUBLES)] = wild_double(); break;
        case 2: (below(2) ? forward : reverse)[below(40)] = wild_double(); break;
        case 3: count[i] = below(3) == 0 ? 0 : count[i] - (count[i] > 0); break;
        default: count[i] = count[i] == 0 ? 0 : below(count[i]); break;
        }
    }
}

/* ---- the status by the header */

static int outside(double x, double most) { return !(x >= 0 && x <= most); }

static int rolls_broken(const double *r, size_t n)
{
    for (size_t i = 0; i < n; i++)
        if (!(r[i] >= 0 && r[i] < 1))
            return 1;
    return 0;
}

static int edition_broken(void)
{
    return numbers[0] == 3 || numbers[7] != 1000000000 || numbers[8] != 1000000000 ||
           numbers[9] != UINT64_C(60000000000) || numbers[10] != 1000000 || reals[4] != 0.125 || reals[5] != 0.25 ||
           reals[6] != 4 || reals[7] != 1;
}

static int setup_broken(uint64_t chunks)
{
    for (int i = 0; i < 8; i++)
        if (outside(reals[i], i < 6 ? 1 : 16))
            return 1;
    for (int i = 7; i < 10; i++)
        if (numbers[i] > PINDRELO_MAX_DURATION)
            return 1;
    return numbers[2] < 1 || numbers[2] > PINDRELO_MAX_WINDOW || numbers[3] < 1 || numbers[3] > PINDRELO_MAX_PAYLOAD ||
           chunks > 65536 || numbers[4] > 60000 || numbers[5] > 60000 || numbers[6] > 60000 ||
           numbers[10] > 1000000000 || numbers[8] > numbers[9] || numbers[11] > PINDRELO_MAX_DURATION ||
           (numbers[1] == 2 && edition_broken());
}

static int short_of(size_t bytes, uint64_t slots) { return slots > bytes / 1404; }

static unsigned expected_status(uint64_t chunks)
{
    if (count[NUMBERS] < PINDRELO_SETUP_NUMBERS || count[REALS] < PINDRELO_SETUP_DOUBLES)
        return PINDRELO_STATE;
    uint64_t protocol = numbers[0], window = numbers[2];
    if (protocol < 1 || protocol > 3 || numbers[1] < 1 || numbers[1] > 2)
        return PINDRELO_SETUP;
    if (count[KEYS] != count[DEADLINES] || short_of(count[SENDER], protocol == 1 ? 1 : window) ||
        (protocol == 3 && short_of(count[RECEIVER], window)))
        return PINDRELO_STATE;
    if (rolls_broken(forward, count[FORWARD]) || rolls_broken(reverse, count[REVERSE]))
        return 11;
    if (setup_broken(chunks))
        return PINDRELO_SETUP;
    if (count[OUTPUT] < count[DATA] || count[NOTES] < chunks || (protocol == 3 && count[KEYS] < window) ||
        count[WORDS] < PINDRELO_OUTCOME_WORDS || count[ESTIMATOR] < PINDRELO_ESTIMATOR_WORDS ||
        count[DOUBLES] < PINDRELO_ESTIMATOR_DOUBLES)
        return PINDRELO_FULL;
    return PINDRELO_DONE;
}

/* ---- a call */

static void give(int i, const void *bytes, size_t have)
{
    static uint8_t noise[ROOM];
    if (!bytes) {
        have = count[i] * size[i];
        for (size_t k = 0; k < have; k += 97)
            noise[k] = (uint8_t)below(256);
        bytes = noise;
    }
    lend(i, bytes, have, count[i] * size[i], below(2) == 0, below(2) == 0);
}

#define SLICE(type, i) (type *)(count[i] ? (void *)regions[i].at : NULL), count[i]
#define ROWS(n, i) (uint64_t (*)[n])(void *)(count[i] ? regions[i].at : NULL), count[i]

static pindrelo_answer run(void)
{
    return pindrelo_run(SLICE(uint64_t, NUMBERS), SLICE(double, REALS), SLICE(uint8_t, DATA), SLICE(double, FORWARD),
                        SLICE(double, REVERSE), SLICE(uint8_t, SENDER), SLICE(uint8_t, RECEIVER),
                        SLICE(uint8_t, OUTPUT), ROWS(7, NOTES), ROWS(7, EVENTS), ROWS(4, FORWARD_RECORDS),
                        SLICE(uint8_t, FORWARD_PLACES), ROWS(4, REVERSE_RECORDS), SLICE(uint8_t, REVERSE_PLACES),
                        SLICE(uint32_t, KEYS), SLICE(uint64_t, DEADLINES), SLICE(uint64_t, WORDS),
                        SLICE(uint64_t, ESTIMATOR), SLICE(double, DOUBLES));
}

/* what the header promises of a run that was made */
static void look_at(pindrelo_answer a, int roomy)
{
    const uint64_t *w = (const uint64_t *)(const void *)regions[WORDS].at;
    uint64_t filled = w[PINDRELO_OUTCOME_FILLED], whole = w[PINDRELO_OUTCOME_COMPLETED];
    if (whole > 1 || pindrelo_value(a) != whole || w[PINDRELO_OUTCOME_END] > 3 || filled > count[DATA])
        fail("another outcome", a, 0);
    if (w[PINDRELO_OUTCOME_FINISHED_AT] > numbers[PINDRELO_SETUP_MAX_VIRTUAL_TIME])
        fail("a finishing time past the limit", a, 0);
    if (!kept_outside(&regions[OUTPUT], 0, filled))
        fail("output past the fill mark changed", a, 0);
    int same = memcmp(regions[OUTPUT].at, file, filled) == 0;
    if (whole && filled == count[DATA] && !same)
        fail("another file", a, 0);
    if (reals[PINDRELO_SETUP_CORRUPT] == 0 && (!same || (whole && filled != count[DATA])))
        fail("another file on a line that flips no bit", a, 0);
    if (roomy && w[PINDRELO_OUTCOME_END] != 0)
        fail("another end than ended", a, 0);
    completed += whole;
}

static void one_call(int wild)
{
    set_up();
    if (wild)
        spoil();
    uint64_t n = chunk_count(count[DATA], numbers[3]) + numbers[12];
    unsigned expected = expected_status(chunk_count(count[DATA], numbers[3]));
    give(NUMBERS, numbers, sizeof numbers);
    give(REALS, reals, sizeof reals);
    give(DATA, file, sizeof file);
    give(FORWARD, forward, sizeof forward);
    give(REVERSE, reverse, sizeof reverse);
    for (int i = SENDER; i < REGIONS; i++)
        give(i, NULL, 0);
    pindrelo_answer a = run();
    if (pindrelo_status(a) != expected)
        fail("another status", a, expected);
    for (int i = 0; i < REGIONS; i++) {
        if ((expected || i < SENDER) && !kept_outside(&regions[i], 0, 0))
            fail("bytes changed that should have stayed", a, expected);
        if (!border_kept(&regions[i]))
            fail("bytes beside what was lent changed", a, expected);
    }
    int roomy = numbers[12] <= MOST_RESENDS && count[EVENTS] >= n && count[FORWARD] >= 8 * n &&
                count[REVERSE] >= 16 * n && count[FORWARD_RECORDS] >= 2 * n && count[REVERSE_RECORDS] >= 2 * n &&
                count[FORWARD_PLACES] >= 2 * n * PLACE && count[REVERSE_PLACES] >= 2 * n * PLACE;
    if (expected == 0)
        look_at(a, roomy);
    met[expected]++;
}

int main(int argc, char **argv)
{
    static const size_t bytes[REGIONS] = {8, 8, 1, 8, 8, 1, 1, 1, 56, 56, 32, 1, 32, 1, 4, 8, 8, 8, 8};
    unsigned long long total = argc > 1 ? strtoull(argv[1], NULL, 10) : 20000;
    seed = argc > 2 ? strtoull(argv[2], NULL, 10) : 1;
    rng = seed * 0x9E3779B97F4A7C15u + 88172645463325252u;
    memcpy(size, bytes, sizeof bytes);
    if (!open_regions())
        return 2;
    signal(SIGSEGV, fault);
    signal(SIGBUS, fault);
    for (calls = 0; calls < total; calls++) {
        take_back();
        one_call(calls % 2 == 1);
    }
    printf("runs: %llu calls of seed %llu as expected, %llu completed; by status:", total, seed, completed);
    for (int i = 0; i < 16; i++)
        if (met[i])
            printf(" %d:%llu", i, met[i]);
    printf("\n");
    return total >= 20000 && !(completed && met[0] && met[4] && met[5] && met[9] && met[11]);
}
