/* For fuzz: the calls of the timers and the estimator. */
#ifndef TIMING_H
#define TIMING_H

#include "checked.h"
#include "expected_timing.h"

static void timers(void)
{
    int which = (int)below(6);
    static const char *names[] = {"make_timers", "timer_start", "timer_cancel", "timer_pop", "timer_earliest",
                                  "timer_clear"};
    name = names[which];
    uint64_t *s = give_words(timer_words, 3), key = wild ? boundary(3) : below(8);
    uint32_t *k = give(KEYS, keys, sizeof keys, 4 * length(TIMERS, TIMERS + 2)), due[TIMERS] = {0};
    uint64_t *d = give(DEADLINES, deadlines, sizeof deadlines, 8 * length(TIMERS, TIMERS + 2));
    if (wild && chance(4) && regions[KEYS].length && regions[DEADLINES].length) {
        regions[KEYS].at[0] = regions[KEYS].copy[0] = (uint8_t)any();
        memcpy(regions[DEADLINES].at, (uint64_t[]){boundary(PINDRELO_MAX_TIME)}, 8);
        memcpy(regions[DEADLINES].copy, regions[DEADLINES].at, 8);
    }
    uint32_t *out = give(OUT, due, sizeof due, 4 * length(TIMERS, TIMERS + 2));
    size_t n = regions[KEYS].length / 4, m = regions[DEADLINES].length / 8, room = regions[OUT].length / 4;
    struct timers t = {state_lent(), k, d, n, m};
    uint64_t at = wild && chance(3) ? boundary(PINDRELO_MAX_TIME) : now, wait = wild ? boundary(9) : below(50);
    uint64_t expected = which == 0 ? expect_make_timers(t) : which == 1 ? expect_start(t, key, at, wait)
                      : which == 2 ? expect_cancel(t, key) : which == 3 ? expect_pop(t, at, room)
                      : which == 4 ? expect_earliest(t) : expect_clear(t);
    size_t used = which == 5 && !expected ? s[1] : 0;
    if (which < 4) {
        may_write(STATE, 0, 24);
        may_write(KEYS, 0, regions[KEYS].length);
        may_write(DEADLINES, 0, regions[DEADLINES].length);
    } else if (which == 5) {
        may_write(STATE, 8, 16);
        may_write(KEYS, 0, 4 * used);
        may_write(DEADLINES, 0, 8 * used);
    }
    may_write(OUT, 0, which == 3 && !pindrelo_status(expected) ? 4 * pindrelo_value(expected) : 0);
    pindrelo_answer a = which == 0   ? pindrelo_make_timers(STATE_SLICE, k, n, d, m)
                        : which == 1 ? pindrelo_timer_start(STATE_SLICE, k, n, d, m, key, at, wait)
                        : which == 2 ? pindrelo_timer_cancel(STATE_SLICE, k, n, d, m, key)
                        : which == 3 ? pindrelo_timer_pop(STATE_SLICE, k, n, d, m, at, out, room)
                        : which == 4 ? pindrelo_timer_earliest(STATE_SLICE, k, n, d, m)
                                     : pindrelo_timer_clear(STATE_SLICE, k, n, d, m);
    static const uint32_t statuses[] = {ONE(0) | ONE(5) | ONE(9), TIMER | ONE(5), TIMER, TIMER | ONE(5),
                                        TIMER | ONE(18), TIMER};
    int done = check(a, expected, statuses[which]);
    if (done && which == 5)
        for (size_t i = 0; i < used || i == 0; i++)
            if (s[1] || (used && (k[i] || d[i])))
                fail("timers left", a, expected);
    if (done && n == TIMERS && m == TIMERS) {
        memcpy(timer_words, s, 24);
        memcpy(keys, k, sizeof keys);
        memcpy(deadlines, d, sizeof deadlines);
        now += below(20);
    }
}

static void single_timer(void)
{
    int which = (int)below(6);
    static const char *names[] = {"single_timer_start", "single_timer_cancel", "single_timer_is_active",
                                  "single_timer_remaining", "single_timer_is_expired", "single_timer_is_expired_for"};
    name = names[which];
    uint64_t *s = give_words(single, PINDRELO_SINGLE_TIMER_WORDS), generation = single[3] + below(2);
    uint64_t at = wild && chance(3) ? boundary(PINDRELO_MAX_TIME) : now, wait = wild ? boundary(9) : below(50);
    uint64_t expected = expect_single(state_lent(), which, at, wait, generation);
    uint64_t before = state_lent().n > 3 ? s[3] : 0;
    if (which < 2)
        may_write(STATE, 0, 32);
    pindrelo_answer a = which == SINGLE_START    ? pindrelo_single_timer_start(STATE_SLICE, at, wait)
                        : which == SINGLE_CANCEL ? pindrelo_single_timer_cancel(STATE_SLICE)
                        : which == IS_ACTIVE     ? pindrelo_single_timer_is_active(STATE_SLICE)
                        : which == REMAINING     ? pindrelo_single_timer_remaining(STATE_SLICE, at)
                        : which == IS_EXPIRED    ? pindrelo_single_timer_is_expired(STATE_SLICE, at)
                                                 : pindrelo_single_timer_is_expired_for(STATE_SLICE, generation, at);
    if (!check(a, expected, TIMER | (which == REMAINING ? ONE(18) : 0)) || which >= 2)
        return;
    uint64_t deadline = which == SINGLE_START ? at + wait : 0;
    if (s[0] != 264 || s[1] != (which == SINGLE_START) || s[2] != deadline || s[3] != before + 1)
        fail("another timer", a, expected);
    memcpy(single, s, sizeof single);
}

static void make_single(void)
{
    name = "make_single_timer";
    uint64_t *s = give_words(single, PINDRELO_SINGLE_TIMER_WORDS);
    may_write(STATE, 0, 32);
    uint64_t expected = regions[STATE].length < 32 ? PINDRELO_FULL : 0;
    if (check(pindrelo_make_single_timer(STATE_SLICE), expected, ONE(0) | ONE(5)))
        memcpy(single, s, sizeof single);
}

#define DOUBLES_SLICE d, regions[DEADLINES].length / 8

static struct doubles doubles_lent(void)
{
    return (struct doubles){(const double *)(const void *)regions[DEADLINES].at, regions[DEADLINES].length / 8};
}

static void keep_estimator(const uint64_t *s, const double *d)
{
    memcpy(estimator, s, sizeof estimator);
    memcpy(factors, d, sizeof factors);
}

static void make_estimator(void)
{
    int standard = chance(4);
    static const char *names[] = {"make_estimator", "make_default_estimator"};
    name = names[standard];
    uint64_t rtos[] = {below(2000000000), below(500000000), 500000000 + below(60000000000), below(1000000000)};
    double f[] = {0.125, 0.25, 4, 1};
    if (wild && chance(2))
        rtos[below(4)] = boundary(PINDRELO_MAX_DURATION);
    if (wild && chance(2))
        f[below(4)] = any_double();
    uint64_t *s = give_words(estimator, PINDRELO_ESTIMATOR_WORDS);
    double *d = give_doubles(factors, PINDRELO_ESTIMATOR_DOUBLES);
    may_write(STATE, 0, 192);
    may_write(DEADLINES, 0, 40);
    if (standard)
        memset(rtos, 0, sizeof rtos), memset(f, 0, sizeof f);
    uint64_t expected = expect_make_estimator(rtos, f, state_lent().n, doubles_lent().n);
    pindrelo_answer a = standard ? pindrelo_make_default_estimator(STATE_SLICE, DOUBLES_SLICE)
                                 : pindrelo_make_estimator(STATE_SLICE, DOUBLES_SLICE, rtos[0], rtos[1], rtos[2],
                                                           rtos[3], f[0], f[1], f[2], f[3]);
    if (check(a, expected, ONE(0) | ONE(5) | (standard ? 0 : ONE(4))))
        keep_estimator(s, d);
}

static void estimate(void)
{
    int which = (int)below(5);
    static const char *names[] = {"estimator_sample", "estimator_timeout", "estimator_reset_backoff",
                                  "estimator_exceeded", "estimator_mean"};
    name = names[which];
    uint64_t *s = give_words(estimator, PINDRELO_ESTIMATOR_WORDS);
    double *d = give_doubles(factors, PINDRELO_ESTIMATOR_DOUBLES), *out = give(OUT, NULL, 0, 8 * length(1, 3));
    uint64_t given = wild ? boundary(PINDRELO_MAX_DURATION) : below(1000000000), again = chance(4) ? 1 | any() : 0;
    uint64_t expected = expect_estimator(state_lent(), doubles_lent(), which, given, again != 0, lent(OUT).n / 8);
    if (which <= RESET_BACKOFF) {
        may_write(STATE, 0, 192);
        may_write(DEADLINES, 0, 40);
    }
    may_write(OUT, 0, which == MEAN ? 8 : 0);
    pindrelo_answer a =
        which == SAMPLE          ? pindrelo_estimator_sample(STATE_SLICE, DOUBLES_SLICE, given, again)
        : which == TIMEOUT       ? pindrelo_estimator_timeout(STATE_SLICE, DOUBLES_SLICE)
        : which == RESET_BACKOFF ? pindrelo_estimator_reset_backoff(STATE_SLICE, DOUBLES_SLICE)
        : which == EXCEEDED      ? pindrelo_estimator_exceeded(STATE_SLICE, DOUBLES_SLICE, given)
                                 : pindrelo_estimator_mean(STATE_SLICE, DOUBLES_SLICE, out, lent(OUT).n / 8);
    if (!check(a, expected, HELD | ONE(10) | (which == MEAN ? ONE(5) : 0)) || which > RESET_BACKOFF)
        return;
    if (which == SAMPLE && !again && (s[9] < s[2] || s[9] > s[3] || s[9] != s[10] || s[22] != given))
        fail("another estimate", a, expected);
    keep_estimator(s, d);
}

#endif
