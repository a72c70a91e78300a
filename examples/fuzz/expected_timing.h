/* For fuzz: what each call of the timers and the estimator should answer, worked out from pindrelo.h. */
#ifndef EXPECTED_TIMING_H
#define EXPECTED_TIMING_H

#include "expected.h"

struct timers { struct words state; const uint32_t *keys; const uint64_t *deadlines; size_t key_count, count; };

/* ---- a timer set */

static uint64_t expect_make_timers(struct timers t)
{
    return t.key_count != t.count ? PINDRELO_STATE : t.state.n < 3 ? PINDRELO_FULL : 0;
}

/* 0, or what is refused whatever the call */
static uint64_t timers_held(struct timers t)
{
    if (t.state.n < 3 || t.state.at[0] != 263 || t.key_count != t.count || t.state.at[1] > t.count)
        return PINDRELO_STATE;
    for (uint64_t i = 1; i < t.state.at[1]; i++)
        if (t.keys[i - 1] >= t.keys[i])
            return PINDRELO_STATE;
    for (uint64_t i = 0; i < t.state.at[1]; i++)
        if (t.deadlines[i] > PINDRELO_MAX_TIME)
            return PINDRELO_TIME;
    return 0;
}

static int runs(struct timers t, uint64_t key)
{
    for (uint64_t i = 0; i < t.state.at[1]; i++)
        if (t.keys[i] == key)
            return 1;
    return 0;
}

static uint64_t expect_start(struct timers t, uint64_t key, uint64_t now, uint64_t duration)
{
    uint64_t refused = timers_held(t);
    if (refused)
        return refused;
    if (now > PINDRELO_MAX_TIME || duration > PINDRELO_MAX_DURATION || now + duration > PINDRELO_MAX_TIME)
        return PINDRELO_TIME;
    return WIDE(key) || (t.state.at[1] == t.count && !runs(t, key)) ? PINDRELO_FULL : 0;
}

static uint64_t expect_cancel(struct timers t, uint64_t key)
{
    uint64_t refused = timers_held(t);
    return refused ? refused : answer_of(0, (uint64_t)runs(t, key));
}

static uint64_t expect_clear(struct timers t)
{
    return timers_held(t);
}

static uint64_t expect_pop(struct timers t, uint64_t now, size_t room)
{
    uint64_t refused = timers_held(t), due = 0;
    if (refused || now > PINDRELO_MAX_TIME)
        return refused ? refused : PINDRELO_TIME;
    for (uint64_t i = 0; i < t.state.at[1]; i++)
        due += t.deadlines[i] <= now;
    return room < due ? PINDRELO_FULL : answer_of(0, due);
}

static uint64_t expect_earliest(struct timers t)
{
    uint64_t refused = timers_held(t), earliest = UINT64_MAX;
    if (refused)
        return refused;
    for (uint64_t i = 0; i < t.state.at[1]; i++)
        if (t.deadlines[i] < earliest)
            earliest = t.deadlines[i];
    return t.state.at[1] ? answer_of(0, earliest) : PINDRELO_NOTHING;
}

/* ---- a single timer */

enum { SINGLE_START, SINGLE_CANCEL, IS_ACTIVE, REMAINING, IS_EXPIRED, IS_EXPIRED_FOR };

static uint64_t expect_single(struct words t, int which, uint64_t now, uint64_t duration, uint64_t generation)
{
    if (t.n < 4 || t.at[0] != 264 || t.at[1] > 1 || (t.at[1] == 0 && t.at[2] != 0))
        return PINDRELO_STATE;
    if (t.at[2] > PINDRELO_MAX_TIME || (which != SINGLE_CANCEL && which != IS_ACTIVE && now > PINDRELO_MAX_TIME))
        return PINDRELO_TIME;
    if (which == SINGLE_START && (duration > PINDRELO_MAX_DURATION || now + duration > PINDRELO_MAX_TIME))
        return PINDRELO_TIME;
    int expired = t.at[1] && t.at[2] <= now;
    switch (which) {
    case IS_ACTIVE: return answer_of(0, t.at[1]);
    case REMAINING: return t.at[1] ? answer_of(0, expired ? 0 : t.at[2] - now) : PINDRELO_NOTHING;
    case IS_EXPIRED: return answer_of(0, expired);
    case IS_EXPIRED_FOR: return answer_of(0, expired && t.at[3] == generation);
    default: return 0;
    }
}

/* ---- an RTO estimator */

struct doubles { const double *at; size_t n; };

enum { SAMPLE, TIMEOUT, RESET_BACKOFF, EXCEEDED, MEAN };

static int within(double x, double most)
{
    return x >= 0 && x <= most;
}

static int setup_broken(const uint64_t *rtos, const double *factors)
{
    for (int i = 0; i < 3; i++)
        if (rtos[i] > PINDRELO_MAX_DURATION)
            return 1;
    return rtos[3] > 1000000000 || rtos[1] > rtos[2] || !within(factors[0], 1) || !within(factors[1], 1) ||
           !within(factors[2], 16) || !within(factors[3], 16);
}

static uint64_t expect_make_estimator(const uint64_t *rtos, const double *factors, size_t words, size_t doubles)
{
    return setup_broken(rtos, factors) ? PINDRELO_SETUP : words < 24 || doubles < 5 ? PINDRELO_FULL : 0;
}

static int estimator_broken(struct words e, struct doubles d)
{
    static const int durations[] = {5, 7, 17, 19, 21};
    if (e.n < 24 || d.n < 5 || e.at[0] != 265 || e.at[11] > 1 || WIDE(e.at[12]) || WIDE(e.at[23]))
        return 1;
    for (int i = 0; i < 5; i++)
        if (e.at[durations[i]] > 1 || (e.at[durations[i]] == 0 && e.at[durations[i] + 1] != 0))
            return 1;
    return setup_broken(e.at + 1, d.at) || e.at[5] != e.at[7] || e.at[6] > UINT64_C(86401000000000) ||
           e.at[8] > UINT64_C(86401000000000);
}

static uint64_t expect_estimator(struct words e, struct doubles d, int which, uint64_t given, int again, size_t room)
{
    static const int durations[] = {9, 10, 18, 20, 22};
    if (estimator_broken(e, d))
        return PINDRELO_STATE;
    for (int i = 13; i <= 16; i++)
        if (e.at[i] >= COUNTS_END)
            return PINDRELO_COUNTS;
    for (int i = 0; i < 5; i++)
        if (e.at[durations[i]] > PINDRELO_MAX_DURATION)
            return PINDRELO_TIME;
    uint64_t doubled = 2 * e.at[9];
    switch (which) {
    case SAMPLE: return given > PINDRELO_MAX_DURATION ? PINDRELO_TIME : answer_of(0, !again);
    case TIMEOUT: return answer_of(0, doubled < e.at[2] ? e.at[2] : doubled > e.at[3] ? e.at[3] : doubled);
    case EXCEEDED: return answer_of(0, e.at[12] >= given);
    case MEAN: return room ? 0 : PINDRELO_FULL;
    default: return 0;
    }
}

#endif
