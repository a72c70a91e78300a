/* fuzz: every call of pindrelo.h but pindrelo_run (runs.c) with wild arguments, between calls that go on from one
 * another.
 *
 *     fuzz [CALLS [SEED]]
 *
 * Lengths, words, stores, datagrams and times are random, boundary values or damaged (spoil.h); what is lent lies in
 * guarded memory (guarded.h). Each answer is compared with the one worked out from the header (expected.h,
 * expected_timing.h, pages.h), and every lent byte that the call must not have written with what it was: after a
 * refusal all of them. In a million calls or more each call has to have met every status that the header names for
 * it. */
#define _GNU_SOURCE
#include "checked.h"
#include "pages.h"
#include "timing.h"
#include <signal.h>

/* a state that a call has left becomes the one that later calls go on from */
static void go_on(struct end *e)
{
    if (regions[STATE].length < 64 || regions[STORE].length > sizeof e->store)
        return;
    memcpy(e->words, regions[STATE].at, 64);
    if (regions[STORE].length)
        memcpy(e->store, regions[STORE].at, regions[STORE].length);
}

/* ---- the calls */

static void make_end(struct end *e, int sending)
{
    static const char *names[] = {"make_receiver", "make_sender"};
    name = names[sending];
    uint64_t protocol = wild ? boundary(2) : sender.words[0] - 256, max_retries = wild ? boundary(2) : below(4);
    size_t window = wild ? boundary(16) : sender.words[1];
    size_t slots = sending ? protocol == 1 ? 1 : window : protocol == 3 ? window : 0;
    uint64_t *s = give_words(e->words, 8);
    size_t n = slots <= PINDRELO_MAX_WINDOW ? PINDRELO_STORE_SIZE(slots) : 1404;
    uint8_t *store = give(STORE, e->store, sizeof e->store, length(n, n + 100));
    may_write(STATE, 0, 64);
    may_write(STORE, 0, n);
    uint64_t expected = expect_making(protocol, window, sending ? max_retries : 0, slots, regions[STATE].length / 8,
                                      regions[STORE].length);
    pindrelo_answer a = sending ? pindrelo_make_sender(protocol, window, max_retries, STATE_SLICE, STORE_SLICE)
                                : pindrelo_make_receiver(protocol, window, STATE_SLICE, STORE_SLICE);
    if (check(a, expected, ONE(0) | ONE(4) | ONE(5) | ONE(9)))
        go_on(e);
}

static void send(void)
{
    static uint8_t payload[2000];
    static const size_t lengths[] = {0, 1, 3, 20, 700, 1399, 1400};
    name = "send";
    size_t n = length(lengths[below(7)], sizeof payload);
    uint64_t *s = give_words(sender.words, 8 + below(2));
    uint8_t *store = give_store(&sender), *in = give(IN, payload, sizeof payload, n), *out = give_out(OUT, 10 + n);
    may_write(STATE, 8, 64);
    may_write(STORE, 0, regions[STORE].length);
    may_write(OUT, 0, 10 + n);
    uint64_t expected = expect_send(state_lent(), lent(STORE), n, regions[OUT].length);
    pindrelo_answer a = pindrelo_send(STATE_SLICE, STORE_SLICE, IN_SLICE, OUT_SLICE);
    if (check(a, expected, HELD | ONE(5) | ONE(6) | ONE(7) | ONE(16))) {
        if (checksum(out, 10 + n) != pair(out + 8) || number_in(out) + 1 != s[3] || memcmp(out + 10, payload, n))
            fail("another datagram", a, expected);
        remember(out, 10 + n);
        go_on(&sender);
    }
}

static void acknowledge(void)
{
    name = "acknowledge";
    uint64_t *s = give_words(sender.words, 8);
    uint8_t *store = give_store(&sender), *in = give_datagram();
    may_write(STATE, 8, 64);
    may_write(STORE, 0, regions[STORE].length);
    uint64_t expected = expect_acknowledge(state_lent(), lent(STORE), lent(IN));
    pindrelo_answer a = pindrelo_acknowledge(STATE_SLICE, STORE_SLICE, IN_SLICE);
    if (check(a, expected, HELD | READING | ONE(6) | ONE(17)))
        go_on(&sender);
}

static void timeout(void)
{
    int which = (int)below(3);
    static const char *names[] = {"timeout_all", "timeout_earliest", "timeout_number"};
    name = names[which];
    uint64_t number = wild ? boundary(sender.words[2]) : sender.words[2] + below(3);
    uint64_t *s = give_words(sender.words, 8);
    uint8_t *store = give_store(&sender), *out = give_out(OUT, PINDRELO_RESEND_SIZE(slots_of(&sender)));
    uint64_t expected = expect_timeout(state_lent(), lent(STORE), which, number, regions[OUT].length);
    may_write(STATE, 8, 64);
    may_write(STORE, 0, regions[STORE].length);
    may_write(OUT, 0, pindrelo_value(expected));
    pindrelo_answer a = which == ALL        ? pindrelo_timeout_all(STATE_SLICE, STORE_SLICE, OUT_SLICE)
                        : which == EARLIEST ? pindrelo_timeout_earliest(STATE_SLICE, STORE_SLICE, OUT_SLICE)
                                            : pindrelo_timeout_number(STATE_SLICE, STORE_SLICE, number, OUT_SLICE);
    if (!check(a, expected, HELD | ONE(5) | ONE(18)))
        return;
    for (size_t at = 0, n; at < pindrelo_value(a); at += n) {
        n = 10 + (size_t)pair(out + at + 6);
        if (checksum(out + at, n) != pair(out + at + 8) || !(out[at + 5] & 1))
            fail("another datagram", a, expected);
        remember(out + at, n);
    }
    go_on(&sender);
}

static void look(void)
{
    int which = (int)below(3);
    static const char *names[] = {"can_send", "in_flight", "is_retransmitted"};
    name = names[which];
    uint64_t number = wild ? boundary(sender.words[2]) : sender.words[2] + below(4);
    uint64_t *s = give_words(sender.words, 8);
    uint8_t *store = give_store(&sender);
    if (which == 0)
        check(pindrelo_can_send(STATE_SLICE), expect_can_send(state_lent()), HELD);
    else if (which == 1)
        check(pindrelo_in_flight(STATE_SLICE, STORE_SLICE), expect_in_flight(state_lent(), lent(STORE)), HELD);
    else
        check(pindrelo_is_retransmitted(STATE_SLICE, STORE_SLICE, number),
              expect_is_retransmitted(state_lent(), lent(STORE), number), HELD | ONE(18));
}

static void buffered_count(void)
{
    name = "buffered_count";
    uint64_t *s = give_words(receiver.words, 8);
    uint8_t *store = give_store(&receiver);
    check(pindrelo_buffered_count(STATE_SLICE, STORE_SLICE), expect_buffered_count(state_lent(), lent(STORE)), HELD);
}

static void receive(void)
{
    name = "receive";
    uint64_t *s = give_words(receiver.words, 8);
    uint8_t *store = give_store(&receiver), *in = give_datagram(), *ack = give_out(OUT, 10 + below(3));
    uint8_t *to = give(OUTPUT, output, CAPACITY, length(CAPACITY, CAPACITY + 100));
    size_t filled = state_lent().n > 3 ? s[3] : 0;
    uint64_t expected = expect_receive(state_lent(), lent(STORE), lent(IN), lent(OUTPUT).n, lent(OUT).n);
    may_write(STATE, 8, 56);
    may_write(STORE, 0, regions[STORE].length);
    may_write(OUT, 0, 10);
    may_write(OUTPUT, filled, regions[OUTPUT].length);
    pindrelo_answer a = pindrelo_receive(STATE_SLICE, STORE_SLICE, IN_SLICE, to, regions[OUTPUT].length, ack,
                                         regions[OUT].length);
    int done = check(a, expected, HELD | READING | ONE(5) | ONE(6) | ONE(7) | ONE(19));
    if (done) {
        if (s[3] < filled || !kept_outside(&regions[OUTPUT], filled, s[3]))
            fail("output past the fill mark changed", a, expected);
        if (checksum(ack, 10) != pair(ack + 8) || ack[4] != 2 || number_in(ack) != pindrelo_value(a))
            fail("another ACK", a, expected);
        remember(ack, 10);
    }
    if ((done || pindrelo_status(a) == PINDRELO_SILENT) && regions[OUTPUT].length == CAPACITY) {
        go_on(&receiver);
        memcpy(output, to, CAPACITY);
    }
}

static void drain(void)
{
    name = "drain";
    uint64_t *s = give_words(receiver.words, 8);
    uint8_t *store = give_store(&receiver), *from = give(OUTPUT, output, CAPACITY, length(CAPACITY, CAPACITY + 100));
    may_write(STATE, 24, 32);
    uint64_t expected = expect_drain(state_lent(), lent(STORE), lent(OUTPUT).n);
    pindrelo_answer a = pindrelo_drain(STATE_SLICE, STORE_SLICE, from, regions[OUTPUT].length);
    if (check(a, expected, HELD)) {
        if (s[3] != 0)
            fail("another fill mark", a, expected);
        go_on(&receiver);
    }
}

static void packets(void)
{
    uint8_t *in = give_datagram();
    switch (below(4)) {
    case 0:
        name = "read";
        check(pindrelo_read(IN_SLICE), expect_read(lent(IN)), READING);
        return;
    case 1:
        name = "validate";
        check(pindrelo_validate(IN_SLICE), expect_validate(lent(IN)), READING | ONE(20));
        return;
    case 2:
        name = "payload_length";
        check(pindrelo_payload_length(IN_SLICE), expect_payload_length(lent(IN)), READING);
        return;
    }
    name = "write";
    uint64_t kind = wild ? boundary(3) : 1 + below(3), number = boundary(7), flags = wild ? boundary(1) : below(256);
    size_t n = regions[IN].length;
    uint8_t *out = give_out(OUT, 10 + n);
    may_write(OUT, 0, 10 + n < regions[OUT].length ? 10 + n : regions[OUT].length);
    uint64_t expected = expect_write(kind, number, flags, n, regions[OUT].length);
    pindrelo_answer a = pindrelo_write(kind, number, flags, IN_SLICE, OUT_SLICE);
    if (check(a, expected, ONE(0) | ONE(2) | ONE(5) | ONE(6) | ONE(7)) &&
        (checksum(out, 10 + n) != pair(out + 8) || number_in(out) != number || out[4] != kind || out[5] != flags))
        fail("another datagram", a, expected);
}

/* new ends of one protocol and window, at times with high numbers or counters */
static void begin(void)
{
    static const uint64_t windows[] = {1, 2, 3, 4, 5, 8, 16, 32};
    wild = 0;
    sender.words[0] = 257 + below(3);
    sender.words[1] = windows[below(8)];
    make_end(&receiver, 0);
    take_back();
    make_end(&sender, 1);
    if (chance(2)) {
        uint64_t number = chance(2) ? NUMBERS_END - below(40) : below(NUMBERS_END);
        sender.words[2] = sender.words[3] = receiver.words[2] = number;
    }
    if (chance(8))
        sender.words[4 + below(2)] = receiver.words[4 + below(3)] = COUNTS_END - below(40);
    if (chance(8))
        memset(timer_words, 0, sizeof timer_words);
    if (chance(4) || timer_words[0] == 0) {
        now = below(100);
        pindrelo_make_timers(timer_words, 3, keys, TIMERS, deadlines, TIMERS);
        pindrelo_make_single_timer(single, PINDRELO_SINGLE_TIMER_WORDS);
        pindrelo_make_default_estimator(estimator, PINDRELO_ESTIMATOR_WORDS, factors, PINDRELO_ESTIMATOR_DOUBLES);
    }
}

/* in_flight without the store that it is to look at, in each protocol */
static void without_store(void)
{
    uint64_t words[8];
    uint8_t slot[SLOT_SIZE];
    name = "in_flight";
    for (uint64_t protocol = 1; protocol <= 3; protocol++) {
        pindrelo_make_sender(protocol, 1, 0, words, 8, slot, sizeof slot);
        take_back();
        uint64_t *s = lend(STATE, words, 64, 64, 1, 0);
        uint8_t *store = lend(STORE, slot, 0, 0, 1, 1);
        check(pindrelo_in_flight(STATE_SLICE, STORE_SLICE), PINDRELO_STATE, HELD);
    }
}

static void one_call(void)
{
    switch (below(35)) {
    case 0: make_end(&sender, 1); return;
    case 1: make_end(&receiver, 0); return;
    case 2: case 3: case 4: case 5: send(); return;
    case 6: case 7: case 8: case 9: acknowledge(); return;
    case 10: case 11: case 12: timeout(); return;
    case 13: look(); return;
    case 14: case 15: case 16: case 17: case 18: receive(); return;
    case 19: case 20: packets(); return;
    case 21: drain(); return;
    case 22: case 23: single_timer(); return;
    case 24: make_single(); return;
    case 25: make_estimator(); return;
    case 26: case 27: estimate(); return;
    case 28: look(); return;
    case 29: buffered_count(); return;
    case 30: report(); return;
    default: timers(); return;
    }
}

int main(int argc, char **argv)
{
    unsigned long long count = argc > 1 ? strtoull(argv[1], NULL, 10) : 1000000;
    seed = argc > 2 ? strtoull(argv[2], NULL, 10) : 1;
    rng = seed * 0x9E3779B97F4A7C15u + 88172645463325252u;
    if (!open_regions())
        return 2;
    signal(SIGSEGV, fault);
    signal(SIGBUS, fault);
    without_store();
    for (calls = 0; calls < count; calls++) {
        take_back();
        if (calls % 400 == 0)
            begin();
        take_back();
        wild = chance(2);
        one_call();
    }
    printf("fuzz: %llu calls of seed %llu as expected; by status:", count, seed);
    for (int i = 0; i <= 20; i++)
        if (met[i])
            printf(" %d:%llu", i, met[i]);
    printf("\n");
    return count >= 1000000 && !all_met();
}
