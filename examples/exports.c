/* exports: the single timer, the estimator, drain, the calls that look into a store, clear, a run and its page from C,
 * each answer compared. */
#define TEST "exports"
#include "expect.h"
#include <string.h>

static void single_timer(void)
{
    uint64_t t[5] = { 7, 7, 7, 7, 7 };
    expect("too few words", pindrelo_make_single_timer(t, 3), PINDRELO_FULL);
    expect("nothing written", t[0], 7);
    expect("make", pindrelo_make_single_timer(t, 5), DONE(0));
    expect("word past the timer", t[4], 7);
    expect("doesn't run", pindrelo_single_timer_remaining(t, 4, 5), PINDRELO_NOTHING);
    expect("start", pindrelo_single_timer_start(t, 4, 10, 20), DONE(0));
    expect("runs", pindrelo_single_timer_is_active(t, 4), DONE(1));
    expect("remaining", pindrelo_single_timer_remaining(t, 4, 12), DONE(18));
    expect("before the deadline", pindrelo_single_timer_is_expired(t, 4, 29), DONE(0));
    expect("at the deadline", pindrelo_single_timer_is_expired(t, 4, 30), DONE(1));
    expect("stale", pindrelo_single_timer_is_expired_for(t, 4, 0, 30), DONE(0));
    expect("not stale", pindrelo_single_timer_is_expired_for(t, 4, 1, 30), DONE(1));
    expect("late", pindrelo_single_timer_start(t, 4, 172800000000001u, 0), PINDRELO_TIME);
    expect("deadline kept", t[PINDRELO_SINGLE_TIMER_DEADLINE], 30);
    expect("cancel", pindrelo_single_timer_cancel(t, 4), DONE(0));
    t[PINDRELO_SINGLE_TIMER_DEADLINE] = 9;
    expect("a time without a flag", pindrelo_single_timer_cancel(t, 4), PINDRELO_STATE);
}

static void estimator(void)
{
    uint64_t e[PINDRELO_ESTIMATOR_WORDS];
    double d[PINDRELO_ESTIMATOR_DOUBLES], mean[1];
    expect("too few doubles", pindrelo_make_default_estimator(e, 24, d, 4), PINDRELO_FULL);
    expect("default", pindrelo_make_default_estimator(e, 24, d, 5), DONE(0));
    expect("initial RTO", e[PINDRELO_ESTIMATOR_RTO], 1000000000);
    expect("alpha", pindrelo_make_estimator(e, 24, d, 5, 1, 1, 1, 1, 1.5, 0, 0, 0), PINDRELO_SETUP);
    expect("make", pindrelo_make_estimator(e, 24, d, 5, 1000000000, 1000000, 60000000000u, 1000000, 0.125, 0.25, 4, 1),
           DONE(0));
    expect("sample", pindrelo_estimator_sample(e, 24, d, 5, 100000000, 0), DONE(1));
    expect("RTO", e[PINDRELO_ESTIMATOR_RTO], 300000000);
    expect("SRTT", e[PINDRELO_ESTIMATOR_SRTT + 1], 100000000);
    expect("sent again", pindrelo_estimator_sample(e, 24, d, 5, 100000000, (uint64_t)1 << 40), DONE(0));
    expect("timeout", pindrelo_estimator_timeout(e, 24, d, 5), DONE(600000000));
    expect("one timeout", pindrelo_estimator_exceeded(e, 24, d, 5, 1), DONE(1));
    expect("a limit of 33 bits", pindrelo_estimator_exceeded(e, 24, d, 5, (uint64_t)1 << 32), DONE(0));
    expect("reset", pindrelo_estimator_reset_backoff(e, 24, d, 5), DONE(0));
    expect("RTO as before", e[PINDRELO_ESTIMATOR_RTO], 300000000);
    expect("mean", pindrelo_estimator_mean(e, 24, d, 5, mean, 1), DONE(0));
    expect("mean in ms", (uint64_t)mean[0], 100);
    expect("no room for the mean", pindrelo_estimator_mean(e, 24, d, 5, mean, 0), PINDRELO_FULL);
    expect("a long sample", pindrelo_estimator_sample(e, 24, d, 5, 86400000000001u, 0), PINDRELO_TIME);
    e[PINDRELO_ESTIMATOR_IN_BACKOFF] = 2;
    expect("a broken flag", pindrelo_estimator_timeout(e, 24, d, 5), PINDRELO_STATE);
}

static uint8_t sending[PINDRELO_STORE_SIZE(4)], receiving[PINDRELO_STORE_SIZE(4)];

/* 100 chunks of 700 bytes through an output of 1,400, drained at every second one */
static void drain(uint64_t protocol)
{
    uint64_t s[PINDRELO_STATE_WORDS], r[PINDRELO_STATE_WORDS];
    uint8_t chunk[700], datagram[710], output[1400], ack[PINDRELO_ACK_SIZE];
    expect("sender", pindrelo_make_sender(protocol, 4, 100, s, 8, sending, sizeof sending), DONE(0));
    expect("receiver", pindrelo_make_receiver(protocol, 4, r, 8, receiving, sizeof receiving), DONE(0));
    for (unsigned i = 0; i < 100; i++) {
        memset(chunk, (int)i, sizeof chunk);
        expect("send", pindrelo_send(s, 8, sending, sizeof sending, chunk, sizeof chunk, datagram, sizeof datagram),
               DONE(710));
        expect("receive", pindrelo_receive(r, 8, receiving, sizeof receiving, datagram, sizeof datagram, output,
                                           sizeof output, ack, sizeof ack), DONE(i));
        expect("acknowledge", pindrelo_acknowledge(s, 8, sending, sizeof sending, ack, sizeof ack), DONE(i));
        if (i % 2 == 0) {
            expect("a short output", pindrelo_drain(r, 8, receiving, sizeof receiving, output, 699), PINDRELO_STATE);
            continue;
        }
        expect("drain", pindrelo_drain(r, 8, receiving, sizeof receiving, output, sizeof output), DONE(1400));
        expect("first byte", output[0], i - 1);
        expect("last byte", output[1399], i);
        expect("drained", pindrelo_drain(r, 8, receiving, sizeof receiving, output, sizeof output), DONE(0));
    }
    expect("a sender's words", pindrelo_drain(s, 8, sending, sizeof sending, output, sizeof output), PINDRELO_STATE);
}

/* three chunks, 0 lost and sent again: what is outstanding, what was sent again, what is held */
static void stores(uint64_t protocol)
{
    int single = protocol == PINDRELO_STOP_AND_WAIT, selective = protocol == PINDRELO_SELECTIVE_REPEAT;
    uint64_t s[PINDRELO_STATE_WORDS], r[PINDRELO_STATE_WORDS], count = single ? 1 : 3, size = sizeof sending;
    uint8_t d[PINDRELO_RESEND_SIZE(4)], output[30], ack[PINDRELO_ACK_SIZE];
    pindrelo_make_sender(protocol, 4, 2, s, 8, sending, size);
    pindrelo_make_receiver(protocol, 4, r, 8, receiving, size);
    expect("none is outstanding", pindrelo_is_retransmitted(s, 8, sending, size, 0), PINDRELO_NOTHING);
    for (uint64_t i = 0; i < count; i++) {
        pindrelo_send(s, 8, sending, size, (const uint8_t *)"0123456789", 10, d, sizeof d);
        expect("sent once", pindrelo_is_retransmitted(s, 8, sending, size, i), DONE(0));
        if (i > 0)
            pindrelo_receive(r, 8, receiving, size, d, 20, output, sizeof output, ack, sizeof ack);
    }
    expect("held", pindrelo_buffered_count(r, 8, receiving, size), DONE(selective ? 2 : 0));
    expect("held, without a store", pindrelo_buffered_count(r, 8, NULL, 0), selective ? PINDRELO_STATE : DONE(0));
    expect("a sender's words", pindrelo_buffered_count(s, 8, receiving, size), PINDRELO_STATE);
    expect("a receiver's words", pindrelo_is_retransmitted(r, 8, sending, size, 0), PINDRELO_STATE);
    expect("without a store", pindrelo_is_retransmitted(s, 8, NULL, 0, 0), PINDRELO_STATE);
    expect("the next number", pindrelo_is_retransmitted(s, 8, sending, size, count), PINDRELO_NOTHING);
    expect("a number of 33 bits", pindrelo_is_retransmitted(s, 8, sending, size, (uint64_t)1 << 32), PINDRELO_NOTHING);
    expect("timeout", pindrelo_timeout_number(s, 8, sending, size, 0, d, sizeof d),
           DONE(protocol == PINDRELO_GO_BACK_N ? 60 : 20));
    for (uint64_t i = 0; i < count; i++)
        expect("sent again", pindrelo_is_retransmitted(s, 8, sending, size, i), DONE(i == 0 || !selective));
    pindrelo_receive(r, 8, receiving, size, d, 20, output, sizeof output, ack, sizeof ack);
    expect("none held", pindrelo_buffered_count(r, 8, receiving, size), DONE(0));
    expect("acknowledge", pindrelo_acknowledge(s, 8, sending, size, ack, sizeof ack), DONE(0));
    expect("outstanding no more", pindrelo_is_retransmitted(s, 8, sending, size, 0), PINDRELO_NOTHING);
    s[PINDRELO_SENDER_TOTAL_SENT] = r[PINDRELO_RECEIVER_TOTAL] = (uint64_t)1 << 60;
    expect("a sender's count", pindrelo_is_retransmitted(s, 8, sending, size, 0), PINDRELO_COUNTS);
    expect("a receiver's count", pindrelo_buffered_count(r, 8, receiving, size), PINDRELO_COUNTS);
    r[PINDRELO_RECEIVER_BASE] = 4294901761u;
    expect("a base too high", pindrelo_buffered_count(r, 8, receiving, size), PINDRELO_STATE);
}

static void clear(void)
{
    uint64_t t[3] = { 0 }, at[3] = { 0, 0, 9 };
    uint32_t k[3] = { 0, 0, 9 };
    expect("zeros", pindrelo_timer_clear(t, 3, k, 2, at, 2), PINDRELO_STATE);
    pindrelo_make_timers(t, 3, k, 2, at, 2);
    expect("none ran", pindrelo_timer_clear(t, 3, k, 2, at, 2), DONE(0));
    pindrelo_timer_start(t, 3, k, 2, at, 2, 7, 100, 20);
    pindrelo_timer_start(t, 3, k, 2, at, 2, 5, 100, 30);
    expect("unequal", pindrelo_timer_clear(t, 3, k, 2, at, 3), PINDRELO_STATE);
    expect("kept", pindrelo_timer_earliest(t, 3, k, 2, at, 2), DONE(120));
    expect("clear", pindrelo_timer_clear(t, 3, k, 2, at, 2), DONE(0));
    expect("none runs", pindrelo_timer_earliest(t, 3, k, 2, at, 2), PINDRELO_NOTHING);
    expect("entries", k[0] + k[1] + at[0] + at[1], 0);
    expect("past the entries", k[2] + at[2], 18);
    expect("the generation", t[2], 2);
    t[1] = 1, at[0] = PINDRELO_MAX_TIME + 1;
    expect("a late deadline", pindrelo_timer_clear(t, 3, k, 2, at, 2), PINDRELO_TIME);
    expect("a late deadline kept", at[0], PINDRELO_MAX_TIME + 1);
}

static uint64_t numbers[PINDRELO_SETUP_NUMBERS] = { 3, 1, 4, 1, 0, 5, 0, 1000000000, 1000000000, 60000000000u, 1000000,
                                                    60000000000u, 10 };
static double reals[PINDRELO_SETUP_DOUBLES] = { 0, 0, 0, 0, 0.125, 0.25, 4, 1 }, rolls[64], back_rolls[64], doubles[5];
static uint8_t file[1] = { 0x41 }, output[1], forward_places[4 * 1410], reverse_places[4 * 1410];
static uint64_t notes[1][7], events[4][7], forward[4][4], reverse[4][4], deadlines[4], words[32], estimated[24];
static uint32_t keys[4];

static pindrelo_answer run_with(size_t number_count, size_t word_count)
{
    return pindrelo_run(numbers, number_count, reals, 8, file, 1, rolls, 64, back_rolls, 64, sending, sizeof sending,
                        receiving, sizeof receiving, output, 1, notes, 1, events, 4, forward, 4, forward_places,
                        sizeof forward_places, reverse, 4, reverse_places, sizeof reverse_places, keys, 4, deadlines,
                        4, words, word_count, estimated, 24, doubles, 5);
}

/* linkrun's setup, of one byte */
static void run(void)
{
    memset(words, 0xee, sizeof words);
    expect("too few numbers", run_with(12, 32), PINDRELO_STATE);
    expect("too few words", run_with(13, 30), PINDRELO_FULL);
    back_rolls[63] = 1;
    expect("a roll before too few words", run_with(13, 30), PINDRELO_ROLL);
    back_rolls[63] = 0;
    numbers[PINDRELO_SETUP_PROTOCOL] = 4;
    expect("protocol", run_with(13, 32), PINDRELO_SETUP);
    numbers[PINDRELO_SETUP_PROTOCOL] = 3;
    expect("nothing written", words[0] >> 56, 0xee);
    expect("no output", output[0], 0);
    expect("run", run_with(13, 32), DONE(1));
    expect("the file", output[0], 0x41);
    expect("finished", words[PINDRELO_OUTCOME_FINISHED_AT], 5000000);
    expect("ended", words[PINDRELO_OUTCOME_END], 0);
    expect("events", words[PINDRELO_OUTCOME_DRIVER + 7], 1);
    expect("sender's base", words[PINDRELO_OUTCOME_SENDER], 1);
    expect("fill mark", words[PINDRELO_OUTCOME_FILLED], 1);
    expect("datagrams", words[PINDRELO_OUTCOME_FORWARD], 1);
    expect("ACKs", words[PINDRELO_OUTCOME_REVERSE], 1);
    expect("word past the outcome", words[31] >> 56, 0xee);
    expect("delay", events[0][3], 5);
    expect("sum of bytes", events[0][5], 510);
    expect("samples", estimated[PINDRELO_ESTIMATOR_SAMPLES], 1);
}

/* the page of that run's one event, and of rows that are none */
static void page(void)
{
    static const char expected[] = "       seqsent           delay1       delay2        fold1        fold2  \n"
                                   "         0first               5                       510               \n"
                                   "                       1                       1                       0\n";
    static uint8_t out[PINDRELO_REPORT_SIZE(4) + 1];
    size_t size = PINDRELO_REPORT_SIZE(1);
    memset(out, '#', sizeof out);
    expect("its size", sizeof expected - 1, size);
    expect("a short page", pindrelo_report(events, 4, 1, out, size - 1), PINDRELO_FULL);
    expect("too few rows", pindrelo_report(events, 4, 5, out, sizeof out), PINDRELO_STATE);
    events[1][1] = 2;
    expect("no mark", pindrelo_report(events, 4, 2, out, sizeof out), PINDRELO_STATE);
    events[1][1] = 1, events[1][2] = 2, events[1][4] = 180001;
    expect("a late copy", pindrelo_report(events, 4, 2, out, sizeof out), PINDRELO_TIME);
    expect("nothing written", out[0] + out[sizeof out - 1], 2 * '#');
    expect("page", pindrelo_report(events, 4, 1, out, sizeof out), DONE(size));
    expect("another page", memcmp(out, expected, size) != 0, 0);
    expect("a byte past the page", out[size], '#');
    events[1][4] = 180000;
    expect("page of all rows", pindrelo_report(events, 4, 4, out, sizeof out), DONE(PINDRELO_REPORT_SIZE(4)));
    expect("a copy twice in four events", out[PINDRELO_REPORT_SIZE(3) + 47], '3');
    expect("one of them sent again", out[PINDRELO_REPORT_SIZE(3) + 71], '1');
}

/* one byte with one fault on every datagram, sent again three times at most: the outcome's words from the driver's on
 * (driver, sender, receiver, forward, reverse), and the first copy's delay. Flipped: the run ends before the last copy
 * comes. Slow: the byte is sent again while its ACK is on the way. */
static const struct fault {
    const char *name;
    int chance;
    uint64_t base_delay, words[28], delay;
} faults[] = {
    { "no fault", -1, 5,
      { 0, 0, 1, 1, 1, 0, 0, 1,  1, 1, 0,  1, 1, 1, 0, 0,  1, 0, 0, 0, 0, 1,  1, 0, 0, 0, 0, 1 },
      5 },
    { "lost", PINDRELO_SETUP_LOSS, 5,
      { 3, 0, 0, 0, 0, 0, 0, 4,  0, 4, 3,  0, 0, 0, 0, 0,  4, 4, 0, 0, 0, 0,  0, 0, 0, 0, 0, 0 },
      0 },
    { "twice", PINDRELO_SETUP_DUPLICATE, 5,
      { 0, 0, 2, 2, 2, 1, 1, 1,  1, 1, 0,  1, 1, 2, 0, 1,  1, 0, 0, 1, 0, 2,  2, 0, 0, 0, 0, 2 },
      5 },
    { "late", PINDRELO_SETUP_REORDER, 5,
      { 0, 0, 1, 1, 1, 0, 0, 1,  1, 1, 0,  1, 1, 1, 0, 0,  1, 0, 0, 0, 1, 1,  1, 0, 0, 0, 0, 1 },
      12 },
    { "flipped", PINDRELO_SETUP_CORRUPT, 5,
      { 3, 0, 3, 0, 0, 0, 0, 4,  0, 4, 3,  0, 0, 3, 0, 0,  4, 0, 4, 0, 0, 4,  0, 0, 0, 0, 0, 0 },
      5 },
    { "slow", -1, 600,
      { 1, 1, 2, 2, 2, 1, 1, 2,  1, 2, 1,  1, 1, 2, 0, 1,  2, 0, 0, 0, 0, 2,  2, 0, 0, 0, 0, 2 },
      600 },
};

static void run_with_faults(void)
{
    numbers[PINDRELO_SETUP_REORDER_EXTRA_MS] = 7;
    numbers[PINDRELO_SETUP_MAX_RETRANSMISSIONS] = 3;
    for (size_t i = 0; i < sizeof faults / sizeof *faults; i++) {
        const struct fault *f = &faults[i];
        numbers[PINDRELO_SETUP_BASE_DELAY_MS] = f->base_delay;
        for (int k = 0; k < 4; k++)
            reals[k] = k == f->chance;
        expect(f->name, pindrelo_status(run_with(13, 31)), PINDRELO_DONE);
        for (int k = 0; k < 28; k++)
            expect(f->name, words[PINDRELO_OUTCOME_DRIVER + k], f->words[k]);
        expect(f->name, events[0][3], f->delay);
    }
}

int main(void)
{
    single_timer();
    estimator();
    for (uint64_t protocol = PINDRELO_STOP_AND_WAIT; protocol <= PINDRELO_SELECTIVE_REPEAT; protocol++) {
        drain(protocol);
        stores(protocol);
    }
    clear();
    run();
    page();
    run_with_faults();
    return verdict();
}
