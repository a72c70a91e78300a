/* calls: senders, receivers, packets and timers from C, each answer compared. */
#define TEST "calls"
#include "expect.h"
#include <string.h>

static void senders(void)
{
    uint64_t protocol, s[PINDRELO_STATE_WORDS];
    uint8_t store[PINDRELO_STORE_SIZE(1)], d[100];
    const uint8_t chunk[5] = {1, 2, 3, 4, 5};

    for (protocol = PINDRELO_STOP_AND_WAIT; protocol <= PINDRELO_SELECTIVE_REPEAT; protocol++) {
        expect("make", pindrelo_make_sender(protocol, 1, 0, s, 8, store, sizeof store), PINDRELO_DONE);
        expect("none in flight", pindrelo_in_flight(s, 8, store, sizeof store), DONE(0));
        expect("in flight, no store", pindrelo_in_flight(s, 8, NULL, 0), PINDRELO_STATE);
        expect("send", pindrelo_send(s, 8, store, sizeof store, chunk, 5, d, sizeof d), DONE(15));
        expect("one in flight", pindrelo_in_flight(s, 8, store, sizeof store), DONE(1));
        expect("in flight, a short store", pindrelo_in_flight(s, 8, store, sizeof store - 1), PINDRELO_STATE);
        store[2] = 3;
        expect("in flight, a mark of 3", pindrelo_in_flight(s, 8, store, sizeof store), PINDRELO_STATE);
        expect("retries", pindrelo_make_sender(protocol, 1, 1ull << 32, s, 8, store, sizeof store), PINDRELO_SETUP);
    }
    pindrelo_make_sender(PINDRELO_SELECTIVE_REPEAT, 1, 0, s, 8, store, sizeof store);
    pindrelo_send(s, 8, store, sizeof store, chunk, 5, d, sizeof d);
    expect("number 2^32", pindrelo_timeout_number(s, 8, store, sizeof store, 1ull << 32, d, sizeof d),
           PINDRELO_NOTHING);
    expect("number 0", pindrelo_timeout_number(s, 8, store, sizeof store, 0, d, sizeof d), DONE(15));
}

static void packets(void)
{
    uint8_t d[PINDRELO_MAX_DATAGRAM], before[PINDRELO_MAX_DATAGRAM];
    const uint8_t a[1] = {0x41};
    pindrelo_answer r;

    memset(d, 7, sizeof d);
    expect("write", pindrelo_write(PINDRELO_DATA_PACKET, 0, 0, a, 1, d, sizeof d), DONE(11));
    expect("checksum of the byte 0x41", (uint64_t)(d[8] << 8 | d[9]), 0xBDFE);
    expect("past the datagram", d[11], 7);
    expect("payload", pindrelo_payload_length(d, 11), DONE(1));
    expect("validate", pindrelo_validate(d, 11), PINDRELO_DONE);
    d[10] ^= 1;
    expect("validate a flipped bit", pindrelo_validate(d, 11), PINDRELO_INVALID);
    expect("cut", pindrelo_read(d, 10), PINDRELO_CUT | DONE(1));
    expect("short", pindrelo_read(d, 9), PINDRELO_SHORT | DONE(9));
    d[4] = 4;
    expect("kind", pindrelo_read(d, 11), PINDRELO_KIND | DONE(4));

    pindrelo_write(PINDRELO_FIN_PACKET, 0xFFFFFFFF, 0x81, NULL, 0, d, sizeof d);
    r = pindrelo_read(d, 10);
    expect("number", pindrelo_packet_number(r), 0xFFFFFFFF);
    expect("kind of a Fin", pindrelo_packet_kind(r), PINDRELO_FIN_PACKET);
    expect("flags", pindrelo_packet_flags(r), 0x81);

    memcpy(before, d, sizeof d);
    expect("write no kind", pindrelo_write(9, 0, 0, a, 1, d, sizeof d), PINDRELO_KIND | DONE(9));
    expect("write kind 257", pindrelo_write(257, 0, 0, a, 1, d, sizeof d), PINDRELO_KIND | DONE(255));
    expect("write number 2^32", pindrelo_write(1, 1ull << 32, 0, a, 1, d, sizeof d), PINDRELO_NUMBERS);
    expect("write flags 256", pindrelo_write(1, 0, 256, a, 1, d, sizeof d), PINDRELO_NUMBERS);
    expect("write a short buffer", pindrelo_write(1, 0, 0, a, 1, d, 10), PINDRELO_FULL);
    expect("nothing written", (uint64_t)memcmp(before, d, sizeof d), 0);
}

static void timers(void)
{
    uint64_t t[PINDRELO_TIMERS_WORDS] = {0}, at[2] = {0, 0};
    uint32_t keys[2] = {0, 0}, due[2] = {0, 0};

    expect("no set", pindrelo_timer_earliest(t, 3, keys, 2, at, 2), PINDRELO_STATE);
    expect("unequal", pindrelo_make_timers(t, 3, keys, 2, at, 1), PINDRELO_STATE);
    expect("few words", pindrelo_make_timers(t, 2, keys, 2, at, 2), PINDRELO_FULL);
    expect("make", pindrelo_make_timers(t, 3, keys, 2, at, 2), PINDRELO_DONE);
    expect("none runs", pindrelo_timer_earliest(t, 3, keys, 2, at, 2), PINDRELO_NOTHING);
    expect("start 9", pindrelo_timer_start(t, 3, keys, 2, at, 2, 9, 100, 20), PINDRELO_DONE);
    expect("start 4", pindrelo_timer_start(t, 3, keys, 2, at, 2, 4, 100, 50), PINDRELO_DONE);
    expect("start a third", pindrelo_timer_start(t, 3, keys, 2, at, 2, 5, 100, 50), PINDRELO_FULL);
    expect("late", pindrelo_timer_start(t, 3, keys, 2, at, 2, 4, PINDRELO_MAX_TIME + 1, 0), PINDRELO_TIME);
    expect("earliest", pindrelo_timer_earliest(t, 3, keys, 2, at, 2), DONE(120));
    expect("pop early", pindrelo_timer_pop(t, 3, keys, 2, at, 2, 119, due, 2), DONE(0));
    expect("pop 9", pindrelo_timer_pop(t, 3, keys, 2, at, 2, 120, due, 2), DONE(1));
    expect("due", due[0], 9);
    expect("cancel 9", pindrelo_timer_cancel(t, 3, keys, 2, at, 2, 9), DONE(0));
    expect("start 2^32", pindrelo_timer_start(t, 3, keys, 2, at, 2, 1ull << 32, 100, 50), PINDRELO_FULL);
    expect("cancel 2^32 + 4", pindrelo_timer_cancel(t, 3, keys, 2, at, 2, (1ull << 32) + 4), DONE(0));
    expect("cancel 4", pindrelo_timer_cancel(t, 3, keys, 2, at, 2, 4), DONE(1));
}

/* one chunk from a sender to a receiver, by each protocol */
static void ends(void)
{
    uint64_t protocol, s[PINDRELO_STATE_WORDS], r[PINDRELO_STATE_WORDS];
    uint8_t sent[PINDRELO_STORE_SIZE(4)], held[PINDRELO_STORE_SIZE(4)];
    uint8_t d[PINDRELO_RESEND_SIZE(4)], output[4], ack[PINDRELO_ACK_SIZE];
    const uint8_t chunk[3] = {'a', 'b', 'c'};

    for (protocol = PINDRELO_STOP_AND_WAIT; protocol <= PINDRELO_SELECTIVE_REPEAT; protocol++) {
        memset(r, 0, sizeof r);
        expect("zeros", pindrelo_receive(r, 8, held, sizeof held, d, 0, output, 4, ack, 10), PINDRELO_STATE);
        expect("window 33", pindrelo_make_receiver(protocol, 33, r, 8, d, sizeof d),
               protocol == PINDRELO_SELECTIVE_REPEAT ? PINDRELO_STATE : PINDRELO_SETUP);
        expect("window 0", pindrelo_make_sender(protocol, 0, 1, s, 8, sent, sizeof sent), PINDRELO_SETUP);
        expect("seven words", pindrelo_make_sender(protocol, 4, 1, s, 7, sent, sizeof sent), PINDRELO_FULL);
        expect("make sender", pindrelo_make_sender(protocol, 4, 1, s, 8, sent, sizeof sent), PINDRELO_DONE);
        expect("make receiver", pindrelo_make_receiver(protocol, 4, r, 8, held, sizeof held), PINDRELO_DONE);
        expect("can send", pindrelo_can_send(s, 8), DONE(1));
        expect("nothing out", pindrelo_timeout_all(s, 8, sent, sizeof sent, d, sizeof d), PINDRELO_NOTHING);
        expect("send", pindrelo_send(s, 8, sent, sizeof sent, chunk, 3, d, sizeof d), DONE(13));
        expect("no room", pindrelo_receive(r, 8, held, sizeof held, d, 13, output, 2, ack, 10), PINDRELO_FULL);
        expect("short ack", pindrelo_receive(r, 8, held, sizeof held, d, 13, output, 4, ack, 9), PINDRELO_FULL);
        d[12] ^= 4;
        expect("flipped", pindrelo_receive(r, 8, held, sizeof held, d, 13, output, 4, ack, 10), PINDRELO_SILENT);
        d[12] ^= 4;
        expect("receive", pindrelo_receive(r, 8, held, sizeof held, d, 13, output, 4, ack, 10), DONE(0));
        expect("fill mark", r[PINDRELO_RECEIVER_FILLED], 3);
        expect("delivered", (uint64_t)memcmp(output, chunk, 3), 0);
        expect("again", pindrelo_timeout_all(s, 8, sent, sizeof sent, d, sizeof d), DONE(13));
        expect("flag", d[5], 1);
        expect("duplicate", pindrelo_receive(r, 8, held, sizeof held, d, 13, output, 4, ack, 10), DONE(0));
        expect("fill mark again", r[PINDRELO_RECEIVER_FILLED], 3);
        expect("datagrams", r[PINDRELO_RECEIVER_TOTAL], 3);
        expect("accepted", pindrelo_acknowledge(s, 8, sent, sizeof sent, ack, 10), DONE(0));
        expect("late", pindrelo_acknowledge(s, 8, sent, sizeof sent, ack, 10), PINDRELO_NOT_ACCEPTED);
        expect("base", s[PINDRELO_SENDER_BASE], s[PINDRELO_SENDER_NEXT]);
        pindrelo_write(PINDRELO_FIN_PACKET, 0xFFFFFFFF, 0, NULL, 0, d, sizeof d);
        expect("Fin", pindrelo_receive(r, 8, held, sizeof held, d, 10, output, 4, ack, 10), DONE(0xFFFFFFFF));
        pindrelo_write(PINDRELO_DATA_PACKET, 4294901760u, 0, NULL, 0, d, sizeof d);
        expect("high", pindrelo_receive(r, 8, held, sizeof held, d, 10, output, 4, ack, 10), PINDRELO_NUMBERS);
    }
    expect("protocol 4", pindrelo_make_sender(4, 4, 1, s, 0, sent, 0), PINDRELO_SETUP);
}

int main(void)
{
    senders();
    packets();
    timers();
    ends();
    return verdict();
}
