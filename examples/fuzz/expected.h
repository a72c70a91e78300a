/* For fuzz: what each call of packets and ends should answer, worked out from pindrelo.h. */
#ifndef EXPECTED_H
#define EXPECTED_H

#include "pindrelo.h"

#define NUMBERS_END UINT64_C(4294901760)
#define COUNTS_END (UINT64_C(1) << 60)
#define WIDE(n) ((n) > UINT32_MAX)
#define SLOT_SIZE PINDRELO_STORE_SIZE(1)

struct bytes { const uint8_t *at; size_t n; };
struct words { const uint64_t *at; size_t n; };

static uint64_t answer_of(unsigned status, uint64_t value)
{
    return status | value << 8;
}

static unsigned pair(const uint8_t *d)
{
    return (unsigned)(d[0] << 8 | d[1]);
}

/* ---- packets */

static uint64_t number_in(const uint8_t *d)
{
    return (uint64_t)pair(d) << 16 | pair(d + 2);
}

static unsigned checksum(const uint8_t *d, size_t n)
{
    uint64_t sum = 0;
    for (size_t i = 0; i < n; i += 2)
        if (i != 8)
            sum += (unsigned)(d[i] << 8 | (i + 1 < n ? d[i + 1] : 0));
    while (sum >> 16)
        sum = (sum & 0xffff) + (sum >> 16);
    return (unsigned)(~sum & 0xffff);
}

/* 0, or its refusal */
static uint64_t reading(struct bytes d)
{
    if (d.n < 10)
        return answer_of(PINDRELO_SHORT, d.n);
    if (d.at[4] < 1 || d.at[4] > 3)
        return answer_of(PINDRELO_KIND, d.at[4]);
    if (pair(d.at + 6) > d.n - 10)
        return answer_of(PINDRELO_CUT, pair(d.at + 6) | (uint64_t)(d.n - 10) << 16);
    return 0;
}

static int valid(struct bytes d)
{
    return checksum(d.at, 10 + (size_t)pair(d.at + 6)) == pair(d.at + 8);
}

static uint64_t expect_read(struct bytes d)
{
    uint64_t refused = reading(d);
    return refused ? refused : answer_of(0, number_in(d.at) | (uint64_t)d.at[4] << 32 | (uint64_t)d.at[5] << 40);
}

static uint64_t expect_validate(struct bytes d)
{
    uint64_t refused = reading(d);
    return refused ? refused : valid(d) ? 0 : PINDRELO_INVALID;
}

static uint64_t expect_payload_length(struct bytes d)
{
    uint64_t refused = reading(d);
    return refused ? refused : answer_of(0, pair(d.at + 6));
}

static uint64_t expect_write(uint64_t kind, uint64_t number, uint64_t flags, size_t length, size_t room)
{
    if (kind < 1 || kind > 3)
        return answer_of(PINDRELO_KIND, kind < 255 ? kind : 255);
    if (length > 1400)
        return PINDRELO_LONG;
    if (WIDE(number) || flags > 255)
        return PINDRELO_NUMBERS;
    return room < 10 + length ? PINDRELO_FULL : answer_of(0, 10 + length);
}

/* 0, or what an end refuses of a datagram that it is given */
static uint64_t given(struct bytes d)
{
    uint64_t refused = reading(d);
    return refused ? refused : pair(d.at + 6) > 1400 ? PINDRELO_LONG : 0;
}

/* ---- making */

static uint64_t expect_making(uint64_t protocol, size_t window, uint64_t max_retries, size_t slots, size_t words,
                              size_t store)
{
    if (protocol < 1 || protocol > 3)
        return PINDRELO_SETUP;
    if (store / SLOT_SIZE < slots)
        return PINDRELO_STATE;
    if (window < 1 || window > 32 || WIDE(max_retries))
        return PINDRELO_SETUP;
    return words < 8 ? PINDRELO_FULL : 0;
}

/* ---- a sender */

static const uint8_t *slot_of(struct bytes store, uint64_t window, uint64_t number)
{
    return store.at + number % window * SLOT_SIZE;
}

static int numbers_broken(struct words s)
{
    if (s.n < 8 || s.at[0] < 257 || s.at[0] > 259)
        return 1;
    uint64_t window = s.at[1], base = s.at[2], next = s.at[3];
    if (s.at[0] == 257 && (window != 1 || WIDE(s.at[6]) || WIDE(s.at[7])))
        return 1;
    return window < 1 || window > 32 || base > next || next - base > window || next > NUMBERS_END;
}

static int sender_broken(struct words s, struct bytes store)
{
    if (numbers_broken(s) || store.n < s.at[1] * SLOT_SIZE)
        return 1;
    for (uint64_t k = 0; k < s.at[1]; k++) {
        const uint8_t *slot = slot_of(store, s.at[1], s.at[2] + k);
        int outstanding = k < s.at[3] - s.at[2], may_be_acknowledged = s.at[0] == 259 && k > 0;
        if (pair(slot) > 1400 || slot[2] > 2 || outstanding != (slot[2] != 0) || (slot[2] == 2 && !may_be_acknowledged))
            return 1;
    }
    return 0;
}

/* 0, or what is refused whatever the call */
static uint64_t sender_held(struct words s, int broken)
{
    if (broken)
        return PINDRELO_STATE;
    return s.at[4] >= COUNTS_END || s.at[5] >= COUNTS_END ? PINDRELO_COUNTS : 0;
}

static uint64_t expect_send(struct words s, struct bytes store, size_t length, size_t room)
{
    uint64_t refused = sender_held(s, sender_broken(s, store));
    if (refused)
        return refused;
    if (length > 1400)
        return PINDRELO_LONG;
    if (s.at[3] - s.at[2] == s.at[1])
        return PINDRELO_WINDOW_FULL;
    if (s.at[3] == NUMBERS_END)
        return PINDRELO_NUMBERS;
    return room < 10 + length ? PINDRELO_FULL : answer_of(0, 10 + length);
}

static uint64_t expect_acknowledge(struct words s, struct bytes store, struct bytes d)
{
    uint64_t refused = sender_held(s, sender_broken(s, store));
    if (refused || (refused = given(d)))
        return refused;
    uint64_t n = number_in(d.at);
    return d.at[4] == 2 && valid(d) && s.at[2] <= n && n < s.at[3] ? answer_of(0, n) : PINDRELO_NOT_ACCEPTED;
}

enum { ALL, EARLIEST, NUMBER };

/* the numbers from *from up to, not including, the answer */
static uint64_t due_again(struct words s, struct bytes store, int which, uint64_t number, uint64_t *from)
{
    uint64_t base = s.at[2], next = s.at[3];
    *from = base;
    if (base == next || (s.at[0] == 257 && s.at[7] >= s.at[6]))
        return base;
    if (s.at[0] == 258)
        return which == EARLIEST ? base + 1 : next;
    if (s.at[0] == 259 && which == NUMBER) {
        *from = number;
        return base <= number && number < next && slot_of(store, s.at[1], number)[2] == 1 ? number + 1 : number;
    }
    return base + 1;
}

static uint64_t expect_timeout(struct words s, struct bytes store, int which, uint64_t number, size_t room)
{
    uint64_t refused = sender_held(s, sender_broken(s, store)), n, end, bytes = 0;
    if (refused)
        return refused;
    for (end = due_again(s, store, which, number, &n); n < end; n++)
        bytes += 10 + pair(slot_of(store, s.at[1], n));
    return bytes == 0 ? PINDRELO_NOTHING : room < bytes ? PINDRELO_FULL : answer_of(0, bytes);
}

static uint64_t expect_can_send(struct words s)
{
    uint64_t refused = sender_held(s, numbers_broken(s));
    return refused ? refused : answer_of(0, s.at[3] - s.at[2] < s.at[1]);
}

static uint64_t expect_in_flight(struct words s, struct bytes store)
{
    uint64_t refused = sender_held(s, sender_broken(s, store)), count = 0;
    if (refused)
        return refused;
    for (uint64_t n = s.at[2]; n < s.at[3]; n++)
        count += slot_of(store, s.at[1], n)[2] == 1;
    return answer_of(0, count);
}

static uint64_t expect_is_retransmitted(struct words s, struct bytes store, uint64_t number)
{
    uint64_t refused = sender_held(s, sender_broken(s, store));
    if (refused)
        return refused;
    if (number < s.at[2] || number >= s.at[3])
        return PINDRELO_NOTHING;
    return answer_of(0, slot_of(store, s.at[1], number)[3] & 1);
}

/* ---- a receiver */

static int receiver_broken(struct words r, struct bytes store, size_t capacity)
{
    if (r.n < 8 || r.at[0] < 260 || r.at[0] > 262 || r.at[2] > NUMBERS_END || r.at[3] > capacity)
        return 1;
    if (r.at[0] != 262)
        return r.at[1] != 1;
    if (r.at[1] < 1 || r.at[1] > 32 || store.n < r.at[1] * SLOT_SIZE)
        return 1;
    for (uint64_t k = 0; k < r.at[1]; k++) {
        const uint8_t *slot = slot_of(store, r.at[1], r.at[2] + k);
        if (pair(slot) > 1400 || slot[2] > 1 || (k == 0 && slot[2]))
            return 1;
    }
    return 0;
}

/* 0, or what is refused whatever the call */
static uint64_t receiver_held(struct words r, struct bytes store, size_t capacity)
{
    if (receiver_broken(r, store, capacity))
        return PINDRELO_STATE;
    return r.at[4] >= COUNTS_END || r.at[5] >= COUNTS_END || r.at[6] >= COUNTS_END ? PINDRELO_COUNTS : 0;
}

/* the number of the ACK, or NONE; *delivered: how many bytes are to be delivered */
#define NONE UINT64_MAX
static uint64_t reply(struct words r, struct bytes store, struct bytes d, uint64_t *delivered)
{
    uint64_t n = number_in(d.at), base = r.at[2], window = r.at[1];
    if (!valid(d) || d.at[4] == 2)
        return NONE;
    if (d.at[4] == 3)
        return n;
    if (n == base) {
        *delivered = pair(d.at + 6);
        for (uint64_t k = 1; r.at[0] == 262 && k < window && slot_of(store, window, base + k)[2]; k++)
            *delivered += pair(slot_of(store, window, base + k));
        return n;
    }
    if (r.at[0] == 260)
        return n < base ? n : base ? base - 1 : 0;
    if (r.at[0] == 261)
        return base ? base - 1 : NONE;
    return n < base + window && n + window >= base ? n : NONE;
}

static uint64_t expect_receive(struct words r, struct bytes store, struct bytes d, size_t capacity, size_t room)
{
    uint64_t refused = receiver_held(r, store, capacity), delivered = 0;
    if (refused || (refused = given(d)))
        return refused;
    if (valid(d) && d.at[4] == 1 && number_in(d.at) >= NUMBERS_END)
        return PINDRELO_NUMBERS;
    uint64_t ack = reply(r, store, d, &delivered);
    if (delivered > capacity - r.at[3] || (ack != NONE && room < 10))
        return PINDRELO_FULL;
    return ack == NONE ? PINDRELO_SILENT : answer_of(0, ack);
}

/* no output is lent: whatever the fill mark */
static uint64_t expect_buffered_count(struct words r, struct bytes store)
{
    uint64_t refused = receiver_held(r, store, SIZE_MAX), count = 0;
    if (refused)
        return refused;
    for (uint64_t k = 0; r.at[0] == 262 && k < r.at[1]; k++)
        count += slot_of(store, r.at[1], k)[2];
    return answer_of(0, count);
}

static uint64_t expect_drain(struct words r, struct bytes store, size_t capacity)
{
    uint64_t refused = receiver_held(r, store, capacity);
    return refused ? refused : answer_of(0, r.at[3]);
}

#endif
