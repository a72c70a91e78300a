/* pindrelo.h: reliable transfer of files over a lossy datagram line. Link libpindrelo.a (`bash tools/archive.sh pindrelo`).
 *
 * The host owns sockets, encryption and the clock. It hands over datagrams as they come, in memory that it lends
 * for the length of a call. The library allocates nothing, keeps no state of its own, starts no thread, makes no
 * system call and never blocks: two states may be used by two threads at once, one state by one thread at a time.
 *
 * What is promised of every call is proved: it ends on every input, its answer and every byte that it writes are
 * fixed by its contract (crates/pindrelo/src/lib.rt; but for which NaN a NaN is), and a refused call changes
 * nothing. */
#ifndef PINDRELO_H
#define PINDRELO_H

#include <stddef.h>
#include <stdint.h>

#if SIZE_MAX != UINT64_MAX
#error "libpindrelo.a is for x86-64, where size_t has 64 bits"
#endif

#ifdef __cplusplus
extern "C" {
#endif

/* ---- ANSWERS
 *
 * Every call answers one number of 64 bits: a status in its lowest 8 bits, a value in the 56 above them.
 *
 *      0  done; the value is named at each call
 *      1  short     a datagram under 10 bytes; its length
 *      2  kind      byte 4 of a datagram is not 1 to 3; the byte
 *      3  cut       a datagram declares more payload than follows; declared and present
 *      4  setup     protocol, window or another number out of bounds, at making and of a run
 *      5  full      a lent buffer is shorter than this call writes
 *      6  long      a payload above 1,400 bytes
 *      7  numbers   the numbers are used up: 4,294,901,760; of write, a number of more than 32 bits or flags of
 *                   more than 8
 *      8  counts    a counter stands at 2^60 or more
 *      9  state     words, store or output that don't fit: zeros, another kind, fewer words, another version, an
 *                   output shorter than its fill mark, slices of unequal length, too few numbers or doubles of a
 *                   run, rows of a page that are no events. It is no check of integrity: other words may pass
 *     10  time      a time given, held or to be stored above 172,800 s, a duration above 86,400 s, an event's delay
 *                   above 180 s
 *     11  roll      a roll of a run is not at least 0 and below 1
 *     16  the window is full     17  not accepted     18  nothing     19  nothing to answer     20  invalid checksum
 *
 * 1 to 11 are refusals: no byte of anything lent has changed. The first that is true is answered, in the order 9,
 * 8, 10, 11, 4, 1, 2, 3, 6, 7, 5, but where a call names another. (12 to 15 are kept for refusals to come.)
 * From 16 on nothing failed; but for 19, which counts the datagram, nothing has changed then either. Where no value is
 * named it is 0.
 *
 * Which come from where: 1, 2, 3 and 6 of calls that are given a datagram, and 7 of receive, are the line's or another
 * program's doing: count them and go on. All others are the host's own: a state that was overwritten, memory too
 * small.
 *
 * Below, "Done" says what a call did and what its value is, "Else" its ordinary status otherwise; the numbers at the
 * end are its refusals, in the order in which they are tested. */

typedef uint64_t pindrelo_answer;

enum {
    PINDRELO_DONE = 0,
    PINDRELO_SHORT = 1,
    PINDRELO_KIND = 2,
    PINDRELO_CUT = 3,
    PINDRELO_SETUP = 4,
    PINDRELO_FULL = 5,
    PINDRELO_LONG = 6,
    PINDRELO_NUMBERS = 7,
    PINDRELO_COUNTS = 8,
    PINDRELO_STATE = 9,
    PINDRELO_TIME = 10,
    PINDRELO_ROLL = 11,
    PINDRELO_WINDOW_FULL = 16,
    PINDRELO_NOT_ACCEPTED = 17,
    PINDRELO_NOTHING = 18,
    PINDRELO_SILENT = 19,
    PINDRELO_INVALID = 20
};

static inline unsigned pindrelo_status(pindrelo_answer a) { return (unsigned)(a & 0xff); }
static inline uint64_t pindrelo_value(pindrelo_answer a) { return a >> 8; }
static inline int pindrelo_refused(pindrelo_answer a) { return pindrelo_status(a) >= 1 && pindrelo_status(a) <= 15; }

/* of acknowledge, receive and the readers of packets: the line's doing, not the host's */
static inline int pindrelo_from_line(pindrelo_answer a)
{
    unsigned s = pindrelo_status(a);
    return (s >= PINDRELO_SHORT && s <= PINDRELO_CUT) || s == PINDRELO_LONG || s == PINDRELO_NUMBERS;
}

/* a refusal's values */
static inline unsigned pindrelo_first(pindrelo_answer a) { return (unsigned)(pindrelo_value(a) & 0xffff); }
static inline unsigned pindrelo_second(pindrelo_answer a) { return (unsigned)(pindrelo_value(a) >> 16 & 0xffff); }

/* ---- MEMORY
 *
 * A pointer is followed by its length, the number of elements that it points to, not of bytes: uint64_t for a state's
 * words and for deadlines, uint32_t for keys, double for an estimator and a run, rows of words for a run, all aligned;
 * uint8_t for all else. Any length is answered, too short ones by 9 or 5, NULL only with length 0. What C must keep,
 * since no library can see it: a pointer is valid for its length, and no two slices of one call overlap. Bytes past
 * what a call writes stay as they are. A datagram that comes goes into a call whole: read it into
 * PINDRELO_MAX_DATAGRAM bytes at least. A line that carries less than that wants shorter chunks. */

#define PINDRELO_HEADER_SIZE 10
#define PINDRELO_MAX_PAYLOAD 1400
#define PINDRELO_MAX_DATAGRAM 1410
#define PINDRELO_ACK_SIZE 10
#define PINDRELO_MAX_WINDOW 32
#define PINDRELO_STATE_WORDS 8
#define PINDRELO_TIMERS_WORDS 3
/* times, in nanoseconds from a start of the host's choice: 172,800 s and 86,400 s */
#define PINDRELO_MAX_TIME UINT64_C(172800000000000)
#define PINDRELO_MAX_DURATION UINT64_C(86400000000000)
/* a store's bytes: of a sender and of Selective Repeat's receiver. Stop-and-Wait's sender has a window of 1, and the
 * other receivers have no store: NULL, 0 */
#define PINDRELO_STORE_SIZE(window) ((size_t)(window) * 1404)
/* what a timeout of all can write */
#define PINDRELO_RESEND_SIZE(window) ((size_t)(window) * PINDRELO_MAX_DATAGRAM)

/* ---- STATES
 *
 * A state is its words, with its store and, of a receiver, the output up to the fill mark, of a timer set its keys and
 * deadlines, of an estimator its doubles: copy or save all of it and it goes on from there, timers with the clock that
 * they were set by. Words are numbers in the machine's byte order. Word 0 has the kind and the version of this layout;
 * words of another version are a 9. A host may read these words, and writes none: */

enum {
    PINDRELO_SENDER_WINDOW = 1,
    PINDRELO_SENDER_BASE = 2, /* the lowest number not acknowledged */
    PINDRELO_SENDER_NEXT = 3, /* the number of the next chunk; all is acknowledged where base is next */
    PINDRELO_SENDER_TOTAL_SENT = 4,
    PINDRELO_SENDER_RETRANSMISSIONS = 5,
    PINDRELO_SENDER_MAX_RETRIES = 6, /* Stop-and-Wait */
    PINDRELO_SENDER_RETRIES = 7
};

enum {
    PINDRELO_RECEIVER_WINDOW = 1, /* Selective Repeat; 1 in the others */
    PINDRELO_RECEIVER_BASE = 2,   /* the number of the next chunk to be delivered */
    PINDRELO_RECEIVER_FILLED = 3, /* the fill mark: how many bytes of the output are delivered */
    PINDRELO_RECEIVER_TOTAL = 4,
    PINDRELO_RECEIVER_SECOND = 5, /* Stop-and-Wait: duplicates; Go-Back-N: discarded; Selective Repeat: buffered */
    PINDRELO_RECEIVER_THIRD = 6   /* Stop-and-Wait: corrupted; Go-Back-N: ACKs repeated; Selective Repeat: duplicates */
};

enum { PINDRELO_STOP_AND_WAIT = 1, PINDRELO_GO_BACK_N = 2, PINDRELO_SELECTIVE_REPEAT = 3 };

/* ---- HOW A HOST USES IT                                       (examples/pagelink.c does so, over UDP)
 *
 * A receiver, here of a window of 8 and with an output that the file fits in:
 *     uint64_t state[PINDRELO_STATE_WORDS];
 *     uint8_t store[PINDRELO_STORE_SIZE(8)], ack[PINDRELO_ACK_SIZE];
 *     pindrelo_make_receiver(PINDRELO_SELECTIVE_REPEAT, 8, state, PINDRELO_STATE_WORDS, store, sizeof store);
 * and for each datagram that comes, n bytes at d:
 *     pindrelo_answer a = pindrelo_receive(state, PINDRELO_STATE_WORDS, store, sizeof store, d, n,
 *                                          output, sizeof output, ack, sizeof ack);
 *     status DONE           send the ACK to where the datagram came from
 *     status SILENT         nothing is to be sent
 *     pindrelo_from_line    count it: nothing has changed
 *     any other             the host's own mistake, such as a file longer than the output
 * The output up to state[PINDRELO_RECEIVER_FILLED] is what is delivered; pindrelo_drain makes room in it. How the end
 * is known: WHAT THE HOST DECIDES, below.
 *
 * A sender: pindrelo_make_sender; pindrelo_make_timers, with a key and a deadline for each number of the window; and
 * pindrelo_make_default_estimator, or another estimator, whose word PINDRELO_ESTIMATOR_RTO is every timer's duration.
 * The host notes of each outstanding number, at number % window, when it was sent and whether again. Times are in
 * nanoseconds since the transfer began. Then, until all is sent and word BASE is word NEXT:
 *  1  pindrelo_send, as long as there are chunks and the answer isn't WINDOW_FULL. Send the datagram, note the time for
 *     its number, which was word NEXT, and start the number's timer.
 *  2  Wait for a datagram, at most until pindrelo_timer_earliest.
 *  3  pindrelo_acknowledge for each that came. Done: pindrelo_timer_cancel for its number; in Go-Back-N for all from
 *     the old word BASE up to it. If one of them ran, that is progress, and the time since the note is a sample for
 *     pindrelo_estimator_sample: of this number, in Go-Back-N of the old BASE. If none ran, the number was acknowledged
 *     before, or Stop-and-Wait's retries were spent.
 *  4  pindrelo_timer_pop. If any key was due, pindrelo_estimator_timeout; then in Selective Repeat
 *     pindrelo_timeout_number for each of them, in the others one pindrelo_timeout_all. Send each datagram that is
 *     written, note that its number was sent again, and start its timer again. NOTHING in Stop-and-Wait means that the
 *     retries are spent: no timer runs then, and the host gives up, or waits for a last ACK as long as it chooses. */

/* ---- A SENDER
 *
 * Chunks are numbered from 0 in the order in which they are sent; a chunk has at most 1,400 bytes. Time is the
 * host's: it keeps when each number was sent, and calls a timeout when its timer has run out. */

/* protocol 1 to 3, window 1 to 32, max_retries of 32 bits (a 4 else in every protocol; Stop-and-Wait then runs with a
 * window of 1, and it alone has retries). The store's slots become zeros. An unknown protocol is a 4 before all else;
 * then 9 store too short, 4, 5 fewer than PINDRELO_STATE_WORDS words. */
pindrelo_answer pindrelo_make_sender(uint64_t protocol, size_t window, uint64_t max_retries,
                                     uint64_t *state, size_t words, uint8_t *store, size_t store_size);

/* A chunk: its datagram to the start of out. Done: the datagram's length; its number was word NEXT before the
 * call. Else WINDOW_FULL, which is tested after 6 and before 7 and 5. 9, 8, 6, 7, 5. */
pindrelo_answer pindrelo_send(uint64_t *state, size_t words, uint8_t *store, size_t store_size,
                              const uint8_t *payload, size_t length, uint8_t *out, size_t out_size);

/* A datagram that came for the sender. Done: a valid ACK of an outstanding number, which is the value; Go-Back-N's
 * is of all numbers up to it. Selective Repeat accepts the ACK of a number above base again. Else NOT_ACCEPTED. 9, 8,
 * 1, 2, 3, 6. */
pindrelo_answer pindrelo_acknowledge(uint64_t *state, size_t words, uint8_t *store, size_t store_size,
                                     const uint8_t *datagram, size_t length);

/* A timeout: datagrams again, end to end to the start of out, each 10 + its bytes 6 and 7 (big-endian) long. Done:
 * the bytes written. Else NOTHING: nothing is outstanding, Stop-and-Wait's retries are spent (then in_flight is 1),
 * or in Selective Repeat the number isn't outstanding or is acknowledged. 9, 8, 5.
 *   Stop-and-Wait     all three: the packet in flight
 *   Go-Back-N         all and number: every outstanding one, lowest first; earliest: the lowest
 *   Selective Repeat  number: that one; all and earliest: the one at base */
pindrelo_answer pindrelo_timeout_all(uint64_t *state, size_t words, uint8_t *store, size_t store_size,
                                     uint8_t *out, size_t out_size);
pindrelo_answer pindrelo_timeout_earliest(uint64_t *state, size_t words, uint8_t *store, size_t store_size,
                                          uint8_t *out, size_t out_size);
pindrelo_answer pindrelo_timeout_number(uint64_t *state, size_t words, uint8_t *store, size_t store_size,
                                        uint64_t number, uint8_t *out, size_t out_size);

/* Done: 1 where the window is free, else 0. The store isn't looked at. 9, 8. */
pindrelo_answer pindrelo_can_send(const uint64_t *state, size_t words);

/* Done: how many numbers are outstanding and not acknowledged. 9, 8. */
pindrelo_answer pindrelo_in_flight(const uint64_t *state, size_t words, const uint8_t *store, size_t store_size);

/* Done: 1 where the number was sent again, else 0, as a sample wants to know. Else NOTHING: the number isn't from word
 * BASE on and below NEXT; so ask before its ACK is given to the sender. 9, 8. */
pindrelo_answer pindrelo_is_retransmitted(const uint64_t *state, size_t words, const uint8_t *store, size_t store_size,
                                          uint64_t number);

/* ---- A RECEIVER
 *
 * Payloads go to the output in order, from the fill mark on; it is the same output in every call, but right after a
 * drain, and the file must fit in it, unless it is drained (see DRAINING). Bytes below the fill mark are never read or
 * written again.
 * A 5 leaves all as it was: the sender's next copy will do. */

/* protocol and window as the sender's. Only Selective Repeat's store is looked at and cleared. An unknown protocol is
 * a 4 before all else; then 9, 4, 5. */
pindrelo_answer pindrelo_make_receiver(uint64_t protocol, size_t window,
                                       uint64_t *state, size_t words, uint8_t *store, size_t store_size);

/* A datagram that came for the receiver. Done: PINDRELO_ACK_SIZE bytes at the start of ack are to be sent back;
 * the value is the ACK's number. Else SILENT. 9, 8, 1, 2, 3, 6, 7, 5. */
pindrelo_answer pindrelo_receive(uint64_t *state, size_t words, uint8_t *store, size_t store_size,
                                 const uint8_t *datagram, size_t length, uint8_t *output, size_t output_size,
                                 uint8_t *ack, size_t ack_size);

/* Done: how many payloads are held for their turn; 0 in Stop-and-Wait and Go-Back-N, where the store isn't looked at.
 * 9, 8. */
pindrelo_answer pindrelo_buffered_count(const uint64_t *state, size_t words, const uint8_t *store, size_t store_size);

/* ---- A TIMER SET
 *
 * A timer for each outstanding number, which is its key. The set is its words, its keys and its deadlines, two slices
 * of one length with an entry for each timer that may run; the window is enough. Times are nanoseconds from a start of
 * the host's choice, one for each transfer: at most 172,800 s, so not a clock that counts from boot. A timer is due
 * when now is at its deadline or past it. */

/* 9 slices of unequal length, 5 fewer than PINDRELO_TIMERS_WORDS words. All entries become zeros. */
pindrelo_answer pindrelo_make_timers(uint64_t *state, size_t words, uint32_t *keys, size_t key_count,
                                     uint64_t *deadlines, size_t deadline_count);

/* Sets or restarts the timer of a key. 9, 10, 5 where the key is new and no entry is unused, or is above 32 bits. */
pindrelo_answer pindrelo_timer_start(uint64_t *state, size_t words, uint32_t *keys, size_t key_count,
                                     uint64_t *deadlines, size_t deadline_count,
                                     uint64_t key, uint64_t now, uint64_t duration);

/* Done: 1 where the key's timer ran, else 0; it runs no more. 9, 10. */
pindrelo_answer pindrelo_timer_cancel(uint64_t *state, size_t words, uint32_t *keys, size_t key_count,
                                      uint64_t *deadlines, size_t deadline_count, uint64_t key);

/* Done: how many keys were due; they stand at the start of out, ascending, and run no more. 9, 10, 5. */
pindrelo_answer pindrelo_timer_pop(uint64_t *state, size_t words, uint32_t *keys, size_t key_count,
                                   uint64_t *deadlines, size_t deadline_count,
                                   uint64_t now, uint32_t *out, size_t out_count);

/* Done: the earliest deadline. Else NOTHING. 9, 10. */
pindrelo_answer pindrelo_timer_earliest(const uint64_t *state, size_t words, const uint32_t *keys, size_t key_count,
                                        const uint64_t *deadlines, size_t deadline_count);

/* No timer runs any more. 9, 10. */
pindrelo_answer pindrelo_timer_clear(uint64_t *state, size_t words, uint32_t *keys, size_t key_count,
                                     uint64_t *deadlines, size_t deadline_count);

/* ---- PACKETS
 *
 * The ends read and write them; a host needs these calls only for packets of its own, as a Fin. A header has 10 bytes,
 * big-endian: number 0 to 3, kind 4 (1 Data, 2 Ack, 3 Fin), flags 5 (bit 0: sent again), payload length 6 and 7,
 * checksum 8 and 9. A receiver acknowledges a Fin by the Fin's number, whatever was delivered, and a sender takes that
 * ACK for a chunk's: number a Fin 0xFFFFFFFF, which no chunk has, and look for its ACK with pindrelo_read. */

enum { PINDRELO_DATA_PACKET = 1, PINDRELO_ACK_PACKET = 2, PINDRELO_FIN_PACKET = 3 };

/* Done: number, kind and flags, for the three functions below. Bytes behind the payload are ignored. 1, 2, 3. */
pindrelo_answer pindrelo_read(const uint8_t *datagram, size_t length);

static inline uint32_t pindrelo_packet_number(pindrelo_answer a) { return (uint32_t)pindrelo_value(a); }
static inline unsigned pindrelo_packet_kind(pindrelo_answer a) { return (unsigned)(pindrelo_value(a) >> 32 & 0xff); }
static inline unsigned pindrelo_packet_flags(pindrelo_answer a) { return (unsigned)(pindrelo_value(a) >> 40 & 0xff); }

/* Done: the checksum matches. Else INVALID. 1, 2, 3. */
pindrelo_answer pindrelo_validate(const uint8_t *datagram, size_t length);

/* Done: the payload's length; it starts at byte PINDRELO_HEADER_SIZE. 1, 2, 3. */
pindrelo_answer pindrelo_payload_length(const uint8_t *datagram, size_t length);

/* A datagram with its checksum to the start of out. Done: its length. 2 (its value at most 255), 6, 7, 5. */
pindrelo_answer pindrelo_write(uint64_t kind, uint64_t number, uint64_t flags, const uint8_t *payload, size_t length,
                               uint8_t *out, size_t out_size);

/* ---- DRAINING
 *
 * A host that writes a file away as it comes needs no output of the file's length. A drain takes what was delivered:
 * the first bytes of the output, as many as its value says, are the next of the file, and the fill mark is 0 then. They
 * stand there until the next receive, which writes from the start: write them away before that, or lend another output.
 * All bytes drained, joined, and the output up to its fill mark are what was delivered. An output of window x
 * PINDRELO_MAX_PAYLOAD bytes that is drained before each receive has room for all that the receive delivers. */

/* The store and the output are those of the last receive, and are only read. Done: how many bytes. 9, 8. */
pindrelo_answer pindrelo_drain(uint64_t *state, size_t words, const uint8_t *store, size_t store_size,
                               const uint8_t *output, size_t output_size);

/* ---- A SINGLE TIMER
 *
 * For Stop-and-Wait and Go-Back-N: one timer for the earliest outstanding number. Times are those of the timer set. A
 * start and a cancel raise the generation, which stands in a word; an event kept with the generation of its start is
 * stale once that has changed. */

#define PINDRELO_SINGLE_TIMER_WORDS 4

enum {
    PINDRELO_SINGLE_TIMER_SET = 1,      /* 1 where it runs, else 0 */
    PINDRELO_SINGLE_TIMER_DEADLINE = 2, /* 0 where it doesn't run */
    PINDRELO_SINGLE_TIMER_GENERATION = 3
};

/* A timer that doesn't run, of generation 0. 5 fewer than PINDRELO_SINGLE_TIMER_WORDS words. */
pindrelo_answer pindrelo_make_single_timer(uint64_t *state, size_t words);

/* Starts or restarts it: it is due at now + duration. 9, 10. */
pindrelo_answer pindrelo_single_timer_start(uint64_t *state, size_t words, uint64_t now, uint64_t duration);

/* It runs no more. 9, 10. */
pindrelo_answer pindrelo_single_timer_cancel(uint64_t *state, size_t words);

/* Done: 1 where it runs, else 0. 9, 10. */
pindrelo_answer pindrelo_single_timer_is_active(const uint64_t *state, size_t words);

/* Done: the nanoseconds until its deadline, 0 at it and past it. Else NOTHING: it doesn't run. 9, 10. */
pindrelo_answer pindrelo_single_timer_remaining(const uint64_t *state, size_t words, uint64_t now);

/* Done: 1 where now is at its deadline or past it, else 0; the second also answers 0 where the generation is another.
 * 9, 10. */
pindrelo_answer pindrelo_single_timer_is_expired(const uint64_t *state, size_t words, uint64_t now);
pindrelo_answer pindrelo_single_timer_is_expired_for(const uint64_t *state, size_t words, uint64_t generation,
                                                     uint64_t now);

/* ---- AN RTO ESTIMATOR
 *
 * RFC 6298 with the setup's numbers: the time to wait for an ACK, from samples of the round trip. Its state is words
 * and doubles, two slices; all durations are nanoseconds. Give it a sample for each number once, where the ACK came for
 * a datagram sent once (say retransmitted else: Karn's algorithm); call timeout once for each batch of timers that have
 * run out. The RTO is a word; SRTT, RTTVAR and the least, greatest and latest sample are two words each, 1 and the
 * duration, or 0 and 0 where there is none yet. */

#define PINDRELO_ESTIMATOR_WORDS 24
#define PINDRELO_ESTIMATOR_DOUBLES 5

enum {
    PINDRELO_ESTIMATOR_SRTT = 5,
    PINDRELO_ESTIMATOR_RTTVAR = 7,
    PINDRELO_ESTIMATOR_RTO = 9,
    PINDRELO_ESTIMATOR_IN_BACKOFF = 11, /* 1 after a timeout, until a sample is used or the backoff is reset */
    PINDRELO_ESTIMATOR_CONSECUTIVE_TIMEOUTS = 12,
    PINDRELO_ESTIMATOR_SAMPLES = 13,
    PINDRELO_ESTIMATOR_REJECTED = 14, /* samples of datagrams sent again */
    PINDRELO_ESTIMATOR_TIMEOUTS = 15,
    PINDRELO_ESTIMATOR_MIN_RTT = 17,
    PINDRELO_ESTIMATOR_MAX_RTT = 19,
    PINDRELO_ESTIMATOR_LATEST_RTT = 21,
    PINDRELO_ESTIMATOR_MAX_CONSECUTIVE_TIMEOUTS = 23
};

/* An estimator without samples, its RTO the initial one. 4: a duration above 86,400 s, a granularity above 1 s, min_rto
 * above max_rto, alpha or beta not 0 to 1, k or the multiplier not 0 to 16; then 5 too few words or doubles. The
 * default setup: 1 s, 200 ms, 60 s, 1 ms; 1/8, 1/4, 4, 1. */
pindrelo_answer pindrelo_make_estimator(uint64_t *state, size_t words, double *doubles, size_t double_count,
                                        uint64_t initial_rto, uint64_t min_rto, uint64_t max_rto,
                                        uint64_t granularity, double alpha, double beta, double k,
                                        double rto_multiplier);
pindrelo_answer pindrelo_make_default_estimator(uint64_t *state, size_t words, double *doubles, size_t double_count);

/* A sample of the round trip; retransmitted: not 0 where the datagram was sent again. Done: 1 where the sample was
 * used, else 0. The RTO is from SRTT and RTTVAR then, within its limits. 9, 8, 10 (a sample above 86,400 s). */
pindrelo_answer pindrelo_estimator_sample(uint64_t *state, size_t words, double *doubles, size_t double_count,
                                          uint64_t sample, uint64_t retransmitted);

/* A timeout: the RTO is doubled, within its limits. Done: the RTO. 9, 8, 10. */
pindrelo_answer pindrelo_estimator_timeout(uint64_t *state, size_t words, double *doubles, size_t double_count);

/* Back to the RTO from before the timeouts. 9, 8, 10. */
pindrelo_answer pindrelo_estimator_reset_backoff(uint64_t *state, size_t words, double *doubles, size_t double_count);

/* Done: 1 where max_retries timeouts or more came since a sample was used or the backoff was reset, else 0. 9, 8,
 * 10. */
pindrelo_answer pindrelo_estimator_exceeded(const uint64_t *state, size_t words, const double *doubles,
                                            size_t double_count, uint64_t max_retries);

/* The mean of the samples used, in milliseconds, to the first of out; 0 without samples. 9, 8, 10, 5. */
pindrelo_answer pindrelo_estimator_mean(const uint64_t *state, size_t words, const double *doubles,
                                        size_t double_count, double *out, size_t out_count);

/* ---- A RUN
 *
 * A whole transfer of a file over a line that is made up, on a virtual clock: both ends, the line in both directions
 * and the timers, to try a setup. The line's faults come from rolls, doubles at least 0 and below 1: eight for each
 * datagram and each ACK, in the order loss, duplicate, reorder, corrupt, byte, bit, jitter, the duplicate's jitter. The
 * way back has the same delays and jitter and no faults: of an ACK's rolls only the seventh counts. */

#define PINDRELO_SETUP_NUMBERS 13
#define PINDRELO_SETUP_DOUBLES 8
#define PINDRELO_OUTCOME_WORDS 31

/* the setup: numbers, and doubles */
enum {
    PINDRELO_SETUP_PROTOCOL = 0, /* 1 to 3 */
    PINDRELO_SETUP_CLOCK = 1,    /* 1 the source's timing; 2 RFC 6298 section 5: not with Selective Repeat, and only
                                    with 1 s, 1 s, 60 s, 1 ms in 7 to 10 and 1/8, 1/4, 4, 1 in the doubles 4 to 7 */
    PINDRELO_SETUP_WINDOW = 2,   /* 1 to 32; Stop-and-Wait runs with 1 */
    PINDRELO_SETUP_CHUNK = 3, /* 1 to 1,400 bytes; at most 65,536 chunks */
    PINDRELO_SETUP_REORDER_EXTRA_MS = 4,
    PINDRELO_SETUP_BASE_DELAY_MS = 5,
    PINDRELO_SETUP_JITTER_MS = 6, /* each delay at most 60,000 */
    PINDRELO_SETUP_INITIAL_RTO = 7,
    PINDRELO_SETUP_MIN_RTO = 8,
    PINDRELO_SETUP_MAX_RTO = 9,
    PINDRELO_SETUP_GRANULARITY = 10, /* these four in ns, as an estimator's */
    PINDRELO_SETUP_MAX_VIRTUAL_TIME = 11,   /* ns, at most 86,400 s */
    PINDRELO_SETUP_MAX_RETRANSMISSIONS = 12 /* of all datagrams together; with 0 nothing is sent */
};

enum {
    PINDRELO_SETUP_LOSS = 0,
    PINDRELO_SETUP_DUPLICATE = 1,
    PINDRELO_SETUP_REORDER = 2,
    PINDRELO_SETUP_CORRUPT = 3, /* chances, 0 to 1 */
    PINDRELO_SETUP_ALPHA = 4,
    PINDRELO_SETUP_BETA = 5,
    PINDRELO_SETUP_K = 6,
    PINDRELO_SETUP_RTO_MULTIPLIER = 7
};

/* the outcome: words */
enum {
    PINDRELO_OUTCOME_COMPLETED = 0,
    PINDRELO_OUTCOME_FINISHED_AT = 1, /* ns */
    PINDRELO_OUTCOME_END = 2,         /* 0 ended, 1 rolls spent, 2 events full, 3 schedule full */
    PINDRELO_OUTCOME_DRIVER = 3, /* sent again, too early, data received, ACKs sent, ACKs received, duplicate data,
                                    duplicate ACKs, events: eight words */
    PINDRELO_OUTCOME_SENDER = 11,   /* base, sent, sent again */
    PINDRELO_OUTCOME_RECEIVER = 14, /* base, fill mark, then as a receiver's words TOTAL, SECOND, THIRD */
    PINDRELO_OUTCOME_FILLED = 15,
    PINDRELO_OUTCOME_FORWARD = 19, /* datagrams, lost, corrupted, duplicated, reordered, copies */
    PINDRELO_OUTCOME_REVERSE = 25
};

/* What is lent: stores as for the ends; an output not shorter than the file; a note for each chunk, of an empty file
 * one; events, one row a datagram (its number, 1 if sent again, copies, two delays in ms, two sums of bytes); of each
 * direction records and places of 1,410 bytes for the copies on their way; as many keys as deadlines, of Selective
 * Repeat one for each number of the window. With N = chunks + max_retransmissions these end a run in no other way than
 * "ended": N events, 8 N forward and 16 N reverse rolls, 2 N records and 2 N places in each direction.
 * Done: 1 where the run completed, else 0; the outcome, and the estimator as AN RTO ESTIMATOR has it. Completed with
 * the fill mark at the file's length means that exactly the file was written; the mark is never above that. 9 too few
 * numbers or doubles; 4 an unknown protocol or clock; then 9, 11 (a roll, used or not), 4, 5, with too few words for
 * the outcome or the estimator, or doubles for it, a 5. */
pindrelo_answer pindrelo_run(
    const uint64_t *numbers, size_t number_count, const double *reals, size_t real_count,
    const uint8_t *file, size_t length, const double *forward_rolls, size_t forward_roll_count,
    const double *reverse_rolls, size_t reverse_roll_count, uint8_t *sender_store, size_t sender_store_size,
    uint8_t *receiver_store, size_t receiver_store_size, uint8_t *output, size_t output_size,
    uint64_t (*notes)[7], size_t note_count, uint64_t (*events)[7], size_t event_count,
    uint64_t (*forward_records)[4], size_t forward_record_count,
    uint8_t *forward_places, size_t forward_places_size,
    uint64_t (*reverse_records)[4], size_t reverse_record_count,
    uint8_t *reverse_places, size_t reverse_places_size,
    uint32_t *keys, size_t key_count, uint64_t *deadlines, size_t deadline_count,
    uint64_t *words, size_t word_count, uint64_t *estimator, size_t estimator_words,
    double *doubles, size_t double_count);

/* ---- A PAGE
 *
 * A run's events as text, to be filed: count + 2 lines of 72 columns, each with a line feed behind it; ASCII, no zero
 * at the end. A line for each event, in columns: its number right in 10; "first" or "again" left in 8; two delays and
 * two sums of bytes, each right in 13, blank where there is no such copy; two blanks. Before them a head line with seq,
 * sent, delay1, delay2, fold1, fold2 in these columns; behind them how many events, copies and events sent again, each
 * right in 24. */

#define PINDRELO_REPORT_LINE 73
#define PINDRELO_REPORT_SIZE(count) (((size_t)(count) + 2) * PINDRELO_REPORT_LINE)

/* The page of the first count rows, which are only read, to the start of out; after a run count is the outcome's word
 * PINDRELO_OUTCOME_DRIVER + 7. Done: the page's length, PINDRELO_REPORT_SIZE(count). 9 (count above event_count; a row
 * whose number has more than 32 bits, whose mark is above 1, with more than two copies, or with a copy's sum above
 * 65,535), 10 (a copy's delay above 180,000 ms), 5. Rows past count, and what a row has past its copies, aren't looked
 * at. */
pindrelo_answer pindrelo_report(uint64_t (*events)[7], size_t event_count, size_t count,
                                uint8_t *out, size_t out_size);

/* ---- WHAT THE HOST DECIDES
 *
 * The line may lose, repeat, delay and reorder datagrams and turn over one bit of a copy, but not in bytes 6 and
 * 7, the payload's length: such a flip can pass the checksum, and so can two flips. A host whose line does that
 * encrypts or checks datagrams itself. Then what is delivered is what was sent, in order.
 *
 * A line carries one transfer between two ends of one protocol and one window. A late ACK of an earlier transfer, or
 * one of another protocol's receiver, is taken for this one's: keep transfers apart by port, key or a number of the
 * host's own.
 *
 * At most window x 1,400 bytes of payload are outstanding at once; copies sent again come on top. Nothing here slows a
 * sender down for a busy line.
 *
 * The end of a file is the host's: send its length first, or in another way. It is whole when the fill mark, and what
 * was drained before, is its length, with what was sent before it counted too. Then the receiver goes on answering for
 * several times the sender's longest timeout: its last ACKs may have been lost. A sender that hears nothing for longer
 * gives up, and cannot know whether all has arrived. */

#ifdef __cplusplus
}
#endif
#endif
