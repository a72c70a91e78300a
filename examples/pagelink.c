/* pagelink: one file over UDP on loopback.
 *
 *     pagelink receive PORT FILE [OPTION..]      PORT 0: any; the port is printed
 *     pagelink send PORT FILE [OPTION..]
 *     pagelink make BYTES FILE [seed=N]          a file of random bytes
 *
 * protocol=1..3 window=1..32, the same at both ends; seed=N loss=P dup=P swap=P flip=P impair what this process sends,
 * P in thousandths of its datagrams (line.h). The receiver learns the file's length from the first 8 bytes of the
 * stream. */
#define _GNU_SOURCE
#include "line.h"
#include "pindrelo.h"
#include <errno.h>
#include <fcntl.h>
#include <poll.h>
#include <stdio.h>
#include <stdlib.h>
#include <string.h>
#include <sys/stat.h>
#include <time.h>
#include <unistd.h>

#define FIRST_TIMEOUT 30000000u /* ns */
#define SHORTEST_TIMEOUT 20000000u
#define LONGEST_TIMEOUT 240000000u
#define GRANULARITY 1000000u
#define GIVE_UP 10000000000u /* ns without progress */
#define LINGER 1500000000u   /* ns of silence after the last byte: several times the longest timeout */
#define SLOTS PINDRELO_MAX_WINDOW

static unsigned protocol = PINDRELO_SELECTIVE_REPEAT, window = PINDRELO_MAX_WINDOW;

static void die(const char *what, pindrelo_answer a)
{
    fprintf(stderr, "pagelink: %s: status %u, values %u %u (%s)\n", what, pindrelo_status(a), pindrelo_first(a),
            pindrelo_second(a), strerror(errno));
    exit(1);
}

/* the value of a call that has to be done */
static uint64_t done(const char *what, pindrelo_answer a)
{
    if (pindrelo_status(a) != PINDRELO_DONE)
        die(what, a);
    return pindrelo_value(a);
}

static uint64_t clock_ns(void)
{
    static uint64_t start;
    struct timespec t;
    clock_gettime(CLOCK_MONOTONIC, &t);
    uint64_t n = (uint64_t)t.tv_sec * 1000000000u + (uint64_t)t.tv_nsec;
    if (!start)
        start = n;
    return n - start; /* the timers take at most PINDRELO_MAX_TIME */
}

/* ---- the line */

static void report(const char *who, uint64_t bytes, uint64_t ns)
{
    fprintf(stderr, "%s: %llu bytes in %.3f s, %.1f MB/s; datagrams %lu sent, %lu lost, %lu doubled, %lu swapped, "
            "%lu flipped\n", who, (unsigned long long)bytes, (double)ns / 1e9, (double)bytes * 1e3 / (double)ns,
            line.sent, line.lost, line.doubled, line.swapped, line.flipped);
}

/* ---- the timeout: RFC 6298's with a lower minimum and maximum */

static uint64_t rto[PINDRELO_ESTIMATOR_WORDS];
static double rto_doubles[PINDRELO_ESTIMATOR_DOUBLES];

#define ESTIMATOR rto, PINDRELO_ESTIMATOR_WORDS, rto_doubles, PINDRELO_ESTIMATOR_DOUBLES

/* ---- the sender: its state, a timer for each outstanding number, and when and how often that was sent */

#define SENDER s, PINDRELO_STATE_WORDS, sender_store, sizeof sender_store
#define TIMERS t, PINDRELO_TIMERS_WORDS, keys, SLOTS, deadlines, SLOTS

static uint64_t s[PINDRELO_STATE_WORDS], t[PINDRELO_TIMERS_WORDS], deadlines[SLOTS];
static uint8_t sender_store[PINDRELO_STORE_SIZE(SLOTS)];
static uint32_t keys[SLOTS];
static struct { uint64_t at, again; } notes[SLOTS];

static void sent(uint64_t number, uint64_t now, uint64_t again)
{
    notes[number % SLOTS].at = now;
    notes[number % SLOTS].again = again;
    done("timer start", pindrelo_timer_start(TIMERS, number, now, rto[PINDRELO_ESTIMATOR_RTO]));
}

/* an accepted ACK: true where it is a number's first. Go-Back-N's is of all numbers up to it, base being the lowest;
 * the lowest is sampled, and the estimator leaves out what was sent again */
static int acknowledged(uint64_t base, uint64_t number, uint64_t now)
{
    uint64_t lowest = protocol == PINDRELO_GO_BACK_N ? base : number, i = lowest % SLOTS, ran = 0;
    for (uint64_t n = lowest; n <= number; n++)
        ran |= done("timer cancel", pindrelo_timer_cancel(TIMERS, n));
    if (ran)
        done("sample", pindrelo_estimator_sample(ESTIMATOR, now - notes[i].at, notes[i].again));
    return ran != 0;
}

/* sends again what is due */
static void timeouts(uint64_t now)
{
    static uint8_t out[PINDRELO_RESEND_SIZE(SLOTS)];
    uint32_t due[SLOTS];
    uint64_t count = done("timer pop", pindrelo_timer_pop(TIMERS, now, due, SLOTS));
    int selective = protocol == PINDRELO_SELECTIVE_REPEAT;
    if (!count)
        return;
    done("estimator timeout", pindrelo_estimator_timeout(ESTIMATOR));
    for (uint64_t i = 0; i < (selective ? count : 1); i++) {
        pindrelo_answer a = selective ? pindrelo_timeout_number(SENDER, due[i], out, sizeof out)
                                      : pindrelo_timeout_all(SENDER, out, sizeof out);
        if (pindrelo_status(a) == PINDRELO_NOTHING)
            continue;
        uint64_t bytes = done("timeout", a);
        for (uint64_t at = 0; at < bytes;) { /* datagrams that lie end to end */
            size_t length = PINDRELO_HEADER_SIZE + (size_t)(out[at + 6] << 8 | out[at + 7]);
            sent(pindrelo_packet_number(pindrelo_read(out + at, length)), now, 1);
            transmit(out + at, length);
            at += length;
        }
    }
    release(1);
}

/* until a datagram comes or the earliest timer is due */
static void wait_for_ack(void)
{
    pindrelo_answer a = pindrelo_timer_earliest(TIMERS);
    if (pindrelo_status(a) == PINDRELO_NOTHING)
        return;
    uint64_t until = done("timer earliest", a), now = clock_ns(), ns = until > now ? until - now : 0;
    struct timespec limit = {(time_t)(ns / 1000000000u), (long)(ns % 1000000000u)};
    ppoll(&(struct pollfd){.fd = line.fd, .events = POLLIN}, 1, &limit, NULL);
}

/* the file behind the 8 bytes of its length */
static uint8_t *read_stream(const char *path, uint64_t *length)
{
    int fd = open(path, O_RDONLY);
    struct stat st;
    if (fd < 0 || fstat(fd, &st) < 0)
        die(path, 0);
    *length = (uint64_t)st.st_size + 8;
    uint8_t *stream = malloc(*length);
    if (!stream)
        die("malloc", 0);
    for (int i = 0; i < 8; i++)
        stream[i] = (uint8_t)((uint64_t)st.st_size >> (56 - 8 * i));
    for (uint64_t got = 8; got < *length;) {
        ssize_t n = read(fd, stream + got, *length - got);
        if (n <= 0)
            die("read", 0);
        got += (uint64_t)n;
    }
    close(fd);
    return stream;
}

static int send_file(const char *path)
{
    uint64_t length, at = 0;
    uint8_t *stream = read_stream(path, &length), in[65536], d[PINDRELO_MAX_DATAGRAM];
    done("make sender", pindrelo_make_sender(protocol, window, UINT32_MAX, SENDER));
    done("make timers", pindrelo_make_timers(TIMERS));
    done("make estimator", pindrelo_make_estimator(ESTIMATOR, FIRST_TIMEOUT, SHORTEST_TIMEOUT, LONGEST_TIMEOUT,
                                                   GRANULARITY, 0.125, 0.25, 4, 1));
    uint64_t progress = clock_ns(), begun = progress, refused = 0, other = 0;
    while (at < length || s[PINDRELO_SENDER_BASE] != s[PINDRELO_SENDER_NEXT]) {
        while (at < length) { /* fill the window */
            uint64_t n = length - at < PINDRELO_MAX_PAYLOAD ? length - at : PINDRELO_MAX_PAYLOAD;
            uint64_t number = s[PINDRELO_SENDER_NEXT];
            pindrelo_answer a = pindrelo_send(SENDER, stream + at, n, d, sizeof d);
            if (pindrelo_status(a) == PINDRELO_WINDOW_FULL)
                break;
            uint64_t size = done("send", a);
            sent(number, clock_ns(), 0);
            transmit(d, size);
            at += n;
        }
        wait_for_ack();
        ssize_t n;
        while ((n = recv(line.fd, in, sizeof in, MSG_DONTWAIT)) >= 0) {
            uint64_t base = s[PINDRELO_SENDER_BASE], now = clock_ns();
            pindrelo_answer a = pindrelo_acknowledge(SENDER, in, (size_t)n);
            if (pindrelo_from_line(a))
                refused++; /* a damaged datagram: nothing changed */
            else if (pindrelo_refused(a))
                die("acknowledge", a);
            else if (pindrelo_status(a) != PINDRELO_DONE)
                other++;
            else if (acknowledged(base, pindrelo_value(a), now))
                progress = now;
        }
        uint64_t now = clock_ns();
        timeouts(now);
        if (now - progress > GIVE_UP) {
            fprintf(stderr, "pagelink: no new ACK for 10 s\n");
            return 1;
        }
    }
    report("sender", length - 8, clock_ns() - begun);
    fprintf(stderr, "sender: chunks %llu, datagrams %llu, again %llu, refused %llu, not accepted %llu; round trips "
            "sampled %llu, SRTT %.3f ms, RTO %.3f ms\n", (unsigned long long)s[PINDRELO_SENDER_NEXT],
            (unsigned long long)s[PINDRELO_SENDER_TOTAL_SENT], (unsigned long long)s[PINDRELO_SENDER_RETRANSMISSIONS],
            (unsigned long long)refused, (unsigned long long)other, (unsigned long long)rto[PINDRELO_ESTIMATOR_SAMPLES],
            (double)rto[PINDRELO_ESTIMATOR_SRTT + 1] / 1e6, (double)rto[PINDRELO_ESTIMATOR_RTO] / 1e6);
    free(stream);
    return 0;
}

/* ---- the receiver: its state, and an output for what one datagram can deliver, drained each time */

static uint64_t r[PINDRELO_STATE_WORDS];
static uint8_t receiver_store[PINDRELO_STORE_SIZE(SLOTS)], output[SLOTS * PINDRELO_MAX_PAYLOAD];

#define RECEIVER r, PINDRELO_STATE_WORDS, receiver_store, sizeof receiver_store

static struct { int fd; uint64_t length, got; } file; /* with the 8 bytes that tell the length */

/* what is newly delivered goes to the file */
static void take_delivered(void)
{
    uint64_t n = done("drain", pindrelo_drain(RECEIVER, output, sizeof output)), at = 0;
    for (; at < n && file.got < 8; at++, file.got++)
        file.length = file.length << 8 | output[at];
    while (at < n) {
        ssize_t w = write(file.fd, output + at, n - at);
        if (w <= 0)
            die("write", 0);
        at += (uint64_t)w, file.got += (uint64_t)w;
    }
}

static int whole(void)
{
    return file.got >= 8 && file.got - 8 == file.length;
}

static int receive_file(const char *path)
{
    uint8_t in[65536], ack[PINDRELO_ACK_SIZE];
    file.fd = open(path, O_WRONLY | O_CREAT | O_TRUNC, 0644);
    if (file.fd < 0)
        die(path, 0);
    done("make receiver", pindrelo_make_receiver(protocol, window, RECEIVER));

    uint64_t refused = 0, silent = 0, begun = 0, last = clock_ns();
    for (;;) {
        if (poll(&(struct pollfd){.fd = line.fd, .events = POLLIN}, 1, 100) == 0)
            release(1);
        int complete = whole();
        if (complete && clock_ns() - last > LINGER)
            break; /* the resendings have stopped: the sender has its ACKs, or will give up although all is here */
        if (!complete && clock_ns() - last > GIVE_UP) {
            fprintf(stderr, "pagelink: nothing for 10 s\n");
            return 1;
        }
        struct sockaddr_in from;
        socklen_t fromlen = sizeof from;
        ssize_t n = recvfrom(line.fd, in, sizeof in, MSG_DONTWAIT, (struct sockaddr *)&from, &fromlen);
        if (n < 0)
            continue;
        pindrelo_answer a = pindrelo_receive(RECEIVER, in, (size_t)n, output, sizeof output, ack, sizeof ack);
        if (pindrelo_from_line(a))
            refused++; /* a damaged datagram: nothing changed */
        else if (pindrelo_refused(a))
            die("receive", a);
        else if (pindrelo_status(a) != PINDRELO_DONE)
            silent++;
        else { /* a valid packet of this transfer: only such a one says where the sender is, and that it is there */
            line.to = from;
            last = clock_ns();
            if (!begun)
                begun = last;
            take_delivered();
            transmit(ack, sizeof ack);
        }
        if (!complete && whole())
            report("receiver", file.length, last - begun + 1);
    }
    close(file.fd);
    fprintf(stderr, "receiver: chunks %llu, datagrams %llu, refused %llu, silent %llu\n",
            (unsigned long long)r[PINDRELO_RECEIVER_BASE], (unsigned long long)r[PINDRELO_RECEIVER_TOTAL],
            (unsigned long long)refused, (unsigned long long)silent);
    return 0;
}

static int make_file(unsigned long bytes, const char *path)
{
    FILE *f = fopen(path, "wb");
    if (!f)
        die(path, 0);
    while (bytes--)
        putc((int)roll(256), f);
    return fclose(f) != 0;
}

/* the socket's own port, printed: the receiver is ready */
static void open_port(struct sockaddr_in address)
{
    socklen_t length = sizeof address;
    if (bind(line.fd, (struct sockaddr *)&address, sizeof address) < 0 ||
        getsockname(line.fd, (struct sockaddr *)&address, &length) < 0)
        die("bind", 0);
    printf("%u\n", ntohs(address.sin_port));
    fflush(stdout);
}

static int usage(void)
{
    fprintf(stderr, "usage: pagelink send|receive PORT FILE [protocol=N window=N seed=N loss=P dup=P swap=P flip=P]\n"
            "       pagelink make BYTES FILE [seed=N]\n");
    return 2;
}

int main(int argc, char **argv)
{
    if (argc < 4)
        return usage();
    int receiving = !strcmp(argv[1], "receive");
    line.seed = receiving ? 88172645463325252u : 2685821657736338717u;
    for (int i = 4; i < argc; i++) {
        unsigned v;
        if (sscanf(argv[i], "seed=%u", &v) == 1)
            line.seed ^= (uint64_t)v * 0x9E3779B97F4A7C15u;
        else if (sscanf(argv[i], "protocol=%u", &protocol) != 1 && sscanf(argv[i], "window=%u", &window) != 1 &&
                 sscanf(argv[i], "loss=%u", &line.loss) != 1 && sscanf(argv[i], "dup=%u", &line.dup) != 1 &&
                 sscanf(argv[i], "swap=%u", &line.swap) != 1 && sscanf(argv[i], "flip=%u", &line.flip) != 1)
            return usage();
    }
    if (!strcmp(argv[1], "make"))
        return make_file(strtoul(argv[2], NULL, 10), argv[3]);
    struct sockaddr_in address = {.sin_family = AF_INET, .sin_port = htons((uint16_t)atoi(argv[2])),
                                  .sin_addr.s_addr = htonl(INADDR_LOOPBACK)};
    int big = 4 << 20;
    line.fd = socket(AF_INET, SOCK_DGRAM, 0);
    setsockopt(line.fd, SOL_SOCKET, SO_RCVBUF, &big, sizeof big);
    if (receiving) {
        open_port(address);
        return receive_file(argv[3]);
    }
    if (strcmp(argv[1], "send"))
        return usage();
    line.to = address;
    return send_file(argv[3]);
}
