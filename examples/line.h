/* For pagelink: a line in front of sendto that loses, repeats, swaps and flips datagrams, by rolls from a seed. A flip
 * turns one bit over, not in bytes 6 and 7. */
#ifndef LINE_H
#define LINE_H

#include "pindrelo.h"
#include <arpa/inet.h>
#include <errno.h>
#include <poll.h>
#include <stdint.h>
#include <stdio.h>
#include <stdlib.h>
#include <string.h>
#include <sys/socket.h>

struct held { uint8_t bytes[PINDRELO_MAX_DATAGRAM]; size_t length; int wait; };

static struct {
    int fd;
    struct sockaddr_in to;
    uint64_t seed;
    unsigned loss, dup, swap, flip;
    struct held held[16];
    unsigned long sent, lost, doubled, swapped, flipped;
} line;

static unsigned roll(unsigned below)
{
    line.seed ^= line.seed << 13, line.seed ^= line.seed >> 7, line.seed ^= line.seed << 17;
    return (unsigned)((line.seed * 0x2545F4914F6CDD1Du) >> 33) % below;
}

static void put(const uint8_t *d, size_t n)
{
    line.sent++;
    while (sendto(line.fd, d, n, 0, (struct sockaddr *)&line.to, sizeof line.to) < 0)
        if (errno == EAGAIN || errno == ENOBUFS)
            poll(&(struct pollfd){.fd = line.fd, .events = POLLOUT}, 1, 10);
        else if (errno == ECONNREFUSED)
            return;
        else if (errno != EINTR) {
            perror("sendto");
            exit(1);
        }
}

static void release(int all)
{
    for (int i = 0; i < 16; i++)
        if (line.held[i].length && (all || --line.held[i].wait <= 0)) {
            size_t n = line.held[i].length;
            line.held[i].length = 0;
            put(line.held[i].bytes, n);
        }
}

static void transmit(const uint8_t *datagram, size_t n)
{
    int copies = 1;
    if (roll(1000) < line.loss) {
        line.lost++;
        return;
    }
    if (roll(1000) < line.dup)
        copies = 2, line.doubled++;
    while (copies--) {
        uint8_t d[PINDRELO_MAX_DATAGRAM];
        memcpy(d, datagram, n);
        if (roll(1000) < line.flip) {
            unsigned at = roll((unsigned)n - 2);
            d[at < 6 ? at : at + 2] ^= (uint8_t)(1u << roll(8));
            line.flipped++;
        }
        int slot = -1;
        if (roll(1000) < line.swap)
            for (int i = 0; i < 16 && slot < 0; i++)
                if (!line.held[i].length)
                    slot = i;
        if (slot >= 0) {
            memcpy(line.held[slot].bytes, d, n);
            line.held[slot].length = n;
            line.held[slot].wait = 1 + (int)roll(12);
            line.swapped++;
        } else
            put(d, n);
    }
    release(0);
}

#endif
