/* plain: what examples/pagelink.c does, without the library: a file in datagrams of the same lengths, each answered by ten
 * bytes, a window of them outstanding, by sendto and recvfrom. No number, checksum, timer or second copy: it ends only
 * where the line loses nothing.
 *
 *     plain receive PORT FILE BYTES      PORT 0: any; the port is printed
 *     plain send PORT FILE WINDOW        prints MB a second */
#define _GNU_SOURCE
#include <arpa/inet.h>
#include <fcntl.h>
#include <poll.h>
#include <stdint.h>
#include <stdio.h>
#include <stdlib.h>
#include <string.h>
#include <sys/mman.h>
#include <sys/socket.h>
#include <sys/stat.h>
#include <time.h>
#include <unistd.h>

#define HEADER 10
#define PAYLOAD 1400
#define GIVE_UP 10000 /* ms without a datagram */

static int line;

static void die(const char *what)
{
    perror(what);
    exit(1);
}

static double seconds(void)
{
    struct timespec t;
    clock_gettime(CLOCK_MONOTONIC, &t);
    return (double)t.tv_sec + (double)t.tv_nsec / 1e9;
}

static void wait_for_datagram(void)
{
    if (poll(&(struct pollfd){.fd = line, .events = POLLIN}, 1, GIVE_UP) == 0) {
        fprintf(stderr, "plain: nothing for 10 s\n");
        exit(1);
    }
}

static int send_file(const char *path, struct sockaddr_in to, size_t window)
{
    int fd = open(path, O_RDONLY);
    struct stat st;
    if (fd < 0 || fstat(fd, &st) < 0)
        die(path);
    size_t length = (size_t)st.st_size, at = 0, outstanding = 0;
    const uint8_t *file = mmap(NULL, length, PROT_READ, MAP_PRIVATE | MAP_POPULATE, fd, 0);
    if (file == MAP_FAILED)
        die("mmap");
    uint8_t in[65536], d[HEADER + PAYLOAD] = {0};
    double begun = seconds();
    while (at < length || outstanding) {
        for (; at < length && outstanding < window; outstanding++) {
            size_t n = length - at < PAYLOAD ? length - at : PAYLOAD;
            memcpy(d + HEADER, file + at, n);
            if (sendto(line, d, HEADER + n, 0, (struct sockaddr *)&to, sizeof to) < 0)
                die("sendto");
            at += n;
        }
        wait_for_datagram();
        while (outstanding && recv(line, in, sizeof in, MSG_DONTWAIT) >= 0)
            outstanding--;
    }
    printf("%.1f\n", (double)length / 1e6 / (seconds() - begun));
    return 0;
}

static int receive_file(const char *path, size_t length)
{
    uint8_t in[65536], ack[HEADER] = {0};
    int fd = open(path, O_WRONLY | O_CREAT | O_TRUNC, 0644);
    if (fd < 0)
        die(path);
    for (size_t got = 0; got < length;) {
        wait_for_datagram();
        struct sockaddr_in from;
        socklen_t size = sizeof from;
        ssize_t n = recvfrom(line, in, sizeof in, MSG_DONTWAIT, (struct sockaddr *)&from, &size);
        if (n < HEADER)
            continue;
        if (write(fd, in + HEADER, (size_t)n - HEADER) != n - HEADER)
            die("write");
        got += (size_t)n - HEADER;
        if (sendto(line, ack, sizeof ack, 0, (struct sockaddr *)&from, size) < 0)
            die("sendto");
    }
    return close(fd) != 0;
}

int main(int argc, char **argv)
{
    if (argc != 5) {
        fprintf(stderr, "usage: plain receive PORT FILE BYTES | plain send PORT FILE WINDOW\n");
        return 2;
    }
    struct sockaddr_in address = {.sin_family = AF_INET, .sin_port = htons((uint16_t)atoi(argv[2])),
                                  .sin_addr.s_addr = htonl(INADDR_LOOPBACK)};
    socklen_t size = sizeof address;
    int big = 4 << 20;
    line = socket(AF_INET, SOCK_DGRAM, 0);
    setsockopt(line, SOL_SOCKET, SO_RCVBUF, &big, sizeof big);
    if (!strcmp(argv[1], "send"))
        return send_file(argv[3], address, strtoul(argv[4], NULL, 10));
    if (bind(line, (struct sockaddr *)&address, sizeof address) < 0 ||
        getsockname(line, (struct sockaddr *)&address, &size) < 0)
        die("bind");
    printf("%u\n", ntohs(address.sin_port));
    fflush(stdout);
    return receive_file(argv[3], strtoul(argv[4], NULL, 10));
}
