/* For fuzz: the page of events; what the call should answer and write, worked out from pindrelo.h. */
#ifndef PAGES_H
#define PAGES_H

#include "checked.h"

#define MOST_EVENTS 12
#define MOST_DELAY 180000
#define MOST_SUM 65535

/* whether a copy's number is above most: those of two copies stand from at on */
static int copies_above(const uint64_t *row, int at, uint64_t most)
{
    return (row[2] > 0 && row[at] > most) || (row[2] > 1 && row[at + 1] > most);
}

static uint64_t expect_report(uint64_t (*rows)[7], size_t lent_rows, size_t count, size_t room)
{
    int late = 0;
    if (count > lent_rows)
        return PINDRELO_STATE;
    for (size_t i = 0; i < count; i++) {
        if (WIDE(rows[i][0]) || rows[i][1] > 1 || rows[i][2] > 2 || copies_above(rows[i], 5, MOST_SUM))
            return PINDRELO_STATE;
        late |= copies_above(rows[i], 3, MOST_DELAY);
    }
    size_t size = PINDRELO_REPORT_SIZE(count);
    return late ? PINDRELO_TIME : room < size ? PINDRELO_FULL : answer_of(0, size);
}

static char *columns(char *to, const char *number, const char *sent, char (*copies)[21])
{
    return to + sprintf(to, "%10s%-8s%13s%13s%13s%13s  \n", number, sent, copies[0], copies[1], copies[2], copies[3]);
}

static void page_of(char *to, uint64_t (*rows)[7], size_t count)
{
    char number[21], copies[4][21] = {"delay1", "delay2", "fold1", "fold2"};
    unsigned long long total = 0, again = 0;
    to = columns(to, "seq", "sent", copies);
    for (size_t i = 0; i < count; i++) {
        memset(copies, 0, sizeof copies);
        for (unsigned k = 0; k < 4; k++)
            if (k % 2 < rows[i][2])
                sprintf(copies[k], "%llu", (unsigned long long)rows[i][3 + k]);
        sprintf(number, "%llu", (unsigned long long)rows[i][0]);
        to = columns(to, number, rows[i][1] ? "again" : "first", copies);
        total += rows[i][2];
        again += rows[i][1];
    }
    sprintf(to, "%24llu%24llu%24llu\n", (unsigned long long)count, total, again);
}

static void report(void)
{
    static const uint64_t most[] = {UINT32_MAX, 1, 2, MOST_DELAY, MOST_DELAY, MOST_SUM, MOST_SUM};
    static char page[PINDRELO_REPORT_SIZE(MOST_EVENTS) + 1];
    uint64_t rows[MOST_EVENTS][7];
    name = "report";
    for (size_t i = 0; i < MOST_EVENTS; i++)
        for (unsigned k = 0; k < 7; k++) {
            uint64_t n = below(most[k] > 20 && chance(2) ? 20 : most[k] + 1);
            rows[i][k] = k > 2 && (k - 3) % 2 >= rows[i][2] ? any() : n; /* past a row's copies anything */
        }
    size_t count = below(MOST_EVENTS);
    if (wild && chance(3)) {
        unsigned k = (unsigned)below(7);
        rows[below(count + 1)][k] = boundary(most[k]);
    }
    uint64_t (*events)[7] = give(DEADLINES, rows, sizeof rows, sizeof *rows * length(count, MOST_EVENTS));
    uint8_t *out = give_out(OUT, PINDRELO_REPORT_SIZE(count));
    size_t n = regions[DEADLINES].length / sizeof *rows;
    if (wild && chance(6))
        count = boundary(n);
    uint64_t expected = expect_report(events, n, count, regions[OUT].length);
    may_write(OUT, 0, pindrelo_value(expected));
    if (!check(pindrelo_report(events, n, count, OUT_SLICE), expected, ONE(0) | ONE(5) | ONE(9) | ONE(10)))
        return;
    page_of(page, rows, count);
    if (memcmp(out, page, PINDRELO_REPORT_SIZE(count)) != 0)
        fail("another page", expected, expected);
}

#endif
