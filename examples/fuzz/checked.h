/* For fuzz: a call's answer and the lent bytes compared after it. */
#ifndef CHECKED_H
#define CHECKED_H

#include "spoil.h"
#include <stdio.h>
#include <stdlib.h>
#include <unistd.h>

static unsigned long long calls, seed, met[32];
static const char *name = "no call";
static struct { const char *name; uint32_t statuses, met; } exports[64];

static void fault(int number)
{
    char s[160];
    int n = snprintf(s, sizeof s, "fuzz: signal %d in %s, call %llu of seed %llu\n", number, name, calls, seed);
    if (write(2, s, (size_t)n) < 0)
        _exit(2);
    _exit(1);
}

static void fail(const char *what, pindrelo_answer a, pindrelo_answer expected)
{
    fprintf(stderr, "fuzz: %s: %s: answer %u with %llu, expected %u with %llu; call %llu of seed %llu\n", name, what,
            pindrelo_status(a), (unsigned long long)pindrelo_value(a), pindrelo_status(expected),
            (unsigned long long)pindrelo_value(expected), calls, seed);
    exit(1);
}

#define ONE(status) (1u << (status))
#define HELD (ONE(0) | ONE(8) | ONE(9))
#define READING (ONE(0) | ONE(1) | ONE(2) | ONE(3))
#define TIMER (ONE(0) | ONE(9) | ONE(10))

/* true where the call was done */
static int check(pindrelo_answer a, pindrelo_answer expected, uint32_t statuses)
{
    unsigned status = pindrelo_status(a);
    if (status > 20 || !(statuses >> status & 1))
        fail("a status that the header doesn't name", a, expected);
    if (a != expected)
        fail("another answer", a, expected);
    for (int i = 0; i < REGIONS; i++) {
        const struct region *r = &regions[i];
        if (!r->lent)
            continue;
        int counting = status == PINDRELO_SILENT && i == STATE; /* words 4 to 6 */
        if (!kept_outside(r, status ? counting ? 32 : 0 : r->from, status ? counting ? 56 : 0 : r->to))
            fail("bytes changed that should have stayed", a, expected);
        if (!border_kept(r))
            fail("bytes beside what was lent changed", a, expected);
    }
    met[status]++;
    int i = 0;
    while (exports[i].name && exports[i].name != name)
        i++;
    exports[i].name = name;
    exports[i].statuses = statuses;
    exports[i].met |= ONE(status);
    return status == PINDRELO_DONE;
}

static int all_met(void)
{
    int all = 1;
    for (int i = 0; exports[i].name; i++)
        for (int status = 0; status < 32; status++)
            if ((exports[i].statuses & ~exports[i].met) >> status & 1) {
                printf("fuzz: %s never answered %d\n", exports[i].name, status);
                all = 0;
            }
    return all;
}

#define STATE_SLICE s, regions[STATE].length / 8
#define STORE_SLICE store, regions[STORE].length
#define IN_SLICE in, regions[IN].length
#define OUT_SLICE out, regions[OUT].length

#endif
