/* For calls and exports, which define TEST, their name: each answer compared, a line for each that is wrong. */
#ifndef EXPECT_H
#define EXPECT_H

#include "pindrelo.h"
#include <stdio.h>

#define DONE(value) ((uint64_t)(value) << 8)

static int wrong;

static void expect(const char *what, uint64_t got, uint64_t wanted)
{
    if (got != wanted) {
        printf(TEST ": %s: %llu, not %llu\n", what, (unsigned long long)got, (unsigned long long)wanted);
        wrong = 1;
    }
}

/* what main returns */
static int verdict(void)
{
    if (!wrong)
        puts(TEST ": as expected");
    return wrong;
}

#endif
