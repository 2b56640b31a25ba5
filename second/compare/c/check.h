/* Expectations of the C tests: each that fails prints a line, and the program's status counts them. */
#ifndef CHECK_H
#define CHECK_H

#include "hraskell.h"
#include <stdio.h>

/* What buffers hold before a call; no answer leaves it by chance. */
#define MARK 0xa5a5a5a5u
#define COUNT(array) (sizeof(array) / sizeof((array)[0]))

static unsigned failures;

static void expect(const char *what, uint64_t got, uint64_t wanted)
{
    if (got != wanted) {
        printf("%s: got %llu, wanted %llu\n", what, (unsigned long long)got, (unsigned long long)wanted);
        failures++;
    }
}

static int verdict(const char *name)
{
    printf("%s: %s\n", name, failures ? "FAILED" : "passed");
    return failures != 0;
}

#endif
