/* Counted checks, in C and in C++: a check that does not hold is told, and ends the program. */
#ifndef EXPECT_H
#define EXPECT_H

#include <stddef.h>
#include <stdio.h>
#include <stdlib.h>

static size_t checks = 0;

static void expect(int holds, const char *what, size_t of)
{
    checks++;
    if (!holds) {
        fprintf(stderr, "%s: %s (case %zu)\n", __BASE_FILE__, what, of);
        exit(1);
    }
}

#endif
