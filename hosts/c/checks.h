/* What the tests in C share: they count what is wrong, and say each by its line. */
#ifndef GRAIN_CHECKS_H
#define GRAIN_CHECKS_H

#include <stdio.h>

#define LENGTH(list) (sizeof(list) / sizeof *(list))
#define CHECK(what) check(what, #what, __LINE__)

static int wrong = 0;

static void check(bool holds, const char *what, int line) {
    if (!holds) {
        printf("line %d: %.99s\n", line, what);
        wrong++;
    }
}

#endif
