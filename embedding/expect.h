/* What the programs that hold the header against the archive share: a check that prints what does not hold. */
#ifndef EXPECT_H
#define EXPECT_H

#include <stdio.h>

static size_t checks, faults;

/* Prints the first faults only: one wrong field makes many. */
static void expect(int holds, const char *what, size_t where) {
    checks++;
    if (!holds && ++faults <= 10)
        printf("fault: %s, %zu\n", what, where);
}

/* The status of the program, after a line that says how much was checked. */
static int verdict(const char *program) {
    printf("%s: %zu checks, %zu faults\n", program, checks, faults);
    return faults != 0;
}

#endif
