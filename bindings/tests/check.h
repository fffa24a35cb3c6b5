/* Checks for these tests. They hold under NDEBUG too. A failed check is told by its line, and the program ends with
 * status 1. */
#ifndef CHECK_H
#define CHECK_H

#include <stdio.h>

static int checks_made = 0;
static int checks_failed = 0;

static void check(int holds, const char *what, const char *file, int line)
{
    checks_made++;
    if (holds)
        return;
    checks_failed++;
    fprintf(stderr, "%s:%d: does not hold: %s\n", file, line, what);
}

#define CHECK(what) check((what) ? 1 : 0, #what, __FILE__, __LINE__)

/* The status of the program, which made so many checks: one that was passed by counts as failed. */
static int status_of(const char *name, int checks)
{
    if (checks_made != checks) {
        fprintf(stderr, "%s: %d checks in place of %d\n", name, checks_made, checks);
        return 1;
    }
    return checks_failed ? 1 : 0;
}

#endif
