/* Counts what holds; the last line of each program is 'N passed, M failed'. */
#ifndef COUNT_H
#define COUNT_H

#include <stdio.h>

static int passed, failed;

static void count(const char *name, int holds) {
    passed += holds != 0;
    failed += holds == 0;
    if (!holds) printf("failed: %s\n", name);
}

static int finish(void) {
    printf("%d passed, %d failed\n", passed, failed);
    return failed != 0;
}

#endif
