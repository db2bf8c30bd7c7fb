/* Counted checks, and what each looks at: a floor, a buffer and words for an answer, and whether they are as they were. */
#ifndef MEKHTURIA_TEST_CHECKS_H
#define MEKHTURIA_TEST_CHECKS_H

#include <stdio.h>

#include "lab.h"

static uint64_t answer[MEKHTURIA_ANSWER_WORDS];
static mekhturia_floor floor_before;
static int passed, failed;

static void holds(int is, const char *what) {
    if (is) passed++;
    else failed++, printf("FAILED: %s\n", what);
}

/* What the floor is before a call that must not touch it, and whether it still is. */
static void remember(void) { floor_before = floor_memory; }

static int untouched(void) { return memcmp(&floor_memory, &floor_before, sizeof floor_memory) == 0; }

/* The last line is `N passed, N failed`, and the exit status 0 if none failed. */
static int result(void) {
    printf("%d passed, %d failed\n", passed, failed);
    return failed != 0;
}

#endif
