/* What the tests of the C interface share. */
#include "tellwydar.h"
#include <stdio.h>
#include <string.h>

static int passed, failed;

static void expect(const char *what, int holds) {
    if (holds) {
        passed++;
    } else {
        failed++;
        printf("failed: %s\n", what);
    }
}

/* A write of the value 5 by the first of two processes: its cast, and what the other one answers, as worked by hand. */
static const uint8_t cast[] = {0, 0x1e, 1, 1, 0, 0, 0, 0, 0, 0, 0, 0, 1, 0, 0, 0,
                               0, 0, 0, 0, 1, 2, 0, 0, 0, 0, 0, 0, 0, 0, 0, 5};
static const uint8_t got[] = {0, 0x0a, 1, 2, 0, 0, 0, 0, 0, 0, 0, 1};
static const uint8_t ack[] = {0, 0x13, 1, 1, 0, 0, 0, 0, 0, 0, 0, 0, 2, 0, 0, 0, 0, 0, 0, 0, 2};
