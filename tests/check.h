/* Counted checks for the C tests. */
#ifndef CHECK_H
#define CHECK_H

#include "shaper.h"

#include <inttypes.h>
#include <stdio.h>
#include <string.h>

#define COUNT_OF(array) (sizeof(array) / sizeof *(array))

static unsigned passed, total;

static void check(int right, const char *what)
{
    total += 1;
    if (right)
        passed += 1;
    else
        fprintf(stderr, "differs: %s\n", what);
}

static inline uint32_t bits(float x)
{
    uint32_t pattern;
    memcpy(&pattern, &x, sizeof pattern);
    return pattern;
}

static inline int answered(struct shaper_answer answer, uint32_t number, uint32_t frames)
{
    return answer.number == number && answer.frames == frames;
}

/* The one line of a test program, and its exit code. */
static int finish(void)
{
    printf("%u of %u\n", passed, total);
    return passed == total ? 0 : 1;
}

#endif
