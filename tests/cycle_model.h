/* How the lent cycle is read, for the tests that model it: request E4's text, step by step. Every operation is one of a
 * float's, rounded by itself, as C has it where no multiply-add is fused. And when two readings are the same. */
#ifndef CYCLE_MODEL_H
#define CYCLE_MODEL_H

#include "check.h"

/* A word's low 21 bits, divided by 2^21: exact, since a float has 24 digits. */
static inline float fraction_of(uint32_t word)
{
    return (float)(word & 0x1fffffu) / 2097152.0f;
}

/* Between the word's entry and the next, which after the last is entry 0. A fraction of 0 is a factor like any other:
 * times infinity it is NaN, and it makes the 0 by which -0 becomes +0. */
static inline float read_at(const float *cycle, uint32_t word)
{
    const uint32_t entry = word >> 21;
    const float first = cycle[entry], next = cycle[(entry + 1) % SHAPER_CYCLE];
    return first + (next - first) * fraction_of(word);
}

/* The word of a picture's point. */
static inline uint32_t word_at(uint32_t point, uint32_t points)
{
    return (uint32_t)(uint64_t)((double)point / points * 4294967296.0);
}

/* All NaNs are one value. */
static inline int is_same(float a, float b)
{
    return bits(a) == bits(b) || (a != a && b != b);
}

static inline int are_same(const float *a, const float *b, size_t count)
{
    for (size_t i = 0; i < count; i++)
        if (!is_same(a[i], b[i]))
            return 0;
    return 1;
}

#endif
