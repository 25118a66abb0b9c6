/* Numbers drawn one after another, the same in every run, for the C tests. */
#ifndef DRAWS_H
#define DRAWS_H

#include <stdint.h>

static uint32_t seed = 0x5eed;

static inline uint32_t drawn(uint32_t below)
{
    seed = seed * 1664525u + 1013904223u;
    return (uint32_t)((uint64_t)seed * below >> 32);
}

/* A fraction with either sign. */
static inline float tame(void)
{
    return (float)drawn(1u << 24) / 8388608.0f - 1.0f;
}

#endif
