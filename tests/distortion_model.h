/* Distortions by a model, for the tests of pictures and of levels: plain `distort` of the Rust's wave.rs and what it
 * needs of lanes.rs, with the rules of docs/DIFFERENCES.md. Every operation is one of a float's, rounded by itself, as
 * C has it where no multiply-add is fused. */
#ifndef DISTORTION_MODEL_H
#define DISTORTION_MODEL_H

#include "shaper.h"

#include <math.h>

/* The first stays at a tie or a NaN. */
static float smaller(float x, float y)
{
    return y < x ? y : x;
}

static float larger(float x, float y)
{
    return y > x ? y : x;
}

static float kept(float x, float least, float most)
{
    return smaller(larger(x, least), most);
}

/* An entry of the table of powers: no 2^(23 + k / 256) but a whole one is so near to a whole number that a double would
 * mistake its floor. */
static uint64_t entry(uint32_t k)
{
    static uint64_t entries[257];
    if (entries[k] == 0)
        entries[k] = (uint64_t)floor(exp2(23.0 + k / 256.0));
    return entries[k];
}

static float power(float x)
{
    if (isnan(x))
        return x;
    if (x >= 128.0f)
        return INFINITY;
    if (x < -126.0f)
        return 0.0f;
    const uint32_t n = (uint32_t)(floor((double)x * 65536.0) + 128.0 * 65536.0), j = n / 256 % 256, r = n % 256;
    const uint64_t m = (entry(j) * (256 - r) + entry(j + 1) * r) / 256;
    return (float)ldexp((double)m, (int)(n / 65536) - 128 - 23);
}

static float exponential(float x)
{
    return power(x * 1.44269504f);
}

static float hyperbolic_tangent(float x)
{
    const float e = power(kept(x, -9.0f, 9.0f) * 2.88539008f);
    return 1.0f - 2.0f / (e + 1.0f);
}

/* -1 below 0 and at -0, else 1. */
static float sign_of(float x)
{
    return signbit(x) && !isnan(x) ? -1.0f : 1.0f;
}

static float sine(const float *numbers, float t)
{
    const float wrapped = t - floorf(t + 0.5f), a = fabsf(wrapped);
    const float x = smaller(a, 0.5f - a) * 6.2831855f, x2 = x * x;
    float p = numbers[4];
    for (int i = 3; i >= 0; i--)
        p = p * x2 + numbers[i];
    return p * x * sign_of(wrapped);
}

/* A distortion's curve, after the drive; another mode leaves what it is given. */
static float curved(const float *numbers, uint32_t mode, float x)
{
    const float above = larger(x, 0.0f), below = smaller(x, 0.0f), t = (x + 1.0f) * 0.25f, z = kept(x, -1.5f, 1.5f);
    const float rest = 0.24491866f; /* what Valve's tangent makes of its bias */
    switch (mode) {
    case SHAPER_VALVE: return (hyperbolic_tangent(x + 0.25f) - rest) * (1.0f / (1.0f - rest * rest));
    case SHAPER_SOFT_CLIP: return z - z * z * z * (4.0f / 27.0f);
    case SHAPER_HARD_CLIP: return kept(x, -1.0f, 1.0f);
    case SHAPER_DIODE1: return (1.0f - exponential(-above)) - 2.0f * (1.0f - exponential(below * 0.5f));
    case SHAPER_DIODE2: return sign_of(x) * (1.0f - exponential(-fabsf(x)));
    case SHAPER_FOLD: return 1.0f - fabsf(4.0f * (t - floorf(t)) - 2.0f);
    case SHAPER_SINE_FOLD: return sine(numbers, x * 0.25f);
    case SHAPER_ZERO_SQUARE: return kept(x * fabsf(x), -1.0f, 1.0f);
    case SHAPER_ASYMMETRIC: return hyperbolic_tangent(above * 2.0f) * 0.5f + hyperbolic_tangent(below * 0.5f) * 2.0f;
    case SHAPER_SINE_SHAPER: return sine(numbers, kept(x, -1.57079633f, 1.57079633f) * (1.0f / 6.2831855f));
    case SHAPER_PEDAL: return smaller(above, 1.0f) + below / sqrtf(below * below + 1.0f);
    case SHAPER_TAPE: return x / sqrtf(x * x + 1.0f);
    case SHAPER_SOFT_SATURATE: return x / (1.0f + fabsf(x));
    default: return x;
    }
}

/* A distortion at amount a, 0 to 1, with a drive of up to 30 dB, or 18 of the folds; Rectify has none. Another mode
 * leaves the sample. */
static float distorted(const float *numbers, uint32_t mode, float a, float x)
{
    const float most = mode == SHAPER_FOLD || mode == SHAPER_SINE_FOLD ? 18.0f : 30.0f;
    if (mode == SHAPER_RECTIFY)
        return (fabsf(x) - x) * a + x;
    if (mode < SHAPER_VALVE || mode > SHAPER_SOFT_SATURATE)
        return x;
    return curved(numbers, mode, x * power(a * (most / 6.0206f)));
}

#endif
