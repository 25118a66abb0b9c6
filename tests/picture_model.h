/* Pictures by a model for preview_test.c: `preview` of the Rust's mod.rs and what it needs of phase.rs, wave.rs and
 * lanes.rs, with the rules of docs/DIFFERENCES.md, for all modes but ten of the phase stage (`is_modelled`). Every
 * operation is one of a float's, rounded by itself, as C has it where no multiply-add is fused. */
#ifndef PICTURE_MODEL_H
#define PICTURE_MODEL_H

#include "cycle_model.h"
#include "distortion_model.h"

struct slot {
    uint32_t mode;
    float character, amount;
};

/* All that a picture is made of, but for its points. */
struct panel {
    struct slot slot[SHAPER_SLOTS];
    const float *numbers, *curve, *cycle;
};

/* Up to four weighted reads of the cycle. */
struct reads {
    uint32_t word[4];
    float gain[4];
    unsigned count;
};

static const uint32_t modelled[] = {SHAPER_OFF, SHAPER_SYNC, SHAPER_PULSE_WIDTH, SHAPER_FLIP, SHAPER_REMAP_DRAWN,
    SHAPER_REMAP_SINE, SHAPER_ODD_EVEN, SHAPER_LOW_PASS, SHAPER_HIGH_PASS, SHAPER_VALVE, SHAPER_SOFT_CLIP,
    SHAPER_HARD_CLIP, SHAPER_DIODE1, SHAPER_DIODE2, SHAPER_FOLD, SHAPER_SINE_FOLD, SHAPER_ZERO_SQUARE,
    SHAPER_ASYMMETRIC, SHAPER_RECTIFY, SHAPER_SINE_SHAPER, SHAPER_PEDAL, SHAPER_TAPE, SHAPER_SOFT_SATURATE};

static int is_modelled(uint32_t mode)
{
    for (unsigned i = 0; i < sizeof modelled / sizeof *modelled; i++)
        if (mode == modelled[i])
            return 1;
    return mode >= SHAPER_FM1 && mode < SHAPER_MODES;
}

static float tangent(const float *numbers, float x)
{
    const float t = x * 0.15915494f;
    return sine(numbers, t) / sine(numbers, t + 0.25f);
}

static float smooth(float x)
{
    const float t = kept(x, 0.0f, 1.0f);
    return t * t * t * (t * (t * 6.0f + -15.0f) + 10.0f);
}

/* A word as a fraction of a cycle, -1/2 to 1/2 and 0 to 1. */
static float about_zero(uint32_t word)
{
    return (float)((double)word - (word < 0x80000000u ? 0.0 : 4294967296.0)) * 2.3283064e-10f;
}

static float from_zero(uint32_t word)
{
    const float t = about_zero(word);
    return t - floorf(t);
}

static float wrap(float x)
{
    return x - floorf(x + 0.5f);
}

/* A NaN is word 0, and what is out of range half a cycle. */
static uint32_t word_of(float cycles)
{
    const float scaled = wrap(cycles) * 4294967296.0f;
    if (isnan(scaled))
        return 0;
    return scaled >= 2147483648.0f || scaled < -2147483648.0f ? 0x80000000u : (uint32_t)(int32_t)scaled;
}

static float box(float v, float length, float half)
{
    const float width = 2.0f * half;
    return kept(smooth((v + length + half) / width) - smooth((v - length + half) / width)
            + smooth((v + length - 1.0f + half) / width) + 1.0f - smooth((v - length + 1.0f + half) / width),
        0.0f, 1.0f);
}

static float curve_at(const float *curve, float x)
{
    const float at = kept(x, 0.0f, 1.0f) * 1024.0f, whole = smaller(floorf(at), 1023.0f);
    const unsigned i = isnan(whole) ? 0 : (unsigned)whole;
    return (curve[i + 1] - curve[i]) * (at - whole) + curve[i];
}

static float steepest(const float *curve)
{
    float most = 0.0f;
    for (unsigned i = 0; i + 1 < SHAPER_CURVE; i++)
        most = larger(most, fabsf(curve[i + 1] - curve[i]));
    return kept(most * 1024.0f, 1.0f, 16.0f);
}

static void push(struct reads *reads, uint32_t word, float gain)
{
    if (reads->count < 4) {
        reads->word[reads->count] = word;
        reads->gain[reads->count] = gain;
        reads->count += 1;
    }
}

/* The heavier first, and the other one unless its weight is 0. */
static void push_pair(struct reads *reads, uint32_t a, float weight, uint32_t b, float gain)
{
    const int a_first = weight >= 0.5f;
    const float other = 1.0f - weight, first = (weight - other) * (a_first ? 1.0f : 0.0f) + other;
    push(reads, a_first ? a : b, first * gain);
    if (1.0f - first != 0.0f)
        push(reads, a_first ? b : a, (1.0f - first) * gain);
}

static void sync(const struct slot *s, float a, float half, uint32_t word, float gain, struct reads *out)
{
    const float ratio = power(a * 4.0f), t = about_zero(word);
    const uint32_t after = word_of(ratio * t);
    const float wide = smaller(larger(half, 0.5f * kept(s->character, 0.0f, 1.0f)), 0.5f);
    push_pair(out, after, smooth((t + wide) / (2.0f * wide)), after + word_of(ratio), gain);
}

static void pulse(float a, float half, uint32_t word, float gain, struct reads *out)
{
    const float length = 1.0f - a * 0.95f, centre = length * 0.5f, v = wrap(from_zero(word) - centre);
    push_pair(out, word_of((centre + v) / length), box(v, centre, half), 0, gain);
}

static void flip(float a, float half, uint32_t word, float gain, struct reads *out)
{
    const float length = a * 0.5f, inverted = box(wrap(from_zero(word) - (1.0f - length)), length, half);
    push(out, word, gain * (1.0f - 2.0f * inverted));
}

static void odd_even(float a, uint32_t word, float gain, struct reads *out)
{
    const float odd = smaller(2.0f * (1.0f - a), 1.0f), even = smaller(2.0f * a, 1.0f);
    push(out, word, gain * (odd + even) * 0.5f);
    push(out, word + 0x80000000u, gain * (even - odd) * 0.5f);
}

/* A slot's map of all reads; those without one, and those with a source, leave them. */
static struct reads mapped(const struct panel *p, const struct slot *s, float a, float half, struct reads in)
{
    struct reads out = {{0}, {0}, 0};
    for (unsigned i = 0; i < in.count; i++) {
        const uint32_t word = in.word[i];
        const float gain = in.gain[i], u = from_zero(word);
        switch (s->mode) {
        case SHAPER_SYNC: sync(s, a, half, word, gain, &out); break;
        case SHAPER_PULSE_WIDTH: pulse(a, half, word, gain, &out); break;
        case SHAPER_FLIP: flip(a, half, word, gain, &out); break;
        case SHAPER_ODD_EVEN: odd_even(a, word, gain, &out); break;
        case SHAPER_REMAP_DRAWN: push(&out, word + word_of(a * (curve_at(p->curve, u) - u)), gain); break;
        case SHAPER_REMAP_SINE: push(&out, word + word_of(-a * sine(p->numbers, u) * 0.15915494f), gain); break;
        default: push(&out, word, gain);
        }
    }
    return out;
}

/* How much faster than the phase a slot reads at most. */
static float steepness(uint32_t mode, float a, const float *curve)
{
    switch (mode) {
    case SHAPER_SYNC: return power(4.0f * a);
    case SHAPER_PULSE_WIDTH: return 1.0f / (1.0f - a * 0.95f);
    case SHAPER_REMAP_DRAWN: return 1.0f + a * (steepest(curve) - 1.0f);
    case SHAPER_REMAP_SINE: return 1.0f + a;
    default: return 1.0f;
    }
}

/* A filter at a cutoff whose tangent is g, damped by k, with its two numbers. */
static float filtered(uint32_t mode, float g, float k, float x, float *ic)
{
    const float a1 = 1.0f / (g * (g + k) + 1.0f), a2 = g * a1, a3 = g * a2, v3 = x - ic[1];
    const float v1 = a1 * ic[0] + a2 * v3, v2 = ic[1] + (a2 * ic[0] + a3 * v3);
    ic[0] = 2.0f * v1 - ic[0];
    ic[1] = 2.0f * v2 - ic[1];
    return mode == SHAPER_LOW_PASS ? v2 : x - k * v1 - v2;
}

/* Sixteen passes from silence, of which the last is drawn. */
static void filter(const struct panel *p, const struct slot *s, float a, float *picture, uint32_t points)
{
    const float harmonic = power(s->mode == SHAPER_LOW_PASS ? (1.0f - a) * 11.0f : a * 12.0f + -2.0f);
    const float cutoff = smaller(harmonic * (1.0f / (float)points), 0.45f);
    const float g = tangent(p->numbers, cutoff * 3.1415927f);
    const float k = 1.4142135f - 1.2f * kept(s->character, 0.0f, 1.0f);
    float ic[2] = {0.0f, 0.0f};
    for (int pass = 1; pass <= 16; pass++)
        for (uint32_t i = 0; i < points; i++) {
            const float y = filtered(s->mode, g, k, picture[i], ic);
            if (pass == 16)
                picture[i] = y;
        }
}

/* The reads of slot 1 and then slot 0, added up in order; then slot 0 and slot 1 of the wave stage. */
static void model(const struct panel *p, float *picture, uint32_t points)
{
    const struct slot *s = p->slot;
    const float a[SHAPER_SLOTS] = {kept(s[0].amount / 100.0f, 0.0f, 1.0f), kept(s[1].amount / 100.0f, 0.0f, 1.0f)};
    const float half = 0.25f * (1.0f / (float)points), inner = steepness(s[1].mode, a[1], p->curve);
    for (uint32_t i = 0; i < points; i++) {
        struct reads reads = {{word_at(i, points)}, {1.0f}, 1};
        reads = mapped(p, &s[0], a[0], half * inner, mapped(p, &s[1], a[1], half, reads));
        picture[i] = reads.gain[0] * read_at(p->cycle, reads.word[0]);
        for (unsigned r = 1; r < reads.count; r++)
            picture[i] += reads.gain[r] * read_at(p->cycle, reads.word[r]);
    }
    for (unsigned k = 0; k < SHAPER_SLOTS; k++) {
        if (s[k].mode == SHAPER_LOW_PASS || s[k].mode == SHAPER_HIGH_PASS)
            filter(p, &s[k], a[k], picture, points);
        else
            for (uint32_t i = 0; i < points; i++)
                picture[i] = distorted(p->numbers, s[k].mode, a[k], picture[i]);
    }
}

#endif
