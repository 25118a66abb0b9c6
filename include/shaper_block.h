/* A block as one struct that is filled in by name, prepared once and then run over any ranges (examples/first.c). It
 * passes its fields on to the calls of shaper.h, with the card's own designs and numbers, and has no state of its own:
 * every rule of shaper.h holds here, and so do its refusals.
 *
 * All buffers are the caller's, and each travels with its length:
 *
 *     .output = SHAPER_CELLS(output)                     an array, where a struct is initialised
 *     block.output = shaper_write_to(output, length);    a pointer and a length, anywhere
 *
 * Start from zeros, `{0}` in C and `{}` in C++. Left at zeros, a mode is Off, a modulation or a source is absent, and
 * without frames or active lanes nothing is prepared or run. Other numbers and buffers that are left out are refused.
 */
#ifndef SHAPER_BLOCK_H
#define SHAPER_BLOCK_H

#include "shaper.h"

#ifdef __cplusplus
extern "C" {
#endif

/* Buffers: floats and words that are read, floats that are written. */
struct shaper_readable {
    const float *cells;
    size_t length;
};

struct shaper_words {
    const uint32_t *cells;
    size_t length;
};

struct shaper_writable {
    float *cells;
    size_t length;
};

/* A whole array with its length, where a buffer is initialised. Not for pointers, whose length it can't see. */
#define SHAPER_CELLS(array) {(array), sizeof(array) / sizeof *(array)}

/* The same of a pointer and a length, anywhere. */
static inline struct shaper_readable shaper_read_from(const float *cells, size_t length)
{
    struct shaper_readable buffer = {cells, length};
    return buffer;
}

static inline struct shaper_words shaper_words_from(const uint32_t *cells, size_t length)
{
    struct shaper_words buffer = {cells, length};
    return buffer;
}

static inline struct shaper_writable shaper_write_to(float *cells, size_t length)
{
    struct shaper_writable buffer = {cells, length};
    return buffer;
}

/* What shapes the cycle. A slot that is off needs a base as well. */
struct shaper_slot {
    uint32_t mode;                 /* enum shaper_mode */
    float character;               /* 0 to 1: the softness of Sync, the resonance of the filters */
    struct shaper_readable base;   /* SHAPER_BASE(lanes): the amount in percent, knob plus the lane's offset */
    struct shaper_readable mod;    /* SHAPER_MOD(frames, lanes) or empty: what is added to it, by host frame */
    struct shaper_readable source; /* SHAPER_SOURCE(frames, lanes) or empty: what the slot hears, by host frame */
};

struct shaper_block {
    uint32_t factor; /* rendered frames to a host frame: 1, 2, 4 or 8 */
    uint32_t lanes;  /* numbers in a row, 1 to SHAPER_MAX_LANES */
    uint32_t active; /* the lanes that take part, the first ones */
    uint32_t frames; /* the block's host frames, 0 to SHAPER_MAX_FRAMES */
    uint32_t rate;   /* the host rate in whole hertz, SHAPER_MIN_RATE to SHAPER_MAX_RATE */
    struct shaper_slot slot[SHAPER_SLOTS];

    /* The tables: the remap curve, SHAPER_CURVE, and one cycle of the wave, SHAPER_CYCLE. */
    struct shaper_readable curve, cycle;

    /* SHAPER_WORDS(frames, factor, lanes) each: a lane's phase, 2^32 being a cycle, and how far it moves, by rendered
     * frame. */
    struct shaper_words words, steps;

    /* SHAPER_SPAN(frames, lanes) each, which shaper_prepare_block writes and the block's other calls read: they stay as
     * they are until the block is done. A run reads inner, slot 1's steepest slope, by which the crossfades of slot 0
     * widen. shaper_stretch_block reads stretch and add, how steep both slots read the cycle and what their sources
     * add, for a host that picks one of several band-limited cycles. One that has a single cycle lends both, too. */
    struct shaper_writable inner, stretch, add;

    /* SHAPER_OUTPUT(frames, lanes): the shaped samples, by host frame. */
    struct shaper_writable output;

    /* SHAPER_WORK(count, factor, lanes) for the longest range: scratch, which blocks that don't run at the same time
     * may share. */
    struct shaper_writable work;

    /* SHAPER_PAIRS, SHAPER_FM, SHAPER_LAST and SHAPER_STATE of the lanes: what each carries from one call to the next
     * and from block to block. Zeros start a lane. */
    struct shaper_writable pairs, fm, last, state;
};

/* The phase step of a pitch, in words a rendered frame, cut off to a whole one; rate and factor are the block's. The
 * pitch is less than rate * factor hertz; below 0 the phase runs backwards. */
static inline uint32_t shaper_step(double hertz, uint32_t rate, uint32_t factor)
{
    return (uint32_t)(int64_t)(hertz / ((double)rate * factor) * 4294967296.0);
}

/* A buffer as the calls take it. */
#define SHAPER_LENT(buffer) (buffer).cells, (buffer).length

/* shaper_plan of the block, which needs no buffer yet: how long work, state, pairs, fm and last must be for the whole
 * block in one range. */
static inline struct shaper_needs shaper_plan_block(const struct shaper_block *b)
{
    return shaper_plan(b->factor, b->lanes, b->active, b->frames, shaper_card_counts[0], shaper_card_counts[1],
        shaper_card_counts[2]);
}

/* shaper_prepare of the block: once, before its runs. */
static inline struct shaper_answer shaper_prepare_block(const struct shaper_block *b)
{
    const struct shaper_slot *s = b->slot;
    return shaper_prepare(s[0].mode, s[1].mode, b->factor, b->lanes, b->active, b->frames, b->rate,
        SHAPER_LENT(s[0].base), SHAPER_LENT(s[1].base), SHAPER_LENT(s[0].mod), SHAPER_LENT(s[1].mod),
        SHAPER_LENT(s[0].source), SHAPER_LENT(s[1].source), SHAPER_LENT(b->curve), SHAPER_LENT(b->inner),
        SHAPER_LENT(b->stretch), SHAPER_LENT(b->add));
}

/* shaper_stretch of a lane over some rendered frames of a range. */
static inline struct shaper_valued shaper_stretch_block(const struct shaper_block *b, uint32_t lane, uint32_t first,
    uint32_t count, uint32_t asked_first, uint32_t asked, uint32_t step)
{
    return shaper_stretch(b->factor, b->lanes, b->active, lane, b->frames, first, count, asked_first, asked, step,
        SHAPER_LENT(b->stretch), SHAPER_LENT(b->add));
}

/* What both runs take after their range: rate, the card's designs and numbers, and the block's buffers. */
#define SHAPER_AFTER_RANGE(b) \
    (b)->rate, shaper_card_counts[0], shaper_card_counts[1], shaper_card_counts[2], shaper_card_coefs, SHAPER_COEFS, \
    shaper_numbers, SHAPER_NUMBERS, SHAPER_LENT((b)->slot[0].base), SHAPER_LENT((b)->slot[1].base), \
    SHAPER_LENT((b)->slot[0].mod), SHAPER_LENT((b)->slot[1].mod), SHAPER_LENT((b)->slot[0].source), \
    SHAPER_LENT((b)->slot[1].source), SHAPER_LENT((b)->curve), SHAPER_LENT((b)->cycle), SHAPER_LENT((b)->words), \
    SHAPER_LENT((b)->steps), SHAPER_LENT((b)->inner), SHAPER_LENT((b)->output), SHAPER_LENT((b)->work), \
    SHAPER_LENT((b)->pairs), SHAPER_LENT((b)->fm), SHAPER_LENT((b)->last), SHAPER_LENT((b)->state)

/* shaper_block_run of host frames first to first + count - 1. A block in any consecutive ranges has the same samples as
 * in one, `0, frames`. */
static inline struct shaper_answer shaper_run_block(const struct shaper_block *b, uint32_t first, uint32_t count)
{
    return shaper_block_run(b->slot[0].mode, b->slot[1].mode, b->slot[0].character, b->slot[1].character, b->factor,
        b->lanes, b->active, b->frames, first, count, SHAPER_AFTER_RANGE(b));
}

/* shaper_lane_run of the same: one lane's share of the range. Once for each active lane, in any order, it leaves all
 * buffers as shaper_run_block does. */
static inline struct shaper_answer shaper_run_lane(const struct shaper_block *b, uint32_t lane, uint32_t first,
    uint32_t count)
{
    return shaper_lane_run(b->slot[0].mode, b->slot[1].mode, b->slot[0].character, b->slot[1].character, b->factor,
        b->lanes, b->active, lane, b->frames, first, count, SHAPER_AFTER_RANGE(b));
}

#undef SHAPER_AFTER_RANGE
#undef SHAPER_LENT

#ifdef __cplusplus
}
#endif

#endif
