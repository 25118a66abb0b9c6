/* A second of a sine, folded more and more, as raw 32-bit floats at 48,000 Hz.
 *
 *   cc -std=c11 -Iinclude examples/first.c target/staticlib/libcard.a -lm -o first && ./first > first.raw
 *   aplay -f FLOAT_LE -r 48000 first.raw */
#include "shaper_block.h"

#include <math.h>
#include <stdio.h>

enum { RATE = 48000, FACTOR = 1, LANES = 1, FRAMES = 480 };

/* What a block reads: amounts in percent, tables, and where each frame reads the cycle. */
static float amount[SHAPER_BASE(LANES)], none[SHAPER_BASE(LANES)], curve[SHAPER_CURVE], cycle[SHAPER_CYCLE];
static uint32_t words[SHAPER_WORDS(FRAMES, FACTOR, LANES)], steps[SHAPER_STEPS(FRAMES, FACTOR, LANES)];

/* What it writes: the samples, what it works with, and what a lane carries on. */
static float output[SHAPER_OUTPUT(FRAMES, LANES)], work[SHAPER_WORK(FRAMES, FACTOR, LANES)];
static float inner[SHAPER_SPAN(FRAMES, LANES)], stretch[SHAPER_SPAN(FRAMES, LANES)], add[SHAPER_SPAN(FRAMES, LANES)];
static float pairs[SHAPER_PAIRS(LANES)], fm[SHAPER_FM(LANES)], last[SHAPER_LAST(LANES)], state[SHAPER_STATE(LANES)];

static const struct shaper_block block = {
    .factor = FACTOR, .lanes = LANES, .active = LANES, .frames = FRAMES, .rate = RATE,
    .slot[0] = {.mode = SHAPER_SINE_FOLD, .base = SHAPER_CELLS(amount)},
    .slot[1] = {.mode = SHAPER_OFF, .base = SHAPER_CELLS(none)},
    .curve = SHAPER_CELLS(curve), .cycle = SHAPER_CELLS(cycle),
    .words = SHAPER_CELLS(words), .steps = SHAPER_CELLS(steps),
    .inner = SHAPER_CELLS(inner), .stretch = SHAPER_CELLS(stretch), .add = SHAPER_CELLS(add),
    .output = SHAPER_CELLS(output), .work = SHAPER_CELLS(work),
    .pairs = SHAPER_CELLS(pairs), .fm = SHAPER_CELLS(fm), .last = SHAPER_CELLS(last), .state = SHAPER_CELLS(state),
};

int main(void)
{
    uint32_t phase = 0, step = shaper_step(110.0, RATE, FACTOR);
    for (int i = 0; i < SHAPER_CYCLE; i++)
        cycle[i] = (float)sin(i * 6.283185307179586 / SHAPER_CYCLE);
    for (amount[0] = 0.0f; amount[0] < 100.0f; amount[0] += 1.0f) {
        for (int k = 0; k < FRAMES * FACTOR; k++, phase += step)
            words[k] = phase, steps[k] = step;
        if (shaper_prepare_block(&block).number != SHAPER_ACCEPTED)
            return 1;
        if (shaper_run_block(&block, 0, FRAMES).number != SHAPER_ACCEPTED)
            return 1;
        fwrite(output, sizeof *output, FRAMES, stdout);
    }
    return 0;
}
