/* How near the reading of a lent cycle comes to the wave that the cycle was made of: a sine, and a bright bell,
 * partials up to harmonic 64. The library reads between two entries (request E4); with both slots off, at factor 1, its
 * output is the reading. Beside it, by this program, the reading at one entry, as it was before. Prints a line for each
 * wave and each reading. */
#include "shaper_block.h"

#include <math.h>
#include <stdio.h>
#include <stdlib.h>

/* The reads are a whole number of blocks. */
enum { PARTS = 64, READS = SHAPER_CYCLE * PARTS, APART = (1 << 21) / PARTS, FRAMES = SHAPER_MAX_FRAMES };

/* Sines of one loudness, together full scale. The bell's are its hum, prime, tierce, quint, nominal, tenth, twelfth and
 * upper octave, as harmonics of the cycle: 19 for a tierce of 19.2. */
static const struct wave {
    const char *name;
    unsigned count, harmonics[8];
} waves[] = {{"A sine", 1, {1}}, {"A bell, up to harmonic 64,", 8, {8, 16, 19, 24, 32, 40, 48, 64}}};

static double exact[READS];
static float base[1], curve[SHAPER_CURVE], cycle[SHAPER_CYCLE], between[READS], alone[READS], output[FRAMES];
static float inner[SHAPER_SPAN(FRAMES, 1)], stretch[SHAPER_SPAN(FRAMES, 1)], add[SHAPER_SPAN(FRAMES, 1)], work[FRAMES];
static float pairs[SHAPER_PAIRS(1)], fm[SHAPER_FM(1)], last[SHAPER_LAST(1)], state[SHAPER_STATE(1)];
static uint32_t words[FRAMES], steps[FRAMES];

static const struct shaper_block block = {
    .factor = 1, .lanes = 1, .active = 1, .frames = FRAMES, .rate = 48000,
    .slot[0] = {.mode = SHAPER_OFF, .base = SHAPER_CELLS(base)},
    .slot[1] = {.mode = SHAPER_OFF, .base = SHAPER_CELLS(base)},
    .curve = SHAPER_CELLS(curve), .cycle = SHAPER_CELLS(cycle), .words = SHAPER_CELLS(words),
    .steps = SHAPER_CELLS(steps), .inner = SHAPER_CELLS(inner), .stretch = SHAPER_CELLS(stretch),
    .add = SHAPER_CELLS(add), .output = SHAPER_CELLS(output), .work = SHAPER_CELLS(work), .pairs = SHAPER_CELLS(pairs),
    .fm = SHAPER_CELLS(fm), .last = SHAPER_CELLS(last), .state = SHAPER_CELLS(state)};

/* A harmonic's phase wraps as a word does. */
static double value(const struct wave *w, uint32_t word)
{
    double sum = 0.0;
    for (unsigned i = 0; i < w->count; i++)
        sum += sin((double)(w->harmonics[i] * word) * (6.283185307179586 / 4294967296.0));
    return sum / w->count;
}

/* The wave itself and both readings, at all reads of a block. */
static void read_block(const struct wave *w, uint32_t first)
{
    for (uint32_t i = 0; i < FRAMES; i++) {
        words[i] = (first + i) * APART;
        exact[first + i] = value(w, words[i]), alone[first + i] = cycle[words[i] >> 21];
    }
    if (shaper_prepare_block(&block).number != SHAPER_ACCEPTED
        || shaper_run_block(&block, 0, FRAMES).number != SHAPER_ACCEPTED) {
        fprintf(stderr, "turned down\n");
        exit(1);
    }
    for (uint32_t i = 0; i < FRAMES; i++)
        between[first + i] = output[i];
}

static double decibels(double part)
{
    return 20.0 * log10(part);
}

/* The largest error and the largest step, in whole decibels: no sine's last digit shows in them. */
static void print_faults(const char *how, const float *reads)
{
    double error = 0.0, step = 0.0;
    for (uint32_t i = 0; i < READS; i++) {
        error = fmax(error, fabs((double)reads[i] - exact[i]));
        step = fmax(step, fabs((double)reads[(i + 1) % READS] - (double)reads[i]));
    }
    printf("  read %s: off by up to %.0f dB, in steps of up to %.0f dB\n", how, decibels(error), decibels(step));
}

int main(void)
{
    printf("Reads of a cycle, 1/%d of an entry apart; full scale is 0 dB.\n", PARTS);
    for (const struct wave *w = waves; w < waves + sizeof waves / sizeof *waves; w++) {
        double step = 0.0;
        for (uint32_t i = 0; i < SHAPER_CYCLE; i++)
            cycle[i] = (float)value(w, i << 21);
        for (uint32_t first = 0; first < READS; first += FRAMES)
            read_block(w, first);
        for (uint32_t i = 0; i < READS; i++)
            step = fmax(step, fabs(exact[(i + 1) % READS] - exact[i]));
        printf("%s moves by up to %.0f dB from one to the next:\n", w->name, decibels(step));
        print_faults("between two entries", between);
        print_faults("at one entry, as before", alone);
    }
    return 0;
}
