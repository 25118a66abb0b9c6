/* A small host: three voices of one note each, through Sync and SoftSaturate, four times oversampled, in blocks cut at
 * odd places.
 *
 *   cc -std=c11 -Iinclude examples/host.c target/staticlib/libcard.a -lm -o host && ./host out.wav
 *
 * Writes two seconds of sound as a 16-bit mono WAV file. */
#include "shaper_block.h"

#include <math.h>
#include <stdio.h>
#include <stdlib.h>

enum {
    RATE = 48000,
    FACTOR = 4,
    LANES = 3,
    FRAMES = 480, /* host frames of a block */
    BLOCKS = 200
};

static const double PI = 3.14159265358979323846;

/* What lives as long as the voices: their phases, and the block, whose pairs, fm, last and state they carry on. */
static uint32_t phase[LANES];
static struct shaper_block block = {
    .factor = FACTOR, .lanes = LANES, .active = LANES, .frames = FRAMES, .rate = RATE,
    .slot[0].mode = SHAPER_SYNC, .slot[1].mode = SHAPER_SOFT_SATURATE};

/* What the host itself writes: the tables, the phases and the sweep of slot 0's amount. */
static float *curve, *cycle, *sweep;
static uint32_t *words, *steps;

/* Zeros, on the heap: a memory checker sees a step past them there. */
static void *cells(size_t count)
{
    void *zeros = calloc(count, sizeof(float));
    if (zeros == NULL) {
        perror("calloc");
        exit(1);
    }
    return zeros;
}

static struct shaper_writable written(size_t count)
{
    return shaper_write_to(cells(count), count);
}

/* Each as long as the header asks. */
static void make_buffers(void)
{
    static const float base0[LANES] = {0}, base1[LANES] = {35.0f, 35.0f, 35.0f};
    const size_t rendered = SHAPER_WORDS(FRAMES, FACTOR, LANES), span = SHAPER_SPAN(FRAMES, LANES);
    block.slot[0].base = shaper_read_from(base0, LANES);
    block.slot[1].base = shaper_read_from(base1, LANES);
    block.slot[0].mod = shaper_read_from(sweep = cells(SHAPER_MOD(FRAMES, LANES)), SHAPER_MOD(FRAMES, LANES));
    block.curve = shaper_read_from(curve = cells(SHAPER_CURVE), SHAPER_CURVE);
    block.cycle = shaper_read_from(cycle = cells(SHAPER_CYCLE), SHAPER_CYCLE);
    block.words = shaper_words_from(words = cells(rendered), rendered);
    block.steps = shaper_words_from(steps = cells(rendered), rendered);
    block.inner = written(span), block.stretch = written(span), block.add = written(span);
    block.output = written(SHAPER_OUTPUT(FRAMES, LANES)), block.work = written(SHAPER_WORK(FRAMES, FACTOR, LANES));
    block.pairs = written(SHAPER_PAIRS(LANES)), block.fm = written(SHAPER_FM(LANES));
    block.last = written(SHAPER_LAST(LANES)), block.state = written(SHAPER_STATE(LANES));
}

static void make_tables(void)
{
    for (int i = 0; i < SHAPER_CURVE; i++)
        curve[i] = (float)i / (SHAPER_CURVE - 1);
    for (int i = 0; i < SHAPER_CYCLE; i++)
        cycle[i] = (float)sin(2.0 * PI * i / SHAPER_CYCLE);
}

/* Each lane's phase, rendered frame by rendered frame, and a slow sweep of slot 0's amount, in percent. */
static void make_block(int number)
{
    static const double hertz[LANES] = {110.0, 138.59, 164.81};
    for (int k = 0; k < FRAMES * FACTOR; k++)
        for (int lane = 0; lane < LANES; lane++) {
            uint32_t step = shaper_step(hertz[lane], RATE, FACTOR);
            words[k * LANES + lane] = phase[lane];
            steps[k * LANES + lane] = step;
            phase[lane] += step;
        }
    for (int k = 0; k < FRAMES; k++)
        for (int lane = 0; lane < LANES; lane++)
            sweep[k * LANES + lane] = (float)(45.0 - 45.0 * cos(2.0 * PI * (number * FRAMES + k) / (FRAMES * BLOCKS)));
}

static void must(struct shaper_answer answer, const char *call)
{
    if (answer.number != SHAPER_ACCEPTED) {
        fprintf(stderr, "%s: turned down with %u\n", call, (unsigned)answer.number);
        exit(1);
    }
}

static void render(int number)
{
    make_block(number);
    must(shaper_prepare_block(&block), "shaper_prepare_block");
    /* Any cuts give the same samples. */
    uint32_t first = 0;
    for (uint32_t cut = 7; first < FRAMES; cut = cut * 3 % 101) {
        uint32_t count = cut < FRAMES - first ? cut : FRAMES - first;
        must(shaper_run_block(&block, first, count), "shaper_run_block");
        first += count;
    }
}

static void put(FILE *file, uint32_t value, int bytes)
{
    for (int i = 0; i < bytes; i++)
        fputc((int)(value >> (8 * i) & 255), file);
}

static void write_header(FILE *file)
{
    uint32_t bytes = 2u * FRAMES * BLOCKS;
    fputs("RIFF", file);
    put(file, 36 + bytes, 4);
    fputs("WAVEfmt ", file);
    put(file, 16, 4);
    put(file, 1, 2); /* PCM */
    put(file, 1, 2); /* one channel */
    put(file, RATE, 4);
    put(file, 2 * RATE, 4);
    put(file, 2, 2);
    put(file, 16, 2);
    fputs("data", file);
    put(file, bytes, 4);
}

/* The lanes' sum, kept to the range of a sample. */
static int mix(int k)
{
    float sum = 0.0f;
    for (int lane = 0; lane < LANES; lane++)
        sum += block.output.cells[k * LANES + lane];
    float sample = sum * (32767.0f / (1.5f * LANES));
    return (int)fmaxf(-32767.0f, fminf(32767.0f, sample));
}

int main(int argc, char **argv)
{
    if (argc != 2) {
        fprintf(stderr, "usage: host FILE.wav\n");
        return 2;
    }
    FILE *file = fopen(argv[1], "wb");
    if (file == NULL) {
        perror(argv[1]);
        return 1;
    }
    make_buffers();
    make_tables();
    write_header(file);
    int peak = 0;
    for (int number = 0; number < BLOCKS; number++) {
        render(number);
        for (int k = 0; k < FRAMES; k++) {
            int sample = mix(k);
            peak = abs(sample) > peak ? abs(sample) : peak;
            put(file, (uint32_t)sample & 0xffff, 2);
        }
    }
    if (fclose(file) != 0) {
        perror(argv[1]);
        return 1;
    }
    printf("%s: %d frames, peak %d\n", argv[1], FRAMES * BLOCKS, peak);
    return 0;
}
