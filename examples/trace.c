/* One lane in one stretch, for the analyser: of a block of four voices a single lane is run to the block's end, range
 * by range, before any other lane starts. Prints that lane as CSV on standard output: a row for each host frame, with
 * the phase word of each of its rendered frames and the output.
 *
 *   cc -std=c11 -Iinclude examples/trace.c target/staticlib/libcard.a -lm -o trace
 *   ./trace Sync 40 0 LowPass 75 0.9 4 2 > lane.csv
 *
 * At factor 1 the output is the very sample that was rendered at the row's word. Above it the rendered samples are not
 * to be had whole: the call decimates them in place, in `work`, and so overwrites the first half of a range's. */
#include "shaper_block.h"
#include "slot.h"

#include <inttypes.h>
#include <math.h>
#include <stdio.h>

static const char usage[] =
    "usage: trace MODE0 AMOUNT0 CHARACTER0 MODE1 AMOUNT1 CHARACTER1 FACTOR LANE [run] > lane.csv\n"
    "  modes by name or number (docs/MODES.md), amounts in percent, 0 to 100, characters 0 to 1, factor 1, 2, 4 or 8,\n"
    "  lane 0 to 3; with `run` all lanes are run at once, and the lane's numbers are the same\n";

enum {
    RATE = 48000,
    LANES = 4,
    FRAMES = 256, /* host frames of the block */
    RANGE = 60    /* and of a range; the last one is shorter */
};

static const double PI = 3.14159265358979323846;

/* What the block reads. Both slots hear the same source. */
static float base0[SHAPER_BASE(LANES)], base1[SHAPER_BASE(LANES)], source[SHAPER_SOURCE(FRAMES, LANES)];
static float curve[SHAPER_CURVE], cycle[SHAPER_CYCLE];
static uint32_t words[SHAPER_WORDS(FRAMES, SHAPER_MAX_FACTOR, LANES)];
static uint32_t steps[SHAPER_STEPS(FRAMES, SHAPER_MAX_FACTOR, LANES)];

/* What it writes. */
static float output[SHAPER_OUTPUT(FRAMES, LANES)], work[SHAPER_WORK(FRAMES, SHAPER_MAX_FACTOR, LANES)];
static float inner[SHAPER_SPAN(FRAMES, LANES)], stretch[SHAPER_SPAN(FRAMES, LANES)], add[SHAPER_SPAN(FRAMES, LANES)];
static float pairs[SHAPER_PAIRS(LANES)], fm[SHAPER_FM(LANES)], last[SHAPER_LAST(LANES)], state[SHAPER_STATE(LANES)];

/* Modes, characters and the factor come from the command line. */
static struct shaper_block block = {
    .lanes = LANES, .active = LANES, .frames = FRAMES, .rate = RATE,
    .slot[0] = {.base = SHAPER_CELLS(base0), .source = SHAPER_CELLS(source)},
    .slot[1] = {.base = SHAPER_CELLS(base1), .source = SHAPER_CELLS(source)},
    .curve = SHAPER_CELLS(curve), .cycle = SHAPER_CELLS(cycle),
    .words = SHAPER_CELLS(words), .steps = SHAPER_CELLS(steps),
    .inner = SHAPER_CELLS(inner), .stretch = SHAPER_CELLS(stretch), .add = SHAPER_CELLS(add),
    .output = SHAPER_CELLS(output), .work = SHAPER_CELLS(work),
    .pairs = SHAPER_CELLS(pairs), .fm = SHAPER_CELLS(fm), .last = SHAPER_CELLS(last), .state = SHAPER_CELLS(state),
};

static _Noreturn void stop(const char *word)
{
    if (word != NULL)
        fprintf(stderr, "trace: '%s' is not what belongs there\n", word);
    fputs(usage, stderr);
    exit(2);
}

static const char *meaning(uint32_t number)
{
    switch (number) {
    case SHAPER_BAD_MODE: return "a mode is above 69";
    case SHAPER_BAD_FACTOR: return "the factor is not 1, 2, 4 or 8";
    case SHAPER_BAD_LANES: return "there are lanes 0 to 3";
    default: return "no refusal of a trace";
    }
}

static void must(struct shaper_answer answer)
{
    if (answer.number != SHAPER_ACCEPTED) {
        fprintf(stderr, "trace: turned down with %u: %s\n", (unsigned)answer.number, meaning(answer.number));
        exit(1);
    }
}

/* The block's numbers by the words. Which factors there are, the library says. */
static void take_block(char **given)
{
    for (unsigned i = 0; i < SHAPER_SLOTS; i++) {
        struct slot slot;
        const char *wrong = take_slot(given + 3 * i, &slot);
        if (wrong != NULL)
            stop(wrong);
        block.slot[i].mode = slot.mode;
        block.slot[i].character = slot.character;
        for (unsigned lane = 0; lane < LANES; lane++)
            (i == 0 ? base0 : base1)[lane] = slot.amount;
    }
    if (!take_whole(given[6], &block.factor))
        stop(given[6]);
}

static void make_tables(void)
{
    for (int i = 0; i < SHAPER_CURVE; i++)
        curve[i] = (float)i / (SHAPER_CURVE - 1);
    for (int i = 0; i < SHAPER_CYCLE; i++)
        cycle[i] = (float)sin(2.0 * PI * i / SHAPER_CYCLE);
    for (int i = 0; i < FRAMES * LANES; i++)
        source[i] = (float)(0.5 * sin(2.0 * PI * (i / LANES) * 1000.0 / RATE));
}

/* A chord, every voice from phase 0 on. */
static void make_phases(void)
{
    static const double hertz[LANES] = {110.0, 138.59, 164.81, 220.0};
    for (uint32_t i = 0; i < SHAPER_WORDS(FRAMES, block.factor, LANES); i++) {
        steps[i] = shaper_step(hertz[i % LANES], RATE, block.factor);
        words[i] = steps[i] * (i / LANES);
    }
}

/* A lane to the block's end. Firmware raises a pin before this loop and drops it behind it: in between the analyser
 * shows the work of this lane and of no other. */
static void run_lane(uint32_t lane)
{
    for (uint32_t first = 0; first < FRAMES; first += RANGE)
        must(shaper_run_lane(&block, lane, first, first + RANGE < FRAMES ? RANGE : FRAMES - first));
}

/* Nine digits are enough to tell all floats apart; a NaN's sign is nothing to go by. */
static void print_lane(uint32_t lane)
{
    printf("frame");
    for (uint32_t sub = 0; sub < block.factor; sub++)
        printf(",word%" PRIu32, sub);
    printf(",output\n");
    for (uint32_t frame = 0; frame < FRAMES; frame++) {
        const float sample = output[frame * LANES + lane];
        printf("%" PRIu32, frame);
        for (uint32_t sub = 0; sub < block.factor; sub++)
            printf(",%" PRIu32, words[(frame * block.factor + sub) * LANES + lane]);
        if (isnan(sample))
            printf(",nan\n");
        else
            printf(",%.9g\n", (double)sample);
    }
}

int main(int argc, char **argv)
{
    const int all = argc == 10 && strcmp(argv[9], "run") == 0;
    uint32_t lane;
    if (argc != 9 && !all)
        stop(NULL);
    take_block(argv + 1);
    if (!take_whole(argv[8], &lane))
        stop(argv[8]);
    make_tables();
    must(shaper_prepare_block(&block));
    make_phases();
    must(shaper_run_lane(&block, lane, 0, 0)); /* an empty range changes nothing: is there such a lane? */
    if (all)
        must(shaper_run_block(&block, 0, FRAMES));
    else
        run_lane(lane);
    print_lane(lane);
    /* The other lanes' cells are as they were. With these lanes the block is what shaper_run_block makes of it. */
    for (uint32_t other = 0; other < LANES && !all; other++)
        if (other != lane)
            run_lane(other);
    if (fflush(stdout) != 0 || ferror(stdout)) {
        perror("trace: standard output");
        return 1;
    }
    return 0;
}
