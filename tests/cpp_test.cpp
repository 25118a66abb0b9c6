/* The headers from C++, without C's designated initialisers. Prints how many checks pass, "P of T". */
#include "cycle_model.h"
#include "shaper_block.h"
#include "shaper_names.h"

enum { RATE = 48000, FACTOR = 2, LANES = 2, FRAMES = 33 };

static float base[SHAPER_BASE(LANES)], curve[SHAPER_CURVE], cycle[SHAPER_CYCLE];
static uint32_t words[SHAPER_WORDS(FRAMES, FACTOR, LANES)], steps[SHAPER_STEPS(FRAMES, FACTOR, LANES)];
static float inner[SHAPER_SPAN(FRAMES, LANES)], stretch[SHAPER_SPAN(FRAMES, LANES)], add[SHAPER_SPAN(FRAMES, LANES)];
static float output[SHAPER_OUTPUT(FRAMES, LANES)], work[SHAPER_WORK(FRAMES, FACTOR, LANES)];
static float pairs[SHAPER_PAIRS(LANES)], fm[SHAPER_FM(LANES)], last[SHAPER_LAST(LANES)], state[SHAPER_STATE(LANES)];

static shaper_block filled()
{
    shaper_block b = {};
    b.factor = FACTOR;
    b.lanes = b.active = LANES;
    b.frames = FRAMES;
    b.rate = RATE;
    b.slot[0].mode = b.slot[1].mode = SHAPER_OFF;
    b.slot[0].base = b.slot[1].base = SHAPER_CELLS(base);
    b.curve = SHAPER_CELLS(curve);
    b.cycle = SHAPER_CELLS(cycle);
    b.words = SHAPER_CELLS(words);
    b.steps = shaper_words_from(steps, SHAPER_STEPS(FRAMES, FACTOR, LANES));
    b.inner = SHAPER_CELLS(inner);
    b.stretch = SHAPER_CELLS(stretch);
    b.add = SHAPER_CELLS(add);
    b.output = shaper_write_to(output, SHAPER_OUTPUT(FRAMES, LANES));
    b.work = SHAPER_CELLS(work);
    b.pairs = SHAPER_CELLS(pairs);
    b.fm = SHAPER_CELLS(fm);
    b.last = SHAPER_CELLS(last);
    b.state = SHAPER_CELLS(state);
    return b;
}

/* Lane by lane, the last one first and lane 0 in two ranges: what the run left. */
static void check_lanes(const shaper_block &b)
{
    static float output_before[SHAPER_OUTPUT(FRAMES, LANES)], state_before[SHAPER_STATE(LANES)];
    memcpy(output_before, output, sizeof output);
    memcpy(state_before, state, sizeof state);
    memset(output, 0, sizeof output);
    memset(state, 0, sizeof state);
    check(answered(shaper_run_lane(&b, 1, 0, FRAMES), SHAPER_ACCEPTED, FRAMES)
            && answered(shaper_run_lane(&b, 0, 0, 7), SHAPER_ACCEPTED, 7)
            && answered(shaper_run_lane(&b, 0, 7, FRAMES - 7), SHAPER_ACCEPTED, FRAMES - 7),
        "the answers of lanes");
    check(answered(shaper_run_lane(&b, LANES, 0, FRAMES), SHAPER_BAD_LANES, 0), "a lane that is not active");
    check(memcmp(output, output_before, sizeof output) == 0 && memcmp(state, state_before, sizeof state) == 0,
        "a block lane by lane");
}

static shaper_answer preview(uint32_t mode, size_t cycle_length, float *picture, size_t points)
{
    return shaper_preview(mode, SHAPER_OFF, 0.0f, 0.0f, 0.0f, 0.0f, shaper_numbers, SHAPER_NUMBERS, curve, SHAPER_CURVE,
        cycle, cycle_length, picture, points);
}

static void check_picture()
{
    float picture[5] = {7.0f, 7.0f, 7.0f, 7.0f, 7.0f};
    check(answered(preview(SHAPER_MODES, SHAPER_CYCLE, picture, 4), SHAPER_BAD_MODE, 0)
            && answered(preview(SHAPER_OFF, SHAPER_CYCLE - 1, picture, 4), SHAPER_SHORT_READ, 0) && picture[0] == 7.0f,
        "a picture turned down");
    check(answered(preview(SHAPER_OFF, SHAPER_CYCLE, picture, 4), SHAPER_ACCEPTED, 4) && picture[0] == 0.0f
            && picture[1] == 0.25f && picture[2] == 0.5f && picture[3] == 0.75f && picture[4] == 7.0f,
        "the picture of a cycle");
}

static void check_names()
{
    check(strcmp(shaper_mode_name(SHAPER_LOW_PASS), "LowPass") == 0 && shaper_mode_name(SHAPER_MODES) == NULL,
        "the name of a mode");
    check(shaper_mode_of("lowpass") == SHAPER_LOW_PASS && shaper_mode_of("low") == SHAPER_MODES, "the mode of a name");
}

static void check_files()
{
    uint8_t file[SHAPER_PATCH_BYTES];
    const shaper_written w =
        shaper_patch_write(SHAPER_HARD_CLIP, 5000, 2500, SHAPER_LOW_PASS, 3333, 10000, file, SHAPER_PATCH_BYTES);
    const shaper_patch p = shaper_patch_read(file, w.bytes);
    check(w.number == SHAPER_ACCEPTED && w.bytes == SHAPER_PATCH_BYTES && p.number == SHAPER_ACCEPTED
            && p.slot0.mode == SHAPER_HARD_CLIP && p.slot0.amount == 50.0f && p.slot0.character == 0.25f
            && p.slot1.mode == SHAPER_LOW_PASS && p.slot1.hundredths == 3333 && p.slot1.ten_thousandths == 10000,
        "a patch that is written and read");
    const shaper_same all = shaper_patch_same(file, w.bytes, file, w.bytes);
    const shaper_same cut = shaper_patch_same(file, w.bytes, file, w.bytes - 1);
    check(all.number == SHAPER_ACCEPTED && all.same == 1 && cut.number == SHAPER_BAD_LENGTH && cut.same == 0,
        "the same patch");
}

static shaper_found find(uint32_t mode, float wanted)
{
    return shaper_amount_for(mode, 0.5f, wanted, 0.0f, shaper_numbers, SHAPER_NUMBERS);
}

static void check_level()
{
    const shaper_found clip = find(SHAPER_HARD_CLIP, 1.0f), above = find(SHAPER_HARD_CLIP, 2.0f);
    check(clip.number == SHAPER_ACCEPTED && clip.hundredths == 2007, "the amount that gives a level");
    check(above.number == SHAPER_NO_AMOUNT && above.hundredths == 0 && find(SHAPER_OFF, 0.5f).number == SHAPER_BAD_MODE,
        "a level turned down");
}

/* Off in both slots reads the cycle and decimates it. */
int main()
{
    static float buffer[SHAPER_BUFFER(FRAMES, FACTOR, LANES)], cells[SHAPER_STATE(LANES)];
    const uint32_t *n = shaper_card_counts;
    for (unsigned i = 0; i < SHAPER_CYCLE; i++)
        cycle[i] = static_cast<float>(i) / SHAPER_CYCLE;
    for (unsigned i = 0; i < FRAMES * FACTOR * LANES; i++) {
        steps[i] = shaper_step(440.0, RATE, FACTOR);
        words[i] = steps[i] * (i / LANES);
        buffer[i] = read_at(cycle, words[i]);
    }
    const shaper_block b = filled();
    check(answered(shaper_prepare_block(&b), SHAPER_ACCEPTED, FRAMES), "the answer of prepare");
    check(answered(shaper_run_block(&b, 0, FRAMES), SHAPER_ACCEPTED, FRAMES), "the answer of a run");
    check(shaper_stretch_block(&b, 0, 0, FRAMES, 0, 1, steps[0]).value == 1.0f, "the stretch of no mode");
    check(answered(shaper_decimate(FACTOR, LANES, LANES, FRAMES, n[0], n[1], n[2], shaper_card_coefs, SHAPER_COEFS,
                       buffer, SHAPER_BUFFER(FRAMES, FACTOR, LANES), cells, SHAPER_STATE(LANES)),
              SHAPER_ACCEPTED, FRAMES),
        "the answer of a decimation");
    check(memcmp(output, buffer, sizeof output) == 0, "the decimated cycle");
    check_lanes(b);
    check(answered(shaper_run_block(&b, 1, FRAMES), SHAPER_BAD_FRAMES, 0), "a range past the end");
    const shaper_needs p = shaper_plan_block(&b);
    check(p.number == SHAPER_ACCEPTED && p.frames == FRAMES && p.work == SHAPER_WORK(FRAMES, FACTOR, LANES)
            && p.state == SHAPER_STATE(LANES) && p.pairs == SHAPER_PAIRS(LANES) && p.fm == SHAPER_FM(LANES)
            && p.last == SHAPER_LAST(LANES) && p.reads == 4 * FRAMES * FACTOR * LANES && p.steps == 10 * FRAMES * LANES,
        "the plan of a block");
    check_picture();
    check_names();
    check_files();
    check_level();
    return finish();
}
