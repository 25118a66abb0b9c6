/* A block as a struct (shaper_block.h) does what the calls of shaper.h do. Prints how many checks pass, "P of T". */
#include "fields.h"

enum {
    RATE = 48000, FACTOR = 4, LANES = 3, ACTIVE = 2, FRAMES = 40,
    HOST = SHAPER_OUTPUT(FRAMES, LANES), RENDERED = SHAPER_WORDS(FRAMES, FACTOR, LANES),
    SPAN = SHAPER_SPAN(FRAMES, LANES)
};

static const float CHARACTER0 = 0.5f, CHARACTER1 = 0.25f;

/* What a block reads: no two buffers alike. */
static float base0[LANES], base1[LANES], mod0[HOST], mod1[HOST], source0[HOST], source1[HOST];
static float curve[SHAPER_CURVE], cycle[SHAPER_CYCLE];
static uint32_t words[RENDERED], steps[RENDERED];

/* What it writes, with a cell between two buffers that no call may touch. */
struct voice {
    float inner[SPAN], past_inner, stretch[SPAN], past_stretch, add[SPAN], past_add;
    float output[HOST], past_output, work[RENDERED], past_work;
    float pairs[SHAPER_PAIRS(LANES)], past_pairs, fm[SHAPER_FM(LANES)], past_fm, last[SHAPER_LAST(LANES)], past_last;
    float state[SHAPER_STATE(LANES)], past_state;
};

static void fill(float *cells, size_t count, float least, float most, uint32_t seed)
{
    for (size_t i = 0; i < count; i++) {
        seed = seed * 1664525u + 1013904223u;
        cells[i] = least + (most - least) * ((float)(seed >> 8) / 16777216.0f);
    }
}

static void make_inputs(void)
{
    fill(base0, LANES, 20.0f, 60.0f, 1);
    fill(base1, LANES, 20.0f, 60.0f, 2);
    fill(mod0, HOST, -20.0f, 20.0f, 3);
    fill(mod1, HOST, -20.0f, 20.0f, 4);
    fill(source0, HOST, -1.0f, 1.0f, 5);
    fill(source1, HOST, -1.0f, 1.0f, 6);
    fill(curve, SHAPER_CURVE, 0.0f, 1.0f, 7);
    fill(cycle, SHAPER_CYCLE, -1.0f, 1.0f, 8);
    for (unsigned i = 0; i < RENDERED; i++) {
        steps[i] = shaper_step(110.0 + i % LANES, RATE, FACTOR);
        words[i] = steps[i] * (i / LANES);
    }
}

static struct voice drawn(void)
{
    static struct voice v;
    fill((float *)&v, sizeof v / sizeof(float), -0.5f, 0.5f, 9);
    return v;
}

static struct shaper_block filled(uint32_t mode0, uint32_t mode1, struct voice *v)
{
    struct shaper_block b = {
        .factor = FACTOR, .lanes = LANES, .active = ACTIVE, .frames = FRAMES, .rate = RATE,
        .slot[0] = {mode0, CHARACTER0, SHAPER_CELLS(base0), SHAPER_CELLS(mod0), SHAPER_CELLS(source0)},
        .slot[1] = {mode1, CHARACTER1, SHAPER_CELLS(base1), SHAPER_CELLS(mod1), SHAPER_CELLS(source1)},
        .curve = SHAPER_CELLS(curve), .cycle = SHAPER_CELLS(cycle),
        .words = SHAPER_CELLS(words), .steps = SHAPER_CELLS(steps),
        .inner = SHAPER_CELLS(v->inner), .stretch = SHAPER_CELLS(v->stretch), .add = SHAPER_CELLS(v->add),
        .output = SHAPER_CELLS(v->output), .work = SHAPER_CELLS(v->work),
        .pairs = SHAPER_CELLS(v->pairs), .fm = SHAPER_CELLS(v->fm), .last = SHAPER_CELLS(v->last),
        .state = SHAPER_CELLS(v->state)};
    return b;
}

/* Which of mod0, mod1, source0 and source1 are absent: a bit each. */
static void take_away(struct shaper_block *b, unsigned absent)
{
    const struct shaper_readable none = {NULL, 0};
    if (absent & 1)
        b->slot[0].mod = none;
    if (absent & 2)
        b->slot[1].mod = none;
    if (absent & 4)
        b->slot[0].source = none;
    if (absent & 8)
        b->slot[1].source = none;
}

#define UNLESS(bit, cells) absent & (bit) ? NULL : (cells), absent & (bit) ? 0 : HOST

/* The same by the calls of shaper.h. */
static struct shaper_answer raw_prepare(uint32_t mode0, uint32_t mode1, unsigned absent, struct voice *v)
{
    return shaper_prepare(mode0, mode1, FACTOR, LANES, ACTIVE, FRAMES, RATE, base0, LANES, base1, LANES,
        UNLESS(1, mod0), UNLESS(2, mod1), UNLESS(4, source0), UNLESS(8, source1), curve, SHAPER_CURVE, v->inner, SPAN,
        v->stretch, SPAN, v->add, SPAN);
}

static struct shaper_answer raw_run(
    uint32_t mode0, uint32_t mode1, unsigned absent, uint32_t first, uint32_t count, struct voice *v)
{
    const uint32_t *n = shaper_card_counts;
    return shaper_block_run(mode0, mode1, CHARACTER0, CHARACTER1, FACTOR, LANES, ACTIVE, FRAMES, first, count, RATE,
        n[0], n[1], n[2], shaper_card_coefs, SHAPER_COEFS, shaper_numbers, SHAPER_NUMBERS, base0, LANES, base1, LANES,
        UNLESS(1, mod0), UNLESS(2, mod1), UNLESS(4, source0), UNLESS(8, source1), curve, SHAPER_CURVE, cycle,
        SHAPER_CYCLE, words, RENDERED, steps, RENDERED, v->inner, SPAN, v->output, HOST, v->work, RENDERED, v->pairs,
        SHAPER_PAIRS(LANES), v->fm, SHAPER_FM(LANES), v->last, SHAPER_LAST(LANES), v->state, SHAPER_STATE(LANES));
}

static int are_same(struct shaper_answer a, struct shaper_answer b)
{
    return a.number == SHAPER_ACCEPTED && answered(b, a.number, a.frames);
}

/* A block in two ranges by either: the same answers, and the same cells of all that is written. */
static void check_same(uint32_t mode0, uint32_t mode1, unsigned absent)
{
    struct voice by_struct = drawn(), by_call = by_struct;
    struct shaper_block b = filled(mode0, mode1, &by_struct);
    take_away(&b, absent);
    check(are_same(shaper_prepare_block(&b), raw_prepare(mode0, mode1, absent, &by_call)), "the answer of prepare");
    check(are_same(shaper_run_block(&b, 0, 7), raw_run(mode0, mode1, absent, 0, 7, &by_call)), "the answer of a range");
    check(are_same(shaper_run_block(&b, 7, FRAMES - 7), raw_run(mode0, mode1, absent, 7, FRAMES - 7, &by_call)),
        "the answer of the next range");
    check(memcmp(&by_struct, &by_call, sizeof by_call) == 0, "the cells that a struct's calls write");
    struct shaper_valued v = shaper_stretch_block(&b, 1, 7, 30, 5, 60, 1000000);
    struct shaper_valued w = shaper_stretch(
        FACTOR, LANES, ACTIVE, 1, FRAMES, 7, 30, 5, 60, 1000000, by_call.stretch, SPAN, by_call.add, SPAN);
    check(v.number == SHAPER_ACCEPTED && w.number == v.number && v.frames == w.frames && bits(v.value) == bits(w.value),
        "the stretch of a range");
}

/* Each buffer alone a number too short: the number of its line, and nothing is written. */
static void check_short(void)
{
    struct voice v = drawn();
    const struct voice before = v;
    for (unsigned field = 0; field < FIELD_END; field++) {
        struct shaper_block b = filled(SHAPER_FM1, SHAPER_HARD_CLIP, &v);
        *length_of(&b, field) -= 1;
        if (prepare_refusal(field) != SHAPER_ACCEPTED)
            check(answered(shaper_prepare_block(&b), prepare_refusal(field), 0), "a buffer too short for prepare");
        if (run_refusal(field) != SHAPER_ACCEPTED)
            check(answered(shaper_run_block(&b, 0, FRAMES), run_refusal(field), 0), "a buffer too short for a run");
    }
    check(memcmp(&v, &before, sizeof v) == 0, "what refused calls were lent");
}

/* A block of zeros with one thing after another filled in: each call names what is missing. */
static void check_zeros(void)
{
    struct shaper_block b = {0};
    check(answered(shaper_prepare_block(&b), SHAPER_BAD_FACTOR, 0), "no factor");
    b.factor = FACTOR;
    check(answered(shaper_prepare_block(&b), SHAPER_BAD_LANES, 0), "no lanes");
    b.lanes = LANES;
    check(answered(shaper_prepare_block(&b), SHAPER_BAD_RATE, 0), "no rate");
    b.rate = RATE;
    check(answered(shaper_prepare_block(&b), SHAPER_SHORT_READ, 0), "no base");
    b.slot[0].base = b.slot[1].base = shaper_read_from(base0, LANES);
    check(answered(shaper_prepare_block(&b), SHAPER_SHORT_READ, 0), "no curve");
    b.curve = shaper_read_from(curve, SHAPER_CURVE);
    check(answered(shaper_prepare_block(&b), SHAPER_ACCEPTED, 0), "no frames");
    check(answered(shaper_run_block(&b, 0, 0), SHAPER_SHORT_READ, 0), "no cycle");
    b.cycle = shaper_read_from(cycle, SHAPER_CYCLE);
    check(answered(shaper_run_block(&b, 0, 0), SHAPER_SHORT_WRITE, 0), "no state");
}

/* Every refusal by its name. The card's designs are never refused, so that one needs the call itself. */
static void check_refusals(void)
{
    struct voice v = drawn();
    const struct shaper_block right = filled(SHAPER_OFF, SHAPER_OFF, &v);
    struct shaper_block b = right;
    b.slot[1].mode = SHAPER_MODES;
    check(answered(shaper_run_block(&b, 0, FRAMES), SHAPER_BAD_MODE, 0), "a mode past the last");
    b = right, b.factor = 3;
    check(answered(shaper_run_block(&b, 0, FRAMES), SHAPER_BAD_FACTOR, 0), "factor 3");
    b = right, b.active = LANES + 1;
    check(answered(shaper_run_block(&b, 0, FRAMES), SHAPER_BAD_LANES, 0), "more active lanes than lanes");
    check(shaper_stretch_block(&right, ACTIVE, 0, 1, 0, 1, 1).number == SHAPER_BAD_LANES, "a lane that is not active");
    check(answered(shaper_run_block(&right, 1, FRAMES), SHAPER_BAD_FRAMES, 0), "a range past the end");
    check(shaper_stretch_block(&right, 0, 0, 1, FACTOR, 1, 1).number == SHAPER_BAD_FRAMES, "a frame outside its range");
    b = right, b.rate = 0;
    check(answered(shaper_run_block(&b, 0, FRAMES), SHAPER_BAD_RATE, 0), "rate 0");
    check(answered(shaper_decimate(1, 1, 0, 0, 0, 1, 1, shaper_card_coefs, SHAPER_COEFS, NULL, 0, v.state,
                       SHAPER_STATE(LANES)),
              SHAPER_BAD_DESIGN, 0),
        "a design without coefficients");
    b = right, b.cycle.length = 0;
    check(answered(shaper_run_block(&b, 0, FRAMES), SHAPER_SHORT_READ, 0), "no cycle");
    b = right, b.output.length = 0;
    check(answered(shaper_run_block(&b, 0, FRAMES), SHAPER_SHORT_WRITE, 0), "no output");
    check(answered(shaper_run_block(&right, 0, FRAMES), SHAPER_ACCEPTED, FRAMES), "a right block");
}

static void check_steps(void)
{
    check(shaper_step(0.0, RATE, 1) == 0, "a pitch of 0");
    check(shaper_step(RATE / 2.0, RATE, 1) == 0x80000000u, "half the rate");
    check(shaper_step(RATE / 2.0, RATE, 8) == 0x10000000u, "half the rate, rendered at 8 times it");
    check(shaper_step(-RATE / 4.0, RATE, 1) == 0xc0000000u, "a pitch below 0");
    check(shaper_step(110.0, RATE, 1) == 9842633u, "110 Hz");
}

int main(void)
{
    make_inputs();
    for (uint32_t mode = 0; mode < SHAPER_MODES; mode++) {
        check_same(mode, SHAPER_OFF, 0);
        check_same(SHAPER_PD_SELF, mode, 0);
        check_same(mode, SHAPER_FM_LIN2, 0);
    }
    for (unsigned absent = 0; absent < 16; absent++)
        check_same(SHAPER_FM1, SHAPER_AM2, absent);
    check_short();
    check_zeros();
    check_refusals();
    check_steps();
    return finish();
}
