/* Spans and block runs from C. Prints how many checks pass, "P of T"; with the word `numbers`, the header's sine and
 * arctangent numbers. */
#include "cycle_model.h"

/* In the form of the oracle's `constants`. */
static void print_numbers(void)
{
    for (unsigned i = 0; i < SHAPER_NUMBERS; i++)
        printf("%s[%u] 0x%08" PRIx32 "\n", i < 5 ? "SIN" : "ATAN", i < 5 ? i : i - 5, bits(shaper_numbers[i]));
}

enum {
    RATE = 48000, FACTOR = 4, LANES = 3, ACTIVE = 2, FRAMES = 70,
    HOST = SHAPER_OUTPUT(FRAMES, LANES), RENDERED = SHAPER_WORDS(FRAMES, FACTOR, LANES), SPAN = SHAPER_SPAN(FRAMES, LANES),
    PAIRS = SHAPER_PAIRS(LANES), CARRY = SHAPER_FM(LANES), STATE = SHAPER_STATE(LANES)
};

/* A call's buffers, each with a cell more than it asks for. */
struct voice {
    float output[HOST + 1], work[RENDERED + 1], pairs[PAIRS + 1], fm[CARRY + 1], last[LANES + 1], state[STATE + 1];
};

static float base[LANES], amount[HOST], source[HOST], curve[SHAPER_CURVE], cycle[SHAPER_CYCLE];
static uint32_t words[RENDERED], steps[RENDERED];
static float inner[SPAN + 1], stretch[SPAN + 1], add[SPAN + 1];

static float drawn(uint32_t *s)
{
    *s = *s * 1664525u + 1013904223u;
    return (float)(*s >> 8) / 8388608.0f - 1.0f;
}

static void fill(float *cells, size_t n, uint32_t *s)
{
    for (size_t i = 0; i < n; i++)
        cells[i] = drawn(s);
}

static void make_inputs(void)
{
    uint32_t s = 0x5eed;
    for (unsigned l = 0; l < LANES; l++)
        base[l] = 40.0f + (float)l;
    for (unsigned i = 0; i < HOST; i++)
        amount[i] = 20.0f * drawn(&s);
    fill(source, HOST, &s);
    for (unsigned i = 0; i < SHAPER_CURVE; i++)
        curve[i] = (float)i / (SHAPER_CURVE - 1);
    fill(cycle, SHAPER_CYCLE, &s);
    for (unsigned i = 0; i < RENDERED; i++) {
        steps[i] = 9000000u + 70000u * (i % LANES);
        words[i] = steps[i] * (i / LANES);
    }
}

static struct shaper_answer prepare(uint32_t mode0, uint32_t mode1, uint32_t frames)
{
    return shaper_prepare(mode0, mode1, FACTOR, LANES, ACTIVE, frames, RATE, base, LANES, base, LANES, amount, HOST, NULL,
        0, source, HOST, source, HOST, curve, SHAPER_CURVE, inner, SPAN, stretch, SPAN, add, SPAN);
}

static struct shaper_answer run(
    uint32_t mode0, uint32_t mode1, uint32_t first, uint32_t count, size_t numbers, struct voice *v)
{
    const uint32_t *n = shaper_card_counts;
    return shaper_block_run(mode0, mode1, 0.5f, 0.25f, FACTOR, LANES, ACTIVE, FRAMES, first, count, RATE, n[0], n[1], n[2],
        shaper_card_coefs, SHAPER_COEFS, shaper_numbers, numbers, base, LANES, base, LANES, amount, HOST, NULL, 0, source,
        HOST, source, HOST, curve, SHAPER_CURVE, cycle, SHAPER_CYCLE, words, RENDERED, steps, RENDERED, inner, SPAN,
        v->output, HOST, v->work, RENDERED, v->pairs, PAIRS, v->fm, CARRY, v->last, LANES, v->state, STATE);
}

/* A distortion is given the host rate's band: stretch starts from the factor. */
static void check_spans(void)
{
    memset(inner, 0, sizeof inner);
    check(answered(prepare(SHAPER_OFF, SHAPER_HARD_CLIP, FRAMES), SHAPER_ACCEPTED, FRAMES), "the answer of prepare");
    int right = 1;
    for (unsigned i = 0; i < SPAN; i++) {
        int active = i % LANES < ACTIVE;
        right &= inner[i] == (active ? 1.0f : 0.0f);
        if (active)
            right &= stretch[i] == (float)FACTOR && add[i] == 0.0f;
    }
    check(right && inner[SPAN] == 0.0f, "the spans of a distortion");
    struct shaper_valued v = shaper_stretch(FACTOR, LANES, ACTIVE, 1, FRAMES, 30, 40, 0, 160, 1000, stretch, SPAN, add,
        SPAN);
    check(v.number == SHAPER_ACCEPTED && v.frames == 40 && v.value == (float)FACTOR, "the stretch of a range");
    v = shaper_stretch(FACTOR, LANES, ACTIVE, 2, FRAMES, 30, 40, 0, 0, 1000, stretch, SPAN, add, SPAN);
    check(v.number == SHAPER_BAD_LANES && v.frames == 0 && bits(v.value) == 0, "a lane that is not active");
    v = shaper_stretch(FACTOR, LANES, ACTIVE, 1, FRAMES, 30, 40, 160, 0, 1000, stretch, SPAN, add, SPAN);
    check(v.number == SHAPER_BAD_FRAMES && v.frames == 0 && bits(v.value) == 0, "a frame past the range");
    v = shaper_stretch(FACTOR, LANES, ACTIVE, 1, FRAMES, 30, 40, 0, 160, 1000, stretch, SPAN - 1, add, SPAN);
    check(v.number == SHAPER_SHORT_READ, "a span that is too short");
    check(answered(prepare(SHAPER_MODES, SHAPER_OFF, FRAMES), SHAPER_BAD_MODE, 0)
            && answered(prepare(SHAPER_OFF, SHAPER_OFF, SHAPER_MAX_FRAMES + 1), SHAPER_BAD_FRAMES, 0),
        "prepare turned down");
    check(answered(prepare(SHAPER_SYNC, SHAPER_FM1, 97), SHAPER_SHORT_READ, 0), "a modulation that is too short");
}

/* Off in both slots at factor 4 reads the cycle and decimates it. */
static void check_off(void)
{
    static struct voice v;
    float buffer[RENDERED], state[STATE] = {0};
    const uint32_t *n = shaper_card_counts;
    memset(&v, 0, sizeof v);
    for (unsigned i = 0; i < RENDERED; i++)
        buffer[i] = read_at(cycle, words[i]);
    shaper_decimate(FACTOR, LANES, ACTIVE, FRAMES, n[0], n[1], n[2], shaper_card_coefs, SHAPER_COEFS, buffer, RENDERED,
        state, STATE);
    check(answered(run(SHAPER_OFF, SHAPER_OFF, 0, FRAMES, SHAPER_NUMBERS, &v), SHAPER_ACCEPTED, FRAMES),
        "the answer of a block run");
    int same = 1, idle = 1;
    for (unsigned i = 0; i < HOST; i++) {
        if (i % LANES < ACTIVE)
            same &= bits(v.output[i]) == bits(buffer[i]);
        else
            idle &= bits(v.output[i]) == 0;
    }
    check(same, "the decimated cycle");
    check(idle, "the output of a lane that is not active");
    check(memcmp(v.state, state, sizeof state) == 0, "the decimator's state");
}

/* A block in one call and in odd cuts, with refused calls among them. */
static void check_cuts(uint32_t mode0, uint32_t mode1)
{
    static const uint32_t cuts[] = {1, 0, 7, 33, 13, 16};
    static struct voice whole, parts;
    uint32_t s = 0xcafe, first = 0;
    fill(whole.output, sizeof whole / sizeof(float), &s);
    parts = whole;
    check(answered(prepare(mode0, mode1, FRAMES), SHAPER_ACCEPTED, FRAMES), "the spans of a block");
    check(answered(run(mode0, mode1, 0, FRAMES, SHAPER_NUMBERS, &whole), SHAPER_ACCEPTED, FRAMES), "a block in one call");
    for (unsigned c = 0; c < sizeof cuts / sizeof *cuts; c++) {
        struct voice before = parts;
        check(answered(run(mode0, mode1, first, cuts[c], SHAPER_NUMBERS - 1, &parts), SHAPER_SHORT_READ, 0), "12 numbers");
        check(answered(run(mode0, mode1, first, FRAMES - first + 1, SHAPER_NUMBERS, &parts), SHAPER_BAD_FRAMES, 0),
            "a range past the end");
        check(memcmp(&before, &parts, sizeof parts) == 0, "what refused calls were lent");
        check(answered(run(mode0, mode1, first, cuts[c], SHAPER_NUMBERS, &parts), SHAPER_ACCEPTED, cuts[c]), "a cut");
        first += cuts[c];
    }
    check(first == FRAMES, "the cuts' frames");
    check(memcmp(whole.output, parts.output, sizeof parts.output) == 0, "the output of a block in cuts");
    check(memcmp(whole.pairs, parts.pairs, sizeof parts.pairs) == 0 && memcmp(whole.fm, parts.fm, sizeof parts.fm) == 0
            && memcmp(whole.last, parts.last, sizeof parts.last) == 0
            && memcmp(whole.state, parts.state, sizeof parts.state) == 0,
        "the state after a block in cuts");
}

int main(int argc, char **argv)
{
    if (argc == 2 && strcmp(argv[1], "numbers") == 0) {
        print_numbers();
        return 0;
    }
    make_inputs();
    check_spans();
    check_off();
    check_cuts(SHAPER_SYNC, SHAPER_LOW_PASS);
    check_cuts(SHAPER_PD_SELF, SHAPER_HARD_CLIP);
    check_cuts(SHAPER_FM1, SHAPER_AM1);
    return finish();
}
