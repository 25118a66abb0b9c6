/* The header's limits and lengths against the library's: calls with exactly these lengths are accepted, and with any
 * one of them a number less turned down. Most calls here have no active lane, so that there can be many. Prints how
 * many checks pass, "P of T". */
#include "fields.h"

enum { MOST = SHAPER_MAX_FRAMES, WIDEST = SHAPER_MAX_LANES, RATE = 48000 };

/* Room for the largest block. What is read may overlap. */
static const float numbers[SHAPER_SOURCE(MOST, WIDEST)];
static const uint32_t words[SHAPER_WORDS(MOST, SHAPER_MAX_FACTOR, WIDEST)];
static float inner[SHAPER_SPAN(MOST, WIDEST)], stretch[SHAPER_SPAN(MOST, WIDEST)], add[SHAPER_SPAN(MOST, WIDEST)];
static float output[SHAPER_OUTPUT(MOST, WIDEST)], work[SHAPER_WORK(MOST, SHAPER_MAX_FACTOR, WIDEST)];
static float pairs[SHAPER_PAIRS(WIDEST)], fm[SHAPER_FM(WIDEST)], last[SHAPER_LAST(WIDEST)], state[SHAPER_STATE(WIDEST)];

static const uint32_t factors[] = {1, 2, 4, SHAPER_MAX_FACTOR};

/* A block, and a range of it. */
struct sizes {
    uint32_t frames, factor, lanes, first, count;
};

static struct shaper_block exact(struct sizes n)
{
    const size_t host = SHAPER_MOD(n.frames, n.lanes), span = SHAPER_SPAN(n.frames, n.lanes);
    struct shaper_block b = {.factor = n.factor, .lanes = n.lanes, .frames = n.frames, .rate = RATE};
    for (unsigned i = 0; i < SHAPER_SLOTS; i++) {
        b.slot[i].base = shaper_read_from(numbers, SHAPER_BASE(n.lanes));
        b.slot[i].mod = shaper_read_from(numbers, host);
        b.slot[i].source = shaper_read_from(numbers, SHAPER_SOURCE(n.frames, n.lanes));
    }
    b.curve = shaper_read_from(numbers, SHAPER_CURVE);
    b.cycle = shaper_read_from(numbers, SHAPER_CYCLE);
    b.words = shaper_words_from(words, SHAPER_WORDS(n.frames, n.factor, n.lanes));
    b.steps = shaper_words_from(words, SHAPER_STEPS(n.frames, n.factor, n.lanes));
    b.inner = shaper_write_to(inner, span);
    b.stretch = shaper_write_to(stretch, span), b.add = shaper_write_to(add, span);
    b.output = shaper_write_to(output, SHAPER_OUTPUT(n.frames, n.lanes));
    b.work = shaper_write_to(work, SHAPER_WORK(n.count, n.factor, n.lanes));
    b.pairs = shaper_write_to(pairs, SHAPER_PAIRS(n.lanes)), b.fm = shaper_write_to(fm, SHAPER_FM(n.lanes));
    b.last = shaper_write_to(last, SHAPER_LAST(n.lanes)), b.state = shaper_write_to(state, SHAPER_STATE(n.lanes));
    return b;
}

/* A block's calls answer these numbers. */
static int answer(const struct shaper_block *b, struct sizes n, uint32_t prepared, uint32_t run)
{
    return answered(shaper_prepare_block(b), prepared, prepared == SHAPER_ACCEPTED ? n.frames : 0)
        && answered(shaper_run_block(b, n.first, n.count), run, run == SHAPER_ACCEPTED ? n.count : 0);
}

static int is_optional(unsigned field)
{
    return field >= MOD0 && field <= SOURCE1;
}

/* Exactly what is asked for, and of each buffer a number less. */
static void check_block(struct sizes n)
{
    struct shaper_block b = exact(n);
    check(answer(&b, n, SHAPER_ACCEPTED, SHAPER_ACCEPTED), "a block of exact lengths");
    for (unsigned field = 0; field < FIELD_END; field++) {
        size_t *length = length_of(&b, field);
        if (*length == 0)
            continue;
        *length -= 1;
        if (is_optional(field) && *length == 0)
            check(answer(&b, n, SHAPER_ACCEPTED, SHAPER_ACCEPTED), "an optional buffer that is absent");
        else
            check(answer(&b, n, prepare_refusal(field), run_refusal(field)), "a buffer that is a number too short");
        *length += 1;
    }
}

/* A stretch is about an active lane and a range with frames. */
static void check_stretch(struct sizes n)
{
    if (n.count == 0)
        return;
    struct shaper_block b = exact(n);
    b.active = n.lanes;
    struct shaper_valued v = shaper_stretch_block(&b, n.lanes - 1, n.first, n.count, 0, n.count * n.factor, 1);
    check(v.number == SHAPER_ACCEPTED && v.frames == n.count, "a stretch of exact lengths");
    for (unsigned field = STRETCH; field <= ADD; field++) {
        *length_of(&b, field) -= 1;
        check(shaper_stretch_block(&b, n.lanes - 1, n.first, n.count, 0, 1, 1).number == SHAPER_SHORT_READ,
            "a span that is a number too short");
        *length_of(&b, field) += 1;
    }
}

static struct shaper_answer decimate(struct sizes n, size_t coefs_length, size_t buffer_length, size_t state_length)
{
    const uint32_t *counts = shaper_card_counts;
    return shaper_decimate(n.factor, n.lanes, 0, n.frames, counts[0], counts[1], counts[2], shaper_card_coefs,
        coefs_length, work, buffer_length, state, state_length);
}

static void check_decimate(struct sizes n)
{
    const size_t buffer = SHAPER_BUFFER(n.frames, n.factor, n.lanes), cells = SHAPER_STATE(n.lanes);
    check(answered(decimate(n, SHAPER_COEFS, buffer, cells), SHAPER_ACCEPTED, n.frames), "exact lengths");
    check(answered(decimate(n, SHAPER_COEFS - 1, buffer, cells), SHAPER_SHORT_READ, 0), "a coefficient too few");
    check(answered(decimate(n, SHAPER_COEFS, buffer, cells - 1), SHAPER_SHORT_WRITE, 0), "a cell of state too few");
    if (buffer != 0)
        check(answered(decimate(n, SHAPER_COEFS, buffer - 1, cells), SHAPER_SHORT_WRITE, 0), "a sample too few");
}

static struct shaper_answer preview(size_t points, size_t numbers_length, size_t curve_length, size_t cycle_length)
{
    return shaper_preview(SHAPER_SYNC, SHAPER_LOW_PASS, 0.0f, 0.0f, 0.0f, 0.0f, numbers, numbers_length, numbers,
        curve_length, numbers, cycle_length, output, points);
}

/* Every number of a picture is a point, so that none is too short. */
static void check_picture(uint32_t points)
{
    const size_t sines = SHAPER_NUMBERS, curve = SHAPER_CURVE, cycle = SHAPER_CYCLE;
    check(answered(preview(points, sines, curve, cycle), SHAPER_ACCEPTED, points), "a picture of exact lengths");
    check(answered(preview(points, sines - 1, curve, cycle), SHAPER_SHORT_READ, 0), "a sine's number too few");
    check(answered(preview(points, sines, curve - 1, cycle), SHAPER_SHORT_READ, 0), "a curve's value too few");
    check(answered(preview(points, sines, curve, cycle - 1), SHAPER_SHORT_READ, 0), "a cycle's entry too few");
}

static void check_pictures(void)
{
    static const uint32_t points[] = {0, 1, 2, 255, SHAPER_CYCLE, SHAPER_POINTS - 1, SHAPER_POINTS};
    for (unsigned i = 0; i < sizeof points / sizeof *points; i++)
        check_picture(points[i]);
    check(answered(preview(SHAPER_POINTS + 1, SHAPER_NUMBERS, SHAPER_CURVE, SHAPER_CYCLE), SHAPER_BAD_FRAMES, 0),
        "a point too many");
    check(answered(preview(SHAPER_POINTS + 1, 0, 0, 0), SHAPER_BAD_FRAMES, 0), "a point too many and no table");
}

/* Rectify makes 1 of -1 at the last amount alone. */
static void check_level(void)
{
    struct shaper_found f = shaper_amount_for(SHAPER_RECTIFY, -1.0f, 1.0f, 0.0f, numbers, SHAPER_NUMBERS);
    check(f.number == SHAPER_ACCEPTED && f.hundredths == SHAPER_MAX_HUNDREDTHS, "the last amount");
    f = shaper_amount_for(SHAPER_RECTIFY, -1.0f, 1.0f, 0.0f, numbers, SHAPER_NUMBERS - 1);
    check(f.number == SHAPER_SHORT_READ && f.hundredths == 0, "a sine's number too few for a level");
}

static void check_sizes(struct sizes n)
{
    check_block(n);
    check_stretch(n);
    check_decimate(n);
}

/* All small blocks, those about a sub-block's end and the largest, with few and many lanes, at every factor. */
static void check_ends(void)
{
    static const uint32_t lanes[] = {1, 2, 3, 33, WIDEST};
    static const uint32_t longer[] = {95, 96, 97, 1024, MOST - 1, MOST};
    const unsigned small = 67;
    for (unsigned i = 0; i < small + sizeof longer / sizeof *longer; i++)
        for (unsigned l = 0; l < sizeof lanes / sizeof *lanes; l++)
            for (unsigned f = 0; f < sizeof factors / sizeof *factors; f++) {
                uint32_t frames = i < small ? i : longer[i - small];
                check_sizes((struct sizes){frames, factors[f], lanes[l], 0, frames});
                check_sizes((struct sizes){frames, factors[f], lanes[l], frames, 0});
                if (frames > 1)
                    check_sizes((struct sizes){frames, factors[f], lanes[l], 1, frames / 2});
            }
}

static void check_drawn(unsigned draws)
{
    uint32_t s = 0x5eed, drawn[5];
    for (unsigned i = 0; i < draws; i++) {
        for (unsigned k = 0; k < 5; k++) {
            s = s * 1664525u + 1013904223u;
            drawn[k] = s >> 8;
        }
        uint32_t frames = drawn[0] % (MOST + 1), first = drawn[3] % (frames + 1);
        uint32_t count = drawn[4] % (frames - first + 1);
        check_sizes((struct sizes){frames, factors[drawn[1] % 4], 1 + drawn[2] % WIDEST, first, count});
    }
}

/* The limits pass, one more does not. Lengths are those of a smaller block: they are looked at last. */
static void check_limits(void)
{
    const struct sizes n = {1, 1, 1, 0, 1};
    struct shaper_block b = exact(n);
    b.slot[0].mode = b.slot[1].mode = SHAPER_MODES - 1;
    check(answer(&b, n, SHAPER_ACCEPTED, SHAPER_ACCEPTED), "the last mode");
    for (unsigned i = 0; i < SHAPER_SLOTS; i++) {
        b.slot[i].mode = SHAPER_MODES;
        check(answer(&b, n, SHAPER_BAD_MODE, SHAPER_BAD_MODE), "a mode past the last");
        b.slot[i].mode = SHAPER_OFF;
    }
    for (b.rate = SHAPER_MIN_RATE; b.rate <= SHAPER_MAX_RATE; b.rate += SHAPER_MAX_RATE - SHAPER_MIN_RATE)
        check(answer(&b, n, SHAPER_ACCEPTED, SHAPER_ACCEPTED), "the least and the largest rate");
    b.rate = SHAPER_MIN_RATE - 1;
    check(answer(&b, n, SHAPER_BAD_RATE, SHAPER_BAD_RATE), "a rate below the least");
    b.rate = SHAPER_MAX_RATE + 1;
    check(answer(&b, n, SHAPER_BAD_RATE, SHAPER_BAD_RATE), "a rate above the largest");
    b.frames = MOST + 1;
    check(answer(&b, n, SHAPER_BAD_FRAMES, SHAPER_BAD_FRAMES), "a frame too many");
    b.lanes = WIDEST + 1;
    check(answer(&b, n, SHAPER_BAD_LANES, SHAPER_BAD_LANES), "a lane too many");
    b.factor = 2 * SHAPER_MAX_FACTOR;
    check(answer(&b, n, SHAPER_BAD_FACTOR, SHAPER_BAD_FACTOR), "a factor above the largest");
}

/* The macros themselves: constant, of type size_t, with any expression as an argument, which is worked out once. */
#define IS_SIZE(length) _Generic((length), size_t: 1, default: 0)
_Static_assert(IS_SIZE(SHAPER_BASE(1)) && IS_SIZE(SHAPER_PAIRS(1)) && IS_SIZE(SHAPER_FM(1)) && IS_SIZE(SHAPER_LAST(1))
        && IS_SIZE(SHAPER_STATE(1)) && IS_SIZE(SHAPER_MOD(1, 1)) && IS_SIZE(SHAPER_SOURCE(1, 1))
        && IS_SIZE(SHAPER_OUTPUT(1, 1)) && IS_SIZE(SHAPER_SPAN(1, 1)) && IS_SIZE(SHAPER_WORDS(1, 1, 1))
        && IS_SIZE(SHAPER_STEPS(1, 1, 1)) && IS_SIZE(SHAPER_WORK(1, 1, 1)) && IS_SIZE(SHAPER_BUFFER(1, 1, 1)),
    "lengths are sizes");
_Static_assert(SHAPER_BASE(1 + 1) == 2 && SHAPER_PAIRS(1 + 1) == 8 && SHAPER_FM(1 + 1) == 4 && SHAPER_LAST(1 + 1) == 2
        && SHAPER_STATE(1 + 1) == 144 && SHAPER_MOD(1 + 1, 1 + 2) == 6 && SHAPER_SOURCE(1 + 1, 1 + 2) == 6
        && SHAPER_OUTPUT(1 + 1, 1 + 2) == 6 && SHAPER_SPAN(32 + 1, 1 + 2) == 6 && 12 / SHAPER_SPAN(1, 2) == 6
        && SHAPER_WORDS(1 + 1, 1 + 3, 1 + 2) == 24 && SHAPER_STEPS(1 + 1, 1 + 3, 1 + 2) == 24
        && SHAPER_WORK(1 + 1, 1 + 3, 1 + 2) == 24 && SHAPER_BUFFER(1 + 1, 1 + 3, 1 + 2) == 24,
    "arguments are expressions");
_Static_assert(sizeof(size_t) < 8 || SHAPER_WORDS(UINT32_MAX, 8u, 64u) / 512 == UINT32_MAX, "nothing wraps at 2^32");

static void check_once(void)
{
    uint32_t frames = 33, factor = 2, lanes = 3;
    check(SHAPER_SPAN(frames++, lanes++) == 6 && frames == 34 && lanes == 4, "arguments of a span");
    check(SHAPER_WORDS(frames++, factor++, lanes++) == 272 && frames == 35 && factor == 3 && lanes == 5,
        "arguments of a length by rendered frame");
}

int main(void)
{
    check_ends();
    check_drawn(1000);
    check_limits();
    check_pictures();
    check_level();
    check_once();
    return finish();
}
