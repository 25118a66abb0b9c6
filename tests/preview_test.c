/* The picture on the panel (shaper_preview): its values, a model for most of the modes, the slots' order, silent
 * sources, what is written and what is not, refusals, and all pairs of modes. Prints how many checks pass, "P of T". */
#define _DEFAULT_SOURCE /* MAP_ANONYMOUS */
#include "draws.h"
#include "picture_model.h"

#include <stdlib.h>
#include <sys/mman.h>

enum { GUARD = 8, CELLS = GUARD + SHAPER_POINTS + 1 + GUARD };

/* What most pictures are made of; `plain` is the remap curve that changes nothing. */
static float plain[SHAPER_CURVE], curve[SHAPER_CURVE], cycle[SHAPER_CYCLE];

/* A picture and the cells about it. */
static float cells[CELLS];
static float *const picture = cells + GUARD;

/* Any float, and more often than by chance one that is special. */
static float wild(void)
{
    static const float some[] = {0.0f, -0.0f, 1.0f, -1.0f, 50.0f, 100.0f, 1e-45f, 3e38f, INFINITY, -INFINITY, NAN};
    const uint32_t pattern = drawn(1u << 16) << 16 | drawn(1u << 16);
    float any;
    memcpy(&any, &pattern, sizeof any);
    const uint32_t kind = drawn(3);
    return kind == 0 ? any : kind == 1 ? some[drawn(COUNT_OF(some))] : tame();
}

static void fill(float *numbers, size_t count, float (*number)(void))
{
    for (size_t i = 0; i < count; i++)
        numbers[i] = number();
}

static void fill_with(float *numbers, size_t count, float number)
{
    for (size_t i = 0; i < count; i++)
        numbers[i] = number;
}

static int are_all(const float *numbers, size_t count, float number)
{
    for (size_t i = 0; i < count; i++)
        if (!is_same(numbers[i], number))
            return 0;
    return 1;
}

/* Entry i of the cycle is i. */
static void make_ramp(void)
{
    for (unsigned i = 0; i < SHAPER_CYCLE; i++)
        cycle[i] = (float)i;
}

static struct panel panel_of(uint32_t mode0, float amount0, uint32_t mode1, float amount1)
{
    return (struct panel){{{mode0, 0.0f, amount0}, {mode1, 0.0f, amount1}}, shaper_numbers, plain, cycle};
}

static struct shaper_answer preview(const struct panel *p, float *into, size_t points)
{
    const struct slot *s = p->slot;
    return shaper_preview(s[0].mode, s[1].mode, s[0].character, s[1].character, s[0].amount, s[1].amount, p->numbers,
        SHAPER_NUMBERS, p->curve, SHAPER_CURVE, p->cycle, SHAPER_CYCLE, into, points);
}

/* Draws over an old picture of this number: accepted, and no cell about the picture touched. */
static int draws_over(float old, const struct panel *p, size_t points)
{
    fill_with(cells, CELLS, old);
    const struct shaper_answer answer = preview(p, picture, points);
    return answered(answer, SHAPER_ACCEPTED, (uint32_t)points) && are_all(cells, GUARD, old)
        && are_all(picture + points, CELLS - GUARD - points, old);
}

static int draws(const struct panel *p, size_t points)
{
    return draws_over(77.0f, p, points);
}

/* By three points the cycle is read at 0x55555555 and 0xaaaaaaaa: 1398101 and 699050 parts of 2^21 past entries 682 and
 * 1365. At 682 a float counts parts of 2^14, of which these are 10922.66, and at 1365 parts of 2^13, 2730.66. */
static void check_reads(void)
{
    struct panel p = panel_of(SHAPER_OFF, 0.0f, SHAPER_OFF, 0.0f);
    make_ramp();
    check(draws(&p, 4) && picture[0] == 0.0f && picture[1] == 512.0f && picture[2] == 1024.0f && picture[3] == 1536.0f,
        "four points");
    check(draws(&p, 3) && picture[0] == 0.0f && picture[1] == 682.0f + 10923.0f / 16384.0f
            && picture[2] == 1365.0f + 2731.0f / 8192.0f,
        "three points");
    check(draws(&p, SHAPER_CYCLE) && are_same(picture, cycle, SHAPER_CYCLE), "a point for each entry");
    check(draws(&p, SHAPER_POINTS) && picture[1] == 0.5f && picture[2] == 1.0f && picture[4093] == 2046.5f
            && picture[4094] == 2047.0f,
        "two points for each entry");
    check(picture[4095] == 1023.5f, "half way from entry 2,047 to entry 0");
    fill_with(cycle, SHAPER_CYCLE, 2.0f);
    p = panel_of(SHAPER_HARD_CLIP, 0.0f, SHAPER_OFF, 0.0f);
    check(draws(&p, 5) && are_all(picture, 5, 1.0f), "2 clipped at 1");
}

/* At 50 % the read is taken once and its opposite no time: a product that can still be NaN, or the zero that -0 needs
 * to become +0. Before another -0 an entry of -0 reads as +0, as their difference is +0; before -1 it reads as -0, as
 * the difference of -1, taken no time, is -0. */
static void check_odd_even(void)
{
    const struct panel p = panel_of(SHAPER_ODD_EVEN, 50.0f, SHAPER_OFF, 0.0f);
    fill(cycle, SHAPER_CYCLE, tame);
    check(draws(&p, SHAPER_CYCLE) && are_same(picture, cycle, SHAPER_CYCLE), "a cycle that is kept");
    fill_with(cycle, SHAPER_CYCLE, -0.0f);
    check(draws(&p, 64) && are_all(picture, 64, 0.0f), "a cycle of -0, which reads as +0");
    cycle[1] = cycle[513] = -1.0f, cycle[1024] = 1.0f, cycle[1536] = -1.0f;
    check(draws(&p, 4) && is_same(picture[0], 0.0f) && is_same(picture[1], -0.0f) && picture[2] == 1.0f
            && picture[3] == -1.0f,
        "-0 opposite 1 and opposite -1");
}

/* Entry 1025 is infinite. Before it the difference is infinite: taken no time it is NaN, and half of it is infinite. At
 * it the difference is infinite the other way, and all is NaN. The opposites take these readings no time: NaN. */
static void check_infinite(void)
{
    const struct panel p = panel_of(SHAPER_ODD_EVEN, 50.0f, SHAPER_OFF, 0.0f);
    fill_with(cycle, SHAPER_CYCLE, 1.0f);
    cycle[1025] = INFINITY;
    check(draws(&p, SHAPER_POINTS) && isnan(picture[2048]) && is_same(picture[2049], INFINITY)
            && isnan(picture[2050]) && isnan(picture[2051]),
        "before an infinite entry and at it");
    check(are_all(picture, 4, NAN), "opposite it");
    check(are_all(picture + 4, 2044, 1.0f) && are_all(picture + 2052, 2044, 1.0f), "and nowhere else");
}

static void check_filters(void)
{
    struct panel p = panel_of(SHAPER_LOW_PASS, 0.0f, SHAPER_OFF, 0.0f);
    fill_with(cycle, SHAPER_CYCLE, 1.0f);
    check(draws(&p, 256) && are_all(picture, 256, 1.0f), "a constant through an open low-pass");
    check(draws(&p, 1) && fabsf(picture[0] - 1.0f) < 0.007f && picture[0] != 1.0f, "a single point through it");
    p.slot[0].mode = SHAPER_HIGH_PASS;
    check(draws(&p, 256) && are_all(picture, 256, 0.0f), "a constant through an open high-pass");
}

/* What Rectify at 100 a % makes of x. */
static float rectified(float x, float a)
{
    return (fabsf(x) - x) * a + x;
}

/* Amounts are divided by 100 and then kept to 0..1. A product with 0.01, as in a block run, differs at 30 whole
 * percents: 30 % is 0x3e99999a and would be 0x3e999999, and of -1 Rectify makes twice that less 1. */
static void check_amounts(void)
{
    static const struct {
        float percent, fraction;
    } ends[] = {{-1.0f, 0.0f}, {-1e30f, 0.0f}, {-INFINITY, 0.0f}, {100.5f, 1.0f}, {3e38f, 1.0f}, {INFINITY, 1.0f},
        {0.0f, 0.0f}, {-0.0f, 0.0f}, {100.0f, 1.0f}, {1e-45f, 0.0f}, {NAN, NAN}};
    unsigned apart = 0;
    fill_with(cycle, SHAPER_CYCLE, -1.0f);
    for (unsigned slot = 0; slot < SHAPER_SLOTS; slot++) {
        struct panel p = panel_of(SHAPER_OFF, 70.0f, SHAPER_OFF, 70.0f);
        p.slot[slot].mode = SHAPER_RECTIFY;
        for (unsigned percent = 0; percent <= 100; percent++) {
            const float divided = rectified(-1.0f, (float)percent / 100.0f);
            p.slot[slot].amount = (float)percent;
            apart += bits(divided) != bits(rectified(-1.0f, (float)percent * 0.01f));
            check(draws(&p, 3) && are_all(picture, 3, divided), "a whole percent");
        }
        p.slot[slot].amount = 30.0f;
        check(draws(&p, 1) && bits(picture[0]) == 0xbeccccccu, "30 % of -1");
        for (unsigned i = 0; i < COUNT_OF(ends); i++) {
            p.slot[slot].amount = ends[i].percent;
            check(draws(&p, 3) && are_all(picture, 3, rectified(-1.0f, ends[i].fraction)), "an amount out of range");
        }
    }
    check(apart > 2, "percents that a product would show");
}

/* In the phase stage slot 1 maps first. A curve of zeros reads entry 0 alone; OddEven at 0 % takes from a read the one
 * half a cycle on, and halves. */
static void check_phase_order(void)
{
    static const float zeros[SHAPER_CURVE];
    struct panel p = panel_of(SHAPER_REMAP_DRAWN, 100.0f, SHAPER_ODD_EVEN, 0.0f);
    make_ramp();
    p.curve = zeros;
    check(draws(&p, 4) && are_all(picture, 4, 0.0f), "both reads of OddEven, remapped to entry 0");
    p = panel_of(SHAPER_ODD_EVEN, 0.0f, SHAPER_REMAP_DRAWN, 100.0f);
    p.curve = zeros;
    check(draws(&p, 4) && are_all(picture, 4, -512.0f), "entry 0, less its opposite");
}

/* In the wave stage slot 0 comes first, and the phase stage before both. */
static void check_wave_order(void)
{
    struct panel p = panel_of(SHAPER_HARD_CLIP, 0.0f, SHAPER_FOLD, 0.0f);
    fill_with(cycle, SHAPER_CYCLE, 2.0f);
    check(draws(&p, 4) && are_all(picture, 4, 1.0f), "clipped, then folded");
    p = panel_of(SHAPER_FOLD, 0.0f, SHAPER_HARD_CLIP, 0.0f);
    check(draws(&p, 4) && are_all(picture, 4, 0.0f), "folded, then clipped");
    fill_with(cycle, SHAPER_CYCLE / 2, 4.0f);
    fill_with(cycle + SHAPER_CYCLE / 2, SHAPER_CYCLE / 2, 0.0f);
    p = panel_of(SHAPER_HARD_CLIP, 0.0f, SHAPER_ODD_EVEN, 0.0f);
    check(draws(&p, 2) && picture[0] == 1.0f && picture[1] == -1.0f, "a map of slot 1 before a clip of slot 0");
}

/* With a point for each entry a picture can be lent as a cycle, if it has no -0: both slots at once are one after the
 * other, where at least one is in the wave stage. So the second of two filters starts from silence, as the first does.
 */
static void check_in_turn(uint32_t mode0, uint32_t mode1, int first)
{
    static float between[SHAPER_CYCLE], whole[SHAPER_CYCLE];
    struct panel p = panel_of(mode0, 37.0f, mode1, 61.0f), one = p, other = p;
    p.slot[0].character = one.slot[0].character = other.slot[0].character = 0.8f;
    p.slot[1].character = one.slot[1].character = other.slot[1].character = 0.3f;
    check(draws(&p, SHAPER_CYCLE), "two slots");
    memcpy(whole, picture, sizeof whole);
    one.slot[1 - first].mode = SHAPER_OFF;
    check(draws(&one, SHAPER_CYCLE), "one slot");
    memcpy(between, picture, sizeof between);
    other.slot[first].mode = SHAPER_OFF;
    other.cycle = between;
    check(draws(&other, SHAPER_CYCLE) && are_same(picture, whole, SHAPER_CYCLE), "one slot and then the other");
}

static void check_all_in_turn(void)
{
    static const uint32_t maps[] = {SHAPER_SYNC, SHAPER_PINCH_IN, SHAPER_QUANTISE, SHAPER_ODD_EVEN};
    fill(cycle, SHAPER_CYCLE, tame);
    for (uint32_t mode = SHAPER_LOW_PASS; mode <= SHAPER_SOFT_SATURATE; mode++) {
        check_in_turn(mode, SHAPER_LOW_PASS, 0);
        check_in_turn(SHAPER_HIGH_PASS, mode, 0);
        check_in_turn(SHAPER_HARD_CLIP, mode, 0);
        for (unsigned i = 0; i < COUNT_OF(maps); i++) {
            check_in_turn(maps[i], mode, 0);
            check_in_turn(mode, maps[i], 1);
        }
    }
}

/* A mode with a source leaves what is read of the cycle, NaN too, at any amount; beside another mode it is as though
 * Off. */
static void check_sources(void)
{
    static const float amounts[] = {0.0f, 37.0f, 100.0f, NAN, -INFINITY};
    float want[100];
    for (uint32_t mode = SHAPER_FM1; mode < SHAPER_MODES; mode++)
        for (unsigned k = 0; k < 2 * COUNT_OF(amounts); k++) {
            const unsigned slot = k % 2;
            struct panel p = panel_of(SHAPER_OFF, 0.0f, SHAPER_OFF, 0.0f);
            fill(cycle, SHAPER_CYCLE, wild);
            for (unsigned i = 0; i < COUNT_OF(want); i++)
                want[i] = read_at(cycle, word_at(i, COUNT_OF(want)));
            p.slot[slot] = (struct slot){mode, tame(), amounts[k / 2]};
            check(draws(&p, COUNT_OF(want)) && are_same(picture, want, COUNT_OF(want)), "a source alone");
            p.slot[1 - slot] = (struct slot){drawn(SHAPER_MODES), tame(), 100.0f * tame()};
            check(draws(&p, COUNT_OF(want)), "a source beside a mode");
            memcpy(want, picture, sizeof want);
            p.slot[slot].mode = SHAPER_OFF;
            check(draws(&p, COUNT_OF(want)) && are_same(picture, want, COUNT_OF(want)), "the mode alone");
        }
}

/* Amounts from a little below 0 % to a little above 100 %, whole ones among them. */
static float percent(void)
{
    const float any = 50.0f + 55.0f * tame();
    return drawn(3) == 0 ? floorf(any) : any;
}

static float part(void)
{
    return 0.5f + 0.6f * tame();
}

static struct panel drawn_panel(uint32_t mode0, uint32_t mode1, int is_wild)
{
    struct panel p = panel_of(mode0, is_wild ? wild() : percent(), mode1, is_wild ? wild() : percent());
    p.slot[0].character = is_wild ? wild() : part();
    p.slot[1].character = is_wild ? wild() : part();
    p.curve = drawn(4) == 0 ? plain : curve;
    fill(curve, SHAPER_CURVE, is_wild ? wild : part);
    fill(cycle, SHAPER_CYCLE, is_wild ? wild : tame);
    return p;
}

static void check_modelled(const struct panel *p, uint32_t points)
{
    static float want[SHAPER_POINTS];
    model(p, want, points);
    check(draws(p, points) && are_same(picture, want, points), "a picture by the model");
}

static void check_model(void)
{
    static const uint32_t lengths[] = {1, 2, 3, 5, 7, 30, 64, 100, 127};
    for (uint32_t mode0 = 0; mode0 < SHAPER_MODES; mode0++)
        for (uint32_t mode1 = 0; mode1 < SHAPER_MODES; mode1++) {
            if (!is_modelled(mode0) || !is_modelled(mode1))
                continue;
            const int silent = mode0 >= SHAPER_FM1 && mode1 >= SHAPER_FM1;
            for (int k = 0; k < (silent ? 1 : 4); k++) {
                const struct panel p = drawn_panel(mode0, mode1, k == 3);
                check_modelled(&p, lengths[drawn(COUNT_OF(lengths))]);
            }
        }
    for (unsigned i = 0; i < COUNT_OF(modelled); i++) {
        const struct panel p = drawn_panel(modelled[i], modelled[drawn(COUNT_OF(modelled))], 0);
        check_modelled(&p, i % 2 == 0 ? SHAPER_POINTS : 1000 + drawn(3000));
    }
}

/* The sine's and the arctangent's numbers are those that are lent. */
static void check_numbers(void)
{
    float numbers[SHAPER_NUMBERS];
    fill(numbers, SHAPER_NUMBERS, tame);
    for (unsigned i = 0; i < COUNT_OF(modelled); i++) {
        struct panel p = drawn_panel(SHAPER_REMAP_SINE, modelled[i], 0);
        p.numbers = numbers;
        check_modelled(&p, 64);
    }
}

/* All pairs: accepted, and the same over two old pictures. */
static void check_pairs(void)
{
    float first[64];
    for (uint32_t mode0 = 0; mode0 < SHAPER_MODES; mode0++)
        for (uint32_t mode1 = 0; mode1 < SHAPER_MODES; mode1++) {
            const struct panel p = drawn_panel(mode0, mode1, (mode0 + mode1) % 2 == 0);
            const uint32_t points = drawn(COUNT_OF(first) + 1);
            check(draws_over(-3.0f, &p, points), "a pair of modes");
            memcpy(first, picture, points * sizeof *first);
            check(draws_over(NAN, &p, points) && are_same(picture, first, points), "a pair over another picture");
        }
}

/* A copy on the heap, of just its length, moved by a few cells from where the heap aligns it. */
static float *lent(const float *numbers, size_t count, size_t moved)
{
    float *copy = malloc((moved + count) * sizeof *copy);
    if (copy == NULL) {
        fprintf(stderr, "no memory\n");
        exit(1);
    }
    memcpy(copy + moved, numbers, count * sizeof *copy);
    return copy + moved;
}

/* Each buffer on the heap, for a memory checker; those that are read may be longer by NaNs, and stay as they were. */
static void check_lent(uint32_t mode0, uint32_t mode1, size_t points, size_t more, size_t moved)
{
    static float all[3][SHAPER_CYCLE + 1];
    const size_t lengths[3] = {SHAPER_NUMBERS + more, SHAPER_CURVE + more, SHAPER_CYCLE + more};
    const struct panel p = drawn_panel(mode0, mode1, 0);
    float *copies[3], *drawing = lent(cells, points, moved);
    fill_with(all[0], sizeof all / sizeof(float), NAN);
    memcpy(all[0], p.numbers, SHAPER_NUMBERS * sizeof(float));
    memcpy(all[1], p.curve, SHAPER_CURVE * sizeof(float));
    memcpy(all[2], p.cycle, SHAPER_CYCLE * sizeof(float));
    for (unsigned i = 0; i < 3; i++)
        copies[i] = lent(all[i], lengths[i], moved);
    const struct slot *s = p.slot;
    const struct shaper_answer answer = shaper_preview(s[0].mode, s[1].mode, s[0].character, s[1].character,
        s[0].amount, s[1].amount, copies[0], lengths[0], copies[1], lengths[1], copies[2], lengths[2], drawing, points);
    check(draws(&p, points) && answered(answer, SHAPER_ACCEPTED, (uint32_t)points)
            && are_same(drawing, picture, points),
        "a picture in buffers of their own");
    for (unsigned i = 0; i < 3; i++) {
        check(memcmp(copies[i], all[i], lengths[i] * sizeof(float)) == 0, "what is read");
        free(copies[i] - moved);
    }
    free(drawing - moved);
}

static void check_all_lent(void)
{
    static const size_t lengths[] = {1, 2, 3, 31, 64};
    for (uint32_t mode = 0; mode < SHAPER_MODES; mode++)
        for (unsigned k = 0; k < 8; k++) {
            const uint32_t other = drawn(SHAPER_MODES);
            check_lent(k < 4 ? mode : other, k < 4 ? other : mode, lengths[drawn(COUNT_OF(lengths))], k % 2, k % 4);
        }
    check_lent(SHAPER_ODD_EVEN, SHAPER_QUANTISE, SHAPER_POINTS, 0, 0);
    check_lent(SHAPER_LOW_PASS, SHAPER_REMAP_QUAD, SHAPER_POINTS - 1, 0, 3);
    check_lent(SHAPER_MIRROR, SHAPER_SYNC, SHAPER_CYCLE, 0, 1);
}

/* A call by its modes and lengths. A length of 0 comes with NULL; the picture's, with NULL or not. */
struct lengths {
    uint32_t mode0, mode1;
    size_t points, numbers, curve, cycle;
};

/* The first line of the table that holds. */
static uint32_t line_of(struct lengths n)
{
    if (n.mode0 > 69 || n.mode1 > 69)
        return SHAPER_BAD_MODE;
    if (n.points > 4096)
        return SHAPER_BAD_FRAMES;
    return n.numbers < 13 || n.curve < 1025 || n.cycle < 2048 ? SHAPER_SHORT_READ : SHAPER_ACCEPTED;
}

static void check_refusal(struct lengths n, float *into)
{
    const uint32_t line = line_of(n);
    fill_with(cells, CELLS, 77.0f);
    const struct shaper_answer answer = shaper_preview(n.mode0, n.mode1, 0.5f, 0.5f, 40.0f, 60.0f,
        n.numbers == 0 ? NULL : shaper_numbers, n.numbers, n.curve == 0 ? NULL : plain, n.curve,
        n.cycle == 0 ? NULL : cycle, n.cycle, into, n.points);
    check(answered(answer, line, line == SHAPER_ACCEPTED ? (uint32_t)n.points : 0), "the answer of a call");
    const size_t written = line == SHAPER_ACCEPTED ? n.points : 0;
    check(are_all(cells, GUARD, 77.0f) && are_all(picture + written, CELLS - GUARD - written, 77.0f),
        "the cells that a call leaves");
}

/* Every line alone and with every other. A picture of 4,097 points has a buffer of as many. */
static void check_refusals(void)
{
    static const uint32_t modes[] = {SHAPER_OFF, SHAPER_MODES - 1, SHAPER_MODES, UINT32_MAX};
    static const size_t points[] = {0, 1, SHAPER_POINTS, SHAPER_POINTS + 1};
    static const size_t numbers[] = {SHAPER_NUMBERS, SHAPER_NUMBERS - 1, 0};
    static const size_t curves[] = {SHAPER_CURVE, SHAPER_CURVE - 1, 0};
    static const size_t cycles[] = {SHAPER_CYCLE, SHAPER_CYCLE - 1, 0};
    fill(cycle, SHAPER_CYCLE, tame);
    for (unsigned i = 0; i < COUNT_OF(modes) * COUNT_OF(modes) * COUNT_OF(points); i++)
        for (unsigned k = 0; k < COUNT_OF(numbers) * COUNT_OF(curves) * COUNT_OF(cycles); k++) {
            const struct lengths n = {
                modes[i % 4], modes[i / 4 % 4], points[i / 16], numbers[k % 3], curves[k / 3 % 3], cycles[k / 9]};
            check_refusal(n, picture);
            if (n.points == 0)
                check_refusal(n, NULL);
        }
}

/* Buffers that nobody may read or write: a call is turned down before any cell is looked at. */
static void check_closed(void)
{
    static const struct lengths refused[] = {
        {SHAPER_MODES, SHAPER_OFF, 64, SHAPER_NUMBERS, SHAPER_CURVE, SHAPER_CYCLE},
        {SHAPER_OFF, SHAPER_MODES, 64, SHAPER_NUMBERS, SHAPER_CURVE, SHAPER_CYCLE},
        {SHAPER_SYNC, SHAPER_LOW_PASS, SHAPER_POINTS + 1, SHAPER_NUMBERS, SHAPER_CURVE, SHAPER_CYCLE},
        {SHAPER_SYNC, SHAPER_LOW_PASS, 64, SHAPER_NUMBERS - 1, SHAPER_CURVE, SHAPER_CYCLE},
        {SHAPER_SYNC, SHAPER_LOW_PASS, 64, SHAPER_NUMBERS, SHAPER_CURVE - 1, SHAPER_CYCLE},
        {SHAPER_SYNC, SHAPER_LOW_PASS, 64, SHAPER_NUMBERS, SHAPER_CURVE, SHAPER_CYCLE - 1}};
    const size_t room = SHAPER_POINTS + 1;
    float *closed = mmap(NULL, 2 * room * sizeof(float), PROT_NONE, MAP_PRIVATE | MAP_ANONYMOUS, -1, 0);
    if (closed == MAP_FAILED)
        exit(1);
    for (unsigned i = 0; i < COUNT_OF(refused); i++) {
        const struct lengths n = refused[i];
        check(answered(shaper_preview(n.mode0, n.mode1, 0.5f, 0.5f, 40.0f, 60.0f, closed, n.numbers, closed, n.curve,
                           closed, n.cycle, closed + room, n.points),
                  line_of(n), 0),
            "cells that nobody may touch");
    }
    munmap(closed, 2 * room * sizeof(float));
}

/* An empty picture is accepted whatever the modes, and nothing is written. */
static void check_empty(void)
{
    struct lengths n = {0, 0, 0, SHAPER_NUMBERS, SHAPER_CURVE, SHAPER_CYCLE};
    for (n.mode0 = 0; n.mode0 < SHAPER_MODES; n.mode0++)
        for (n.mode1 = 0; n.mode1 < SHAPER_MODES; n.mode1 += 23) {
            check_refusal(n, NULL);
            check_refusal(n, picture);
        }
}

int main(void)
{
    for (unsigned i = 0; i < SHAPER_CURVE; i++)
        plain[i] = (float)i / (SHAPER_CURVE - 1);
    check_reads();
    check_odd_even();
    check_infinite();
    check_filters();
    check_amounts();
    check_phase_order();
    check_wave_order();
    check_all_in_turn();
    check_sources();
    check_model();
    check_numbers();
    check_pairs();
    check_all_lent();
    check_refusals();
    check_closed();
    check_empty();
    return finish();
}
