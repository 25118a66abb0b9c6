/* The amount that gives a level (shaper_amount_for): values by hand, a model's search for all distortions at tame and
 * extreme levels, refusals and which comes first, what is read of the lent numbers, and the amount in a patch file and
 * in a block run. Prints how many checks pass, "P of T". */
#define _DEFAULT_SOURCE /* MAP_ANONYMOUS */
#include "check.h"
#include "distortion_model.h"
#include "draws.h"
#include "shaper_block.h"

#include <stdlib.h>
#include <sys/mman.h>
#include <unistd.h>

_Static_assert(sizeof(struct shaper_found) == 8 && offsetof(struct shaper_found, number) == 0
        && offsetof(struct shaper_found, hundredths) == 4,
    "two words");
_Static_assert(SHAPER_NO_AMOUNT == 12 && SHAPER_MAX_HUNDREDTHS == 10000, "numbers");

enum { AMOUNTS = 10001 };

/* What a mode makes of a sample, by hundredths of a percent. */
static float made[AMOUNTS];

/* An amount as the card makes it. */
static float card_amount(uint32_t hundredths)
{
    return kept((float)hundredths / 100.0f, 0.0f, 100.0f) * 0.01f;
}

static void make(const float *numbers, uint32_t mode, float sample)
{
    for (uint32_t h = 0; h < AMOUNTS; h++)
        made[h] = distorted(numbers, mode, card_amount(h), sample);
}

static int serves(float output, float wanted, float tolerance)
{
    const float apart = output - wanted;
    return -tolerance <= apart && apart <= tolerance;
}

/* From the largest amount down: the last that serves is the least. */
static struct shaper_found searched(float wanted, float tolerance)
{
    struct shaper_found found = {SHAPER_NO_AMOUNT, 0};
    for (uint32_t h = AMOUNTS; h-- > 0;)
        if (serves(made[h], wanted, tolerance))
            found = (struct shaper_found){SHAPER_ACCEPTED, h};
    return found;
}

static int are_same(struct shaper_found a, struct shaper_found b)
{
    return a.number == b.number && a.hundredths == b.hundredths;
}

static struct shaper_found find(uint32_t mode, float sample, float wanted, float tolerance)
{
    return shaper_amount_for(mode, sample, wanted, tolerance, shaper_numbers, SHAPER_NUMBERS);
}

/* HardClip makes 1 of 0.5 from 6.0206 dB on, 20.07 % of 30; Fold makes 0 of it at 12.04 dB, 66.89 % of 18. Rectify goes
 * from the sample to its size in a straight line. Of -3e38 it makes NaN at 0 and infinity above that, which is
 * infinitely far from all but itself. Valve of 0 is not quite 0. A distance is a float: 2^-30 is just 1 from -1, and
 * what is more than 2^-25, which 2^-29 is past 24.08 dB, is the largest float below 1 from 1. */
static void check_values(void)
{
    static const struct {
        uint32_t mode;
        float sample, wanted, tolerance;
        struct shaper_found found;
    } values[] = {
        {SHAPER_HARD_CLIP, 0.5f, 1.0f, 0.0f, {0, 2007}},
        {SHAPER_HARD_CLIP, 0.5f, 0.75f, 0.01f, {0, 1136}},
        {SHAPER_HARD_CLIP, 0.5f, 0.5f, 0.0f, {0, 0}},
        {SHAPER_HARD_CLIP, 0.0f, 1.0f, 0.5f, {12, 0}},
        {SHAPER_HARD_CLIP, 0.0f, 1.0f, 1.0f, {0, 0}},
        {SHAPER_HARD_CLIP, 0.0f, -0.0f, 0.0f, {0, 0}},
        {SHAPER_HARD_CLIP, 0.0f, 0.0f, -0.0f, {0, 0}},
        {SHAPER_HARD_CLIP, 0.0f, 0.0f, -1.0f, {12, 0}},
        {SHAPER_HARD_CLIP, 0.0f, 0.0f, NAN, {12, 0}},
        {SHAPER_HARD_CLIP, 0.0f, INFINITY, INFINITY, {0, 0}},
        {SHAPER_HARD_CLIP, 0.0f, INFINITY, 3e38f, {12, 0}},
        {SHAPER_HARD_CLIP, 0.0f, NAN, INFINITY, {12, 0}},
        {SHAPER_HARD_CLIP, NAN, 0.0f, INFINITY, {12, 0}},
        {SHAPER_HARD_CLIP, INFINITY, 1.0f, 0.0f, {0, 0}},
        {SHAPER_HARD_CLIP, 0x1p-30f, -1.0f, 1.0f, {0, 0}},
        {SHAPER_HARD_CLIP, 0x1p-29f, 1.0f, 0x1.fffffep-1f, {0, 8028}},
        {SHAPER_RECTIFY, -1.0f, -1.0f, 0.0f, {0, 0}},
        {SHAPER_RECTIFY, -1.0f, 0.0f, 0.0f, {0, 5000}},
        {SHAPER_RECTIFY, -1.0f, 1.0f, 0.0f, {0, 10000}},
        {SHAPER_RECTIFY, -1.0f, 1.0f, 0.5f, {0, 7500}},
        {SHAPER_RECTIFY, 1.0f, -1.0f, 1.0f, {12, 0}},
        {SHAPER_RECTIFY, -3e38f, 0.0f, INFINITY, {0, 1}},
        {SHAPER_RECTIFY, -3e38f, -INFINITY, INFINITY, {0, 1}},
        {SHAPER_RECTIFY, -3e38f, INFINITY, INFINITY, {12, 0}},
        {SHAPER_RECTIFY, -3e38f, 0.0f, 3e38f, {12, 0}},
        {SHAPER_FOLD, 0.5f, 0.0f, 0.001f, {0, 6688}},
        {SHAPER_VALVE, 0.0f, 0.0f, 0.0f, {12, 0}},
        {SHAPER_VALVE, 0.0f, 0.0f, 1e-6f, {0, 0}},
    };
    for (unsigned i = 0; i < COUNT_OF(values); i++)
        check(are_same(find(values[i].mode, values[i].sample, values[i].wanted, values[i].tolerance), values[i].found),
            "a level by hand");
}

/* How many amounts serve, and how often the output comes near as the amount grows. */
struct served {
    unsigned amounts, times;
};

static struct served serving(float wanted, float tolerance)
{
    struct served n = {0, 0};
    for (int h = 0, before = 0; h < AMOUNTS; h++) {
        const int now = serves(made[h], wanted, tolerance);
        n.amounts += now != 0;
        n.times += now && !before;
        before = now;
    }
    return n;
}

/* The library tries 64 amounts at a time: levels at the ends of such parts, and at the last of all. Of a quiet sample
 * most modes make another level at each amount. */
static void check_parts(void)
{
    static const uint32_t ends[] = {0, 1, 62, 63, 64, 65, 127, 128, 9919, 9920, 9983, 9984, 9985, 9998, 9999, 10000};
    unsigned own = 0;
    for (uint32_t mode = SHAPER_VALVE; mode <= SHAPER_SOFT_SATURATE; mode++) {
        make(shaper_numbers, mode, 0.01f);
        for (unsigned i = 0; i < COUNT_OF(ends); i++) {
            const float wanted = made[ends[i]];
            const struct shaper_found found = find(mode, 0.01f, wanted, 0.0f);
            check(are_same(found, searched(wanted, 0.0f)), "a level at the end of a part");
            own += found.number == SHAPER_ACCEPTED && found.hundredths == ends[i];
        }
    }
    check(own > 10 * COUNT_OF(ends), "amounts that give a level of their own");
}

/* Of -1 Rectify makes at each amount a level that no other gives, mostly to the amount's last digit: it shows the first
 * amount, the last one, and amounts that are made by another quotient or product. */
static void check_amounts(void)
{
    unsigned divided = 0, multiplied = 0;
    make(shaper_numbers, SHAPER_RECTIFY, -1.0f);
    for (uint32_t h = 0; h < AMOUNTS; h += h == 9999 ? 1 : 101) {
        check(serving(made[h], 0.0f).amounts == 1, "a level of one amount");
        check(are_same(find(SHAPER_RECTIFY, -1.0f, made[h], 0.0f), (struct shaper_found){0, h}), "that amount");
        divided += made[h] != distorted(shaper_numbers, SHAPER_RECTIFY, (float)h / 100.0f / 100.0f, -1.0f);
        multiplied += made[h] != distorted(shaper_numbers, SHAPER_RECTIFY, (float)h * 0.01f * 0.01f, -1.0f);
    }
    check(made[10000] == 1.0f && divided > 9 && multiplied > 9, "amounts that are made in another way");
}

/* Fold turns back: it makes -0.5 of 0.5 twice and of 1 four times, and the first time counts. As the tolerance shrinks
 * the first one falls outside, then the second; the fourth comes nearest. */
static void check_turns(void)
{
    struct shaper_found found = {0, 0};
    make(shaper_numbers, SHAPER_FOLD, 0.5f);
    check(serving(-0.5f, 0.001f).times == 2, "a level that is come to twice");
    check(are_same(find(SHAPER_FOLD, 0.5f, -0.5f, 0.001f), (struct shaper_found){0, 7765}), "the first time");
    make(shaper_numbers, SHAPER_FOLD, 1.0f);
    check(serving(-0.5f, 0.001f).times == 4, "a level that is come to four times");
    check(are_same(find(SHAPER_FOLD, 1.0f, -0.5f, 0.001f), (struct shaper_found){0, 4420}), "the first time of four");
    check(are_same(find(SHAPER_FOLD, 1.0f, -0.5f, 0.0002f), (struct shaper_found){0, 6045}), "the second");
    for (float tolerance = 0.001f; serving(-0.5f, tolerance).amounts != 0; tolerance *= 0.9f) {
        found = find(SHAPER_FOLD, 1.0f, -0.5f, tolerance);
        check(are_same(found, searched(-0.5f, tolerance)), "ever nearer");
    }
    check(are_same(found, (struct shaper_found){0, 9723}), "the fourth");
}

/* By the model, whose table is made. */
static void check_found(uint32_t mode, float sample, float wanted, float tolerance)
{
    check(are_same(find(mode, sample, wanted, tolerance), searched(wanted, tolerance)), "a level by the model");
}

/* Levels at an amount's output and away from it: just as far as the tolerance, a step nearer, a step further, and with
 * a tolerance that is a step less. */
static void check_about(uint32_t mode, float sample, uint32_t hundredths)
{
    static const float far[] = {0.001f, 0.1f, 3.0f};
    const float output = made[hundredths], wanted = output + tame() * far[drawn(COUNT_OF(far))];
    const float apart = fabsf(output - wanted);
    check_found(mode, sample, output, 0.0f);
    check_found(mode, sample, nextafterf(output, INFINITY), 0.0f);
    check_found(mode, sample, wanted, apart);
    check_found(mode, sample, nextafterf(wanted, output), apart);
    check_found(mode, sample, nextafterf(wanted, wanted > output ? INFINITY : -INFINITY), apart);
    check_found(mode, sample, wanted, nextafterf(apart, -1.0f));
}

/* Samples by hand, and drawn ones with many levels that an amount just gives: mostly small amounts, which are found
 * soon. */
static void check_model(void)
{
    static const float sizes[] = {1.0f, -1.0f, 0.2f, -0.2f};
    static const float samples[] = {0.5f, -0.5f, 1.0f, -1.0f, 0.01f, 40.0f, 0.0f, -0.0f, 1e-45f, -1e-40f, 1e30f, 3e38f,
        -3e38f, INFINITY, -INFINITY, NAN};
    for (uint32_t mode = SHAPER_VALVE; mode <= SHAPER_SOFT_SATURATE; mode++) {
        for (unsigned i = 0; i < COUNT_OF(samples); i++) {
            make(shaper_numbers, mode, samples[i]);
            check_about(mode, samples[i], i < 4 ? SHAPER_MAX_HUNDREDTHS * (i % 2) : drawn(AMOUNTS));
        }
        for (unsigned i = 0; i < COUNT_OF(sizes); i++) {
            const float sample = sizes[i] * (1.0f - 0.5f * fabsf(tame()));
            make(shaper_numbers, mode, sample);
            check_about(mode, sample, drawn(AMOUNTS));
            for (unsigned k = 0; k < 32; k++)
                check_found(mode, sample, made[drawn(k < 8 ? AMOUNTS : 1000)], 0.0f);
        }
    }
}

/* Special tolerances with special levels, all pairs of them over the modes, and with levels that an amount gives. */
static void check_special(void)
{
    static const float levels[] = {NAN, INFINITY, -INFINITY, 3e38f};
    static const float tolerances[] = {0.0f, -0.0f, 1e-45f, -1e-45f, -1.0f, 3e38f, INFINITY, -INFINITY, NAN};
    for (uint32_t mode = SHAPER_VALVE; mode <= SHAPER_SOFT_SATURATE; mode++) {
        const float sample = mode == SHAPER_RECTIFY ? -3e38f : tame();
        make(shaper_numbers, mode, sample);
        for (unsigned i = 0; i < COUNT_OF(tolerances); i++) {
            check_found(mode, sample, levels[(mode + i) % COUNT_OF(levels)], tolerances[i]);
            check_found(mode, sample, made[drawn(AMOUNTS)], tolerances[i]);
        }
    }
}

/* A copy on the heap, of just its length, moved by a few cells from where the heap aligns it. */
static float *lent(const float *numbers, size_t count, size_t moved)
{
    float *copy = malloc((moved + count) * sizeof *copy);
    if (copy == NULL) {
        fprintf(stderr, "no memory\n");
        exit(1);
    }
    memcpy(copy + moved, numbers, count * sizeof *copy);
    return copy + moved;
}

/* The first line of the table that holds. */
static uint32_t line_of(uint32_t mode, size_t length, int has_amount)
{
    if (mode < 19 || mode > 32)
        return SHAPER_BAD_MODE;
    if (length < 13)
        return SHAPER_SHORT_READ;
    return has_amount ? SHAPER_ACCEPTED : SHAPER_NO_AMOUNT;
}

static void check_line(uint32_t mode, float wanted, int has_amount, const float *numbers, size_t length)
{
    const struct shaper_found found = shaper_amount_for(mode, -1.0f, wanted, 0.0f, numbers, length);
    const uint32_t line = line_of(mode, length, has_amount);
    check(found.number == line, "the number of a call");
    if (line != SHAPER_ACCEPTED)
        check(found.hundredths == 0, "the amount of a call that is turned down");
}

/* What 100 % makes of -1 is found, and no amount makes 100 of it. */
static void check_lines(uint32_t mode, const float *numbers, size_t length)
{
    check_line(mode, distorted(shaper_numbers, mode, 1.0f, -1.0f), 1, numbers, length);
    check_line(mode, 100.0f, 0, numbers, length);
}

/* Every line alone and with every other, and modes that differ from a distortion in a high byte. */
static void check_refusals(void)
{
    static const uint32_t more[] = {0x100 + SHAPER_VALVE, 0x10000 + SHAPER_HARD_CLIP, 0x1000000 + SHAPER_FOLD,
        0x80000000u + SHAPER_RECTIFY, UINT32_MAX};
    static const size_t lengths[] = {1, SHAPER_NUMBERS - 1, SHAPER_NUMBERS, SHAPER_NUMBERS + 1};
    float numbers[SHAPER_NUMBERS + 1] = {0.0f};
    memcpy(numbers, shaper_numbers, sizeof shaper_numbers);
    for (unsigned i = 0; i < SHAPER_MODES + 2 + COUNT_OF(more); i++) {
        const uint32_t mode = i < SHAPER_MODES + 2 ? i : more[i - SHAPER_MODES - 2];
        check_lines(mode, NULL, 0);
        check_lines(mode, numbers, 0);
        for (unsigned k = 0; k < COUNT_OF(lengths); k++) {
            float *copy = lent(numbers, lengths[k], 0);
            check_lines(mode, copy, lengths[k]);
            free(copy);
        }
    }
}

/* Numbers that nobody may read: a call is turned down before any is looked at. */
static void check_closed(void)
{
    const size_t room = SHAPER_NUMBERS * sizeof(float);
    float *closed = mmap(NULL, room, PROT_NONE, MAP_PRIVATE | MAP_ANONYMOUS, -1, 0);
    if (closed == MAP_FAILED)
        exit(1);
    check_lines(SHAPER_VALVE - 1, closed, SHAPER_NUMBERS);
    check_lines(SHAPER_SOFT_SATURATE + 1, closed, SHAPER_NUMBERS);
    check_lines(SHAPER_SINE_FOLD, closed, SHAPER_NUMBERS - 1);
    check_lines(SHAPER_SINE_SHAPER, closed, 0);
    munmap(closed, room);
}

/* The card's numbers at the end of a page that nobody may write, before one that nobody may read. */
static void check_page(void)
{
    const size_t page = (size_t)sysconf(_SC_PAGESIZE), cells = page / sizeof(float);
    float *pages = mmap(NULL, 2 * page, PROT_READ | PROT_WRITE, MAP_PRIVATE | MAP_ANONYMOUS, -1, 0);
    if (pages == MAP_FAILED)
        exit(1);
    float *numbers = pages + cells - SHAPER_NUMBERS;
    memcpy(numbers, shaper_numbers, sizeof shaper_numbers);
    if (mprotect(pages, page, PROT_READ) != 0 || mprotect(pages + cells, page, PROT_NONE) != 0)
        exit(1);
    for (uint32_t mode = SHAPER_VALVE; mode <= SHAPER_SOFT_SATURATE; mode++) {
        const float sample = tame(), wanted = distorted(numbers, mode, 0.3f, sample);
        check(are_same(shaper_amount_for(mode, sample, wanted, 0.001f, numbers, SHAPER_NUMBERS),
                  find(mode, sample, wanted, 0.001f)),
            "numbers at the end of a page");
    }
    munmap(pages, 2 * page);
}

/* Numbers on the heap for a memory checker, longer by NaNs or not: by the model with these numbers, and they stay as
 * they were. */
static void check_lent(uint32_t mode, const float *numbers, size_t more)
{
    float all[SHAPER_NUMBERS + 3] = {0.0f};
    const size_t length = SHAPER_NUMBERS + more;
    const float sample = tame();
    for (size_t i = 0; i < COUNT_OF(all); i++)
        all[i] = i < SHAPER_NUMBERS ? numbers[i] : NAN;
    float *copy = lent(all, length, more);
    make(numbers, mode, sample);
    const float wanted = made[drawn(AMOUNTS)];
    for (float tolerance = 0.0f; tolerance < 0.003f; tolerance += 0.002f)
        check(are_same(shaper_amount_for(mode, sample, wanted, tolerance, copy, length), searched(wanted, tolerance)),
            "a level by lent numbers");
    check(memcmp(copy, all, length * sizeof *all) == 0, "numbers that are read");
    free(copy - more);
}

/* SineFold and SineShaper go by the sine's five numbers, no other mode by any, and none by the arctangent's. */
static void check_numbers(void)
{
    float others[SHAPER_NUMBERS], none[SHAPER_NUMBERS];
    for (unsigned i = 0; i < SHAPER_NUMBERS; i++) {
        others[i] = i < 5 ? tame() : NAN;
        none[i] = NAN;
    }
    for (uint32_t mode = SHAPER_VALVE; mode <= SHAPER_SOFT_SATURATE; mode++) {
        const int is_sine = mode == SHAPER_SINE_FOLD || mode == SHAPER_SINE_SHAPER;
        check_lent(mode, shaper_numbers, 0);
        check_lent(mode, others, mode % 4);
        const float sample = tame(), wanted = distorted(shaper_numbers, mode, 0.6f, sample);
        const struct shaper_found found = find(mode, sample, wanted, 0.001f);
        check(found.number == SHAPER_ACCEPTED, "a level by the card's numbers");
        check(are_same(shaper_amount_for(mode, sample, wanted, 0.001f, none, SHAPER_NUMBERS),
                  is_sine ? (struct shaper_found){SHAPER_NO_AMOUNT, 0} : found),
            "a level by numbers that are NaN");
    }
}

/* The second frame of a lane that reads the same sample twice: its mean from one to the other is the curve itself. */
static float run_twice(unsigned slot, uint32_t mode, float amount, float sample)
{
    enum { FRAMES = 2 };
    static const uint32_t words[FRAMES];
    static const float off[1];
    float curve[SHAPER_CURVE] = {0.0f}, cycle[SHAPER_CYCLE], inner[1], stretch[1], add[1];
    float output[FRAMES] = {0.0f}, work[FRAMES], pairs[SHAPER_PAIRS(1)] = {0.0f}, fm[SHAPER_FM(1)] = {0.0f};
    float last[1] = {0.0f}, state[SHAPER_STATE(1)] = {0.0f};
    for (unsigned i = 0; i < SHAPER_CYCLE; i++)
        cycle[i] = sample;
    struct shaper_block b = {
        .factor = 1, .lanes = 1, .active = 1, .frames = FRAMES, .rate = 48000,
        .slot[0] = {.base = SHAPER_CELLS(off)}, .slot[1] = {.base = SHAPER_CELLS(off)},
        .curve = SHAPER_CELLS(curve), .cycle = SHAPER_CELLS(cycle),
        .words = SHAPER_CELLS(words), .steps = SHAPER_CELLS(words),
        .inner = SHAPER_CELLS(inner), .stretch = SHAPER_CELLS(stretch), .add = SHAPER_CELLS(add),
        .output = SHAPER_CELLS(output), .work = SHAPER_CELLS(work),
        .pairs = SHAPER_CELLS(pairs), .fm = SHAPER_CELLS(fm), .last = SHAPER_CELLS(last),
        .state = SHAPER_CELLS(state)};
    b.slot[slot].mode = mode;
    b.slot[slot].base = shaper_read_from(&amount, 1);
    check(answered(shaper_prepare_block(&b), SHAPER_ACCEPTED, FRAMES)
            && answered(shaper_run_block(&b, 0, FRAMES), SHAPER_ACCEPTED, FRAMES),
        "a block with the amount");
    return output[1];
}

/* What a sound designer does with the amount: it goes into a patch file, and a card that reads it makes the level. */
static void check_patch(uint32_t mode, float sample, uint32_t hundredths)
{
    uint8_t file[SHAPER_PATCH_BYTES];
    make(shaper_numbers, mode, sample);
    const float wanted = made[hundredths] + 0.0004f;
    const struct shaper_found found = find(mode, sample, wanted, 0.0005f);
    const uint32_t h = found.hundredths;
    check(found.number == SHAPER_ACCEPTED && h <= hundredths, "a level for a patch");
    const struct shaper_written w = shaper_patch_write(mode, h, 0, mode, h, 0, file, sizeof file);
    const struct shaper_patch p = shaper_patch_read(file, w.bytes);
    check(p.number == SHAPER_ACCEPTED && p.slot0.hundredths == h && p.slot1.hundredths == h, "the amount in a patch");
    check(bits(p.slot0.amount) == bits((float)h / 100.0f) && p.slot1.amount == p.slot0.amount, "the amount in percent");
    for (unsigned slot = 0; slot < SHAPER_SLOTS; slot++) {
        const float output = run_twice(slot, mode, p.slot0.amount, sample);
        check(output == made[h] && serves(output, wanted, 0.0005f), "the level that a block run makes");
    }
}

static void check_patches(void)
{
    for (uint32_t mode = SHAPER_VALVE; mode <= SHAPER_SOFT_SATURATE; mode++) {
        check_patch(mode, tame(), drawn(AMOUNTS));
        check_patch(mode, 0.5f, 0);
        check_patch(mode, -0.5f, SHAPER_MAX_HUNDREDTHS);
    }
}

int main(void)
{
    check_values();
    check_amounts();
    check_parts();
    check_turns();
    check_model();
    check_special();
    check_refusals();
    check_closed();
    check_page();
    check_numbers();
    check_patches();
    return finish();
}
