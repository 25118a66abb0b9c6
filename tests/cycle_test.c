/* The reading of the lent cycle between two entries (request E4), by the block run and by the picture: values worked
 * out by hand, special floats and cycles by chance against a model, the cycle's end, and blocks in cuts. Prints how
 * many checks pass, "P of T". */
#define _DEFAULT_SOURCE /* MAP_ANONYMOUS */
#include "cycle_model.h"
#include "draws.h"
#include "shaper_block.h"

#include <math.h>
#include <stdlib.h>
#include <sys/mman.h>

enum { RATE = 48000, ENTRY = 1 << 21, HALF = ENTRY / 2, LAST_PART = ENTRY - 1, LAST = SHAPER_CYCLE - 1 };

/* How a word is read: by the one lane of a block at factor 1, whose output is then the sum of its reads, or by the one
 * point of a picture. OddEven makes a weighted list of the word and the one half a cycle on, its opposite, with these
 * gains; a slot whose source is absent leaves a list without weights. */
static const struct way {
    const char *name;
    uint32_t mode0, mode1;
    float amount, gain, opposite;
} ways[] = {
    {"a lane without slots", SHAPER_OFF, SHAPER_OFF, 0.0f, 1.0f, 0.0f},
    {"a list without weights", SHAPER_FM1, SHAPER_AM1, 0.0f, 1.0f, 0.0f},
    {"a lane with a level", SHAPER_AM1, SHAPER_RM2, 0.0f, 1.0f, 0.0f},
    {"a picture's point", SHAPER_REMAP_DRAWN, SHAPER_OFF, 100.0f, 1.0f, 0.0f},
    {"a weighted list", SHAPER_ODD_EVEN, SHAPER_OFF, 50.0f, 1.0f, 0.0f},
    {"a difference", SHAPER_OFF, SHAPER_ODD_EVEN, 0.0f, 0.5f, -0.5f},
    {"a mean", SHAPER_ODD_EVEN, SHAPER_OFF, 100.0f, 0.5f, 0.5f}};

enum { PLAIN, UNWEIGHTED, LEVEL, POINT, WEIGHTED };

static float cycle[SHAPER_CYCLE];
static const struct shaper_readable lent_cycle = {cycle, SHAPER_CYCLE};

/* Any word, and as often one whose fraction is the least or the largest or whose entry is the last. */
static uint32_t drawn_word(void)
{
    const uint32_t any = drawn(1u << 16) << 16 | drawn(1u << 16);
    switch (drawn(6)) {
    case 0: return any & ~(uint32_t)LAST_PART;
    case 1: return any | LAST_PART;
    case 2: return any | (uint32_t)LAST << 21;
    default: return any;
    }
}

/* Any float, so that neighbours differ much in size. */
static float wild(void)
{
    const uint32_t pattern = drawn(1u << 16) << 16 | drawn(1u << 16);
    float any;
    memcpy(&any, &pattern, sizeof any);
    return any;
}

static void fill(float (*number)(void))
{
    for (unsigned i = 0; i < SHAPER_CYCLE; i++)
        cycle[i] = number();
}

/* The words through a lane, at factor 1. */
static struct shaper_answer run(
    const struct way *w, struct shaper_readable lent, const uint32_t *words, uint32_t count, float *output)
{
    enum { MOST = SHAPER_MAX_FRAMES };
    static float curve[SHAPER_CURVE], inner[SHAPER_SPAN(MOST, 1)], stretch[SHAPER_SPAN(MOST, 1)];
    static float add[SHAPER_SPAN(MOST, 1)], work[MOST], pairs[SHAPER_PAIRS(1)], fm[SHAPER_FM(1)], last[SHAPER_LAST(1)];
    static float state[SHAPER_STATE(1)];
    static uint32_t steps[MOST];
    const struct shaper_block b = {
        .factor = 1, .lanes = 1, .active = 1, .frames = count, .rate = RATE,
        .slot[0] = {.mode = w->mode0, .base = {&w->amount, 1}}, .slot[1] = {.mode = w->mode1, .base = {&w->amount, 1}},
        .curve = SHAPER_CELLS(curve), .cycle = lent, .words = {words, count}, .steps = SHAPER_CELLS(steps),
        .inner = SHAPER_CELLS(inner), .stretch = SHAPER_CELLS(stretch), .add = SHAPER_CELLS(add),
        .output = {output, count}, .work = SHAPER_CELLS(work), .pairs = SHAPER_CELLS(pairs), .fm = SHAPER_CELLS(fm),
        .last = SHAPER_CELLS(last), .state = SHAPER_CELLS(state)};
    const struct shaper_answer prepared = shaper_prepare_block(&b);
    return prepared.number == SHAPER_ACCEPTED ? shaper_run_block(&b, 0, count) : prepared;
}

/* A picture of the cycle as it is or, by RemapDrawn, of the word that the curve has at 0, in cycles: one whose distance
 * from 0 has no more than a float's 24 digits. */
static struct shaper_answer draw(
    const struct way *w, struct shaper_readable lent, uint32_t word, float *picture, size_t points)
{
    static float curve[SHAPER_CURVE];
    curve[0] = curve[1] = (float)(int32_t)word / 4294967296.0f;
    return shaper_preview(w->mode0, w->mode1, 0.0f, 0.0f, w->amount, w->amount, shaper_numbers, SHAPER_NUMBERS, curve,
        SHAPER_CURVE, lent.cells, lent.length, picture, points);
}

/* The sample of one word; 77, which no cycle here has, if the call is turned down. */
static float read_by(const struct way *w, struct shaper_readable lent, uint32_t word)
{
    float sample = 77.0f;
    if (w == &ways[POINT])
        draw(w, lent, word, &sample, 1);
    else
        run(w, lent, &word, 1, &sample);
    return sample;
}

static void check_by(const struct way *w, int right, const char *what)
{
    char by[160];
    snprintf(by, sizeof by, "%s, by %s", what, w->name);
    check(right, by);
}

/* Two neighbours, entry `at` and the one after it, read some parts of 2^21 past the first. Below 1, 0x3f800000, a
 * float's last place is 2^-24: 1 - 2^-21 is 8 of them less. */
static const struct {
    float first, next;
    uint32_t at, parts, pattern;
    const char *why;
} values[] = {
    {0.0f, 1.0f, 0, HALF, 0x3f000000, "half way from 0 to 1"},
    {8.0f, 0.0f, LAST, HALF, 0x40800000, "half way from entry 2,047, 8, to entry 0, 0"},
    {0.0f, 1.0f, 0, 0, 0x00000000, "0 at its entry, 0 + 1 * 0"},
    {0.0f, 1.0f, 0, LAST_PART, 0x3f7ffff8, "all but 2^-21 of the way from 0 to 1"},
    {8.0f, 0.0f, LAST, LAST_PART, 0x36800000, "8 - 8 * (1 - 2^-21) = 2^-18 at the last word"},
    {8.0f, 0.0f, LAST, 0, 0x41000000, "entry 2,047 itself"},
    {0.0f, 1.0f, 0, 1, 0x35000000, "the first word past an entry, 2^-21"},
    {-0.0f, 1.0f, 0, 0, 0x00000000, "-0 before 1: -0 + 1 * 0 is +0"},
    {-0.0f, -1.0f, 0, 0, 0x80000000, "-0 before -1: -0 + -1 * 0 is -0"},
    {-0.0f, 0.0f, 0, 0, 0x00000000, "-0 before +0: the difference is +0"},
    {-0.0f, -0.0f, 0, HALF, 0x00000000, "-0 before -0: the difference is +0"},
    {0.0f, -0.0f, 0, HALF, 0x00000000, "+0 before -0: +0 + -0 is +0"},
    {0.0f, -1.0f, LAST, 0, 0x00000000, "+0 before -1: +0 + -0 is +0"},
    {3e38f, -3e38f, 0, 0, 0x7fc00000, "a difference past the largest float, no time: NaN"},
    {3e38f, -3e38f, 0, 1, 0xff800000, "a difference past the largest float, 2^-21 times: -infinity"},
    {1.0f, INFINITY, 0, 0, 0x7fc00000, "an infinite difference, no time: NaN"},
    {1.0f, INFINITY, 0, HALF, 0x7f800000, "half of an infinite difference"},
    {1.0f, -INFINITY, LAST, LAST_PART, 0xff800000, "the most of an infinite difference"},
    {-1.0f, 0x1p-23f, 0, LAST_PART, 0xb4c00000,
        "(1 + 2^-23) * (1 - 2^-21) is rounded, by 2^-44, before the sum: -3 * 2^-23"},
    {1.0f, 0x1p-30f, 0, LAST_PART, 0x35000000, "2^-30 - 1 is rounded, to -1, before the product: 2^-21"},
    {0x1p-149f, 0x1p-148f, 0, HALF, 0x00000001, "2^-150, half of the smallest difference, is rounded to 0"}};

static float of_pattern(uint32_t pattern)
{
    float x;
    memcpy(&x, &pattern, sizeof x);
    return x;
}

/* The rest of the cycle is -1, of which a weighted list adds a product of -0: that changes no number. */
static void check_values(void)
{
    for (unsigned i = 0; i < COUNT_OF(values); i++) {
        const uint32_t word = values[i].at << 21 | values[i].parts;
        const float want = of_pattern(values[i].pattern);
        for (unsigned k = 0; k < SHAPER_CYCLE; k++)
            cycle[k] = -1.0f;
        cycle[values[i].at] = values[i].first, cycle[(values[i].at + 1) % SHAPER_CYCLE] = values[i].next;
        for (const struct way *w = ways; w <= &ways[WEIGHTED]; w++)
            check_by(w, is_same(read_by(w, lent_cycle, word), want), values[i].why);
        check(is_same(read_at(cycle, word), want), values[i].why);
    }
}

/* An entry that is infinite or NaN reads as NaN at all its words, and so does any entry before NaN. */
static void check_broken(void)
{
    static const float broken[] = {INFINITY, -INFINITY, NAN, -NAN};
    static const float others[] = {0.0f, -1.0f, 3e38f, INFINITY, -INFINITY};
    static const uint32_t parts[] = {0, 1, HALF, LAST_PART};
    for (unsigned i = 0; i < COUNT_OF(broken) * COUNT_OF(others) * COUNT_OF(parts); i++) {
        const float x = broken[i % 4], other = others[i / 4 % 5];
        const uint32_t word = (uint32_t)LAST << 21 | parts[i / 20];
        cycle[LAST] = x, cycle[0] = other;
        for (const struct way *w = ways; w <= &ways[WEIGHTED]; w++)
            check_by(w, isnan(read_by(w, lent_cycle, word)), "an infinite entry or NaN");
        cycle[LAST] = other, cycle[0] = i % 2 == 0 ? NAN : -NAN;
        for (const struct way *w = ways; w <= &ways[WEIGHTED]; w++)
            check_by(w, isnan(read_by(w, lent_cycle, word)), "an entry before NaN");
    }
}

/* In double, and rounded to a float after each operation. A double's 53 digits are more than twice a float's 24 and
 * two, so that its own rounding before that one changes nothing; a product of floats it has exactly. */
static float between(float first, float next, uint32_t word)
{
    const float difference = (float)((double)next - (double)first);
    const float product = (float)((double)difference * (word % ENTRY / 2097152.0));
    return (float)((double)first + (double)product);
}

static float want_of(const struct way *w, const float *entries, uint32_t word)
{
    const uint32_t opposite = word + 0x80000000u;
    const float x = between(entries[word / ENTRY], entries[(word / ENTRY + 1) % SHAPER_CYCLE], word);
    const float y = between(entries[opposite / ENTRY], entries[(opposite / ENTRY + 1) % SHAPER_CYCLE], opposite);
    if (w < &ways[WEIGHTED])
        return x;
    const float product = (float)((double)w->gain * (double)x), other = (float)((double)w->opposite * (double)y);
    return (float)((double)product + (double)other);
}

/* Two neighbours at `at`, and the other way round at its opposite: each way, at four fractions. */
static void check_pair(float first, float next, uint32_t at)
{
    static const uint32_t parts[] = {0, 1, HALF, LAST_PART};
    const uint32_t opposite = (at + SHAPER_CYCLE / 2) % SHAPER_CYCLE;
    cycle[at] = cycle[(opposite + 1) % SHAPER_CYCLE] = first;
    cycle[(at + 1) % SHAPER_CYCLE] = cycle[opposite] = next;
    for (const struct way *w = ways; w < ways + COUNT_OF(ways); w++) {
        int right = 1;
        for (unsigned i = 0; i < COUNT_OF(parts); i++) {
            const uint32_t word = at << 21 | parts[i];
            right &= is_same(read_by(w, lent_cycle, word), want_of(w, cycle, word));
        }
        check_by(w, right, "a pair of special floats");
    }
}

static void check_pairs(void)
{
    static const float some[] = {0.0f, -0.0f, 1.0f, -1.0f, 0x1.000002p0f, 1.0f / 3.0f, -0x1.fffffep-1f, 1e-45f, -1e-45f,
        0x1.fffffcp-127f, 0x1p-126f, -1e-20f, 16777215.0f, 3e38f, -3e38f, 0x1.fffffep127f, INFINITY, -INFINITY, NAN};
    static const uint32_t places[] = {0, 1, LAST - 1, LAST};
    for (unsigned i = 0; i < COUNT_OF(some); i++)
        for (unsigned k = 0; k < COUNT_OF(some); k++)
            for (unsigned at = 0; at < COUNT_OF(places); at++)
                check_pair(some[i], some[k], places[at]);
}

/* A block of words by each way but the point's, against the model. */
static void check_block(struct shaper_readable lent, const char *what)
{
    static uint32_t words[SHAPER_MAX_FRAMES];
    static float output[SHAPER_MAX_FRAMES], want[SHAPER_MAX_FRAMES];
    for (unsigned i = 0; i < COUNT_OF(words); i++)
        words[i] = drawn_word();
    for (const struct way *w = ways; w < ways + COUNT_OF(ways); w++) {
        if (w == &ways[POINT])
            continue;
        for (unsigned i = 0; i < COUNT_OF(words); i++)
            want[i] = want_of(w, lent.cells, words[i]);
        check_by(w, answered(run(w, lent, words, COUNT_OF(words), output), SHAPER_ACCEPTED, COUNT_OF(words))
                && are_same(output, want, COUNT_OF(words)),
            what);
    }
}

/* Pictures of the cycle as it is. */
static void check_drawings(struct shaper_readable lent, const char *what)
{
    static const uint32_t lengths[] = {1, 2, 3, 7, 1000, SHAPER_CYCLE, 3001, SHAPER_POINTS};
    static float picture[SHAPER_POINTS], want[SHAPER_POINTS];
    for (unsigned i = 0; i < COUNT_OF(lengths); i++) {
        for (uint32_t k = 0; k < lengths[i]; k++)
            want[k] = want_of(&ways[PLAIN], lent.cells, word_at(k, lengths[i]));
        check(answered(draw(&ways[PLAIN], lent, 0, picture, lengths[i]), SHAPER_ACCEPTED, lengths[i])
                && are_same(picture, want, lengths[i]),
            what);
    }
}

/* The models of the tests agree: in floats and in double. */
static void check_model(void)
{
    int same = 1;
    for (unsigned i = 0; i < 10000; i++) {
        const uint32_t word = drawn_word();
        same &= is_same(read_at(cycle, word), want_of(&ways[PLAIN], cycle, word));
    }
    check(same, "the model in floats");
}

static void check_drawn(void)
{
    for (unsigned i = 0; i < 8; i++) {
        fill(i % 2 == 0 ? tame : wild);
        check_block(lent_cycle, "a block");
        check_drawings(lent_cycle, "a picture");
        check_model();
    }
}

/* What lies past entry 2,047 is not read: NaNs, which would show in any reading. */
static void check_longer(void)
{
    static float longer[SHAPER_CYCLE + 64];
    for (unsigned i = 0; i < COUNT_OF(longer); i++)
        longer[i] = i < SHAPER_CYCLE ? tame() : NAN;
    for (size_t length = SHAPER_CYCLE; length <= COUNT_OF(longer); length += length < SHAPER_CYCLE + 2 ? 1 : 31) {
        check_block(shaper_read_from(longer, length), "a longer cycle");
        check_drawings(shaper_read_from(longer, length), "the picture of a longer cycle");
    }
}

/* A cycle of an entry too few is turned down, and nothing is written. */
static void check_shorter(struct shaper_readable lent)
{
    static const uint32_t both[2] = {0, UINT32_MAX};
    float output[2] = {77.0f, 77.0f};
    for (const struct way *w = ways; w < ways + COUNT_OF(ways); w++) {
        const int is_point = w == &ways[POINT];
        const struct shaper_answer answer = is_point ? draw(w, lent, 0, output, 2) : run(w, lent, both, 2, output);
        check_by(w, answered(answer, SHAPER_SHORT_READ, 0), "2,047 entries");
        check_by(w, output[0] == 77.0f && output[1] == 77.0f, "what is lent with 2,047 entries");
    }
}

/* On the heap, where valgrind sees a read past the end; and among pages that nobody may touch, right behind them and
 * right before them. */
static void check_ends(void)
{
    enum { PAGES = 1 << 16, BYTES = sizeof cycle };
    float *heap = malloc(BYTES);
    char *pages = mmap(NULL, 3 * PAGES, PROT_NONE, MAP_PRIVATE | MAP_ANONYMOUS, -1, 0);
    if (heap == NULL || pages == MAP_FAILED || mprotect(pages + PAGES, PAGES, PROT_READ | PROT_WRITE) != 0) {
        fprintf(stderr, "no memory\n");
        exit(1);
    }
    float *const places[] = {heap, (float *)(pages + PAGES), (float *)(pages + 2 * PAGES - BYTES)};
    fill(tame);
    for (unsigned i = 0; i < COUNT_OF(places); i++) {
        const struct shaper_readable lent = {places[i], SHAPER_CYCLE};
        memcpy(places[i], cycle, BYTES);
        check_block(lent, "a cycle's end");
        check_drawings(lent, "the picture of a cycle's end");
        for (const struct way *w = ways; w < ways + COUNT_OF(ways); w++)
            check_by(w, is_same(read_by(w, lent, UINT32_MAX), want_of(w, cycle, UINT32_MAX)), "the last word");
        check(memcmp(places[i], cycle, BYTES) == 0, "a cycle that is read");
    }
    check_shorter(shaper_read_from(places[2] + 1, SHAPER_CYCLE - 1));
    munmap(pages, 3 * PAGES);
    free(heap);
}

/* A short block of three lanes, and what it writes; work is not kept. */
enum { FRAMES = 6, FACTOR = 2, LANES = 3, RENDERED = FRAMES * FACTOR };

struct voice {
    float output[SHAPER_OUTPUT(FRAMES, LANES)], pairs[SHAPER_PAIRS(LANES)], fm[SHAPER_FM(LANES)];
    float last[SHAPER_LAST(LANES)], state[SHAPER_STATE(LANES)];
};

static uint32_t words[RENDERED * LANES], steps[RENDERED * LANES];

/* Lane 0 reads from entry 400 on, lane 1 over the cycle's end, lane 2 any words of entries 1500 to 1598. */
static void make_words(void)
{
    static const uint32_t starts[LANES] = {400u << 21, 0u - 8 * 0x90000, 0};
    static const uint32_t moves[LANES] = {0x123456, 0x90000, 0x7654321};
    for (uint32_t k = 0; k < RENDERED; k++)
        for (uint32_t lane = 0; lane < LANES; lane++) {
            const uint32_t wild_word = (1500 + drawn(99)) << 21 | (drawn(3) == 0 ? 0 : drawn(ENTRY));
            words[k * LANES + lane] = lane == 2 ? wild_word : starts[lane] + k * moves[lane];
            steps[k * LANES + lane] = moves[lane];
        }
}

/* The block in ranges: one ends behind host frame i where bit i of `cuts` is set, and one behind the last. */
static int run_cut(struct shaper_block b, unsigned cuts, struct voice *v)
{
    uint32_t first = 0;
    b.output = shaper_write_to(v->output, COUNT_OF(v->output)), b.pairs = shaper_write_to(v->pairs, COUNT_OF(v->pairs));
    b.fm = shaper_write_to(v->fm, COUNT_OF(v->fm)), b.last = shaper_write_to(v->last, COUNT_OF(v->last));
    b.state = shaper_write_to(v->state, COUNT_OF(v->state));
    for (uint32_t end = 1; end <= FRAMES; end++)
        if (end == FRAMES || (cuts >> (end - 1) & 1) != 0) {
            if (!answered(shaper_run_block(&b, first, end - first), SHAPER_ACCEPTED, end - first))
                return 0;
            first = end;
        }
    return 1;
}

/* All cuts of a block, against the block in one call. */
static void check_cut(const struct shaper_block *b)
{
    static const struct voice start;
    struct voice whole = start;
    check(answered(shaper_prepare_block(b), SHAPER_ACCEPTED, FRAMES) && run_cut(*b, 0, &whole), "a block in one call");
    for (unsigned cuts = 1; cuts < 1u << (FRAMES - 1); cuts++) {
        struct voice parts = start;
        check(run_cut(*b, cuts, &parts) && are_same((float *)&parts, (float *)&whole, sizeof whole / sizeof(float)),
            "a block in cuts");
    }
    int finite = 1, moved = 0;
    for (unsigned i = 0; i < COUNT_OF(whole.output); i += LANES)
        finite &= isfinite(whole.output[i]) != 0, moved |= whole.output[i] != whole.output[0];
    check(finite && moved, "what lane 0 makes of finite entries");
}

/* Modes with one read, with more, and with what a lane carries; at the cycle's end an entry of each kind. */
static void check_cuts(void)
{
    static const uint32_t modes[][SHAPER_SLOTS] = {{SHAPER_OFF, SHAPER_OFF}, {SHAPER_ODD_EVEN, SHAPER_OFF},
        {SHAPER_FM1, SHAPER_ODD_EVEN}, {SHAPER_PD_SELF, SHAPER_HARD_CLIP}, {SHAPER_SYNC, SHAPER_LOW_PASS},
        {SHAPER_AM1, SHAPER_OFF}, {SHAPER_PD_SELF, SHAPER_RM1}, {SHAPER_RM1, SHAPER_LOW_PASS}};
    static const float ends[] = {1.0f, -0.0f, 3e38f, -3e38f, INFINITY, NAN};
    static const float source[SHAPER_SOURCE(FRAMES, LANES)] = {0.01f, -0.02f, 0.03f};
    static const float base[LANES] = {20.0f, 50.0f, 70.0f};
    static float curve[SHAPER_CURVE], inner[LANES], stretch[LANES], add[LANES], work[RENDERED * LANES];
    for (unsigned i = 0; i < COUNT_OF(modes) * COUNT_OF(ends); i++) {
        const uint32_t *mode = modes[i % COUNT_OF(modes)];
        const struct shaper_block b = {
            .factor = FACTOR, .lanes = LANES, .active = LANES, .frames = FRAMES, .rate = RATE,
            .slot[0] = {mode[0], 0.5f, SHAPER_CELLS(base), {NULL, 0}, SHAPER_CELLS(source)},
            .slot[1] = {mode[1], 0.5f, SHAPER_CELLS(base), {NULL, 0}, SHAPER_CELLS(source)},
            .curve = SHAPER_CELLS(curve), .cycle = lent_cycle, .words = SHAPER_CELLS(words),
            .steps = SHAPER_CELLS(steps), .inner = SHAPER_CELLS(inner), .stretch = SHAPER_CELLS(stretch),
            .add = SHAPER_CELLS(add), .work = SHAPER_CELLS(work)};
        fill(tame);
        for (unsigned k = 1500; k < 1600; k++)
            cycle[k] = wild();
        cycle[LAST] = ends[i / COUNT_OF(modes)];
        make_words();
        check_cut(&b);
    }
}

int main(void)
{
    check_values();
    check_broken();
    check_pairs();
    check_drawn();
    check_longer();
    check_ends();
    check_cuts();
    return finish();
}
