/* What a block needs (shaper_plan): its values, a model that counts, refusals, the lengths of shaper.h, and block runs
 * with buffers of just the planned lengths. Prints how many checks pass, "P of T". */
#include "fields.h"

#include <stdlib.h>

/* The answer's layout. */
#define IS_AT(field, place) (offsetof(struct shaper_needs, field) == (place) * sizeof(uint32_t))
_Static_assert(sizeof(struct shaper_needs) == 36, "nine words");
_Static_assert(IS_AT(number, 0) && IS_AT(frames, 1) && IS_AT(work, 2) && IS_AT(state, 3) && IS_AT(pairs, 4)
        && IS_AT(fm, 5) && IS_AT(last, 6) && IS_AT(reads, 7) && IS_AT(steps, 8),
    "the fields' order");

/* A plan's arguments by number. */
enum argument { FACTOR, LANES, ACTIVE, FRAMES, COUNT0, COUNT1, COUNT2, ARGUMENT_END };

struct numbers {
    uint32_t of[ARGUMENT_END];
};

static struct shaper_needs plan(struct numbers n)
{
    const uint32_t *a = n.of;
    return shaper_plan(a[FACTOR], a[LANES], a[ACTIVE], a[FRAMES], a[COUNT0], a[COUNT1], a[COUNT2]);
}

/* The same in every field. */
static int needs(struct shaper_needs got, struct shaper_needs want)
{
    return got.number == want.number && got.frames == want.frames && got.work == want.work && got.state == want.state
        && got.pairs == want.pairs && got.fm == want.fm && got.last == want.last && got.reads == want.reads
        && got.steps == want.steps;
}

/* A refusal: its number and zeros. */
static struct shaper_needs refused(uint32_t number)
{
    return (struct shaper_needs){number, 0, 0, 0, 0, 0, 0, 0, 0};
}

static const uint32_t factors[] = {1, 2, 4, SHAPER_MAX_FACTOR};

/* By hand: 21,504 = 8 * 64 * (10 + 2 * 6 + 4 * 5). */
static void check_values(void)
{
    static const struct {
        struct numbers n;
        struct shaper_needs want;
    } values[] = {
        {{{8, 8, 8, 64, 10, 6, 5}}, {0, 64, 4096, 576, 32, 16, 8, 16384, 21504}},
        {{{8, 64, 64, 4096, 12, 12, 12}}, {0, 4096, 2097152, 4608, 256, 128, 64, 8388608, 22020096}},
        {{{1, 3, 2, 5, 1, 1, 1}}, {0, 5, 15, 216, 12, 6, 3, 40, 0}},
        {{{4, 2, 0, 100, 10, 6, 5}}, {0, 100, 800, 144, 8, 4, 2, 0, 0}},
        {{{8, 1, 1, 0, 10, 6, 5}}, {0, 0, 0, 72, 4, 2, 1, 0, 0}},
        {{{2, 1, 1, 1, 12, 1, 1}}, {0, 1, 2, 72, 4, 2, 1, 8, 12}},
        {{{4, 1, 1, 1, 1, 12, 1}}, {0, 1, 4, 72, 4, 2, 1, 16, 25}},
        {{{8, 1, 1, 1, 1, 2, 3}}, {0, 1, 8, 72, 4, 2, 1, 32, 17}},
        {{{3, 65, 8, 64, 10, 6, 5}}, {2, 0, 0, 0, 0, 0, 0, 0, 0}},
        {{{8, 65, 8, 4097, 10, 6, 5}}, {3, 0, 0, 0, 0, 0, 0, 0, 0}},
        {{{8, 8, 8, 4097, 13, 6, 5}}, {4, 0, 0, 0, 0, 0, 0, 0, 0}},
        {{{8, 8, 8, 64, 0, 6, 5}}, {6, 0, 0, 0, 0, 0, 0, 0, 0}},
        {{{1, 8, 8, 64, 10, 6, 0}}, {6, 0, 0, 0, 0, 0, 0, 0, 0}},
        {{{8, 0, 0, 64, 10, 6, 5}}, {3, 0, 0, 0, 0, 0, 0, 0, 0}},
        {{{8, 8, 9, 64, 10, 6, 5}}, {3, 0, 0, 0, 0, 0, 0, 0, 0}},
        {{{UINT32_MAX, UINT32_MAX, UINT32_MAX, UINT32_MAX, UINT32_MAX, UINT32_MAX, UINT32_MAX}},
            {2, 0, 0, 0, 0, 0, 0, 0, 0}},
    };
    for (unsigned i = 0; i < COUNT_OF(values); i++)
        check(needs(plan(values[i].n), values[i].want), "a plan by hand");
}

/* What makes a line of the table hold, or with line 0 none: an argument's value. */
struct cause {
    uint32_t line;
    enum argument argument;
    uint32_t value;
};

static const struct cause bad_factor[] = {{0, FACTOR, 1}, {0, FACTOR, 2}, {0, FACTOR, 4}, {0, FACTOR, 8},
    {2, FACTOR, 0}, {2, FACTOR, 3}, {2, FACTOR, 5}, {2, FACTOR, 6}, {2, FACTOR, 7}, {2, FACTOR, 9}, {2, FACTOR, 16},
    {2, FACTOR, 0x80000000u}, {2, FACTOR, UINT32_MAX}};
static const struct cause bad_lanes[] = {{0, LANES, 8}, {0, LANES, 64}, {3, LANES, 0}, {3, LANES, 7}, {3, LANES, 65},
    {3, LANES, UINT32_MAX}, {0, ACTIVE, 0}, {3, ACTIVE, 9}, {3, ACTIVE, UINT32_MAX}};
static const struct cause bad_frames[] = {
    {0, FRAMES, 0}, {0, FRAMES, 4096}, {4, FRAMES, 4097}, {4, FRAMES, 0x20000000u}, {4, FRAMES, UINT32_MAX}};
static const struct cause bad_count[] = {{0, COUNT0, 1}, {0, COUNT1, 12}, {6, COUNT0, 0}, {6, COUNT0, 13},
    {6, COUNT0, UINT32_MAX}, {6, COUNT1, 0}, {6, COUNT1, 13}, {6, COUNT1, UINT32_MAX}, {6, COUNT2, 0}, {6, COUNT2, 13},
    {6, COUNT2, UINT32_MAX}};

static void check_causes(const struct cause *const causes[], unsigned count)
{
    struct numbers n = {{4, 8, 8, 64, 10, 6, 5}};
    uint32_t line = 0;
    for (unsigned i = 0; i < count; i++) {
        n.of[causes[i]->argument] = causes[i]->value;
        line = line == 0 ? causes[i]->line : line;
    }
    if (line == 0)
        check(plan(n).number == SHAPER_ACCEPTED && plan(n).frames == n.of[FRAMES], "numbers at their ends");
    else
        check(needs(plan(n), refused(line)), "numbers that are turned down");
}

/* Each line alone and with every later one: the first answers, with zeros. */
static void check_refusals(void)
{
    for (unsigned a = 0; a < COUNT_OF(bad_factor); a++)
        for (unsigned b = 0; b < COUNT_OF(bad_lanes); b++)
            for (unsigned c = 0; c < COUNT_OF(bad_frames); c++)
                for (unsigned d = 0; d < COUNT_OF(bad_count); d++) {
                    const struct cause *causes[] = {&bad_factor[a], &bad_lanes[b], &bad_frames[c], &bad_count[d]};
                    check_causes(causes, COUNT_OF(causes));
                }
}

/* One lane of a block, counted: what it adds whether it is active or not, and what only if it is. */
struct lane {
    struct shaper_needs idle, active;
};

/* A stage after another, from the rendered frames to the block's: each makes a frame of two, and each of its sections
 * steps once for it. The last has design 0, the one before it design 1. */
static uint32_t stepped(uint32_t factor, uint32_t frames, const uint32_t *counts)
{
    uint32_t steps = 0, rows = 0, stages = 0;
    for (uint32_t f = factor; f > 1; f /= 2)
        stages += 1;
    for (uint32_t frame = 0; frame < frames; frame++)
        rows += factor;
    for (uint32_t design = stages; design-- > 0;) {
        uint32_t made = 0;
        for (uint32_t row = 1; row < rows; row += 2) {
            for (uint32_t section = 0; section < counts[design]; section++)
                steps += 1;
            made += 1;
        }
        rows = made;
    }
    return steps;
}

/* A cell of work for each rendered frame, and the reads that two slots make of one, each at most two of every one; a
 * section's last input and output for every coefficient that a design may have; a filter's pair and an FM offset for
 * each slot. */
static struct lane walked(uint32_t factor, uint32_t frames, const uint32_t *counts)
{
    struct lane lane = {{0}, {0}};
    for (uint32_t frame = 0; frame < frames; frame++)
        for (uint32_t sub = 0; sub < factor; sub++) {
            uint32_t reads = 1;
            for (unsigned slot = 0; slot < SHAPER_SLOTS; slot++)
                reads += reads;
            lane.idle.work += 1;
            lane.active.reads += reads;
        }
    for (unsigned design = 0; design < SHAPER_DESIGNS; design++)
        for (unsigned coef = 0; coef < SHAPER_MAX_COUNT; coef++)
            lane.idle.state += 2;
    for (unsigned slot = 0; slot < SHAPER_SLOTS; slot++) {
        lane.idle.pairs += 2;
        lane.idle.fm += 1;
    }
    lane.idle.last += 1;
    lane.active.steps = stepped(factor, frames, counts);
    return lane;
}

/* Lanes like this one, the first of them active. */
static struct shaper_needs counted(const struct lane *lane, uint32_t lanes, uint32_t active, uint32_t frames)
{
    struct shaper_needs sum = refused(SHAPER_ACCEPTED);
    sum.frames = frames;
    for (uint32_t l = 0; l < lanes; l++) {
        sum.work += lane->idle.work;
        sum.state += lane->idle.state;
        sum.pairs += lane->idle.pairs;
        sum.fm += lane->idle.fm;
        sum.last += lane->idle.last;
        if (l < active) {
            sum.reads += lane->active.reads;
            sum.steps += lane->active.steps;
        }
    }
    return sum;
}

/* Every count of active lanes, for one lane's numbers. */
static void check_lanes(uint32_t factor, uint32_t frames, const uint32_t *counts)
{
    static const uint32_t lanes[] = {1, 2, 3, 8, 33, SHAPER_MAX_LANES};
    const struct lane lane = walked(factor, frames, counts);
    for (unsigned i = 0; i < COUNT_OF(lanes); i++)
        for (uint32_t active = 0; active <= lanes[i]; active++) {
            struct numbers n = {{factor, lanes[i], active, frames, counts[0], counts[1], counts[2]}};
            check(needs(plan(n), counted(&lane, lanes[i], active, frames)), "a plan by counting");
        }
}

static void check_counted(void)
{
    static const uint32_t frames[] = {0, 1, 5, 64, SHAPER_MAX_FRAMES};
    static const uint32_t counts[][SHAPER_DESIGNS] = {
        {10, 6, 5}, {1, 1, 1}, {12, 12, 12}, {1, 2, 4}, {12, 1, 7}, {3, 11, 1}};
    for (unsigned f = 0; f < COUNT_OF(factors); f++)
        for (unsigned i = 0; i < COUNT_OF(frames); i++)
            for (unsigned c = 0; c < COUNT_OF(counts); c++)
                check_lanes(factors[f], frames[i], counts[c]);
}

/* The five lengths are those of shaper.h's macros. */
static void check_macros(void)
{
    static const uint32_t frames[] = {0, 1, 31, 32, 33, 1000, SHAPER_MAX_FRAMES};
    for (uint32_t lanes = 1; lanes <= SHAPER_MAX_LANES; lanes++)
        for (unsigned f = 0; f < COUNT_OF(factors); f++)
            for (unsigned i = 0; i < COUNT_OF(frames); i++) {
                struct shaper_needs p = plan((struct numbers){{factors[f], lanes, lanes / 2, frames[i], 10, 6, 5}});
                check(p.work == SHAPER_WORK(frames[i], factors[f], lanes) && p.state == SHAPER_STATE(lanes)
                        && p.pairs == SHAPER_PAIRS(lanes) && p.fm == SHAPER_FM(lanes) && p.last == SHAPER_LAST(lanes),
                    "a plan by the length macros");
            }
}

/* A block's cells on the heap, each buffer of just its length, and a copy of them. All cells have 4 bytes. */
struct memory {
    void *cells[FIELD_END], *before[FIELD_END];
};

static void *some(size_t size)
{
    void *cells = malloc(size);
    if (cells == NULL && size != 0) {
        fprintf(stderr, "no memory\n");
        exit(1);
    }
    return cells;
}

/* Fractions below 1 with either sign, or words. */
static void fill(void *cells, size_t length, int is_float, uint32_t *seed)
{
    for (size_t i = 0; i < length; i++) {
        *seed = *seed * 1664525u + 1013904223u;
        float x = (float)(*seed >> 8) / 8388608.0f - 1.0f;
        memcpy((char *)cells + 4 * i, is_float ? (const void *)&x : (const void *)seed, 4);
    }
}

static void take(struct memory *m, struct shaper_block *b)
{
    uint32_t seed = 0x5eed;
    for (unsigned field = 0; field < FIELD_END; field++) {
        const size_t length = *length_of(b, field);
        m->cells[field] = some(4 * length);
        m->before[field] = some(4 * length);
        fill(m->cells[field], length, field != WORDS && field != STEPS, &seed);
    }
    for (unsigned i = 0; i < SHAPER_SLOTS; i++) {
        b->slot[i].base.cells = m->cells[BASE0 + i];
        b->slot[i].mod.cells = m->cells[MOD0 + i];
        b->slot[i].source.cells = m->cells[SOURCE0 + i];
    }
    b->curve.cells = m->cells[CURVE], b->cycle.cells = m->cells[CYCLE];
    b->words.cells = m->cells[WORDS], b->steps.cells = m->cells[STEPS];
    b->inner.cells = m->cells[INNER], b->stretch.cells = m->cells[STRETCH], b->add.cells = m->cells[ADD];
    b->output.cells = m->cells[OUTPUT], b->work.cells = m->cells[WORK];
    b->pairs.cells = m->cells[PAIRS], b->fm.cells = m->cells[FM];
    b->last.cells = m->cells[LAST], b->state.cells = m->cells[STATE];
}

static void give_back(struct memory *m)
{
    for (unsigned field = 0; field < FIELD_END; field++) {
        free(m->cells[field]);
        free(m->before[field]);
    }
}

static void keep(struct memory *m, struct shaper_block *b)
{
    for (unsigned field = 0; field < FIELD_END; field++)
        if (*length_of(b, field) != 0)
            memcpy(m->before[field], m->cells[field], 4 * *length_of(b, field));
}

static int is_kept(const struct memory *m, struct shaper_block *b)
{
    for (unsigned field = 0; field < FIELD_END; field++) {
        const size_t length = *length_of(b, field);
        if (length != 0 && memcmp(m->cells[field], m->before[field], 4 * length) != 0)
            return 0;
    }
    return 1;
}

/* A block of these numbers: five lengths by its plan, the others by the macros. */
static struct shaper_block planned(struct numbers n, uint32_t mode0, uint32_t mode1)
{
    const uint32_t factor = n.of[FACTOR], lanes = n.of[LANES], frames = n.of[FRAMES];
    const size_t host = SHAPER_MOD(frames, lanes), span = SHAPER_SPAN(frames, lanes);
    struct shaper_block b = {
        .factor = factor, .lanes = lanes, .active = n.of[ACTIVE], .frames = frames, .rate = 48000,
        .slot[0] = {mode0, 0.5f, {NULL, SHAPER_BASE(lanes)}, {NULL, host}, {NULL, host}},
        .slot[1] = {mode1, 0.25f, {NULL, SHAPER_BASE(lanes)}, {NULL, host}, {NULL, host}},
        .curve = {NULL, SHAPER_CURVE}, .cycle = {NULL, SHAPER_CYCLE},
        .words = {NULL, SHAPER_WORDS(frames, factor, lanes)}, .steps = {NULL, SHAPER_STEPS(frames, factor, lanes)},
        .inner = {NULL, span}, .stretch = {NULL, span}, .add = {NULL, span},
        .output = {NULL, SHAPER_OUTPUT(frames, lanes)}};
    const struct shaper_needs p = shaper_plan_block(&b);
    check(needs(p, plan(n)), "the plan of a block");
    b.work.length = p.work, b.state.length = p.state, b.pairs.length = p.pairs, b.fm.length = p.fm;
    b.last.length = p.last;
    return b;
}

/* Prepares and runs the block in one range. Its five buffers are as planned, or one of them is a number shorter: then
 * the run turns it down and all buffers are as before. */
static void check_run(struct shaper_block b, unsigned field)
{
    struct memory m;
    if (field != FIELD_END)
        *length_of(&b, field) -= 1;
    take(&m, &b);
    check(answered(shaper_prepare_block(&b), SHAPER_ACCEPTED, b.frames), "the spans of a planned block");
    keep(&m, &b);
    const struct shaper_answer answer = shaper_run_block(&b, 0, b.frames);
    if (field == FIELD_END) {
        check(answered(answer, SHAPER_ACCEPTED, b.frames), "a block with what is planned");
    } else {
        check(prepare_refusal(field) == SHAPER_ACCEPTED && answered(answer, run_refusal(field), 0),
            "a buffer that is a number shorter than planned");
        check(is_kept(&m, &b), "what a refused run was lent");
    }
    give_back(&m);
}

/* Modes that use the reads, the pairs, the FM offsets and `last`. */
static void check_runs(void)
{
    static const uint32_t modes[][SHAPER_SLOTS] = {
        {SHAPER_ODD_EVEN, SHAPER_ODD_EVEN}, {SHAPER_FM1, SHAPER_LOW_PASS}, {SHAPER_HIGH_PASS, SHAPER_FM_LIN2},
        {SHAPER_PD_SELF, SHAPER_HARD_CLIP}};
    static const struct numbers blocks[] = {
        {{1, 1, 1, 0, 10, 6, 5}}, {{8, 5, 3, 0, 10, 6, 5}}, {{1, 3, 2, 5, 10, 6, 5}}, {{1, 1, 1, 1, 10, 6, 5}},
        {{2, 1, 1, 1, 10, 6, 5}}, {{2, 7, 7, 33, 10, 6, 5}}, {{4, 2, 0, 100, 10, 6, 5}}, {{4, 3, 1, 32, 10, 6, 5}},
        {{8, 8, 8, 64, 10, 6, 5}}, {{8, 64, 64, 2, 10, 6, 5}}, {{1, 64, 0, 0, 10, 6, 5}},
        {{2, 1, 1, SHAPER_MAX_FRAMES, 10, 6, 5}}};
    static const unsigned fields[] = {WORK, STATE, PAIRS, FM, LAST};
    for (unsigned i = 0; i < COUNT_OF(blocks); i++)
        for (unsigned k = 0; k < COUNT_OF(modes); k++) {
            struct shaper_block b = planned(blocks[i], modes[k][0], modes[k][1]);
            check_run(b, FIELD_END);
            for (unsigned f = 0; f < COUNT_OF(fields); f++)
                if (*length_of(&b, fields[f]) != 0)
                    check_run(b, fields[f]);
        }
}

int main(void)
{
    check_values();
    check_refusals();
    check_counted();
    check_macros();
    check_runs();
    return finish();
}
