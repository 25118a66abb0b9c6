/* A block's calls by number, for tests that go over their arguments: the numbers, and buffers on the heap, of exactly
 * the lengths that a call is told, so that valgrind sees the library step past one. */
#ifndef CALLS_H
#define CALLS_H

#include "check.h"

#include <stdlib.h>

enum number {
    MODE0, MODE1, FACTOR, LANES, ACTIVE, LANE, FRAMES, FIRST, COUNT, ASKED_FIRST, ASKED, RATE, COUNT0, COUNT1, COUNT2,
    STEP, NUMBER_END
};

enum buffer {
    COEFS, NUMBERS, BASE0, BASE1, MOD0, MOD1, SOURCE0, SOURCE1, CURVE, CYCLE, WORDS, STEPS, INNER, STRETCH, ADD, OUTPUT,
    WORK, PAIRS, FM, LAST, STATE, BUFFER, BUFFER_END
};

enum kind { DECIMATE, PREPARE, STRETCH_OF, RUN, LANE_RUN, KIND_END };

/* A call's arguments, but for the characters, which are these. */
struct call {
    uint32_t n[NUMBER_END];
    void *cells[BUFFER_END];
    size_t length[BUFFER_END];
};

static const float CHARACTER0 = 0.5f, CHARACTER1 = 0.25f;

#define BIT(place) (1u << (place))

static const unsigned SIZES = BIT(FACTOR) | BIT(LANES) | BIT(ACTIVE) | BIT(FRAMES);
static const unsigned RANGE = BIT(FIRST) | BIT(COUNT);
static const unsigned COUNTS = BIT(COUNT0) | BIT(COUNT1) | BIT(COUNT2);
static const unsigned OPTIONAL = BIT(MOD0) | BIT(MOD1) | BIT(SOURCE0) | BIT(SOURCE1);
static const unsigned SPANS = BIT(INNER) | BIT(STRETCH) | BIT(ADD);

static unsigned numbers_of(enum kind kind)
{
    const unsigned run = SIZES | RANGE | COUNTS | BIT(MODE0) | BIT(MODE1) | BIT(RATE);
    switch (kind) {
    case DECIMATE: return SIZES | COUNTS;
    case PREPARE: return SIZES | BIT(MODE0) | BIT(MODE1) | BIT(RATE);
    case STRETCH_OF: return SIZES | RANGE | BIT(LANE) | BIT(ASKED_FIRST) | BIT(ASKED) | BIT(STEP);
    case LANE_RUN: return run | BIT(LANE);
    default: return run;
    }
}

static unsigned read_by(enum kind kind)
{
    const unsigned inputs = OPTIONAL | BIT(BASE0) | BIT(BASE1) | BIT(CURVE);
    switch (kind) {
    case DECIMATE: return BIT(COEFS);
    case PREPARE: return inputs;
    case STRETCH_OF: return BIT(STRETCH) | BIT(ADD);
    default: return inputs | BIT(COEFS) | BIT(NUMBERS) | BIT(CYCLE) | BIT(WORDS) | BIT(STEPS) | BIT(INNER);
    }
}

static unsigned written_by(enum kind kind)
{
    switch (kind) {
    case DECIMATE: return BIT(BUFFER) | BIT(STATE);
    case PREPARE: return SPANS;
    case STRETCH_OF: return 0;
    default: return BIT(OUTPUT) | BIT(WORK) | BIT(PAIRS) | BIT(FM) | BIT(LAST) | BIT(STATE);
    }
}

/* The header's lengths. */
static size_t asked(unsigned b, const uint32_t *n)
{
    uint32_t frames = n[FRAMES], factor = n[FACTOR], lanes = n[LANES];
    switch (b) {
    case COEFS: return SHAPER_COEFS;
    case NUMBERS: return SHAPER_NUMBERS;
    case BASE0: case BASE1: return SHAPER_BASE(lanes);
    case MOD0: case MOD1: return SHAPER_MOD(frames, lanes);
    case SOURCE0: case SOURCE1: return SHAPER_SOURCE(frames, lanes);
    case CURVE: return SHAPER_CURVE;
    case CYCLE: return SHAPER_CYCLE;
    case WORDS: return SHAPER_WORDS(frames, factor, lanes);
    case STEPS: return SHAPER_STEPS(frames, factor, lanes);
    case INNER: case STRETCH: case ADD: return SHAPER_SPAN(frames, lanes);
    case OUTPUT: return SHAPER_OUTPUT(frames, lanes);
    case WORK: return SHAPER_WORK(n[COUNT], factor, lanes);
    case PAIRS: return SHAPER_PAIRS(lanes);
    case FM: return SHAPER_FM(lanes);
    case LAST: return SHAPER_LAST(lanes);
    case STATE: return SHAPER_STATE(lanes);
    default: return SHAPER_BUFFER(frames, factor, lanes);
    }
}

#define LENT(b) c->cells[b], c->length[b]

static struct shaper_answer call(enum kind kind, const struct call *c)
{
    const uint32_t *n = c->n;
    struct shaper_valued v;
    switch (kind) {
    case DECIMATE:
        return shaper_decimate(n[FACTOR], n[LANES], n[ACTIVE], n[FRAMES], n[COUNT0], n[COUNT1], n[COUNT2], LENT(COEFS),
            LENT(BUFFER), LENT(STATE));
    case PREPARE:
        return shaper_prepare(n[MODE0], n[MODE1], n[FACTOR], n[LANES], n[ACTIVE], n[FRAMES], n[RATE], LENT(BASE0),
            LENT(BASE1), LENT(MOD0), LENT(MOD1), LENT(SOURCE0), LENT(SOURCE1), LENT(CURVE), LENT(INNER), LENT(STRETCH),
            LENT(ADD));
    case STRETCH_OF:
        v = shaper_stretch(n[FACTOR], n[LANES], n[ACTIVE], n[LANE], n[FRAMES], n[FIRST], n[COUNT], n[ASKED_FIRST],
            n[ASKED], n[STEP], LENT(STRETCH), LENT(ADD));
        check(v.number == SHAPER_ACCEPTED ? v.value >= 1.0f : bits(v.value) == 0, "the value of a stretch");
        return (struct shaper_answer){v.number, v.frames};
    case LANE_RUN:
        return shaper_lane_run(n[MODE0], n[MODE1], CHARACTER0, CHARACTER1, n[FACTOR], n[LANES], n[ACTIVE], n[LANE],
            n[FRAMES], n[FIRST], n[COUNT], n[RATE], n[COUNT0], n[COUNT1], n[COUNT2], LENT(COEFS), LENT(NUMBERS),
            LENT(BASE0), LENT(BASE1), LENT(MOD0), LENT(MOD1), LENT(SOURCE0), LENT(SOURCE1), LENT(CURVE), LENT(CYCLE),
            LENT(WORDS), LENT(STEPS), LENT(INNER), LENT(OUTPUT), LENT(WORK), LENT(PAIRS), LENT(FM), LENT(LAST),
            LENT(STATE));
    default:
        return shaper_block_run(n[MODE0], n[MODE1], CHARACTER0, CHARACTER1, n[FACTOR], n[LANES], n[ACTIVE], n[FRAMES],
            n[FIRST], n[COUNT], n[RATE], n[COUNT0], n[COUNT1], n[COUNT2], LENT(COEFS), LENT(NUMBERS), LENT(BASE0),
            LENT(BASE1), LENT(MOD0), LENT(MOD1), LENT(SOURCE0), LENT(SOURCE1), LENT(CURVE), LENT(CYCLE), LENT(WORDS),
            LENT(STEPS), LENT(INNER), LENT(OUTPUT), LENT(WORK), LENT(PAIRS), LENT(FM), LENT(LAST), LENT(STATE));
    }
}

#undef LENT

/* The first cells of a buffer are the same at any length. Amounts are percent, words any with the phase's end among
 * them, which reads from the cycle's last cell to its first, and the curve's last cells, and the rest from -1 to 1. */
static void fill(unsigned b, void *cells, size_t length)
{
    uint32_t s = 0x5eed + b;
    for (size_t i = 0; i < length; i++) {
        s = s * 1664525u + 1013904223u;
        float x = (float)(s >> 8) / 8388608.0f - 1.0f;
        if (b == BASE0 || b == BASE1)
            x = 50.0f + 50.0f * x;
        if (b == COEFS && i < SHAPER_COEFS)
            x = shaper_card_coefs[i];
        if (b == NUMBERS && i < SHAPER_NUMBERS)
            x = shaper_numbers[i];
        uint32_t word = i % 8 == 7 ? UINT32_MAX : s;
        memcpy((char *)cells + 4 * i, b == WORDS || b == STEPS ? (void *)&word : (void *)&x, 4);
    }
}

/* A cell of any buffer is 4 bytes. */
static void *some(size_t cells)
{
    void *heap = malloc(4 * cells);
    if (heap == NULL) {
        fprintf(stderr, "no memory\n");
        exit(1);
    }
    return heap;
}

/* How a buffer is lent: cells more than asked for or, below 0, fewer; and its place on the heap moved by cells. */
struct how {
    int more, moved;
};

static const struct how EXACT = {0, 0};

/* An empty buffer is NULL. */
static void lend(struct call *c, unsigned b, struct how how)
{
    c->length[b] = asked(b, c->n) + (size_t)how.more;
    c->cells[b] = NULL;
    if (c->length[b] == 0)
        return;
    c->cells[b] = (char *)some(c->length[b] + (size_t)how.moved) + 4 * how.moved;
    fill(b, c->cells[b], c->length[b]);
}

static struct call lent(enum kind kind, const uint32_t *n, struct how how)
{
    struct call c = {.length = {0}};
    memcpy(c.n, n, sizeof c.n);
    for (unsigned b = 0; b < BUFFER_END; b++)
        if ((read_by(kind) | written_by(kind)) & BIT(b))
            lend(&c, b, how);
    return c;
}

static void take_back(struct call *c, unsigned b, struct how how)
{
    if (c->cells[b] != NULL)
        free((char *)c->cells[b] - 4 * how.moved);
    c->cells[b] = NULL;
    c->length[b] = 0;
}

static void take_all_back(struct call *c, struct how how)
{
    for (unsigned b = 0; b < BUFFER_END; b++)
        take_back(c, b, how);
}

/* Whether the cells of `b` from `from` on are as they were lent. */
static int is_left(const struct call *c, unsigned b, size_t from)
{
    if (c->length[b] <= from)
        return 1;
    char *fresh = some(c->length[b]);
    fill(b, fresh, c->length[b]);
    int same = memcmp(fresh + 4 * from, (char *)c->cells[b] + 4 * from, 4 * (c->length[b] - from)) == 0;
    free(fresh);
    return same;
}

/* Numbers of a right call: what no test changes, two modes, and a block's factor, lanes, active lanes, frames and
 * range, `shape`, with the last active lane. */
static void set_numbers(uint32_t *n, uint32_t mode0, uint32_t mode1, const uint32_t *shape)
{
    const uint32_t numbers[NUMBER_END] = {
        [MODE0] = mode0, [MODE1] = mode1, [FACTOR] = shape[0], [LANES] = shape[1], [ACTIVE] = shape[2],
        [LANE] = shape[2] - 1, [FRAMES] = shape[3], [FIRST] = shape[4], [COUNT] = shape[5], [ASKED] = 1,
        [RATE] = 48000, [COUNT0] = shaper_card_counts[0], [COUNT1] = shaper_card_counts[1],
        [COUNT2] = shaper_card_counts[2], [STEP] = UINT32_MAX};
    memcpy(n, numbers, sizeof numbers);
}

#endif
