/* The checks of one call's boundary: exact, longer and unaligned buffers, NULL, every buffer too short, the largest
 * numbers. A test that includes it defines _DEFAULT_SOURCE first, for MAP_ANONYMOUS. */
#ifndef BOUNDARY_H
#define BOUNDARY_H

#include "calls.h"

#include <sys/mman.h>

static uint32_t frames_of(enum kind kind, const uint32_t *n)
{
    return kind == DECIMATE || kind == PREPARE ? n[FRAMES] : n[COUNT];
}

/* A call that is right, with exact buffers, and with longer ones that are aligned to a cell and no more: the same
 * cells, and none past them. */
static void check_accepted(enum kind kind, const uint32_t *n)
{
    static const struct how others[] = {{1, 1}, {3, 3}};
    struct call exact = lent(kind, n, EXACT);
    check(answered(call(kind, &exact), SHAPER_ACCEPTED, frames_of(kind, n)), "a right call");
    for (unsigned i = 0; i < 2; i++) {
        struct call longer = lent(kind, n, others[i]);
        check(answered(call(kind, &longer), SHAPER_ACCEPTED, frames_of(kind, n)), "longer buffers");
        int same = 1, left = 1;
        for (unsigned b = 0; b < BUFFER_END; b++) {
            if (exact.length[b] != 0)
                same &= memcmp(exact.cells[b], longer.cells[b], 4 * exact.length[b]) == 0;
            left &= is_left(&longer, b, BIT(b) & written_by(kind) ? asked(b, n) : 0);
        }
        check(same, "the cells of longer buffers");
        check(left, "the cells past what is asked for, and those that are read");
        take_all_back(&longer, others[i]);
    }
    take_all_back(&exact, EXACT);
}

/* The refusals that each kind has answered; those that every kind has, and those of a run. */
static unsigned seen[KIND_END];
static const unsigned SIZED =
    BIT(SHAPER_BAD_FACTOR) | BIT(SHAPER_BAD_LANES) | BIT(SHAPER_BAD_FRAMES) | BIT(SHAPER_SHORT_READ);
static const unsigned OF_RUN =
    SIZED | BIT(SHAPER_BAD_MODE) | BIT(SHAPER_BAD_RATE) | BIT(SHAPER_BAD_DESIGN) | BIT(SHAPER_SHORT_WRITE);

/* A call that is turned down leaves every cell. */
static void check_refused(enum kind kind, struct call *c, uint32_t number)
{
    struct shaper_answer answer = call(kind, c);
    int left = 1;
    for (unsigned b = 0; b < BUFFER_END; b++)
        left &= is_left(c, b, 0);
    check(answered(answer, number, 0), "the number of a refusal");
    check(left, "what a refused call was lent");
    seen[kind] |= BIT(answer.number);
}

/* Each buffer in turn a cell too short, and NULL. */
static void check_short(enum kind kind, const uint32_t *n)
{
    struct call c = lent(kind, n, EXACT);
    for (unsigned b = 0; b < BUFFER_END; b++) {
        if (asked(b, n) == 0 || ((read_by(kind) | written_by(kind)) & BIT(b)) == 0)
            continue;
        uint32_t number = BIT(b) & written_by(kind) ? SHAPER_SHORT_WRITE : SHAPER_SHORT_READ;
        take_back(&c, b, EXACT);
        if ((BIT(b) & OPTIONAL) == 0)
            check_refused(kind, &c, number);
        lend(&c, b, (struct how){-1, 0});
        if (c.length[b] != 0 || (BIT(b) & OPTIONAL) == 0)
            check_refused(kind, &c, number);
        take_back(&c, b, EXACT);
        lend(&c, b, EXACT);
    }
    take_all_back(&c, EXACT);
}

/* Any of the optional buffers may be NULL. */
static void check_absent(enum kind kind, const uint32_t *n)
{
    for (unsigned absent = 0; absent < 16; absent++) {
        struct call c = lent(kind, n, EXACT);
        for (unsigned b = MOD0; b <= SOURCE1; b++)
            if (absent & BIT(b - MOD0))
                take_back(&c, b, EXACT);
        check(answered(call(kind, &c), SHAPER_ACCEPTED, frames_of(kind, n)), "absent modulations and sources");
        take_all_back(&c, EXACT);
    }
}

/* The line of a number that is too large; a step never is. */
static uint32_t line(unsigned number)
{
    switch (number) {
    case MODE0: case MODE1: return SHAPER_BAD_MODE;
    case FACTOR: return SHAPER_BAD_FACTOR;
    case LANES: case ACTIVE: case LANE: return SHAPER_BAD_LANES;
    case FRAMES: case FIRST: case COUNT: case ASKED_FIRST: case ASKED: return SHAPER_BAD_FRAMES;
    case RATE: return SHAPER_BAD_RATE;
    case COUNT0: case COUNT1: case COUNT2: return SHAPER_BAD_DESIGN;
    default: return SHAPER_ACCEPTED;
    }
}

/* Buffers that nobody may read or write: a number that is too large is seen before any cell. */
static void check_largest(enum kind kind, const uint32_t *n)
{
    const size_t room = (size_t)1 << 20;
    char *closed = mmap(NULL, BUFFER_END * room, PROT_NONE, MAP_PRIVATE | MAP_ANONYMOUS, -1, 0);
    if (closed == MAP_FAILED)
        exit(1);
    for (unsigned number = 0; number < NUMBER_END; number++) {
        if ((numbers_of(kind) & BIT(number)) == 0 || line(number) == SHAPER_ACCEPTED)
            continue;
        struct call c = {.length = {0}};
        memcpy(c.n, n, sizeof c.n);
        c.n[number] = UINT32_MAX;
        check(answered(call(kind, &c), line(number), 0), "the largest number, and NULL");
        for (unsigned b = 0; b < BUFFER_END; b++) {
            c.cells[b] = closed + b * room;
            c.length[b] = room / 4;
        }
        struct shaper_answer answer = call(kind, &c);
        check(answered(answer, line(number), 0), "the largest number, and cells that nobody may touch");
        seen[kind] |= BIT(answer.number);
    }
    munmap(closed, BUFFER_END * room);
}

/* All numbers the largest, and NULL: the first line that the call has. */
static void check_all_largest(enum kind kind)
{
    struct call c = {.length = {0}};
    memset(c.n, 0xff, sizeof c.n);
    check(answered(call(kind, &c), BIT(MODE0) & numbers_of(kind) ? SHAPER_BAD_MODE : SHAPER_BAD_FACTOR, 0),
        "all numbers the largest");
}

/* All of these, in blocks of several shapes. */
static void check_boundary(enum kind kind)
{
    static const uint32_t shapes[][6] = {
        {1, 1, 1, 1, 0, 1}, {2, 3, 2, 33, 31, 2}, {4, 5, 5, 65, 1, 63}, {8, 64, 63, 31, 30, 1}, {1, 64, 64, 32, 0, 32},
        {8, 2, 1, 97, 0, 97}};
    uint32_t n[NUMBER_END];
    for (unsigned i = 0; i < COUNT_OF(shapes); i++) {
        set_numbers(n, SHAPER_FM_EXP1, SHAPER_HARD_CLIP, shapes[i]);
        check_accepted(kind, n);
        check_short(kind, n);
        check_largest(kind, n);
        check_all_largest(kind);
        if (read_by(kind) & OPTIONAL)
            check_absent(kind, n);
    }
}

/* Every mode in either slot, beside Off, and beside the mode that hears the lane's last sample. */
static void check_modes(enum kind kind)
{
    static const uint32_t shape[] = {2, 3, 2, 33, 1, 32};
    uint32_t n[NUMBER_END];
    for (uint32_t mode = 0; mode < SHAPER_MODES; mode++)
        for (uint32_t other = SHAPER_OFF; other <= SHAPER_PD_SELF; other += SHAPER_PD_SELF) {
            set_numbers(n, mode, other, shape);
            check_accepted(kind, n);
            set_numbers(n, other, mode, shape);
            check_accepted(kind, n);
        }
}

#endif
