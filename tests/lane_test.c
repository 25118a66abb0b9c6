/* One lane's share of a block run (shaper_lane_run, shaper_run_lane; request E5): lanes in any order and one lane alone
 * against the run, what work keeps, ranges by both kinds of calls, empty ranges, every refusal and their order, and the
 * call's boundary. Under valgrind also that one lane's call reads no cell of another lane. Prints how many checks pass,
 * "P of T". */
#define _DEFAULT_SOURCE /* MAP_ANONYMOUS */
#include "boundary.h"
#include "cycle_model.h"
#include "draws.h"
#include "shaper_block.h"

#include <math.h>

#if __has_include(<valgrind/memcheck.h>)
#include <valgrind/memcheck.h>
#else
#define RUNNING_ON_VALGRIND 0
#define VALGRIND_MAKE_MEM_NOACCESS(cells, bytes) ((void)(cells), (void)(bytes))
#define VALGRIND_MAKE_MEM_DEFINED(cells, bytes) ((void)(cells), (void)(bytes))
#endif

/* Infinities, NaN and a number near the largest, in the last active lane's column of one buffer; BUFFER_END is none. A
 * table has no columns, and all lanes may read them there. */
static void spoil(struct call *c, unsigned b)
{
    static const float wild[] = {INFINITY, NAN, -INFINITY, 3e38f};
    const size_t end = b == BUFFER_END ? 0 : asked(b, c->n), lanes = c->n[LANES];
    for (size_t i = c->n[ACTIVE] - 1; i < end; i += lanes * (1 + drawn(3)))
        ((float *)c->cells[b])[i] = wild[drawn(COUNT_OF(wild))];
}

/* A block's buffers, its spans prepared. */
static struct call prepared(const uint32_t *n, struct how how, unsigned spoilt)
{
    struct call c = lent(RUN, n, how);
    lend(&c, STRETCH, how), lend(&c, ADD, how);
    spoil(&c, spoilt);
    check(answered(call(PREPARE, &c), SHAPER_ACCEPTED, n[FRAMES]), "the spans of a block");
    return c;
}

static int is_written(unsigned b)
{
    return (written_by(LANE_RUN) & BIT(b)) != 0;
}

/* The same call, with written buffers of its own that have the same cells. */
static struct call twin(const struct call *c)
{
    struct call other = *c;
    for (unsigned b = 0; b < BUFFER_END; b++)
        if (is_written(b) && c->length[b] != 0)
            other.cells[b] = memcpy(some(c->length[b]), c->cells[b], 4 * c->length[b]);
    return other;
}

static void drop(struct call *c)
{
    for (unsigned b = 0; b < BUFFER_END; b++)
        if (is_written(b))
            take_back(c, b, EXACT);
}

/* Whether a range is accepted: by a run, or a lane's share of it. */
static int ran(struct call c, enum kind kind, uint32_t lane, uint32_t first, uint32_t count)
{
    c.n[LANE] = lane, c.n[FIRST] = first, c.n[COUNT] = count;
    return answered(call(kind, &c), SHAPER_ACCEPTED, count);
}

static void mark(const struct call *c, unsigned b, size_t from, size_t to, int is_closed)
{
    float *cells = c->cells[b];
    if (from < to && is_closed)
        VALGRIND_MAKE_MEM_NOACCESS(cells + from, 4 * (to - from));
    else if (from < to)
        VALGRIND_MAKE_MEM_DEFINED(cells + from, 4 * (to - from));
}

/* Closes to valgrind what a lane's call may not even read, the other lanes' cells and those past what is asked for, or
 * opens it again. A lane has a cell of each row, and all of a table. */
static void mark_others(const struct call *c, int is_closed)
{
    static const unsigned tables = BIT(COEFS) | BIT(NUMBERS) | BIT(CURVE) | BIT(CYCLE);
    if (!RUNNING_ON_VALGRIND)
        return;
    for (unsigned b = 0; b < BUFFER_END; b++) {
        const int is_table = (tables & BIT(b)) != 0;
        const size_t end = c->length[b] == 0 ? 0 : asked(b, c->n);
        const size_t row = is_table ? end : c->n[LANES], own = is_table ? end : 1;
        size_t from = 0;
        for (size_t at = is_table ? 0 : c->n[LANE]; at < end; at += row) {
            mark(c, b, from, at, is_closed);
            from = at + own;
        }
        mark(c, b, from, c->length[b], is_closed);
    }
}

/* A lane's share of a range. Under valgrind the run fails where it touches another cell. */
static int ran_alone(struct call c, uint32_t lane, uint32_t first, uint32_t count)
{
    c.n[LANE] = lane, c.n[FIRST] = first, c.n[COUNT] = count;
    mark_others(&c, 1);
    const int right = ran(c, LANE_RUN, lane, first, count);
    mark_others(&c, 0);
    return right;
}

/* The same cells in every written buffer but `other`, also past what is asked for; NaN is one value. */
static int agree(const struct call *a, const struct call *b, unsigned other)
{
    int same = 1;
    for (unsigned i = 0; i < BUFFER_END; i++)
        if (is_written(i) && i != other && a->length[i] != 0)
            same &= are_same(a->cells[i], b->cells[i], a->length[i]);
    return same;
}

/* The same patterns in every written buffer. */
static int is_untouched(const struct call *c, const struct call *before)
{
    int same = 1;
    for (unsigned b = 0; b < BUFFER_END; b++)
        if (is_written(b) && before->length[b] != 0)
            same &= memcmp(c->cells[b], before->cells[b], 4 * before->length[b]) == 0;
    return same;
}

enum way { UP, DOWN, SHUFFLED, AGAIN, WAY_END };

static void make_order(uint32_t *order, uint32_t active, enum way way)
{
    for (uint32_t i = 0; i < active; i++) {
        const uint32_t at = way >= SHUFFLED ? drawn(i + 1) : i;
        order[i] = order[at];
        order[at] = way == DOWN ? active - 1 - i : i;
    }
}

/* Once for each active lane, in any order. */
static void check_orders(const struct call *start, const struct call *whole)
{
    const uint32_t *n = start->n;
    for (unsigned way = UP; way < WAY_END; way++) {
        struct call c = twin(start);
        uint32_t order[SHAPER_MAX_LANES] = {0};
        int right = 1;
        make_order(order, n[ACTIVE], way);
        for (uint32_t i = 0; i < n[ACTIVE]; i++)
            right &= ran(c, LANE_RUN, order[i], n[FIRST], n[COUNT]);
        check(right, "the answers of all lanes");
        check(agree(&c, whole, BUFFER_END), "all lanes in an order");
        drop(&c);
    }
}

/* A buffer after one lane's call: that lane's cells as the run leaves them, and all others with their patterns. */
static int is_share(const struct call *c, const struct call *start, const struct call *whole, unsigned b, uint32_t lane)
{
    const float *got = c->cells[b], *before = start->cells[b], *want = whole->cells[b];
    const size_t end = asked(b, c->n), lanes = c->n[LANES];
    int right = 1;
    for (size_t i = 0; i < c->length[b]; i++)
        right &= i < end && i % lanes == lane ? is_same(got[i], want[i]) : bits(got[i]) == bits(before[i]);
    return right;
}

/* What shaper.h says of work after the call: the lane's output is in its first rows. */
static int is_in_work(const struct call *c, uint32_t lane)
{
    const float *work = c->cells[WORK], *output = c->cells[OUTPUT];
    const size_t lanes = c->n[LANES], first = c->n[FIRST];
    int right = 1;
    for (size_t k = 0; k < c->n[COUNT]; k++)
        right &= is_same(work[k * lanes + lane], output[(first + k) * lanes + lane]);
    return right;
}

/* One lane alone: each in turn. */
static void check_alone(const struct call *start, const struct call *whole)
{
    const uint32_t *n = start->n;
    for (uint32_t lane = 0; lane < n[ACTIVE]; lane++) {
        struct call c = twin(start);
        int right = 1;
        check(ran_alone(c, lane, n[FIRST], n[COUNT]), "the answer of a lane");
        for (unsigned b = 0; b < BUFFER_END; b++)
            if (is_written(b))
                right &= is_share(&c, start, whole, b, lane);
        check(right, "the cells of one lane and of the others");
        check(is_in_work(&c, lane), "a lane's output in its column of work");
        drop(&c);
    }
}

/* Floats of the runs' output that were NaN, infinite and finite. */
static unsigned nans, infinities, finites;

static void count_floats(const struct call *c)
{
    const float *output = c->cells[OUTPUT];
    for (size_t i = 0; i < c->length[OUTPUT]; i++) {
        nans += isnan(output[i]) != 0;
        infinities += isinf(output[i]) != 0;
        finites += isfinite(output[i]) != 0;
    }
}

static void check_block(const uint32_t *n, struct how how, unsigned spoilt)
{
    struct call start = prepared(n, how, spoilt), whole = twin(&start);
    check(ran(whole, RUN, 0, n[FIRST], n[COUNT]), "the answer of a run");
    check_orders(&start, &whole);
    check_alone(&start, &whole);
    count_floats(&whole);
    drop(&whole);
    take_all_back(&start, EXACT);
}

/* Every mode in either slot beside modes of each kind. Shapes, what is spoilt, and exact or longer buffers take turns;
 * the counts of these have no common factor, so that all their combinations occur. */
static void check_blocks(void)
{
    static const uint32_t others[] = {SHAPER_OFF, SHAPER_SYNC, SHAPER_ODD_EVEN, SHAPER_LOW_PASS, SHAPER_HARD_CLIP,
        SHAPER_FM1, SHAPER_PD_SELF, SHAPER_AM2};
    static const uint32_t shapes[][6] = {{1, 1, 1, 5, 0, 5}, {2, 2, 2, 7, 1, 5}, {4, 3, 2, 34, 31, 3},
        {8, 3, 3, 4, 0, 4}, {1, 5, 4, 40, 0, 40}, {2, 64, 63, 3, 0, 2}, {8, 64, 64, 2, 1, 1}};
    static const unsigned spoilt[] = {
        BUFFER_END, BASE0, MOD1, SOURCE0, BUFFER_END, SOURCE1, PAIRS, FM, LAST, STATE, CYCLE};
    static const struct how hows[] = {{0, 0}, {2, 0}};
    uint32_t n[NUMBER_END];
    for (unsigned turn = 0; turn < 2 * SHAPER_MODES * COUNT_OF(others); turn++) {
        const uint32_t mode = turn / 2 % SHAPER_MODES, other = others[turn / 2 / SHAPER_MODES];
        const uint32_t *shape = shapes[turn % COUNT_OF(shapes)];
        set_numbers(n, turn % 2 ? mode : other, turn % 2 ? other : mode, shape);
        check_block(n, hows[turn / COUNT_OF(shapes) % 2], spoilt[turn % COUNT_OF(spoilt)]);
    }
    check(nans > 1000 && infinities > 10 && finites > 100000, "NaN, infinities and others in what the runs made");
}

/* The longest block; and a rate, by which FM goes, and designs that no other check has. */
static void check_others(void)
{
    static const uint32_t longest[] = {1, 2, 2, SHAPER_MAX_FRAMES, 0, SHAPER_MAX_FRAMES};
    static const uint32_t short_one[] = {8, 3, 2, 9, 2, 6};
    uint32_t n[NUMBER_END];
    set_numbers(n, SHAPER_PINCH, SHAPER_HIGH_PASS, longest);
    check_block(n, EXACT, BUFFER_END);
    set_numbers(n, SHAPER_FM_LIN1, SHAPER_LOW_PASS, short_one);
    n[RATE] = 44100, n[COUNT0] = 3, n[COUNT1] = SHAPER_MAX_COUNT, n[COUNT2] = 1;
    check_block(n, EXACT, BUFFER_END);
}

/* Without slots a rendered sample is the cycle's read at its word. What shaper.h says that work keeps of them after the
 * call: all at factor 1, and above it those from the middle of the range on. */
static int is_kept(const struct call *c, uint32_t lane)
{
    const float *work = c->cells[WORK], *cycle = c->cells[CYCLE];
    const size_t factor = c->n[FACTOR], lanes = c->n[LANES], end = c->n[COUNT] * factor;
    const uint32_t *words = (const uint32_t *)c->cells[WORDS] + c->n[FIRST] * factor * lanes;
    int right = 1;
    for (size_t row = factor == 1 ? 0 : end / 2; row < end; row++)
        right &= is_same(work[row * lanes + lane], read_at(cycle, words[row * lanes + lane]));
    return right;
}

/* Every lane in ranges of a block of 70 frames, with a cycle of numbers and one that has NaN and infinities. */
static void check_reads(void)
{
    static const uint32_t ranges[][2] = {{0, 70}, {0, 1}, {31, 3}, {3, 30}, {33, 37}, {69, 1}, {5, 64}};
    static const uint32_t shapes[][6] = {{1, 3, 3, 70, 0, 70}, {2, 1, 1, 70, 0, 70}, {2, 3, 2, 70, 0, 70},
        {4, 5, 4, 70, 0, 70}, {8, 2, 2, 70, 0, 70}, {8, 4, 3, 70, 0, 70}};
    uint32_t n[NUMBER_END];
    for (unsigned i = 0; i < 2 * COUNT_OF(shapes); i++) {
        set_numbers(n, SHAPER_OFF, SHAPER_OFF, shapes[i / 2]);
        struct call c = prepared(n, EXACT, i % 2 ? CYCLE : BUFFER_END);
        for (unsigned k = 0; k < n[ACTIVE] * COUNT_OF(ranges); k++) {
            const uint32_t *range = ranges[k / n[ACTIVE]], lane = k % n[ACTIVE];
            c.n[FIRST] = range[0], c.n[COUNT] = range[1];
            check(ran_alone(c, lane, range[0], range[1]), "the answer of a lane without slots");
            check(is_in_work(&c, lane), "the output of a lane without slots, in work");
            check(is_kept(&c, lane), "the rendered samples that work keeps");
        }
        take_all_back(&c, EXACT);
    }
}

/* Ranges of a block of 70 frames, an empty one among them. */
static const uint32_t cuts[] = {1, 0, 7, 33, 13, 16};

enum { FRAMES_CUT = 70 };

/* A range by one run or by its lanes, the last one first. */
static int make_range(struct call c, int is_run, uint32_t first, uint32_t count)
{
    int right = 1;
    if (is_run)
        return ran(c, RUN, 0, first, count);
    for (uint32_t lane = c.n[ACTIVE]; lane-- > 0;)
        right &= ran(c, LANE_RUN, lane, first, count);
    return right;
}

/* Each range by a run where its bit is set, else by lanes. */
static struct call in_cuts(const struct call *start, unsigned runs)
{
    struct call c = twin(start);
    uint32_t first = 0;
    int right = 1;
    for (unsigned i = 0; i < COUNT_OF(cuts); i++) {
        right &= make_range(c, (runs & BIT(i)) != 0, first, cuts[i]);
        first += cuts[i];
    }
    check(right && first == FRAMES_CUT, "the answers of ranges");
    return c;
}

/* One lane through all ranges before the next lane starts. */
static struct call lane_by_lane(const struct call *start)
{
    struct call c = twin(start);
    int right = 1;
    for (uint32_t lane = 0; lane < c.n[ACTIVE]; lane++) {
        uint32_t first = 0;
        for (unsigned i = 0; i < COUNT_OF(cuts); i++) {
            right &= ran_alone(c, lane, first, cuts[i]);
            first += cuts[i];
        }
    }
    check(right, "the answers of a lane's ranges");
    return c;
}

static int are_all(const uint32_t *at, uint32_t active, uint32_t frame)
{
    for (uint32_t lane = 0; lane < active; lane++)
        if (at[lane] != frame)
            return 0;
    return 1;
}

/* Lanes by chance, each in ranges of its own, and runs where all of them happen to be as far; turned down in between:
 * a lane that is not active. */
static struct call by_chance(const struct call *start)
{
    struct call c = twin(start);
    uint32_t at[SHAPER_MAX_LANES] = {0};
    int right = 1;
    while (right && !are_all(at, c.n[ACTIVE], FRAMES_CUT)) {
        const uint32_t lane = drawn(c.n[ACTIVE]), first = at[lane], left = FRAMES_CUT - first;
        const uint32_t count = drawn(3) == 0 ? left : drawn(left < 20 ? left + 1 : 20);
        const int is_run = are_all(at, c.n[ACTIVE], first) && drawn(2) == 0;
        right = ran(c, is_run ? RUN : LANE_RUN, lane, first, count) && !ran(c, LANE_RUN, c.n[ACTIVE], first, count);
        for (uint32_t i = 0; i < c.n[ACTIVE]; i++)
            at[i] += is_run || i == lane ? count : 0;
    }
    check(right, "the answers of ranges by chance");
    return c;
}

/* Ranges by both kinds of calls. Work has what the ranges left there, and is compared where these were the same. */
static void check_ranges(const uint32_t *n, unsigned spoilt)
{
    struct call start = prepared(n, EXACT, spoilt), whole = twin(&start);
    const unsigned all = BIT(COUNT_OF(cuts)) - 1;
    struct call runs = in_cuts(&start, all);
    check(ran(whole, RUN, 0, 0, FRAMES_CUT) && agree(&runs, &whole, WORK), "a block in one run");
    for (unsigned some_runs = 0; some_runs < all; some_runs++) {
        struct call c = in_cuts(&start, some_runs);
        check(agree(&c, &whole, WORK) && agree(&c, &runs, BUFFER_END), "ranges by runs and by lanes");
        drop(&c);
    }
    struct call lanes = lane_by_lane(&start);
    check(agree(&lanes, &whole, WORK) && agree(&lanes, &runs, BUFFER_END), "one lane after the other");
    drop(&lanes);
    for (unsigned i = 0; i < 20; i++) {
        struct call c = by_chance(&start);
        check(agree(&c, &whole, WORK), "ranges by chance");
        drop(&c);
    }
    drop(&runs);
    drop(&whole);
    take_all_back(&start, EXACT);
}

/* Modes with all that a lane carries, at every factor. */
static void check_cut_blocks(void)
{
    static const uint32_t modes[][SHAPER_SLOTS] = {{SHAPER_SYNC, SHAPER_LOW_PASS}, {SHAPER_PD_SELF, SHAPER_HARD_CLIP},
        {SHAPER_FM1, SHAPER_AM1}, {SHAPER_HIGH_PASS, SHAPER_FM_EXP_SUB}, {SHAPER_FM_LIN2, SHAPER_FM_NOISE}};
    static const uint32_t shapes[][6] = {{1, 2, 2, FRAMES_CUT, 0, FRAMES_CUT}, {2, 3, 2, FRAMES_CUT, 0, FRAMES_CUT},
        {4, 1, 1, FRAMES_CUT, 0, FRAMES_CUT}, {8, 4, 3, FRAMES_CUT, 0, FRAMES_CUT}};
    uint32_t n[NUMBER_END];
    for (unsigned i = 0; i < COUNT_OF(modes) * COUNT_OF(shapes); i++) {
        const uint32_t *mode = modes[i % COUNT_OF(modes)];
        set_numbers(n, mode[0], mode[1], shapes[i % COUNT_OF(shapes)]);
        check_ranges(n, i % 3 == 0 ? SOURCE0 : BUFFER_END);
    }
}

/* An empty range is accepted wherever it stands, without work, and changes nothing; so is one of a block without
 * frames, all of whose buffers by frame are NULL. */
static void check_empty(void)
{
    static const uint32_t shapes[][6] = {
        {1, 1, 1, 9, 0, 0}, {2, 3, 2, 9, 4, 0}, {8, 64, 63, 9, 9, 0}, {4, 2, 2, 0, 0, 0}, {1, 3, 3, 0, 0, 0}};
    static const uint32_t modes[][SHAPER_SLOTS] = {
        {SHAPER_OFF, SHAPER_OFF}, {SHAPER_PD_SELF, SHAPER_LOW_PASS}, {SHAPER_FM1, SHAPER_HIGH_PASS}};
    uint32_t n[NUMBER_END];
    for (unsigned i = 0; i < COUNT_OF(shapes) * COUNT_OF(modes); i++) {
        set_numbers(n, modes[i % 3][0], modes[i % 3][1], shapes[i / 3]);
        struct call start = prepared(n, EXACT, BUFFER_END), c = twin(&start);
        int right = c.cells[WORK] == NULL;
        for (uint32_t lane = 0; lane < n[ACTIVE]; lane++)
            right &= ran_alone(c, lane, n[FIRST], 0);
        check(right, "the answers of an empty range");
        check(is_untouched(&c, &start), "what an empty range leaves");
        drop(&c);
        take_all_back(&start, EXACT);
    }
}

/* What makes a line hold: a number's value. Behind these, each buffer in turn is a cell too short. */
static const struct cause {
    uint32_t line, number, value;
} causes[] = {
    {1, MODE0, SHAPER_MODES}, {1, MODE1, SHAPER_MODES}, {1, MODE0, UINT32_MAX}, {1, MODE1, UINT32_MAX}, {2, FACTOR, 0},
    {2, FACTOR, 3}, {2, FACTOR, 5}, {2, FACTOR, 6}, {2, FACTOR, 7}, {2, FACTOR, 9}, {2, FACTOR, 16},
    {2, FACTOR, UINT32_MAX}, {3, LANES, 0}, {3, LANES, 1}, {3, LANES, SHAPER_MAX_LANES + 1}, {3, LANES, UINT32_MAX},
    {3, ACTIVE, 4}, {3, ACTIVE, UINT32_MAX}, {3, ACTIVE, 0}, {3, LANE, 2}, {3, LANE, 3}, {3, LANE, 0x80000000u},
    {3, LANE, UINT32_MAX}, {4, FRAMES, SHAPER_MAX_FRAMES + 1}, {4, FRAMES, 3}, {4, FRAMES, UINT32_MAX}, {4, FIRST, 3},
    {4, FIRST, UINT32_MAX}, {4, COUNT, 5}, {4, COUNT, UINT32_MAX}, {5, RATE, 0}, {5, RATE, SHAPER_MIN_RATE - 1},
    {5, RATE, SHAPER_MAX_RATE + 1}, {5, RATE, UINT32_MAX}, {6, COUNT0, 0}, {6, COUNT1, 0}, {6, COUNT2, 0},
    {6, COUNT0, SHAPER_MAX_COUNT + 1}, {6, COUNT1, SHAPER_MAX_COUNT + 1}, {6, COUNT2, SHAPER_MAX_COUNT + 1},
    {6, COUNT1, UINT32_MAX}};

enum { CAUSES = COUNT_OF(causes) + BUFFER_END };

/* The line that answers; accepted for a buffer that the call is not lent. */
static uint32_t apply(struct call *c, unsigned cause)
{
    if (cause < COUNT_OF(causes)) {
        c->n[causes[cause].number] = causes[cause].value;
        return causes[cause].line;
    }
    const unsigned b = cause - (unsigned)COUNT_OF(causes);
    if (!is_written(b) && (read_by(LANE_RUN) & BIT(b)) == 0)
        return SHAPER_ACCEPTED;
    c->length[b] -= 1;
    return is_written(b) ? SHAPER_SHORT_WRITE : SHAPER_SHORT_READ;
}

/* A cause that the run does not have: the lane, or that no lane is active. */
static int is_of_lane(unsigned cause)
{
    if (cause >= COUNT_OF(causes))
        return 0;
    return causes[cause].number == LANE || (causes[cause].number == ACTIVE && causes[cause].value == 0);
}

/* Each cause alone and with every other: the first line answers, the run's number where the run has both causes, and
 * nothing is written. */
static void check_causes(void)
{
    static const uint32_t shape[] = {2, 3, 2, 6, 2, 4};
    uint32_t n[NUMBER_END];
    set_numbers(n, SHAPER_FM1, SHAPER_LOW_PASS, shape);
    struct call start = prepared(n, (struct how){1, 0}, BUFFER_END), lent_cells = twin(&start);
    for (unsigned b = 0; b < BUFFER_END; b++)
        lent_cells.length[b] = asked(b, n);
    for (unsigned i = 0; i < CAUSES * CAUSES; i++) {
        struct call c = lent_cells;
        const uint32_t one = apply(&c, i / CAUSES), other = i / CAUSES == i % CAUSES ? one : apply(&c, i % CAUSES);
        if (one == SHAPER_ACCEPTED || other == SHAPER_ACCEPTED)
            continue;
        const uint32_t number = one < other ? one : other;
        check(answered(call(LANE_RUN, &c), number, 0), "the number of a refused lane");
        if (!is_of_lane(i / CAUSES) && !is_of_lane(i % CAUSES))
            check(answered(call(RUN, &c), number, 0), "the number of a refused run");
        check(is_untouched(&lent_cells, &start), "what a refused lane was lent");
    }
    drop(&lent_cells);
    take_all_back(&start, EXACT);
}

/* The answer with two other numbers. */
static uint32_t number_with(struct call c, unsigned number, uint32_t value, unsigned other, uint32_t other_value)
{
    c.n[number] = value, c.n[other] = other_value;
    return call(LANE_RUN, &c).number;
}

/* By hand: lanes 0 and 1 of 3 are active. Another lane is seen after the modes and the factor, and before whatever else
 * is wrong. */
static void check_lines(void)
{
    static const uint32_t shape[] = {2, 3, 2, 6, 2, 4};
    uint32_t n[NUMBER_END];
    set_numbers(n, SHAPER_OFF, SHAPER_OFF, shape);
    struct call c = lent(LANE_RUN, n, EXACT);
    check(number_with(c, LANE, 1, COUNT, 4) == SHAPER_ACCEPTED, "lane 1 of 2 active");
    for (uint32_t lane = 2; lane < 4; lane++) {
        check(number_with(c, LANE, lane, COUNT, 0) == SHAPER_BAD_LANES, "a lane that is not active, an empty range");
        check(number_with(c, LANE, lane, MODE0, 70) == SHAPER_BAD_MODE, "a lane that is not active, mode 70");
        check(number_with(c, LANE, lane, FACTOR, 3) == SHAPER_BAD_FACTOR, "a lane that is not active, factor 3");
        check(number_with(c, LANE, lane, FRAMES, 4097) == SHAPER_BAD_LANES, "a lane that is not active, 4,097 frames");
        check(number_with(c, LANE, lane, RATE, 0) == SHAPER_BAD_LANES, "a lane that is not active, rate 0");
        check(number_with(c, LANE, lane, COUNT2, 13) == SHAPER_BAD_LANES, "a lane that is not active, 13 coefficients");
    }
    for (uint32_t lane = 0; lane < 4; lane++)
        check(number_with(c, LANE, lane, ACTIVE, 0) == SHAPER_BAD_LANES, "no active lane");
    c.length[CYCLE] = c.length[STATE] = 0;
    check(number_with(c, LANE, 2, COUNT, 4) == SHAPER_BAD_LANES, "a lane that is not active, no cycle and no state");
    check(number_with(c, LANE, 1, COUNT, 4) == SHAPER_SHORT_READ, "no cycle and no state");
    c.length[CYCLE] = SHAPER_CYCLE;
    check(number_with(c, LANE, 1, COUNT, 4) == SHAPER_SHORT_WRITE, "no state");
    check(number_with(c, LANE, UINT32_MAX, COUNT, 4) == SHAPER_BAD_LANES, "the largest lane");
    take_all_back(&c, EXACT);
}

static struct shaper_readable read_of(const struct call *c, unsigned b)
{
    return shaper_read_from(c->cells[b], c->length[b]);
}

static struct shaper_writable written_of(const struct call *c, unsigned b)
{
    return shaper_write_to(c->cells[b], c->length[b]);
}

/* A call as a struct, with the card's designs and numbers. */
static struct shaper_block block_of(const struct call *c)
{
    const uint32_t *n = c->n;
    return (struct shaper_block){
        .factor = n[FACTOR], .lanes = n[LANES], .active = n[ACTIVE], .frames = n[FRAMES], .rate = n[RATE],
        .slot[0] = {n[MODE0], CHARACTER0, read_of(c, BASE0), read_of(c, MOD0), read_of(c, SOURCE0)},
        .slot[1] = {n[MODE1], CHARACTER1, read_of(c, BASE1), read_of(c, MOD1), read_of(c, SOURCE1)},
        .curve = read_of(c, CURVE), .cycle = read_of(c, CYCLE),
        .words = {c->cells[WORDS], c->length[WORDS]}, .steps = {c->cells[STEPS], c->length[STEPS]},
        .inner = written_of(c, INNER), .output = written_of(c, OUTPUT), .work = written_of(c, WORK),
        .pairs = written_of(c, PAIRS), .fm = written_of(c, FM), .last = written_of(c, LAST),
        .state = written_of(c, STATE)};
}

/* The struct's lanes against its run and against the lanes of shaper.h, with buffers left out: a bit each. */
static void check_struct(const uint32_t *n, unsigned absent)
{
    struct call start = prepared(n, EXACT, BUFFER_END);
    for (unsigned b = MOD0; b <= SOURCE1; b++)
        if (absent & BIT(b - MOD0))
            take_back(&start, b, EXACT);
    struct call by_run = twin(&start), by_lanes = twin(&start), by_calls = twin(&start);
    const struct shaper_block run = block_of(&by_run), lanes = block_of(&by_lanes);
    int right = answered(shaper_run_block(&run, n[FIRST], n[COUNT]), SHAPER_ACCEPTED, n[COUNT]);
    for (uint32_t lane = n[ACTIVE]; lane-- > 0;) {
        right &= answered(shaper_run_lane(&lanes, lane, n[FIRST], n[COUNT]), SHAPER_ACCEPTED, n[COUNT]);
        right &= ran(by_calls, LANE_RUN, lane, n[FIRST], n[COUNT]);
    }
    check(right, "the answers of a struct's lanes");
    check(agree(&by_lanes, &by_run, BUFFER_END), "a struct's lanes and its run");
    check(agree(&by_lanes, &by_calls, BUFFER_END), "a struct's lanes and the calls of shaper.h");
    check(answered(shaper_run_lane(&lanes, n[ACTIVE], n[FIRST], n[COUNT]), SHAPER_BAD_LANES, 0)
            && answered(shaper_run_lane(&lanes, 0, n[FRAMES], 1), SHAPER_BAD_FRAMES, 0),
        "a struct's lane that is turned down");
    check(agree(&by_lanes, &by_run, BUFFER_END), "what a struct's refused lane was lent");
    drop(&by_calls);
    drop(&by_lanes);
    drop(&by_run);
    take_all_back(&start, EXACT);
}

static void check_structs(void)
{
    static const uint32_t shapes[][6] = {
        {1, 3, 2, 9, 2, 5}, {2, 2, 2, 33, 31, 2}, {4, 1, 1, 9, 0, 9}, {8, 5, 3, 9, 1, 7}};
    uint32_t n[NUMBER_END];
    for (unsigned i = 0; i < 64; i++) {
        set_numbers(n, i % 2 ? SHAPER_FM1 : SHAPER_LOW_PASS, i % 3 ? SHAPER_RM2 : SHAPER_SYNC, shapes[i % 4]);
        check_struct(n, i / 4);
    }
}

int main(void)
{
    check_boundary(LANE_RUN);
    check(seen[LANE_RUN] == OF_RUN, "every refusal's number");
    check_modes(LANE_RUN);
    check_blocks();
    check_others();
    check_reads();
    check_cut_blocks();
    check_empty();
    check_causes();
    check_lines();
    check_structs();
    return finish();
}
