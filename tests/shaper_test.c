/* The library from C. Prints how many checks pass, "P of T"; with the word `designs`, the header's designs. */
#include "check.h"

/* The designs as bit patterns, in the form of the oracle's `constants`. */
static void print_designs(void)
{
    for (unsigned d = 0; d < SHAPER_DESIGNS; d++) {
        printf("design %u (from_last %u): count %" PRIu32 "\n", d, d, shaper_card_counts[d]);
        for (unsigned i = 0; i < shaper_card_counts[d]; i++)
            printf("   %u 0x%08" PRIx32 "\n", i, bits(shaper_card_coefs[SHAPER_MAX_COUNT * d + i]));
    }
}

static void check_designs(void)
{
    for (unsigned d = 0; d < SHAPER_DESIGNS; d++)
        for (unsigned i = shaper_card_counts[d]; i < SHAPER_MAX_COUNT; i++)
            check(bits(shaper_card_coefs[SHAPER_MAX_COUNT * d + i]) == 0, "a coefficient past the count");
}

/* One stage, one coefficient 0.5, state 0, four ones in: 0.75, then 1.125; x is 1, y is 1.25. */
static void check_one_section(void)
{
    enum { CELLS = SHAPER_STATE(1) };
    const float coefs[SHAPER_COEFS] = {0.5f};
    float buffer[6] = {1.0f, 1.0f, 1.0f, 1.0f, 7.0f, 8.0f};
    float state[CELLS + 2] = {0.0f};
    state[CELLS] = 5.0f;
    state[CELLS + 1] = 6.0f;
    struct shaper_answer answer = shaper_decimate(2, 1, 1, 2, 1, 1, 1, coefs, SHAPER_COEFS, buffer, 4, state, CELLS);
    check(answered(answer, SHAPER_ACCEPTED, 2), "the answer of one section");
    check(buffer[0] == 0.75f && buffer[1] == 1.125f, "the result of one section");
    check(buffer[2] == 1.0f && buffer[3] == 1.0f, "the rows past the result");
    check(state[0] == 1.0f && state[1] == 1.25f, "the state of one section");
    int left = 1;
    for (unsigned i = 2; i < CELLS; i++)
        left &= bits(state[i]) == 0;
    check(left, "the cells of other sections");
    check(buffer[4] == 7.0f && buffer[5] == 8.0f && state[CELLS] == 5.0f && state[CELLS + 1] == 6.0f,
        "the cells past the lengths");
}

static void check_refusals(void)
{
    enum { MOST = SHAPER_MAX_COUNT, COEFS = SHAPER_COEFS, CELLS = SHAPER_STATE(1) };
    float buffer[SHAPER_BUFFER(2, 2, 1)] = {1.0f, 2.0f, 3.0f, 4.0f}, state[CELLS] = {9.0f};
    const uint32_t a = shaper_card_counts[0], b = shaper_card_counts[1], c = shaper_card_counts[2];
    const float *coefs = shaper_card_coefs;
    check(answered(shaper_decimate(3, 1, 1, 2, a, b, c, NULL, 0, NULL, 0, NULL, 0), SHAPER_BAD_FACTOR, 0), "factor 3");
    check(answered(shaper_decimate(2, 1, 1, 2, a, b, c, NULL, 0, NULL, 0, NULL, 0), SHAPER_SHORT_READ, 0),
        "no coefficients");
    check(answered(shaper_decimate(2, 1, 1, 2, a, b, c, coefs, COEFS, NULL, 0, state, CELLS), SHAPER_SHORT_WRITE, 0),
        "no buffer");
    check(answered(shaper_decimate(2, 1, 1, 2, a, b, c, coefs, COEFS, buffer, 4, NULL, 0), SHAPER_SHORT_WRITE, 0),
        "no state");
    check(answered(shaper_decimate(2, SHAPER_MAX_LANES + 1, 1, 2, a, b, c, coefs, COEFS, buffer, 4, state, CELLS),
              SHAPER_BAD_LANES, 0),
        "65 lanes");
    check(answered(shaper_decimate(2, 1, 2, 2, a, b, c, coefs, COEFS, buffer, 4, state, CELLS), SHAPER_BAD_LANES, 0),
        "2 of 1 lanes active");
    check(answered(shaper_decimate(2, 1, 1, SHAPER_MAX_FRAMES + 1, a, b, c, coefs, COEFS, buffer, 4, state, CELLS),
              SHAPER_BAD_FRAMES, 0),
        "4,097 frames");
    check(answered(shaper_decimate(2, 1, 1, 2, a, b, MOST + 1, coefs, COEFS, buffer, 4, state, CELLS),
              SHAPER_BAD_DESIGN, 0),
        "a count of 13");
    check(answered(shaper_decimate(2, 1, 1, 2, a, b, c, coefs, COEFS - 1, buffer, 4, state, CELLS),
              SHAPER_SHORT_READ, 0),
        "35 coefficients");
    check(answered(shaper_decimate(2, 1, 1, 2, a, b, c, coefs, COEFS, buffer, 3, state, CELLS), SHAPER_SHORT_WRITE, 0),
        "3 samples");
    check(answered(shaper_decimate(2, 1, 1, 2, a, b, c, coefs, COEFS, buffer, 4, state, CELLS - 1),
              SHAPER_SHORT_WRITE, 0),
        "71 cells of state");
    check(answered(shaper_decimate(2, 1, 1, 0, a, b, c, coefs, COEFS, NULL, 0, state, CELLS), SHAPER_ACCEPTED, 0),
        "no frames");
    check(buffer[0] == 1.0f && buffer[1] == 2.0f && buffer[2] == 3.0f && buffer[3] == 4.0f && state[0] == 9.0f,
        "what refused calls were lent");
}

enum { FACTOR = 8, LANES = 3, ACTIVE = 2, FRAMES = 29, ROW = FACTOR * LANES, CELLS = SHAPER_STATE(LANES) };

static struct shaper_answer decimate(uint32_t frames, float *buffer, float *state)
{
    const uint32_t *n = shaper_card_counts;
    return shaper_decimate(FACTOR, LANES, ACTIVE, frames, n[0], n[1], n[2], shaper_card_coefs, SHAPER_COEFS, buffer,
        SHAPER_BUFFER(frames, FACTOR, LANES), state, SHAPER_STATE(LANES));
}

/* A block with the card's designs, whole and in odd cuts. */
static void check_cuts(void)
{
    static const uint32_t cuts[] = {1, 0, 7, 3, 13, 5};
    static float whole[FRAMES * ROW + 1], parts[FRAMES * ROW + 1], state[CELLS + 1], other[CELLS + 1];
    uint32_t s = 0x5eed;
    for (unsigned i = 0; i <= FRAMES * ROW; i++) {
        s = s * 1664525u + 1013904223u;
        whole[i] = (float)(s >> 8) / 8388608.0f - 1.0f;
    }
    memcpy(parts, whole, sizeof parts);
    float guard = whole[FRAMES * ROW];

    check(answered(decimate(FRAMES, whole, state), SHAPER_ACCEPTED, FRAMES), "the answer of a block");
    int same = 1, left = 1;
    uint32_t done = 0;
    for (unsigned c = 0; c < sizeof cuts / sizeof *cuts; c++) {
        float *part = parts + (size_t)done * ROW, before[FRAMES * ROW];
        memcpy(before, part, cuts[c] * ROW * sizeof *part);
        check(answered(decimate(cuts[c], part, other), SHAPER_ACCEPTED, cuts[c]), "the answer of a cut");
        for (uint32_t i = 0; i < cuts[c] * LANES; i++)
            if (i % LANES < ACTIVE)
                same &= bits(part[i]) == bits(whole[done * LANES + i]);
        for (uint32_t i = 0; i < cuts[c] * ROW; i++)
            if (i % LANES >= ACTIVE)
                left &= bits(part[i]) == bits(before[i]);
        done += cuts[c];
    }
    check(done == FRAMES, "the cuts' frames");
    check(same, "the results of a block in cuts");
    check(memcmp(state, other, sizeof state) == 0, "the state after a block in cuts");
    check(left, "the lane that is not active");
    check(bits(whole[FRAMES * ROW]) == bits(guard) && bits(parts[FRAMES * ROW]) == bits(guard), "the cell past a block");
    check(bits(state[CELLS]) == 0 && bits(other[CELLS]) == 0, "the cell past a state");
    int moved = 0;
    for (unsigned i = 0; i < CELLS; i += LANES)
        moved |= bits(state[i]) != 0;
    check(moved, "a state that goes on");
}

int main(int argc, char **argv)
{
    if (argc == 2 && strcmp(argv[1], "designs") == 0) {
        print_designs();
        return 0;
    }
    check_designs();
    check_one_section();
    check_refusals();
    check_cuts();
    return finish();
}
