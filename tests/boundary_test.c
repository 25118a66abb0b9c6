/* The boundary of the block's calls, but for the lane run's, which is in lane_test.c. Prints how many checks pass,
 * "P of T". */
#define _DEFAULT_SOURCE /* MAP_ANONYMOUS */
#include "boundary.h"

/* What needs no cell is NULL: a range without frames, a block without frames, no active lane. */
static void check_nothing(void)
{
    static const uint32_t no_range[] = {2, 3, 2, 33, 1, 0}, no_frames[] = {2, 3, 0, 0, 0, 0};
    uint32_t n[NUMBER_END];
    set_numbers(n, SHAPER_RM_FILTER2, SHAPER_PD_SELF, no_range);
    check_accepted(RUN, n);
    set_numbers(n, SHAPER_RM_FILTER2, SHAPER_PD_SELF, no_frames);
    check_accepted(DECIMATE, n);
    check_accepted(PREPARE, n);
    check_accepted(RUN, n);
}

int main(void)
{
    for (unsigned kind = DECIMATE; kind <= RUN; kind++)
        check_boundary(kind);
    check(seen[DECIMATE] == (SIZED | BIT(SHAPER_BAD_DESIGN) | BIT(SHAPER_SHORT_WRITE))
            && seen[PREPARE] == (OF_RUN & ~BIT(SHAPER_BAD_DESIGN)) && seen[STRETCH_OF] == SIZED && seen[RUN] == OF_RUN,
        "every refusal's number");
    check_modes(PREPARE);
    check_modes(RUN);
    check_nothing();
    return finish();
}
