/* The buffers of a struct shaper_block by number, for tests that go over all of them. */
#ifndef FIELDS_H
#define FIELDS_H

#include "check.h"
#include "shaper_block.h"

enum field {
    BASE0, BASE1, MOD0, MOD1, SOURCE0, SOURCE1, CURVE, CYCLE, WORDS, STEPS, INNER, STRETCH, ADD, OUTPUT, WORK, PAIRS,
    FM, LAST, STATE, FIELD_END
};

static size_t *length_of(struct shaper_block *b, unsigned field)
{
    struct shaper_slot *s = b->slot;
    size_t *const lengths[FIELD_END] = {&s[0].base.length, &s[1].base.length, &s[0].mod.length, &s[1].mod.length,
        &s[0].source.length, &s[1].source.length, &b->curve.length, &b->cycle.length, &b->words.length,
        &b->steps.length, &b->inner.length, &b->stretch.length, &b->add.length, &b->output.length, &b->work.length,
        &b->pairs.length, &b->fm.length, &b->last.length, &b->state.length};
    return lengths[field];
}

/* What a call answers if this buffer alone is too short: a call that isn't lent it takes no notice. */
static uint32_t prepare_refusal(unsigned field)
{
    if (field <= CURVE)
        return SHAPER_SHORT_READ;
    return field >= INNER && field <= ADD ? SHAPER_SHORT_WRITE : SHAPER_ACCEPTED;
}

static uint32_t run_refusal(unsigned field)
{
    if (field <= INNER)
        return SHAPER_SHORT_READ;
    return field >= OUTPUT ? SHAPER_SHORT_WRITE : SHAPER_ACCEPTED;
}

#endif
