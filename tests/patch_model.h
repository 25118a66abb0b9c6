/* Patch files by a model for patch_test.c and patch_fuzz.c, after the format's text in shaper.h. It looks at records
 * from the last to the first, and makes the card's floats by whole numbers. */
#ifndef PATCH_MODEL_H
#define PATCH_MODEL_H

#include "shaper.h"

#include <string.h>

/* So many bytes as a number, the low one first. */
static uint32_t number_at(const uint8_t *bytes, unsigned count)
{
    uint32_t number = 0;
    while (count > 0)
        number = number * 256 + bytes[--count];
    return number;
}

/* The float nearest to n / d, which is below 2^23: 24 binary digits by division, and a tie to the even one. */
static float quotient(uint64_t n, uint64_t d)
{
    uint32_t exponent = 127 + 23, pattern = 0;
    float nearest;
    for (; n != 0 && n / d < 1u << 23; n *= 2)
        exponent -= 1;
    const uint64_t digits = n / d, rest = n % d;
    if (n != 0)
        pattern = (exponent << 23) + (uint32_t)digits - (1u << 23);
    if (2 * rest > d || (2 * rest == d && digits % 2 == 1))
        pattern += 1;
    memcpy(&nearest, &pattern, sizeof nearest);
    return nearest;
}

/* Why the record that starts here is turned away, or SHAPER_ACCEPTED; `left` is what the file has from here on. */
static uint32_t refusal_at(const uint8_t *record, size_t left)
{
    if (left < 2)
        return SHAPER_BAD_LENGTH;
    const uint32_t length = number_at(record, 2);
    if (length < 2 || length > left - 2)
        return SHAPER_BAD_LENGTH;
    const uint32_t kind = number_at(record + 2, 2);
    if (kind == 1 && length != 12)
        return SHAPER_BAD_LENGTH;
    if (kind != 1)
        return SHAPER_BAD_KIND;
    if (record[4] > 1 || record[5] > 69)
        return SHAPER_BAD_FIELD;
    return number_at(record + 6, 2) > 10000 || number_at(record + 8, 2) > 10000 ? SHAPER_BAD_FIELD : SHAPER_ACCEPTED;
}

static struct shaper_patch_slot slot_at(const uint8_t *record)
{
    const uint32_t hundredths = number_at(record + 6, 2), ten_thousandths = number_at(record + 8, 2);
    return (struct shaper_patch_slot){record[5], hundredths, ten_thousandths, quotient(hundredths, 100),
        quotient(ten_thousandths, 10000)};
}

/* All records before one that is turned away are of 14 bytes, so that every one that counts starts at a multiple of 14.
 * From behind, the refusal that is met last is the file's first, and among equal serials the one that is met first. */
static struct shaper_patch model_read(const uint8_t *file, size_t length)
{
    struct shaper_patch held = {0}, none = {0};
    int64_t serial[SHAPER_SLOTS] = {-1, -1};
    if (length > 65536) {
        none.number = SHAPER_BAD_LENGTH;
        return none;
    }
    for (size_t k = (length + 13) / 14; k-- > 0;) {
        const uint8_t *record = file + 14 * k;
        const uint32_t refusal = refusal_at(record, length - 14 * k);
        if (refusal != SHAPER_ACCEPTED) {
            none.number = refusal;
            none.at = (uint32_t)(14 * k);
        } else if (number_at(record + 10, 4) > serial[record[4]]) {
            serial[record[4]] = number_at(record + 10, 4);
            *(record[4] == 0 ? &held.slot0 : &held.slot1) = slot_at(record);
        }
    }
    return none.number != SHAPER_ACCEPTED ? none : held;
}

static struct shaper_same model_same(const uint8_t *a, size_t a_length, const uint8_t *b, size_t b_length)
{
    const struct shaper_patch p = model_read(a, a_length), q = model_read(b, b_length);
    if (p.number != SHAPER_ACCEPTED || q.number != SHAPER_ACCEPTED)
        return (struct shaper_same){p.number != SHAPER_ACCEPTED ? p.number : q.number, 0};
    return (struct shaper_same){SHAPER_ACCEPTED,
        p.slot0.mode == q.slot0.mode && p.slot0.hundredths == q.slot0.hundredths && p.slot1.mode == q.slot1.mode
            && p.slot1.hundredths == q.slot1.hundredths};
}

/* In every field, the floats by their bits: a reading is twelve words without gaps. */
static int is_same_reading(struct shaper_patch p, struct shaper_patch q)
{
    return memcmp(&p, &q, sizeof p) == 0;
}

static inline int is_same_answer(struct shaper_same a, struct shaper_same b)
{
    return a.number == b.number && a.same == b.same;
}

#endif
