/* Patch files for patch_test.c and patch_fuzz.c: records, good files by chance, and what becomes of them damaged. */
#ifndef PATCH_FILES_H
#define PATCH_FILES_H

#include "shaper.h"

#include <stdio.h>
#include <stdlib.h>
#include <string.h>

#define COUNT_OF(array) (sizeof(array) / sizeof *(array))

enum { RECORD = 14, MOST_RECORDS = 65536 / RECORD, ROOM = 65536 + 64 };

struct file {
    size_t length;
    uint8_t bytes[ROOM];
};

/* The fields of a record: where each starts, its bytes, and the highest that a good one has. */
static const struct field {
    unsigned at, bytes;
    uint32_t most;
} fields[] = {{0, 2, 12}, {2, 2, 1}, {4, 1, 1}, {5, 1, 69}, {6, 2, 10000}, {8, 2, 10000}, {10, 4, UINT32_MAX}};

enum { LENGTH, KIND, SLOT, MODE, HUNDREDTHS, TEN_THOUSANDTHS, SERIAL };

static uint64_t chance = 0x5eed;

/* A number below `below`, by xorshift. */
static uint32_t drawn(uint32_t below)
{
    chance ^= chance << 13;
    chance ^= chance >> 7;
    chance ^= chance << 17;
    return (uint32_t)((chance >> 32) * below >> 32);
}

static void put(uint8_t *record, unsigned field, uint32_t number)
{
    for (unsigned i = 0; i < fields[field].bytes; i++)
        record[fields[field].at + i] = (uint8_t)(number >> 8 * i);
}

static void put_record(
    uint8_t *record, uint32_t slot, uint32_t mode, uint32_t hundredths, uint32_t ten_thousandths, uint32_t serial)
{
    const uint32_t numbers[] = {12, 1, slot, mode, hundredths, ten_thousandths, serial};
    for (unsigned field = 0; field < COUNT_OF(numbers); field++)
        put(record, field, numbers[field]);
}

/* Serials are few, so that many are equal, and differ in each byte. */
static void put_drawn(uint8_t *record)
{
    static const uint32_t serials[] = {0, 1, 2, 0xff, 0x100, 0xffff, 0x10000, 0xffffff, 0x1000000, 0x7fffffff,
        0x80000000, 0xfffffffe, 0xffffffff};
    static const uint32_t parts[] = {0, 1, 255, 256, 3333, 9999, 10000};
    const uint32_t hundredths = drawn(4) == 0 ? parts[drawn(COUNT_OF(parts))] : drawn(10001);
    const uint32_t ten_thousandths = drawn(4) == 0 ? parts[drawn(COUNT_OF(parts))] : drawn(10001);
    put_record(record, drawn(2), drawn(70), hundredths, ten_thousandths, serials[drawn(COUNT_OF(serials))]);
}

/* A good file of so many records. */
static inline void make_good(struct file *f, size_t records)
{
    f->length = RECORD * records;
    for (size_t i = 0; i < records; i++)
        put_drawn(f->bytes + RECORD * i);
}

/* A field of a whole record: at its limit, near it, or any. */
static void replace_field(uint8_t *record)
{
    const unsigned field = drawn(COUNT_OF(fields));
    const uint32_t most = fields[field].most, any = drawn(1u << 16) << 16 | drawn(1u << 16);
    const uint32_t numbers[] = {0, 1, 2, most - 1, most, most + 1, any};
    put(record, field, numbers[drawn(COUNT_OF(numbers))]);
}

/* The record from `at` on as of another kind, with just the bytes that are left, or one more or fewer. */
static void replace_kind(struct file *f, size_t at)
{
    put(f->bytes + at, LENGTH, (uint32_t)(f->length - at - 3 + drawn(3)));
    put(f->bytes + at, KIND, drawn(4));
}

/* `count` bytes more, from `at` on, while there is room. */
static void insert(struct file *f, size_t at, size_t count)
{
    if (count > ROOM - f->length)
        count = ROOM - f->length;
    memmove(f->bytes + at + count, f->bytes + at, f->length - at);
    for (size_t i = 0; i < count; i++)
        f->bytes[at + i] = (uint8_t)drawn(256);
    f->length += count;
}

static void take_out(struct file *f, size_t at, size_t count)
{
    if (count > f->length - at)
        count = f->length - at;
    memmove(f->bytes + at, f->bytes + at + count, f->length - at - count);
    f->length -= count;
}

/* One place damaged. Now and then the file stays as it was, or is good again. */
static void damage(struct file *f)
{
    const size_t records = f->length / RECORD, at = RECORD * drawn((uint32_t)records + 1);
    const size_t any = drawn((uint32_t)f->length + 1);
    const int is_whole = at + RECORD <= f->length;
    switch (drawn(8)) {
    case 0: f->length = any; break;
    case 1: insert(f, any, 1 + drawn(20)); break;
    case 2: take_out(f, any, 1 + drawn(20)); break;
    case 3: take_out(f, at, RECORD); break;
    case 4:
        if (f->length + RECORD <= ROOM) {
            insert(f, at, RECORD);
            put_drawn(f->bytes + at);
        }
        break;
    case 5:
        if (is_whole)
            replace_kind(f, at);
        break;
    case 6:
        if (any < f->length)
            f->bytes[any] ^= (uint8_t)(1u << drawn(8));
        break;
    default:
        if (is_whole)
            replace_field(f->bytes + at);
    }
}

/* A copy on the heap of just its length, moved by some bytes from where the heap aligns it; of no bytes, NULL. */
static uint8_t *lent(const uint8_t *bytes, size_t length, size_t moved)
{
    if (length == 0)
        return NULL;
    uint8_t *heap = malloc(moved + length);
    if (heap == NULL) {
        fprintf(stderr, "no memory\n");
        exit(1);
    }
    memcpy(heap + moved, bytes, length);
    return heap + moved;
}

static void take_back(uint8_t *copy, size_t moved)
{
    if (copy != NULL)
        free(copy - moved);
}

#endif
