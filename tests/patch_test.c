/* Patch files (shaper_patch_read, shaper_patch_write, shaper_patch_same): the format's values and limits, each refusal
 * and which comes first, bytes that are written and bytes that are left, when two files hold the same patch, and files
 * by chance against a model. Prints how many checks pass, "P of T". */
#define _DEFAULT_SOURCE /* MAP_ANONYMOUS */
#include "check.h"
#include "patch_files.h"
#include "patch_model.h"

#include <stddef.h>
#include <sys/mman.h>

#define IS_AT(type, field, place) _Static_assert(offsetof(struct type, field) == (place), #type " " #field)
#define HAS_SIZE(type, size) _Static_assert(sizeof(struct type) == (size), #type)

HAS_SIZE(shaper_patch_slot, 20);
IS_AT(shaper_patch_slot, mode, 0);
IS_AT(shaper_patch_slot, hundredths, 4);
IS_AT(shaper_patch_slot, ten_thousandths, 8);
IS_AT(shaper_patch_slot, amount, 12);
IS_AT(shaper_patch_slot, character, 16);
HAS_SIZE(shaper_patch, 48);
IS_AT(shaper_patch, number, 0);
IS_AT(shaper_patch, at, 4);
IS_AT(shaper_patch, slot0, 8);
IS_AT(shaper_patch, slot1, 28);
HAS_SIZE(shaper_written, 8);
IS_AT(shaper_written, number, 0);
IS_AT(shaper_written, bytes, 4);
HAS_SIZE(shaper_same, 8);
IS_AT(shaper_same, number, 0);
IS_AT(shaper_same, same, 4);
_Static_assert(SHAPER_FILE_LIMIT == 65536 && SHAPER_RECORD_BYTES == 14 && SHAPER_PATCH_BYTES == 28, "sizes");

/* Slot 0 HardClip, 50.00 %, 0.2500, serial 1. */
static const uint8_t clip[RECORD] = {0x0c, 0, 0x01, 0, 0, 0x15, 0x88, 0x13, 0xc4, 0x09, 0x01, 0, 0, 0};

/* The file that most checks make. */
static struct file f;

static void append(uint32_t slot, uint32_t mode, uint32_t hundredths, uint32_t ten_thousandths, uint32_t serial)
{
    put_record(f.bytes + f.length, slot, mode, hundredths, ten_thousandths, serial);
    f.length += RECORD;
}

static void append_good(uint32_t records)
{
    for (uint32_t i = 0; i < records; i++)
        append(i % 2, i % 70, i, i, i);
}

/* A record whose bytes past its kind are zeros, `length` of them with the kind. */
static void append_kind(uint32_t kind, uint32_t length)
{
    memset(f.bytes + f.length, 0, length + 2);
    put(f.bytes + f.length, LENGTH, length);
    put(f.bytes + f.length, KIND, kind);
    f.length += length + 2;
}

/* A file where it is, and as copies at odd addresses, which stay as they are. */
static struct shaper_patch read_at_all(const uint8_t *bytes, size_t length)
{
    const struct shaper_patch first = shaper_patch_read(bytes, length);
    for (size_t moved = 0; moved < 4; moved++) {
        uint8_t *copy = lent(bytes, length, moved);
        const struct shaper_patch p = shaper_patch_read(copy, length);
        check(is_same_reading(p, first), "a file at another address");
        check(length == 0 || memcmp(copy, bytes, length) == 0, "the bytes of a file that was read");
        take_back(copy, moved);
    }
    return first;
}

/* Whether a file reads as these words: number, at, and of each slot mode, hundredths, ten-thousandths and both floats'
 * bits. Those that are not given are 0. */
static int reads_as(const uint8_t *bytes, size_t length, const uint32_t want[12])
{
    const struct shaper_patch p = read_at_all(bytes, length);
    return memcmp(&p, want, sizeof p) == 0;
}

static int is_refused(const uint8_t *bytes, size_t length, uint32_t number, uint32_t at)
{
    const uint32_t want[12] = {number, at};
    return reads_as(bytes, length, want);
}

static void check_values(void)
{
    static const uint32_t off[12] = {0}, clipped[12] = {0, 0, 21, 5000, 2500, 0x42480000, 0x3e800000};
    static const uint32_t second[12] = {0, 0, 2, 3333, 1, 0x420551ec, 0x38d1b717};
    static const uint32_t both[12] = {
        0, 0, 69, 1, 3333, 0x3c23d70a, 0x3eaaa64c, 1, 10000, 10000, 0x42c80000, 0x3f800000};
    check(reads_as(NULL, 0, off), "an empty file");
    check(reads_as(clip, 0, off), "an empty file that has an address");
    check(reads_as(clip, RECORD, clipped), "a record");
    f.length = 0;
    append(0, 1, 1, 1, 5), append(0, 2, 3333, 1, 5), append(0, 3, 3, 3, 3);
    check(reads_as(f.bytes, f.length, second), "serials 5, 5 and 3");
    f.length = 0;
    append(1, 1, 10000, 10000, 0), append(0, 69, 1, 3333, UINT32_MAX);
    check(reads_as(f.bytes, f.length, both), "both slots, the second one first");
}

/* Cut anywhere, a record is turned away and those before it give nothing. */
static void check_cuts(void)
{
    for (uint32_t records = 0; records < 4; records++) {
        f.length = 0;
        append_good(records + 1);
        for (uint32_t left = 1; left < RECORD; left++)
            check(is_refused(f.bytes, RECORD * records + left, SHAPER_BAD_LENGTH, RECORD * records), "a cut record");
    }
    for (size_t length = 1; length < RECORD; length++)
        check(is_refused(clip, length, SHAPER_BAD_LENGTH, 0), "a cut record alone");
}

/* Records of one length and kind, whole or with a byte too few, behind a good one. */
static void check_length(uint32_t kind, uint32_t length, uint32_t number)
{
    f.length = 0;
    append_good(1);
    append_kind(kind, length);
    check(is_refused(f.bytes, f.length, number, RECORD), "a whole record");
    check(is_refused(f.bytes, f.length - 1, SHAPER_BAD_LENGTH, RECORD), "a record that lacks a byte");
    append_good(1);
    check(is_refused(f.bytes, f.length, number, RECORD), "a whole record and another");
}

static void check_lengths_and_kinds(void)
{
    static const uint8_t unknown[] = {2, 0, 7, 0}, known[] = {2, 0, 1, 0};
    static const uint32_t kinds[] = {0, 2, 3, 7, 0x0100, 0x0101, 0x8001, 0xffff};
    check(is_refused(unknown, 4, SHAPER_BAD_KIND, 0), "02 00 07 00");
    check(is_refused(unknown, 3, SHAPER_BAD_LENGTH, 0), "02 00 07");
    check(is_refused(known, 4, SHAPER_BAD_LENGTH, 0), "02 00 01 00");
    for (uint32_t length = 2; length < 40; length++)
        if (length != 12)
            check_length(1, length, SHAPER_BAD_LENGTH);
    check_length(1, 0x010c, SHAPER_BAD_LENGTH);
    check_length(1, 0x0c00, SHAPER_BAD_LENGTH);
    for (unsigned i = 0; i < COUNT_OF(kinds); i++) {
        check_length(kinds[i], 2, SHAPER_BAD_KIND);
        check_length(kinds[i], 12, SHAPER_BAD_KIND);
        check_length(kinds[i], 13, SHAPER_BAD_KIND);
        check_length(kinds[i], 100, SHAPER_BAD_KIND);
    }
    for (uint32_t kind = 0; kind < 4; kind++)
        for (uint32_t length = 0; length < 2; length++) {
            f.length = 0;
            append(0, 0, 0, 0, 1), append(0, 0, 0, 0, 1);
            put(f.bytes, LENGTH, length), put(f.bytes, KIND, kind);
            check(is_refused(f.bytes, f.length, SHAPER_BAD_LENGTH, 0), "a length below 2");
            check(is_refused(f.bytes, 2, SHAPER_BAD_LENGTH, 0), "a length below 2 alone");
        }
}

/* Each field at its limit and above, in the second record. */
static void check_fields(void)
{
    for (unsigned field = SLOT; field <= TEN_THOUSANDTHS; field++) {
        const uint32_t most = fields[field].most, largest = fields[field].bytes == 1 ? 0xff : 0xffff;
        f.length = 0;
        append(0, 1, 2, 3, 4), append(1, 5, 6, 7, 8);
        put(f.bytes + RECORD, field, most);
        check(shaper_patch_read(f.bytes, f.length).number == SHAPER_ACCEPTED, "a field at its limit");
        put(f.bytes + RECORD, field, most + 1);
        check(is_refused(f.bytes, f.length, SHAPER_BAD_FIELD, RECORD), "a field above its limit");
        put(f.bytes + RECORD, field, largest);
        check(is_refused(f.bytes, f.length, SHAPER_BAD_FIELD, RECORD), "the largest that a field can hold");
    }
}

/* Faults of a record's own fields, as they are tested. */
static const struct fault {
    uint32_t field, value, number;
} faults[] = {{LENGTH, 0xffff, SHAPER_BAD_LENGTH}, {LENGTH, 1, SHAPER_BAD_LENGTH}, {LENGTH, 11, SHAPER_BAD_LENGTH},
    {KIND, 2, SHAPER_BAD_KIND}, {SLOT, 2, SHAPER_BAD_FIELD}, {MODE, 70, SHAPER_BAD_FIELD},
    {HUNDREDTHS, 10001, SHAPER_BAD_FIELD}, {TEN_THOUSANDTHS, 10001, SHAPER_BAD_FIELD}};

/* Of two records the first, of two faults in one record the lower number; a length of 11 is wrong for kind 1 alone. */
static void check_order(void)
{
    for (unsigned i = 0; i < COUNT_OF(faults); i++)
        for (unsigned k = 0; k < COUNT_OF(faults); k++) {
            f.length = 0;
            append_good(4);
            put(f.bytes + RECORD, faults[i].field, faults[i].value);
            put(f.bytes + 2 * RECORD, faults[k].field, faults[k].value);
            check(is_refused(f.bytes, f.length, faults[i].number, RECORD), "the first of two records");
            if (k <= i || faults[i].field == faults[k].field)
                continue;
            put(f.bytes + RECORD, faults[k].field, faults[k].value);
            const int is_unknown = faults[i].value == 11 && faults[k].field == KIND;
            check(is_refused(f.bytes, f.length, is_unknown ? SHAPER_BAD_KIND : faults[i].number, RECORD),
                "the first of two faults");
        }
}

/* Three records of one slot beside one of the other, by their serials: mode 10 + k of record k is held. */
static void check_serials(void)
{
    static const uint32_t serials[] = {0, 1, 5, 0xff, 0x100, 0xffff, 0x10000, 0x1000000, 0x7fffffff, 0x80000000,
        UINT32_MAX};
    const uint32_t count = COUNT_OF(serials);
    for (uint32_t i = 0; i < count * count * count; i++) {
        const uint32_t s[3] = {serials[i % count], serials[i / count % count], serials[i / count / count]};
        const uint32_t slot = i % 2, best = s[1] >= s[0] ? 1 : 0, last = s[2] >= s[best] ? 2 : best;
        f.length = 0;
        append(slot, 10, 0, 0, s[0]), append(1 - slot, 50, 1, 1, s[2]);
        append(slot, 11, 0, 0, s[1]), append(slot, 12, 0, 0, s[2]);
        const struct shaper_patch p = shaper_patch_read(f.bytes, f.length);
        const struct shaper_patch_slot *one = slot == 0 ? &p.slot0 : &p.slot1, *other = slot == 0 ? &p.slot1 : &p.slot0;
        check(p.number == SHAPER_ACCEPTED && one->mode == 10 + last && other->mode == 50, "the highest serial");
    }
}

static void check_limit(void)
{
    f.length = 0;
    append_good(MOST_RECORDS);
    check(f.length == 65534 && is_same_reading(read_at_all(f.bytes, f.length), model_read(f.bytes, f.length))
            && shaper_patch_read(f.bytes, f.length).slot0.hundredths == 4680,
        "4,681 records");
    memset(f.bytes + 65534, 0, ROOM - 65534);
    check(is_refused(f.bytes, 65535, SHAPER_BAD_LENGTH, 65534), "a byte more");
    check(is_refused(f.bytes, 65536, SHAPER_BAD_LENGTH, 65534), "two bytes more");
    for (size_t length = 65537; length <= ROOM; length++)
        check(is_refused(f.bytes, length, SHAPER_BAD_LENGTH, 0), "above the limit");
    f.length = 0;
    append_good(MOST_RECORDS - 1);
    append_kind(7, 14);
    check(f.length == 65536 && is_refused(f.bytes, f.length, SHAPER_BAD_KIND, 65520), "an unknown kind of 16 bytes");
    f.length -= 16;
    append_kind(7, 15);
    check(f.length == 65537 && is_refused(f.bytes, f.length, SHAPER_BAD_LENGTH, 0), "an unknown kind of 17 bytes");
    put(f.bytes, KIND, 2);
    check(is_refused(f.bytes, 65537, SHAPER_BAD_LENGTH, 0), "above the limit, the first kind unknown");
    check(is_refused(f.bytes, 65536, SHAPER_BAD_KIND, 0), "at the limit, the first kind unknown");
    f.length = 0;
    append_kind(7, 65534);
    check(f.length == 65536 && is_refused(f.bytes, f.length, SHAPER_BAD_KIND, 0), "one record of 65,536 bytes");
}

static int is_same(const uint8_t *a, size_t a_length, const uint8_t *b, size_t b_length, uint32_t number, uint32_t same)
{
    return is_same_answer(shaper_patch_same(a, a_length, b, b_length), (struct shaper_same){number, same});
}

/* Bytes that nobody may read or write: a file above the limit is turned away by its length alone. */
static void check_closed(void)
{
    static const size_t lengths[] = {65537, 65538, SIZE_MAX / 2, SIZE_MAX};
    static const uint8_t unknown[] = {2, 0, 7, 0};
    const size_t room = ROOM;
    uint8_t *closed = mmap(NULL, room, PROT_NONE, MAP_PRIVATE | MAP_ANONYMOUS, -1, 0);
    const uint32_t want[12] = {SHAPER_BAD_LENGTH, 0};
    if (closed == MAP_FAILED)
        exit(1);
    for (unsigned i = 0; i < COUNT_OF(lengths); i++) {
        const struct shaper_patch p = shaper_patch_read(closed, lengths[i]);
        check(memcmp(&p, want, sizeof p) == 0, "a file that nobody may read");
        check(is_same(closed, lengths[i], closed, lengths[i], SHAPER_BAD_LENGTH, 0), "two files that nobody may read");
        check(is_same(closed, lengths[i], unknown, 4, SHAPER_BAD_LENGTH, 0), "a closed file before a refused one");
        check(is_same(unknown, 4, closed, lengths[i], SHAPER_BAD_KIND, 0), "a closed file behind a refused one");
        check(is_same(clip, RECORD, closed, lengths[i], SHAPER_BAD_LENGTH, 0), "a closed file behind a good one");
    }
    for (size_t length = 0; length <= SHAPER_PATCH_BYTES; length++) {
        struct shaper_written w = shaper_patch_write(70, 0, 0, 0, 0, 0, closed, length);
        check(w.number == SHAPER_BAD_FIELD && w.bytes == 0, "a field is tested before a byte is written");
        if (length == SHAPER_PATCH_BYTES)
            continue;
        w = shaper_patch_write(0, 0, 0, 69, 10000, 10000, closed, length);
        check(w.number == SHAPER_SHORT_WRITE && w.bytes == 0, "and so is the length");
    }
    munmap(closed, room);
}

/* What the writer takes: mode, hundredths, ten-thousandths of slot 0 and then of slot 1. */
static const uint32_t limits[6] = {69, 10000, 10000, 69, 10000, 10000};

static struct shaper_written write_to(const uint32_t *n, uint8_t *file, size_t length)
{
    return shaper_patch_write(n[0], n[1], n[2], n[3], n[4], n[5], file, length);
}

/* A call over a buffer of just its length on the heap, and over one with bytes about it. */
static void check_write(const uint32_t *n, size_t length)
{
    enum { GUARD = 16, MOST = 64 };
    uint8_t cells[GUARD + MOST + GUARD], want[sizeof cells];
    uint32_t number = length < 28 ? SHAPER_SHORT_WRITE : SHAPER_ACCEPTED;
    for (unsigned i = 0; i < 6; i++)
        if (n[i] > limits[i])
            number = SHAPER_BAD_FIELD;
    memset(cells, 0xa5, sizeof cells);
    memset(want, 0xa5, sizeof want);
    if (number == SHAPER_ACCEPTED) {
        put_record(want + GUARD, 0, n[0], n[1], n[2], 1);
        put_record(want + GUARD + RECORD, 1, n[3], n[4], n[5], 1);
    }
    const size_t moved = drawn(4);
    uint8_t *heap = lent(cells, length, moved);
    const struct shaper_written one = write_to(n, cells + GUARD, length), other = write_to(n, heap, length);
    const uint32_t bytes = number == SHAPER_ACCEPTED ? 28 : 0;
    check(one.number == number && one.bytes == bytes, "the answer of a writer");
    check(other.number == number && other.bytes == bytes, "its answer on the heap");
    check(memcmp(cells, want, sizeof cells) == 0, "the bytes that it writes and leaves");
    check(length == 0 || memcmp(heap, want + GUARD, length) == 0, "its bytes on the heap");
    take_back(heap, moved);
}

static void check_writer(void)
{
    static const uint8_t picture[28] = {
        0x0c, 0x00, 0x01, 0x00, 0x00, 0x15, 0x88, 0x13, 0xc4, 0x09, 0x01, 0x00, 0x00, 0x00,
        0x0c, 0x00, 0x01, 0x00, 0x01, 0x11, 0x10, 0x27, 0x05, 0x0d, 0x01, 0x00, 0x00, 0x00};
    const uint32_t n[6] = {SHAPER_HARD_CLIP, 5000, 2500, SHAPER_LOW_PASS, 10000, 3333};
    uint8_t file[28];
    const struct shaper_written w = write_to(n, file, sizeof file);
    check(w.number == SHAPER_ACCEPTED && w.bytes == 28 && memcmp(file, picture, 28) == 0, "bytes written by hand");
    for (size_t length = 0; length <= 64; length++) {
        check_write(n, length);
        check_write(limits, length);
    }
}

/* Each field above its limit, alone and with each other; what a narrower number would lose too. */
static void check_writer_fields(void)
{
    static const uint32_t above[] = {1, 256 - 69, 256, 65536 - 10000, 65536, 0x80000000, UINT32_MAX};
    static const size_t lengths[] = {0, 1, 27, 28, 40};
    for (unsigned i = 0; i < 6; i++)
        for (unsigned k = 0; k < COUNT_OF(above) * COUNT_OF(lengths); k++) {
            uint32_t n[6] = {1, 2, 3, 4, 5, 6};
            const uint32_t more = above[k % COUNT_OF(above)];
            n[i] = more == UINT32_MAX ? more : limits[i] + more;
            check_write(n, lengths[k / COUNT_OF(above)]);
            n[(i + 1 + drawn(5)) % 6] = UINT32_MAX;
            check_write(n, lengths[k / COUNT_OF(above)]);
        }
    check(shaper_patch_write(70, 0, 0, 0, 0, 0, NULL, 0).number == SHAPER_BAD_FIELD, "mode 70, and NULL");
    check(shaper_patch_write(0, 0, 0, 0, 0, 0, NULL, 0).number == SHAPER_SHORT_WRITE, "NULL");
}

static int is_back(const uint32_t *n)
{
    uint8_t file[SHAPER_PATCH_BYTES];
    const struct shaper_written w = write_to(n, file, sizeof file);
    const struct shaper_patch p = shaper_patch_read(file, sizeof file);
    const struct shaper_patch want = {0, 0, {n[0], n[1], n[2], (float)n[1] / 100.0f, (float)n[2] / 10000.0f},
        {n[3], n[4], n[5], quotient(n[4], 100), quotient(n[5], 10000)}};
    return w.number == SHAPER_ACCEPTED && w.bytes == sizeof file && is_same_reading(p, want);
}

/* What is written reads as it was: every mode in either slot, every amount and every character. */
static void check_round_trip(void)
{
    for (uint32_t i = 0; i < 70 * 70; i++) {
        const uint32_t n[6] = {i % 70, i, 10000 - i, i / 70, 10000 - i, i};
        check(is_back(n), "a pair of modes");
    }
    for (uint32_t i = 0; i <= 10000; i++) {
        const uint32_t n[6] = {i % 70, i, 10000 - i, 69 - i % 70, 10000 - i, i};
        check(is_back(n), "an amount and a character");
    }
}

/* Good files, by the patch that they hold: of those with the same letter all are the same, each with itself too, and no
 * others. Each has three records: slot, mode, hundredths, ten-thousandths, serial. */
static const struct held {
    char letter;
    uint32_t records[3][5];
} files[] = {
    {'a', {{0, 0, 0, 0, 0}, {0, 0, 0, 0, 0}, {0, 0, 0, 0, 0}}},
    {'a', {{1, 0, 0, 9, 1}, {0, 0, 0, 10000, 1}, {0, 5, 5, 5, 0}}},
    {'b', {{0, 0, 1, 0, 1}, {1, 0, 0, 0, 1}, {1, 0, 0, 0, 1}}},
    {'c', {{0, 21, 5000, 2500, 1}, {1, 17, 100, 7, 1}, {1, 17, 100, 7, 1}}},
    {'c', {{0, 21, 5000, 2501, 1}, {1, 17, 100, 7, 1}, {1, 17, 100, 7, 1}}},
    {'c', {{1, 17, 100, 10000, 9}, {0, 3, 3, 3, 3}, {0, 21, 5000, 0, 3}}},
    {'d', {{0, 22, 5000, 2500, 1}, {1, 17, 100, 7, 1}, {1, 17, 100, 7, 1}}},
    {'e', {{0, 21, 5001, 2500, 1}, {1, 17, 100, 7, 1}, {1, 17, 100, 7, 1}}},
    {'f', {{0, 21, 5000, 2500, 1}, {1, 18, 100, 7, 1}, {1, 18, 100, 7, 1}}},
    {'g', {{0, 21, 5000, 2500, 1}, {1, 17, 101, 7, 1}, {1, 17, 101, 7, 1}}},
    {'h', {{0, 17, 100, 7, 1}, {1, 21, 5000, 2500, 1}, {1, 21, 5000, 2500, 1}}}};

static uint8_t *make_held(const struct held *h)
{
    f.length = 0;
    for (unsigned i = 0; i < 3; i++)
        append(h->records[i][0], h->records[i][1], h->records[i][2], h->records[i][3], h->records[i][4]);
    return lent(f.bytes, f.length, 0);
}

static void check_same(void)
{
    enum { COUNT = COUNT_OF(files), BYTES = 3 * RECORD };
    uint8_t *copies[COUNT];
    for (unsigned i = 0; i < COUNT; i++)
        copies[i] = make_held(&files[i]);
    for (unsigned i = 0; i < COUNT; i++) {
        const uint32_t is_off = files[i].letter == 'a';
        check(is_same(copies[i], BYTES, NULL, 0, 0, is_off) && is_same(NULL, 0, copies[i], BYTES, 0, is_off),
            "a file and an empty one");
        for (unsigned k = 0; k < COUNT; k++)
            check(is_same(copies[i], BYTES, copies[k], BYTES, 0, files[i].letter == files[k].letter), "two good files");
    }
    check(is_same(NULL, 0, NULL, 0, 0, 1), "two empty files");
    for (unsigned i = 0; i < COUNT; i++)
        take_back(copies[i], 0);
}

/* One file good and three turned away, each with each other and with itself, as one buffer and as two. */
static void check_same_refused(void)
{
    static const uint32_t numbers[] = {SHAPER_ACCEPTED, SHAPER_BAD_LENGTH, SHAPER_BAD_KIND, SHAPER_BAD_FIELD};
    uint8_t bytes[COUNT_OF(numbers)][RECORD];
    for (unsigned i = 0; i < COUNT_OF(numbers); i++)
        memcpy(bytes[i], clip, RECORD);
    put(bytes[1], LENGTH, 13), put(bytes[2], KIND, 2), put(bytes[3], MODE, 70);
    for (unsigned i = 0; i < COUNT_OF(numbers); i++)
        for (unsigned k = 0; k < COUNT_OF(numbers); k++) {
            const uint32_t number = i != 0 ? numbers[i] : numbers[k];
            uint8_t *a = lent(bytes[i], RECORD, 1), *b = lent(bytes[k], RECORD, 3);
            check(is_same(a, RECORD, b, RECORD, number, number == 0), "two files");
            check(is_same(bytes[i], RECORD, bytes[k], RECORD, number, number == 0), "two files, or one twice");
            take_back(a, 1), take_back(b, 3);
        }
}

/* A file by the library and by the model, from the heap and at any address; its number. */
static uint32_t check_modelled(const struct file *file, const char *what)
{
    const size_t moved = drawn(4);
    uint8_t *copy = lent(file->bytes, file->length, moved);
    const struct shaper_patch p = shaper_patch_read(copy, file->length);
    check(is_same_reading(p, model_read(file->bytes, file->length)), what);
    take_back(copy, moved);
    return p.number;
}

/* Every file of one byte and of two, and a record behind another with each of its bytes any. */
static void check_small(void)
{
    for (unsigned i = 0; i < 65536; i++)
        for (f.length = i < 256 ? 1 : 2; f.length <= 2; f.length++) {
            f.bytes[0] = (uint8_t)i, f.bytes[1] = (uint8_t)(i >> 8);
            check_modelled(&f, "one byte or two");
        }
    for (unsigned i = 0; i < 256 * RECORD; i++) {
        f.length = 0;
        append(0, 3, 2, 1, 256), append(0, 21, 5000, 2500, 256);
        f.bytes[RECORD + i / 256] = (uint8_t)i;
        check_modelled(&f, "a record with one byte any");
    }
}

/* What a good file holds, written: read again it is the same, and so is the file. */
static void check_rewritten(const struct file *file)
{
    uint8_t bytes[SHAPER_PATCH_BYTES];
    const struct shaper_patch p = shaper_patch_read(file->bytes, file->length);
    const struct shaper_written w = shaper_patch_write(p.slot0.mode, p.slot0.hundredths, p.slot0.ten_thousandths,
        p.slot1.mode, p.slot1.hundredths, p.slot1.ten_thousandths, bytes, sizeof bytes);
    check(w.number == SHAPER_ACCEPTED && is_same_reading(shaper_patch_read(bytes, sizeof bytes), p)
            && is_same(file->bytes, file->length, bytes, sizeof bytes, 0, 1),
        "a file that is written again");
}

/* Good files, few of them long, each damaged in one to three places; and each with the one before. */
static void check_drawn(void)
{
    static struct file last;
    unsigned seen[SHAPER_BAD_FIELD + 1] = {0};
    for (unsigned i = 0; i < 20000; i++) {
        make_good(&f, i % 400 == 0 ? MOST_RECORDS - drawn(3) : i % 50 == 0 ? drawn(300) : drawn(8));
        check(check_modelled(&f, "a good file") == SHAPER_ACCEPTED, "the number of a good file");
        check_rewritten(&f);
        for (uint32_t k = drawn(3) + 1; k > 0; k--)
            damage(&f);
        const uint32_t number = check_modelled(&f, "a damaged file");
        seen[number <= SHAPER_BAD_FIELD ? number : SHAPER_BAD_MODE] += 1;
        check(is_same_answer(shaper_patch_same(f.bytes, f.length, last.bytes, last.length),
                  model_same(f.bytes, f.length, last.bytes, last.length)),
            "two damaged files");
        last.length = f.length;
        memcpy(last.bytes, f.bytes, f.length);
    }
    check(seen[SHAPER_ACCEPTED] > 2000 && seen[SHAPER_BAD_LENGTH] > 2000 && seen[SHAPER_BAD_KIND] > 1000
            && seen[SHAPER_BAD_FIELD] > 500,
        "how many files each number has");
    check(seen[SHAPER_ACCEPTED] + seen[SHAPER_BAD_LENGTH] + seen[SHAPER_BAD_KIND] + seen[SHAPER_BAD_FIELD] == 20000,
        "no other number");
}

int main(void)
{
    check_values();
    check_cuts();
    check_lengths_and_kinds();
    check_fields();
    check_order();
    check_serials();
    check_limit();
    check_closed();
    check_writer();
    check_writer_fields();
    check_round_trip();
    check_same();
    check_same_refused();
    check_small();
    check_drawn();
    return finish();
}
