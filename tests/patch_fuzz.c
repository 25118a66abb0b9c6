/* Patch files by the library against the model, for tools/fuzz: an input is a file, and a difference ends the program.
 * With libFuzzer the model guides the search, as the library is not compiled with instruments. With OWN_MAIN:
 *
 *   patch_fuzz seeds DIRECTORY     writes files to start from
 *   patch_fuzz run SECONDS SEED    runs good files that are damaged by chance, and prints how many
 *   patch_fuzz replay FILE..       runs these files, and prints how many */
#define _DEFAULT_SOURCE /* MAP_ANONYMOUS */
#include "patch_files.h"
#include "patch_model.h"

#include <sys/mman.h>
#include <time.h>

int LLVMFuzzerTestOneInput(const uint8_t *data, size_t size);

static void must(int right, const char *what)
{
    if (right)
        return;
    fprintf(stderr, "differs: %s\n", what);
    abort();
}

/* A copy that ends where a page begins that nobody may touch: a sanitizer does not see what the library reads. */
static const uint8_t *fenced(const uint8_t *data, size_t size)
{
    enum { OPEN = 1 << 17, CLOSED = 1 << 16 };
    static uint8_t *pages;
    if (pages == NULL) {
        pages = mmap(NULL, OPEN + CLOSED, PROT_READ | PROT_WRITE, MAP_PRIVATE | MAP_ANONYMOUS, -1, 0);
        must(pages != MAP_FAILED && mprotect(pages + OPEN, CLOSED, PROT_NONE) == 0, "no pages");
    }
    must(size <= OPEN, "an input of more than 131,072 bytes");
    if (size != 0)
        memcpy(pages + OPEN - size, data, size);
    return pages + OPEN - size;
}

static void check_same(const uint8_t *a, size_t a_length, const uint8_t *b, size_t b_length)
{
    must(is_same_answer(shaper_patch_same(a, a_length, b, b_length), model_same(a, a_length, b, b_length)),
        "whether two files hold the same patch");
}

/* What is read, written: reads as the same, and is the same patch. */
static void check_written(const uint8_t *file, size_t length, const struct shaper_patch *p)
{
    static const uint8_t zeros[SHAPER_PATCH_BYTES];
    uint8_t *written = lent(zeros, sizeof zeros, 0);
    const struct shaper_written w = shaper_patch_write(p->slot0.mode, p->slot0.hundredths, p->slot0.ten_thousandths,
        p->slot1.mode, p->slot1.hundredths, p->slot1.ten_thousandths, written, sizeof zeros);
    must(w.number == SHAPER_ACCEPTED && w.bytes == sizeof zeros, "the answer of the writer");
    must(is_same_reading(shaper_patch_read(written, sizeof zeros), *p), "a patch that is written and read");
    const struct shaper_same s = shaper_patch_same(file, length, written, sizeof zeros);
    must(s.number == SHAPER_ACCEPTED && s.same == 1, "a file and what is written of it");
    take_back(written, 0);
}

/* The highest of each of the six numbers that a writer takes. */
static uint32_t most_of(unsigned i)
{
    return i % 3 == 0 ? 69 : 10000;
}

/* What a writer should do: the number, and in `file` the bytes. */
static uint32_t model_write(const uint32_t n[6], uint8_t *file, size_t length)
{
    for (unsigned i = 0; i < 6; i++)
        if (n[i] > most_of(i))
            return SHAPER_BAD_FIELD;
    if (length < 28)
        return SHAPER_SHORT_WRITE;
    put_record(file, 0, n[0], n[1], n[2], 1);
    put_record(file + RECORD, 1, n[3], n[4], n[5], 1);
    return SHAPER_ACCEPTED;
}

/* The input as six numbers, each any or about as high as it may be, a length, and what the buffer holds before. */
static void check_writing(const uint8_t *data, size_t size)
{
    uint32_t n[6];
    if (size < 4 * COUNT_OF(n) + 1)
        return;
    for (unsigned i = 0; i < COUNT_OF(n); i++) {
        const uint32_t any = number_at(data + 4 * i, 4);
        n[i] = any % 4 == 0 ? any / 4 : any / 4 % (most_of(i) + 2);
    }
    const size_t asked = data[4 * COUNT_OF(n)] % 64, length = asked < size ? asked : size;
    uint8_t *file = lent(data, length, 0), *want = lent(data, length, 0);
    const uint32_t number = model_write(n, want, length);
    const struct shaper_written w = shaper_patch_write(n[0], n[1], n[2], n[3], n[4], n[5], file, length);
    must(w.number == number && w.bytes == (number == SHAPER_ACCEPTED ? 28 : 0), "the answer of a writer");
    must(length == 0 || memcmp(file, want, length) == 0, "what a writer leaves");
    take_back(file, 0);
    take_back(want, 0);
}

/* The input cut in two, and each with the other. */
static void check_cut(const uint8_t *data, size_t size, size_t at)
{
    uint8_t *a = lent(data, at, 0), *b = lent(data + at, size - at, 0);
    check_same(a, at, b, size - at);
    check_same(b, size - at, a, at);
    take_back(a, 0);
    take_back(b, 0);
}

int LLVMFuzzerTestOneInput(const uint8_t *data, size_t size)
{
    uint8_t *file = lent(data, size, 0);
    const struct shaper_patch p = shaper_patch_read(file, size);
    must(is_same_reading(p, model_read(file, size)), "a reading");
    must(is_same_reading(p, shaper_patch_read(fenced(data, size), size)), "a reading at another address");
    check_same(file, size, file, size);
    if (p.number == SHAPER_ACCEPTED)
        check_written(file, size, &p);
    must(size == 0 || memcmp(file, data, size) == 0, "a file that was read");
    take_back(file, 0);
    check_cut(data, size, size / (2 * RECORD) * RECORD);
    check_cut(data, size, size / 2);
    check_writing(data, size);
    return 0;
}

static void start_chance(uint64_t seed)
{
    chance = (2 * seed + 1) * 0x9e3779b97f4a7c15;
}

#ifndef OWN_MAIN

size_t LLVMFuzzerMutate(uint8_t *data, size_t size, size_t max_size);
size_t LLVMFuzzerCustomMutator(uint8_t *data, size_t size, size_t max_size, unsigned seed);

/* Three times of four by the format, else as libFuzzer does. */
size_t LLVMFuzzerCustomMutator(uint8_t *data, size_t size, size_t max_size, unsigned seed)
{
    static struct file f;
    start_chance(seed);
    if (size > ROOM || drawn(4) == 0)
        return LLVMFuzzerMutate(data, size, max_size);
    memcpy(f.bytes, data, size);
    f.length = size;
    damage(&f);
    size = f.length < max_size ? f.length : max_size;
    memcpy(data, f.bytes, size);
    return size;
}

#else

static struct file f;

static int write_seeds(const char *directory)
{
    static const size_t records[] = {0, 1, 2, 3, 5, 8, 30, 300, MOST_RECORDS - 1, MOST_RECORDS};
    for (unsigned i = 0; i < 12 * COUNT_OF(records); i++) {
        char name[4096];
        make_good(&f, records[i % COUNT_OF(records)]);
        for (size_t k = 0; k < i / COUNT_OF(records); k += 3)
            damage(&f);
        snprintf(name, sizeof name, "%s/%03u", directory, i);
        FILE *seed = fopen(name, "wb");
        if (seed == NULL || fwrite(f.bytes, 1, f.length, seed) != f.length || fclose(seed) != 0) {
            perror(name);
            return 1;
        }
    }
    return 0;
}

static int run(long seconds, unsigned long seed)
{
    const time_t end = time(NULL) + seconds;
    unsigned long count = 0;
    printf("by seed %lu:\n", seed);
    fflush(stdout);
    start_chance(seed);
    for (; time(NULL) < end; count++) {
        make_good(&f, count % 200 == 0 ? MOST_RECORDS - drawn(3) : count % 20 == 0 ? drawn(300) : drawn(10));
        for (uint32_t k = drawn(4); k > 0; k--)
            damage(&f);
        LLVMFuzzerTestOneInput(f.bytes, f.length);
    }
    printf("%lu inputs, none differs\n", count);
    return 0;
}

static int replay(int count, char **names)
{
    for (int i = 0; i < count; i++) {
        FILE *file = fopen(names[i], "rb");
        if (file == NULL) {
            perror(names[i]);
            return 1;
        }
        f.length = fread(f.bytes, 1, sizeof f.bytes, file);
        fclose(file);
        LLVMFuzzerTestOneInput(f.bytes, f.length);
    }
    printf("%d inputs again, none differs\n", count);
    return 0;
}

int main(int argc, char **argv)
{
    if (argc == 3 && strcmp(argv[1], "seeds") == 0)
        return write_seeds(argv[2]);
    if (argc == 4 && strcmp(argv[1], "run") == 0)
        return run(atol(argv[2]), strtoul(argv[3], NULL, 10));
    if (argc >= 2 && strcmp(argv[1], "replay") == 0)
        return replay(argc - 2, argv + 2);
    fputs("usage: patch_fuzz seeds DIRECTORY | run SECONDS SEED | replay FILE..\n", stderr);
    return 2;
}

#endif
