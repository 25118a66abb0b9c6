/* Patch files: what one holds, a new one, and whether two hold the same patch.
 *
 *   cc -std=c11 -Iinclude examples/patch.c target/staticlib/libcard.a -o patch
 *   ./patch lead.patch HardClip 50 0.25 LowPass 33.33 0.9
 *   ./patch lead.patch */
#include "words.h"

#include <errno.h>
#include <stdio.h>

static const char usage[] =
    "usage: patch FILE                                                      prints what it holds\n"
    "       patch FILE MODE0 AMOUNT0 CHARACTER0 MODE1 AMOUNT1 CHARACTER1    writes it\n"
    "       patch same FILE OTHER                                           whether they hold the same patch\n"
    "  modes by name or number (docs/MODES.md), amounts in percent, 0 to 100, with two decimals at most, characters\n"
    "  0 to 1 with four; ends with 1 if a patch is turned away or two differ, 2 if a file can't be read or written or\n"
    "  a word is none of these\n";

/* A file and its patch. Of a file that is too long, one byte past the limit shows it to the library. */
struct file {
    uint8_t bytes[SHAPER_FILE_LIMIT + 1];
    size_t length;
    struct shaper_patch patch;
};

static _Noreturn void stop(const char *word)
{
    if (word != NULL)
        fprintf(stderr, "patch: '%s' is not what belongs there\n", word);
    fputs(usage, stderr);
    exit(2);
}

static _Noreturn void fail(const char *name, const char *what)
{
    fprintf(stderr, "patch: %s %s: %s\n", name, what, strerror(errno));
    exit(2);
}

static const char *meaning(uint32_t number, size_t length)
{
    switch (number) {
    case SHAPER_BAD_LENGTH: return length > SHAPER_FILE_LIMIT ? "over 65536 bytes" : "cut short, or a wrong length";
    case SHAPER_BAD_KIND: return "a kind of record that is not known";
    case SHAPER_BAD_FIELD: return "a slot, mode, amount or character out of range";
    default: return "no refusal of a patch";
    }
}

/* Whether a file holds a patch; if not, says why. */
static int take(const char *name, struct file *f)
{
    FILE *file = fopen(name, "rb");
    if (file == NULL)
        fail(name, "can't be read");
    f->length = fread(f->bytes, 1, sizeof f->bytes, file);
    if (ferror(file))
        fail(name, "can't be read");
    fclose(file);
    f->patch = shaper_patch_read(f->bytes, f->length);
    if (f->patch.number != SHAPER_ACCEPTED)
        fprintf(stderr, "patch: %s is turned away: %u at byte %u (%s)\n", name, (unsigned)f->patch.number,
            (unsigned)f->patch.at, meaning(f->patch.number, f->length));
    return f->patch.number == SHAPER_ACCEPTED;
}

/* By the whole numbers, which are exact. */
static void print_slot(unsigned slot, const struct shaper_patch_slot *s)
{
    const unsigned percent = s->hundredths, character = s->ten_thousandths;
    printf("slot %u  %s  %u.%02u %%  character %u.%04u\n", slot, shaper_mode_name(s->mode), percent / 100,
        percent % 100, character / 10000, character % 10000);
}

static int show(const char *name)
{
    static struct file f;
    if (!take(name, &f))
        return 1;
    print_slot(0, &f.patch.slot0);
    print_slot(1, &f.patch.slot1);
    return 0;
}

static int compare(const char *name, const char *other)
{
    static struct file a, b;
    const int is_first = take(name, &a), is_second = take(other, &b);
    if (!is_first || !is_second)
        return 1;
    const uint32_t same = shaper_patch_same(a.bytes, a.length, b.bytes, b.length).same;
    puts(same ? "same patch" : "different patches");
    return !same;
}

/* A number with so many decimals at most, as a count of the last one: 33.33 with two is 3333. A float would round. */
static uint32_t parts_of(const char *word, unsigned decimals, uint32_t most)
{
    uint32_t parts = 0;
    const char *point = strchr(word, '.');
    for (const char *c = word; *c != '\0'; c++) {
        if (c == point)
            continue;
        if (*c < '0' || *c > '9' || (point != NULL && c > point && decimals-- == 0))
            stop(word);
        parts = 10 * parts + (uint32_t)(*c - '0');
        if (parts > most)
            stop(word);
    }
    while (decimals-- > 0)
        parts *= 10;
    if (parts > most || word[strspn(word, ".")] == '\0')
        stop(word);
    return parts;
}

/* A full disk may show only when the file is closed. */
static int make(const char *name, char **words)
{
    uint8_t bytes[SHAPER_PATCH_BYTES];
    uint32_t n[6];
    for (int i = 0; i < 6; i++)
        if (i % 3 != 0)
            n[i] = parts_of(words[i], i % 3 == 1 ? 2 : 4, 10000);
        else if (!take_mode(words[i], &n[i]))
            stop(words[i]);
    const struct shaper_written w = shaper_patch_write(n[0], n[1], n[2], n[3], n[4], n[5], bytes, sizeof bytes);
    if (w.number != SHAPER_ACCEPTED) {
        fprintf(stderr, "patch: turned away: %u (%s)\n", (unsigned)w.number, meaning(w.number, 0));
        return 1;
    }
    FILE *file = fopen(name, "wb");
    if (file == NULL)
        fail(name, "can't be written");
    const size_t written = fwrite(bytes, 1, w.bytes, file);
    if (fclose(file) != 0 || written != w.bytes)
        fail(name, "is not written whole");
    return 0;
}

/* Each use has a number of words of its own: a file may have any name. */
int main(int argc, char **argv)
{
    if (argc == 2 && strcmp(argv[1], "--help") == 0) {
        fputs(usage, stdout);
        return 0;
    }
    if (argc != 2 && argc != 8 && (argc != 4 || strcmp(argv[1], "same") != 0))
        stop(NULL);
    const int code = argc == 2 ? show(argv[1]) : argc == 4 ? compare(argv[2], argv[3]) : make(argv[1], argv + 2);
    if (fclose(stdout) != 0)
        fail("standard output", "is not written whole");
    return code;
}
