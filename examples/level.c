/* Which amount gives this level: the least one at which a distortion makes of a sample what is wanted, or the same for
 * all fourteen distortions. The two decimals are exact: a patch takes them as they stand (examples/patch.c).
 *
 *   cc -std=c11 -Iinclude examples/level.c target/staticlib/libcard.a -o level
 *   ./level HardClip 0.5 0.75 0.01
 *   ./level all 0.5 0.75 0.01 */
#include "words.h"

#include <stdio.h>

static const char usage[] =
    "usage: level MODE SAMPLE WANTED [TOLERANCE]    the least amount at which the mode makes WANTED of SAMPLE\n"
    "       level all SAMPLE WANTED [TOLERANCE]     the same for each distortion, with - where no amount does\n"
    "  MODE is a distortion by name or number (docs/MODES.md); SAMPLE, WANTED and TOLERANCE, how far from WANTED is\n"
    "  near enough (0.001 if it is left out), are any numbers. Ends with 1 if no amount of the one MODE gives the\n"
    "  level, if it is no distortion, or if the output can't be written; with 2 if a word is none of these\n";

/* A sample, the output that is wanted of it, and how far from that it may lie. */
struct level {
    float sample, wanted, tolerance;
};

static _Noreturn void stop(const char *word)
{
    if (word != NULL)
        fprintf(stderr, "level: '%s' is not what belongs there\n", word);
    fputs(usage, stderr);
    exit(2);
}

static struct level level_of(int count, char **words)
{
    float numbers[3] = {0.0f, 0.0f, 0.001f};
    for (int i = 0; i < count; i++)
        if (!take_float(words[i], &numbers[i]))
            stop(words[i]);
    return (struct level){numbers[0], numbers[1], numbers[2]};
}

static struct shaper_found find(uint32_t mode, struct level l)
{
    return shaper_amount_for(mode, l.sample, l.wanted, l.tolerance, shaper_numbers, SHAPER_NUMBERS);
}

/* By the whole number, which is exact. */
static void print(uint32_t mode, struct shaper_found found)
{
    const unsigned hundredths = found.hundredths;
    if (found.number == SHAPER_ACCEPTED)
        printf("%-12s  %3u.%02u %%\n", shaper_mode_name(mode), hundredths / 100, hundredths % 100);
    else
        printf("%-12s       -\n", shaper_mode_name(mode));
}

/* What is refused is said in the words of the command line: sample, wanted output and, if it is there, tolerance. */
static int print_one(uint32_t mode, struct level l, char **words)
{
    const struct shaper_found found = find(mode, l);
    switch (found.number) {
    case SHAPER_ACCEPTED: print(mode, found); return 0;
    case SHAPER_BAD_MODE: fprintf(stderr, "level: turned down with 1: the mode is no distortion\n"); return 1;
    case SHAPER_NO_AMOUNT:
        fprintf(stderr, "level: turned down with 12: no amount from 0 to 100 %% comes within %s of %s\n",
            words[2] != NULL ? words[2] : "0.001", words[1]);
        return 1;
    default: fprintf(stderr, "level: turned down with %u\n", (unsigned)found.number); return 1;
    }
}

static int print_all(struct level l)
{
    for (uint32_t mode = SHAPER_VALVE; mode <= SHAPER_SOFT_SATURATE; mode++)
        print(mode, find(mode, l));
    return 0;
}

int main(int argc, char **argv)
{
    uint32_t mode = SHAPER_OFF;
    if (argc != 4 && argc != 5)
        stop(NULL);
    const int all = strcmp(argv[1], "all") == 0;
    if (!all && !take_mode(argv[1], &mode))
        stop(argv[1]);
    const struct level l = level_of(argc - 2, argv + 2);
    const int code = all ? print_all(l) : print_one(mode, l, argv + 2);
    if (fflush(stdout) != 0 || ferror(stdout)) {
        perror("level: standard output");
        return 1;
    }
    return code;
}
