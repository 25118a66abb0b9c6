/* The picture on a panel: one cycle, and over it what two slots make of it, as SVG on standard output.
 *
 *   cc -std=c11 -Iinclude examples/panel.c target/staticlib/libcard.a -lm -o panel
 *   ./panel Sync 40 0 LowPass 75 0.9 > picture.svg */
#include "slot.h"
#include "svg.h"

static const char usage[] =
    "usage: panel MODE0 AMOUNT0 CHARACTER0 MODE1 AMOUNT1 CHARACTER1 [CYCLE [CURVE]] > picture.svg\n"
    "  modes by name or number (docs/MODES.md), amounts in percent, 0 to 100, characters 0 to 1\n"
    "  CYCLE and CURVE are files of raw 32-bit floats as this machine stores them, of which the first 2,048 and 1,025\n"
    "  count; without them the cycle is a sine's and the remap curve changes nothing\n";

/* In pixels: a point is one wide. */
enum { POINTS = 512, HALF = 140, LEFT = 56, HEAD = 72, WIDTH = LEFT + POINTS + 24, HEIGHT = HEAD + 2 * HALF + 36 };

static float curve[SHAPER_CURVE], cycle[SHAPER_CYCLE];

static _Noreturn void stop(const char *word)
{
    if (word != NULL)
        fprintf(stderr, "panel: '%s' is not what belongs there\n", word);
    fputs(usage, stderr);
    exit(2);
}

static struct slot slot_of(char **words)
{
    struct slot slot;
    const char *wrong = take_slot(words, &slot);
    if (wrong != NULL)
        stop(wrong);
    return slot;
}

/* The first numbers of a file, if one is named. */
static void read_table(const char *name, float *table, size_t count)
{
    if (name == NULL)
        return;
    FILE *file = fopen(name, "rb");
    if (file == NULL || fread(table, sizeof *table, count, file) != count) {
        fprintf(stderr, "panel: no %zu floats can be read from %s\n", count, name);
        exit(1);
    }
    fclose(file);
}

/* By the words behind the slots': a cycle's file, a curve's. */
static void make_tables(int count, char **words)
{
    for (int i = 0; i < SHAPER_CYCLE; i++)
        cycle[i] = (float)sin(i * 6.283185307179586 / SHAPER_CYCLE);
    for (int i = 0; i < SHAPER_CURVE; i++)
        curve[i] = (float)i / (SHAPER_CURVE - 1);
    read_table(count > 0 ? words[0] : NULL, cycle, SHAPER_CYCLE);
    read_table(count > 1 ? words[1] : NULL, curve, SHAPER_CURVE);
}

static const char *meaning(uint32_t number)
{
    switch (number) {
    case SHAPER_BAD_MODE: return "a mode is above 69";
    case SHAPER_BAD_FRAMES: return "a picture has more than 4,096 points";
    case SHAPER_SHORT_READ: return "a table is too short";
    default: return "no refusal of a picture";
    }
}

static void preview(const struct slot *s, float *picture)
{
    const struct shaper_answer answer = shaper_preview(s[0].mode, s[1].mode, s[0].character, s[1].character,
        s[0].amount, s[1].amount, shaper_numbers, SHAPER_NUMBERS, curve, SHAPER_CURVE, cycle, SHAPER_CYCLE, picture,
        POINTS);
    if (answer.number != SHAPER_ACCEPTED) {
        fprintf(stderr, "panel: turned down with %u: %s\n", (unsigned)answer.number, meaning(answer.number));
        exit(1);
    }
}

/* As high as the highest finite point, and at least `least`. */
static double height_of(const float *points, double least)
{
    for (int i = 0; i < POINTS; i++)
        if (isfinite(points[i]))
            least = fmax(least, fabs((double)points[i]));
    return least;
}

static void draw_axes(double height)
{
    for (int i = -1; i <= 1; i++)
        printf("<path class='axis' d='M0 %dh%d'/><text x='-8' y='%d' text-anchor='end'>%.3g</text>\n", -i * HALF,
            POINTS, 5 - i * HALF, i * height);
    printf("<path class='axis' d='M0 %dv%d'/>\n", -HALF, 2 * HALF);
    printf("<g transform='translate(0 %d)'><text>0</text><text x='%d' text-anchor='end'>1 cycle</text>", HALF + 22,
        POINTS);
    printf("<text x='%d' text-anchor='middle' fill='#888'>grey: without the slots</text></g>\n", POINTS / 2);
}

static void draw(const struct slot *s, const float *plain, const float *shaped)
{
    const double height = height_of(shaped, height_of(plain, 1.0));
    char title[80];
    snprintf(title, sizeof title, "%s %g %%, %s %g %%", shaper_mode_name(s[0].mode), (double)s[0].amount,
        shaper_mode_name(s[1].mode), (double)s[1].amount);
    svg_open(WIDTH, HEIGHT, title, ".shaped{stroke:#0b3c73;stroke-width:2}");
    for (int i = 0; i < SHAPER_SLOTS; i++)
        printf("<text x='%d' y='%d'>slot %d: <tspan font-weight='bold'>%s</tspan> %g %%, character %g</text>\n", LEFT,
            26 + 22 * i, i, shaper_mode_name(s[i].mode), (double)s[i].amount, (double)s[i].character);
    printf("<g transform='translate(%d %d)'>\n", LEFT, HEAD + HALF);
    draw_axes(height);
    svg_line("cycle", plain, POINTS, HALF / height);
    svg_line("shaped", shaped, POINTS, HALF / height);
    printf("</g>\n");
}

int main(int argc, char **argv)
{
    static const struct slot off[SHAPER_SLOTS];
    float plain[POINTS], shaped[POINTS];
    if (argc < 7 || argc > 9)
        stop(NULL);
    const struct slot slots[SHAPER_SLOTS] = {slot_of(argv + 1), slot_of(argv + 4)};
    make_tables(argc - 7, argv + 7);
    preview(off, plain);
    preview(slots, shaped);
    draw(slots, plain, shaped);
    if (!svg_close()) {
        perror("panel: standard output");
        return 1;
    }
    return 0;
}
