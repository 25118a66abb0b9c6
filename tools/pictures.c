/* Draws what the shaper does to a cycle of a sine, by shaper_preview: nine modes at three amounts, as SVG on standard
 * output. */
#include "../examples/svg.h"
#include "shaper.h"

#include <stdlib.h>

enum { COLUMNS = 3, ROWS = 3, AMOUNTS = 3 };

/* In pixels: a point is one wide. */
enum {
    POINTS = 256, MARGIN = 24, HEAD = 52, TITLE = 26, HALF = 56,
    CELL_WIDTH = POINTS + MARGIN, CELL_HEIGHT = TITLE + 2 * HALF + 22
};

static const struct {
    uint32_t number;
    const char *name;
} modes[ROWS * COLUMNS] = {
    {SHAPER_SYNC, "Sync"}, {SHAPER_PINCH_IN, "Pinch in"}, {SHAPER_PULSE_WIDTH, "Pulse width"},
    {SHAPER_LEAN_RIGHT, "Lean right"}, {SHAPER_FLIP, "Flip"}, {SHAPER_QUANTISE, "Quantise"},
    {SHAPER_HARD_CLIP, "Hard clip"}, {SHAPER_FOLD, "Fold"}, {SHAPER_RECTIFY, "Rectify"}};

/* The amounts, and the classes of their lines. */
static const float percents[AMOUNTS] = {10.0f, 30.0f, 70.0f};
static const char *const lines[AMOUNTS] = {"a0", "a1", "a2"};
static const char style[] = ".a0{stroke:#8cc5e3}.a1{stroke:#3b8bc4}.a2{stroke:#0b3c73}";

static float curve[SHAPER_CURVE], cycle[SHAPER_CYCLE];

static void make_tables(void)
{
    for (int i = 0; i < SHAPER_CURVE; i++)
        curve[i] = (float)i / (SHAPER_CURVE - 1);
    for (int i = 0; i < SHAPER_CYCLE; i++)
        cycle[i] = (float)sin(i * 6.283185307179586 / SHAPER_CYCLE);
}

static void draw(const char *line, uint32_t mode, float amount)
{
    float picture[POINTS];
    struct shaper_answer answer = shaper_preview(mode, SHAPER_OFF, 0.0f, 0.0f, amount, 0.0f, shaper_numbers,
        SHAPER_NUMBERS, curve, SHAPER_CURVE, cycle, SHAPER_CYCLE, picture, POINTS);
    if (answer.number != SHAPER_ACCEPTED) {
        fprintf(stderr, "turned down with %u\n", (unsigned)answer.number);
        exit(1);
    }
    svg_line(line, picture, POINTS, HALF);
}

/* The title, the axes, the cycle as it was and then shaped. */
static void draw_mode(int place)
{
    printf("<g transform='translate(%d %d)'>\n", MARGIN + place % COLUMNS * CELL_WIDTH,
        HEAD + place / COLUMNS * CELL_HEIGHT);
    printf("<text y='14'><tspan font-weight='bold'>%s</tspan> <tspan fill='#888'>mode %u</tspan></text>\n",
        modes[place].name, (unsigned)modes[place].number);
    printf("<g transform='translate(0 %d)'>\n", TITLE + HALF);
    printf("<path class='axis' d='M0 0h%dM0 %dv%d'/>\n<use href='#cycle'/>\n", POINTS, -HALF, 2 * HALF);
    for (int i = 0; i < AMOUNTS; i++)
        draw(lines[i], modes[place].number, percents[i]);
    printf("</g>\n</g>\n");
}

static void draw_key(int x, const char *line, const char *text)
{
    printf("<path class='%s' d='M%d 26h24'/><text x='%d' y='31'>%s</text>\n", line, x, x + 32, text);
}

int main(void)
{
    make_tables();
    svg_open(COLUMNS * CELL_WIDTH + MARGIN, HEAD + ROWS * CELL_HEIGHT,
        "A sine's cycle by nine modes of the shaper, at three amounts", style);
    printf("<defs><g id='cycle'>\n");
    draw("cycle", SHAPER_OFF, 0.0f);
    printf("</g></defs>\n");
    draw_key(MARGIN, "cycle", "the cycle");
    for (int i = 0; i < AMOUNTS; i++) {
        char text[16];
        snprintf(text, sizeof text, "%.0f %%", (double)percents[i]);
        draw_key(MARGIN + 140 + 100 * i, lines[i], text);
    }
    for (int place = 0; place < ROWS * COLUMNS; place++)
        draw_mode(place);
    if (!svg_close()) {
        perror("standard output");
        return 1;
    }
    return 0;
}
