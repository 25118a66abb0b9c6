/* Pictures as SVG on standard output, for panel.c and tools/pictures.c. */
#ifndef SVG_H
#define SVG_H

#include <math.h>
#include <stdio.h>

/* Opens a white picture of this size in pixels. `style` has the lines' classes. */
static void svg_open(int width, int height, const char *title, const char *style)
{
    printf("<svg xmlns='http://www.w3.org/2000/svg' viewBox='0 0 %d %d' font-family='sans-serif' font-size='14' "
           "fill='#222'>\n",
        width, height);
    printf("<title>%s</title>\n<style>path{fill:none;stroke-width:1.5;stroke-linejoin:round;stroke-linecap:round}"
           ".axis{stroke:#999;stroke-width:.5}.cycle{stroke:#ccc;stroke-width:3}%s</style>\n",
        title, style);
    printf("<rect width='%d' height='%d' fill='#fff'/>\n", width, height);
}

/* A line to the right from the origin, a pixel for each point; 1 is `unit` pixels up. Heights are whole tenths of a
 * pixel, and a minus parts two numbers as a blank does. Infinities and NaN leave gaps: behind one the line begins with
 * a step of no length, so that a point between two gaps is seen too. */
static void svg_line(const char *name, const float *points, int count, double unit)
{
    long at = 0;
    printf("<path class='%s' d='", name);
    for (int k = 0, drawing = 0; k < count; k++) {
        const int had = drawing;
        drawing = isfinite(points[k]) != 0;
        if (!drawing)
            continue;
        const long next = lround(-10.0 * unit * (double)points[k]);
        if (had)
            printf(" 1%s%g", next < at ? "" : " ", (double)(next - at) / 10.0);
        else
            printf("M%d %gl0 0", k, (double)next / 10.0);
        at = next;
    }
    printf("'/>\n");
}

/* Ends the picture. Whether all of it was written. */
static int svg_close(void)
{
    printf("</svg>\n");
    return fflush(stdout) == 0 && !ferror(stdout);
}

#endif
