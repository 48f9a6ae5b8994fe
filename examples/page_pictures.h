/* The pictures in the page: the three carbon subtotals as bars, and the cleared biomass as one bar in five parts. Their words stand beside them as text. */
#ifndef PAGE_PICTURES_H
#define PAGE_PICTURES_H

#include "page_html.h"

enum { PICTURE_WIDTH = SPAN + 40, PICTURE_LEFT = 20 }; /* SPAN, in which the chart's headers count a bar's length, and a margin */

static void open_drawing(FILE *out, int height, const char *id, const char *title) {
    fprintf(out, "<svg xmlns=\"http://www.w3.org/2000/svg\" viewBox=\"0 0 %d %d\" role=\"img\" aria-labelledby=\"%s-title %s-words\">\n"
        "<title id=\"%s-title\">%s</title>\n<desc id=\"%s-words\">", PICTURE_WIDTH, height, id, id, id, title, id);
}

/* ---- the three subtotals ---- */

static const char *const bar_labels[3] = {"On site", "Off site", "Decay"};
enum { BAND = 58, BAR_TOP = 20, BAR_HEIGHT = 26 }; /* of a bar with its label above it */

static void put_bar_words(FILE *out, const struct figures *f) {
    for (int i = 0; i < 3; i++) fprintf(out, "%s: %s kt C%s", bar_labels[i], number(f->exact[i], 12, true).s, i < 2 ? "; " : ".");
}

static void draw_one_bar(FILE *out, const struct figures *f, int i, const struct axis *axis) {
    int y = axis->top + BAND * i;
    unsigned length = along(f->verdict[i].value, axis);
    if (f->verdict[i].value && length < 100) length = 100; /* a thin mark, so that it does not look like nothing */
    fprintf(out, "<text class=\"strong\" x=\"%d\" y=\"%d\">%s</text>\n", PICTURE_LEFT, y + 14, bar_labels[i]);
    fprintf(out, "<text x=\"%d\" y=\"%d\" text-anchor=\"end\">%s kt C</text>\n", PICTURE_LEFT + SPAN, y + 14, number(f->exact[i], 12, true).s);
    fprintf(out, "<rect class=\"c%d\" x=\"%d\" y=\"%d\" width=\"%u.%02u\" height=\"%d\"/>\n", i, PICTURE_LEFT, y + BAR_TOP, length / 100,
        length % 100, BAR_HEIGHT);
}

/* Lines behind the bars where the axis has its steps, each with its number below. */
static void draw_ticks(FILE *out, const struct axis *axis) {
    static const char *const units[7] = {"mg C", "g C", "kg C", "t C", "kt C", "Mt C", "Gt C"};
    for (whole tick = 0; tick <= axis->end; tick += axis->step) {
        unsigned x = PICTURE_LEFT * 100 + along(tick, axis);
        for (int i = 0; i < 3; i++)
            fprintf(out, "<path class=\"line\" d=\"M%u.%02u %d v%d\"/>\n", x / 100, x % 100, axis->top + BAND * i + BAR_TOP - 3, BAR_HEIGHT + 6);
        fprintf(out, "<text class=\"small\" x=\"%u.%02u\" y=\"%d\" text-anchor=\"middle\">%s</text>\n", x / 100, x % 100, axis->bottom + 10,
            number(tick, 3 * axis->unit, true).s);
    }
    fprintf(out, "<text class=\"small\" x=\"%d\" y=\"%d\" text-anchor=\"middle\">%s</text>\n", PICTURE_LEFT + SPAN / 2, axis->bottom + 28, units[axis->unit]);
}

static void put_bars(FILE *out, const struct taken *t) {
    enum { TOP = 4, BOTTOM = TOP + 3 * BAND };
    struct axis axis = make_axis(TOP, BOTTOM, largest(0, &t->drawn));
    fputs("<h3>Carbon released by land conversion</h3>\n<figure>\n", out);
    open_drawing(out, BOTTOM + 34, "bars", "Carbon released by land conversion");
    put_bar_words(out, &t->drawn);
    fputs("</desc>\n", out);
    draw_ticks(out, &axis);
    for (int i = 0; i < 3; i++) draw_one_bar(out, &t->drawn, i, &axis);
    fputs("</svg>\n<figcaption>Carbon burned on site, burned off site, and left to decay on the ten-year area. Each bar was held against its exact total before it was drawn.</figcaption>\n"
          "</figure>\n", out);
}

/* ---- the five parts ---- */

/* Where a part begins, in hundredths from the left: what stands before it. The last ends at SPAN. */
static unsigned part_edge(const struct figures *f, int i) {
    whole before = 0, all = all_masses(f);
    for (int k = 0; k < i; k++) before += f->masses[k];
    return all ? (unsigned)(before * (SPAN * 100) / all) : 0;
}

static void draw_part(FILE *out, const struct figures *f, int i) {
    unsigned left = part_edge(f, i), width = part_edge(f, i + 1) - left, middle = PICTURE_LEFT * 100 + left + width / 2;
    fprintf(out, "<rect class=\"m%d\" x=\"%u.%02u\" y=\"20\" width=\"%u.%02u\" height=\"30\"/>\n", i, PICTURE_LEFT + left / 100, left % 100, width / 100, width % 100);
    if (width >= 1000) fprintf(out, "<text x=\"%u.%02u\" y=\"14\" text-anchor=\"middle\">%d</text>\n", middle / 100, middle % 100, i + 1);
}

/* The parts one under the other: the colour, the number, what it is, how much and which share. */
static void put_parts(FILE *out, const struct taken *t) {
    const struct figures *f = &t->drawn;
    open_box(out, NARROW, "Parts of the cleared biomass", "", ": the totals are exact; shares are rounded for print alone, so they may not add up to 100");
    fputs("<thead><tr><th scope=\"col\">Part</th><th scope=\"col\">Dry matter <span class=\"unit\">(kt)</span></th><th scope=\"col\">Share</th></tr></thead>\n<tbody>\n", out);
    for (int i = 0; i < MASSES; i++) {
        fprintf(out, "<tr><th scope=\"row\"><svg xmlns=\"http://www.w3.org/2000/svg\" class=\"swatch\" viewBox=\"0 0 9 9\" aria-hidden=\"true\"><rect class=\"m%d\" width=\"9\" "
            "height=\"9\"/></svg> %d. %s</th>", i, i + 1, mass_labels[i]);
        put_number(out, t->figure[OXIDISED_ONSITE + i], 9);
        fprintf(out, "<td class=\"n\">%s</td></tr>\n", share_of(f->masses[i], all_masses(f)).s);
    }
    fputs("</tbody>\n<tfoot><tr><th scope=\"row\">The whole</th>", out);
    put_number(out, (amount)all_masses(f), 9);
    fputs("<td class=\"none\"></td></tr></tfoot>\n", out);
    close_box(out);
}

static void put_biomass(FILE *out, const struct taken *t) {
    const struct figures *f = &t->drawn;
    fputs("<h3>Where the cleared biomass went, in five parts</h3>\n<figure>\n", out);
    open_drawing(out, 56, "parts", "Where the cleared biomass went");
    put_words(out, f);
    fputs("</desc>\n", out);
    for (int i = 0; i < MASSES; i++) draw_part(out, f, i);
    fprintf(out, "<rect class=\"edge\" x=\"%d\" y=\"20\" width=\"%d\" height=\"30\"/>\n", PICTURE_LEFT, SPAN);
    if (all_masses(f) == 0) fprintf(out, "<text x=\"%d\" y=\"39\" text-anchor=\"middle\">no biomass was cleared</text>\n", PICTURE_LEFT + SPAN / 2);
    fputs("</svg>\n</figure>\n", out);
    put_parts(out, t);
}

static void put_pictures(FILE *out, const struct taken *t) {
    begin_section(out, "pictures", "Pictures");
    put_bars(out, t);
    put_biomass(out, t);
    end_section(out);
}

#endif
