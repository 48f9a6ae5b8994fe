/* The pictures: the three subtotals of a return as bars, and those of two versions of it side by side, on one scale. */
#ifndef CHART_DRAW_H
#define CHART_DRAW_H

#include "chart_cleared.h"

/* ---- text for XML ---- */

/* The length of the good UTF-8 character at p, or 0: a picture with a bad byte in it would not open. */
static size_t character(const unsigned char *p) {
    if (p[0] < 0x80) return p[0] >= 0x20 && p[0] != 0x7f;
    size_t length = p[0] < 0xc2 || p[0] > 0xf4 ? 0 : p[0] < 0xe0 ? 2 : p[0] < 0xf0 ? 3 : 4;
    for (size_t i = 1; i < length; i++)
        if ((p[i] & 0xc0) != 0x80) return 0;
    unsigned two = p[0] < 0xe0 ? 0 : (unsigned)p[0] << 8 | p[1]; /* longer than need be, half of a pair, too large, not for XML: */
    bool bad = (two >= 0xe000 && two < 0xe0a0) || (two >= 0xeda0 && two < 0xee00) || (two >= 0xf000 && two < 0xf090) ||
               two >= 0xf490 || (two == 0xefbf && p[2] > 0xbd);
    return bad ? 0 : length;
}

/* A text fit for XML, at most so many characters of it so that it stays inside the picture. */
static void put_text(FILE *out, const char *text, int most) {
    const unsigned char *p = (const unsigned char *)text;
    for (int i = 0; *p && i < most; i++) {
        size_t length = character(p);
        if (*p == '&' || *p == '<' || *p == '>') fprintf(out, "&#%d;", *p);
        else if (length) fwrite(p, 1, length, out);
        else fputc('?', out);
        p += length ? length : 1;
    }
    if (*p) fputs("...", out);
}

/* The last part of the path. */
static const char *last_part(const char *path) {
    const char *slash = strrchr(path, '/');
    return strcmp(path, "-") == 0 ? "standard input" : slash ? slash + 1 : path;
}

/* ---- what the pictures are made of ---- */

/* Where things stand, in the picture's units. */
enum { WIDTH = 980, LEFT = 180, SPAN = 440, RIGHT = 940, BAR = 36 };
#define END "text-anchor=\"end\" "
#define LARGE "font-size=\"16\" "
#define SMALL "font-size=\"12\" fill=\"#555\" "
#define RAISED(words) "<tspan dy=\"-5\" font-size=\"9\">" words "</tspan><tspan dx=\"4\" dy=\"5\">" /* the caller ends the last tspan */

static const char *const colours[3] = {"#b4532a", "#d49a2f", "#4d7c5a"};
static const char *const pale_colours[3] = {"#e6c4b5", "#f2dfb8", "#bfd3c5"}; /* of the old return */

/* The axis from LEFT on, between two heights: where it ends, in 10^-12 kt C, its steps, and its unit, which is 1,000^unit of 10^-12 kt C. */
struct axis {
    int top, bottom;
    whole end, step;
    unsigned unit;
};

static struct axis make_axis(int top, int bottom, whole most) {
    struct axis axis = {top, bottom, 0, 1, 0};
    if (most == 0) most = UINT64_C(1000000000000); /* nothing to show: an axis of 1 kt C */
    whole ten = 1; /* the step is the least of 1, 2, 5, 10, 20, 50 and so on of which six reach far enough */
    for (int i = 0; 6 * axis.step < most; i++) {
        if (i % 3 == 2) ten *= 10;
        axis.step = ten * (i % 3 == 0 ? 2 : i % 3 == 1 ? 5 : 1);
    }
    axis.end = (most + axis.step - 1) / axis.step * axis.step;
    for (whole size = 1000; axis.unit < 6 && size <= axis.end; size *= 1000) axis.unit++;
    return axis;
}

static whole largest(whole most, const struct figures *f) {
    for (int i = 0; i < 3; i++)
        if (f->verdict[i].value > most) most = f->verdict[i].value;
    return most;
}

/* value as a length along the axis, in hundredths: below 2^70 * 2^16. */
static unsigned along(whole value, const struct axis *axis) { return (unsigned)(value * (SPAN * 100) / axis->end); }

static void say(FILE *out, int x, int y, const char *look, const char *words) {
    fprintf(out, "<text x=\"%d\" y=\"%d\" %s>%s</text>\n", x, y, look, words);
}

static void open_picture(FILE *out, int height, const char *more) {
    fprintf(out, "<?xml version=\"1.0\" encoding=\"UTF-8\"?>\n<svg xmlns=\"http://www.w3.org/2000/svg\" width=\"%d\" height=\"%d\" "
            "viewBox=\"0 0 %d %d\" font-family=\"Arial, Helvetica, sans-serif\" font-size=\"14\" fill=\"#222\"%s>\n", WIDTH, height, WIDTH, height, more);
}

/* The heading, with the caller's own line where there is one. The answer is the height of the line below it. */
static int put_heading(FILE *out, int height, const char *heading, const char *title) {
    fprintf(out, "<rect width=\"%d\" height=\"%d\" fill=\"#fff\"/>\n", WIDTH, height);
    say(out, 40, 46, "font-size=\"22\" font-weight=\"bold\"", heading);
    if (!title) return 76;
    fprintf(out, "<text x=\"40\" y=\"76\" font-size=\"18\">");
    put_text(out, title, 80);
    fprintf(out, "</text>\n");
    return 104;
}

/* The front of a picture of carbon, and the same answer. */
static int begin_picture(FILE *out, int height, const char *title) {
    open_picture(out, height, "");
    return put_heading(out, height, "Carbon released by land conversion", title);
}

/* Which return it is. */
static void put_file(FILE *out, int y, const struct version *v) {
    fprintf(out, "<text x=\"40\" y=\"%d\" fill=\"#555\">File: ", y);
    put_text(out, last_part(v->path), 60);
    fprintf(out, "; conversion rows: %" PRIu32 "</text>\n", v->figures.n);
}

static void end_picture(FILE *out, int height) {
    /* (n + 2) / 2^53 is at most 34 / 2^53, below 1 / 10^14 */
    say(out, 40, height - 20, SMALL, "Before drawing, the figure behind each bar was held against its exact total: the two differ by less than one part in "
        "100,000,000,000,000.");
    fprintf(out, "</svg>\n");
}

static void draw_steps(FILE *out, const struct axis *axis) {
    for (whole tick = 0; tick <= axis->end; tick += axis->step) {
        unsigned x = LEFT * 100 + along(tick, axis);
        fprintf(out, "<path d=\"M%u.%02u %d V%d\" stroke=\"#ddd\"/>\n", x / 100, x % 100, axis->top, axis->bottom + 6);
        fprintf(out, "<text x=\"%u.%02u\" y=\"%d\" text-anchor=\"middle\">%s</text>\n", x / 100, x % 100, axis->bottom + 24,
                number(tick, 3 * axis->unit, true).s);
    }
}

/* The axis itself, over the bars. */
static void draw_axis(FILE *out, const struct axis *axis) {
    /* 10^-12 kt C is 1 mg C, and each unit is 1,000 of the one before */
    static const char *const units[7] = {"mg C (1 kt C = 1,000,000,000,000 mg C)", "g C (1 kt C = 1,000,000,000 g C)",
        "kg C (1 kt C = 1,000,000 kg C)", "t C (1 kt C = 1,000 t C)", "kt C (thousand tonnes of carbon)", "Mt C (1 Mt C = 1,000 kt C)",
        "Gt C (1 Gt C = 1,000,000 kt C)"};
    fprintf(out, "<path d=\"M%d %d V%d H%d\" fill=\"none\" stroke=\"#222\"/>\n", LEFT, axis->top, axis->bottom, LEFT + SPAN);
    fprintf(out, "<text x=\"%d\" y=\"%d\" text-anchor=\"middle\">Carbon in %s</text>\n", LEFT + SPAN / 2, axis->bottom + 50, units[axis->unit]);
}

static void put_label(FILE *out, int i, int middle) {
    static const char *const labels[3] = {"On site", "Off site", "Decay"};
    static const char *const notes[3] = {"burning on site", "burning off site", "of the ten-year area"};
    say(out, LEFT - 16, middle - 1, END LARGE "font-weight=\"bold\"", labels[i]);
    say(out, LEFT - 16, middle + 16, END SMALL, notes[i]);
}

/* A bar, and at its end words where it is zero or too small. */
static void draw_bar(FILE *out, int middle, const char *colour, whole value, const struct axis *axis) {
    unsigned length = along(value, axis);
    bool thin = value && length < 200; /* then a thin mark all the same, so that it doesn't look like zero */
    if (thin) length = 200;
    fprintf(out, "<rect x=\"%d\" y=\"%d\" width=\"%u.%02u\" height=\"%d\" fill=\"%s\"/>\n", LEFT, middle - BAR / 2, length / 100, length % 100, BAR,
            colour);
    if (thin || value == 0) { /* white behind the words, so that no grid line runs through them */
        fprintf(out, "<rect x=\"%d\" y=\"%d\" width=\"%d\" height=\"20\" fill=\"#fff\"/>\n", LEFT + 6, middle - 10, thin ? 230 : 44);
        say(out, LEFT + 12, middle + 5, "fill=\"#555\"", thin ? "too small to be shown to scale" : "zero");
    }
}

/* An exact total at the right: in kt C, and below that, small, as the whole number that `sheets` prints. */
static void put_total(FILE *out, int y, const char *look, whole exact) {
    fprintf(out, "<text x=\"%d\" y=\"%d\" " END "%s>%s kt C</text>\n", RIGHT, y, look, number(exact, 12, true).s);
    fprintf(out, "<text x=\"%d\" y=\"%d\" " END SMALL ">%s x 10" RAISED("-12") "kt C</tspan></text>\n", RIGHT, y + 17, number(exact, 0, true).s);
}

static whole sum_of(const struct figures *f) { return f->exact[0] + f->exact[1] + f->exact[2]; }

/* The line under the totals, above the sums. */
static void draw_line(FILE *out, int from, const struct axis *axis) {
    fprintf(out, "<path d=\"M%d %d H%d\" stroke=\"#222\"/>\n", from, axis->bottom + 6, RIGHT);
}

/* ---- one return ---- */

static void draw_subtotal(FILE *out, const struct figures *f, int i, int middle, const struct axis *axis) {
    fprintf(out, "<g>\n<title>%s %s</title>\n", names[i], plain(f->exact[i]).s);
    put_label(out, i, middle);
    draw_bar(out, middle, colours[i], f->verdict[i].value, axis);
    put_total(out, middle - 1, LARGE, f->exact[i]);
    fprintf(out, "</g>\n");
}

static void draw_one(FILE *out, const struct version *v, const char *title) {
    enum { HEIGHT = 480, TOP = 150, BAND = 70, BOTTOM = TOP + 3 * BAND };
    const struct figures *f = &v->figures;
    struct axis axis = make_axis(TOP, BOTTOM, largest(0, f));
    put_file(out, begin_picture(out, HEIGHT, title), v);
    say(out, RIGHT, TOP - 14, END "fill=\"#555\"", "Exact total");
    draw_steps(out, &axis);
    for (int i = 0; i < 3; i++) draw_subtotal(out, f, i, TOP + BAND * i + BAND / 2, &axis);
    draw_axis(out, &axis);
    fprintf(out, "<g>\n<title>sum %s</title>\n", plain(sum_of(f)).s);
    draw_line(out, LEFT + SPAN + 60, &axis);
    put_total(out, BOTTOM + 48, LARGE "font-weight=\"bold\"", sum_of(f));
    say(out, RIGHT, BOTTOM + 26, END "fill=\"#555\"", "Sum of the three");
    fprintf(out, "</g>\n");
    end_picture(out, HEIGHT);
}

/* ---- two versions of a return ---- */

enum { APART = BAR + 6, ROLES = LEFT + SPAN + 40 }; /* the middles of the two bars of a pair; where "old" and "new" stand */

/* Which colours are whose. Two files of the same name are told apart by their whole paths. */
static void put_legend(FILE *out, int y, const struct version *v, const char *const *shades, bool whole_path) {
    for (int i = 0; i < 3; i++)
        fprintf(out, "<rect x=\"%d\" y=\"%d\" width=\"14\" height=\"14\" fill=\"%s\"/>\n", 40 + 14 * i, y - 12, shades[i]);
    fprintf(out, "<text x=\"94\" y=\"%d\" fill=\"#555\">%s: ", y, v->role);
    put_text(out, whole_path ? v->path : last_part(v->path), 90);
    fprintf(out, "; conversion rows: %" PRIu32 "</text>\n", v->figures.n);
}

/* Two exact totals, one under the other, each with whose it is. */
static void put_totals(FILE *out, const struct version both[2], int y, const char *look, whole older, whole newer) {
    for (int k = 0; k < 2; k++) {
        say(out, ROLES, y + APART * k, "fill=\"#555\"", both[k].role);
        put_total(out, y + APART * k, look, k ? newer : older);
    }
}

static void draw_pair_of_bars(FILE *out, const struct version both[2], int i, int middle, const struct axis *axis) {
    const struct figures *older = &both[0].figures, *newer = &both[1].figures;
    fprintf(out, "<g>\n<title>%s old %s new %s</title>\n", names[i], plain(older->exact[i]).s, plain(newer->exact[i]).s);
    put_label(out, i, middle);
    draw_bar(out, middle - APART / 2, pale_colours[i], older->verdict[i].value, axis);
    draw_bar(out, middle + APART / 2, colours[i], newer->verdict[i].value, axis);
    put_totals(out, both, middle - APART / 2 - 1, LARGE, older->exact[i], newer->exact[i]);
    fprintf(out, "</g>\n");
}

static void draw_pair(FILE *out, const struct version both[2], struct finding found, const char *title) {
    enum { HEIGHT = 676, TOP = 172, BAND = 2 * APART + 28, BOTTOM = TOP + 3 * BAND };
    const struct figures *older = &both[0].figures, *newer = &both[1].figures;
    struct axis axis = make_axis(TOP, BOTTOM, largest(largest(0, older), newer));
    bool same_name = strcmp(last_part(both[0].path), last_part(both[1].path)) == 0;
    int y = begin_picture(out, HEIGHT, title);
    put_legend(out, y, &both[0], pale_colours, same_name);
    put_legend(out, y + 22, &both[1], colours, same_name);
    say(out, RIGHT, TOP - 14, END "fill=\"#555\"", "Exact totals");
    draw_steps(out, &axis);
    for (int i = 0; i < 3; i++) draw_pair_of_bars(out, both, i, TOP + BAND * i + BAND / 2, &axis);
    draw_axis(out, &axis);
    fprintf(out, "<g>\n<title>sum old %s new %s</title>\n", plain(sum_of(older)).s, plain(sum_of(newer)).s);
    draw_line(out, ROLES, &axis);
    put_totals(out, both, BOTTOM + 48, LARGE "font-weight=\"bold\"", sum_of(older), sum_of(newer));
    say(out, RIGHT, BOTTOM + 26, END "fill=\"#555\"", "Sums of the three");
    fprintf(out, "</g>\n<text x=\"40\" y=\"%d\" " SMALL ">As much cleared or more in the new return: ", HEIGHT - 40);
    put_finding(out, both, found);
    fprintf(out, ".</text>\n");
    end_picture(out, HEIGHT);
}

#endif
