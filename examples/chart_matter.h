/* The picture of where every tonne of cleared biomass went: one bar in five parts that add up to the whole, each with its exact total and its share. */
#ifndef CHART_MATTER_H
#define CHART_MATTER_H

#include "chart_draw.h"

static const char *const mass_names[MASSES] = {"oxidised_onsite", "charcoal_onsite", "oxidised_offsite", "charcoal_offsite", "unburned"};
static const char *const mass_labels[MASSES] = {"Oxidised on site", "Charcoal on site", "Oxidised off site", "Charcoal off site", "Left unburned"};
static const char *const mass_notes[MASSES] = {"burned there to gas", "burned there, but not to gas", "burned elsewhere to gas",
    "burned elsewhere, but not to gas", "neither burned on site nor off it"};
static const char *const mass_colours[MASSES] = {"#b4532a", "#5a2914", "#d49a2f", "#6b4c12", "#4d7c5a"};

/* ---- the whole ---- */

static whole all_masses(const struct figures *f) {
    whole sum = 0;
    for (int i = 0; i < MASSES; i++) sum += f->masses[i];
    return sum;
}

/* 1,000,000 times area by counted difference over the conversion rows, which is what the five have to add up to: at most 3.2 x 10^17. */
static whole biomass_of(const struct figures *f) {
    whole sum = 0;
    for (uint32_t i = 0; i < f->n; i++) {
        const uint32_t *row = conversion_row(f, i);
        sum += (whole)row[1] * (row[2] < row[3] ? 0 : row[2] - row[3]);
    }
    return 1000000 * sum;
}

/* Says loudly where the five are not the whole of the rows' biomass: it is proved that they are. True where they are. */
static bool adds_up(const struct version *v) {
    const whole due = biomass_of(&v->figures);
    bool within = true; /* so that the sum cannot wrap */
    for (int i = 0; i < MASSES; i++) within = within && v->figures.masses[i] <= due;
    if (within && all_masses(&v->figures) == due) return true;
    fprintf(stderr, "chart: BROKEN: the five masses are not the biomass of the conversion rows, %s of 10^-9 kt:", plain(due).s);
    for (int i = 0; i < MASSES; i++) fprintf(stderr, " %s %s", mass_names[i], plain(v->figures.masses[i]).s);
    fprintf(stderr, ". It is proved that this cannot be: do not use these figures, and send the return to the makers of Niloferq\n");
    return false;
}

/* A share of the whole for print alone: rounded to a hundredth of a per cent, a half to the even neighbour. A part that is not nothing never reads as if it
 * were, nor one that is not all. Of nothing there are no shares. */
static struct text share_of(whole part, whole all) {
    struct text t;
    if (all == 0) return (struct text){"none"};
    whole scaled = part * 10000, share = scaled / all, rest = 2 * (scaled % all);
    if (rest > all || (rest == all && share % 2)) share++;
    if (share == 0 && part) return (struct text){"below 0.01 %"};
    if (share == 10000 && part < all) return (struct text){"above 99.99 %"};
    snprintf(t.s, sizeof t.s, "%.32s %%", number(share, 2, false).s);
    return t;
}

/* ---- the picture ---- */

enum { MASS_LEFT = 40, MASS_SPAN = 900, MASS_TOP = 156, MASS_BAR = 44, MASS_ROW = 48, MASS_SHARE = 640 };

/* Where a part begins, and the one before it ends, in whole units from the left of the bar: what stands before it, rounded down. The last ends at MASS_SPAN. */
static unsigned edge(const struct figures *f, int i) {
    whole before = 0, all = all_masses(f);
    for (int k = 0; k < i; k++) before += f->masses[k];
    return all ? (unsigned)(before * MASS_SPAN / all) : 0;
}

/* A part of the bar, with its number above it where it is wide enough. */
static void draw_mass(FILE *out, const struct figures *f, int i) {
    unsigned left = edge(f, i), width = edge(f, i + 1) - left;
    fprintf(out, "<g>\n<title>%s %s</title>\n", mass_names[i], plain(f->masses[i]).s);
    fprintf(out, "<rect x=\"%u\" y=\"%d\" width=\"%u\" height=\"%d\" fill=\"%s\"/>\n", MASS_LEFT + left, MASS_TOP, width, MASS_BAR, mass_colours[i]);
    if (width >= 12) fprintf(out, "<text x=\"%u\" y=\"%d\" text-anchor=\"middle\">%d</text>\n", MASS_LEFT + left + width / 2, MASS_TOP - 8, i + 1);
    fprintf(out, "</g>\n");
}

/* An exact mass at the right: in kt, and below that, small, as the whole number that `sheets` prints. */
static void put_mass(FILE *out, int y, const char *look, whole exact) {
    fprintf(out, "<text x=\"%d\" y=\"%d\" " END "%s>%s kt</text>\n", RIGHT, y, look, number(exact, 9, true).s);
    fprintf(out, "<text x=\"%d\" y=\"%d\" " END SMALL ">%s x 10" RAISED("-9") "kt</tspan></text>\n", RIGHT, y + 17, number(exact, 0, true).s);
}

/* A part's line below the bar: its colour, its number, what it is, its share and its total. */
static void put_mass_line(FILE *out, const struct figures *f, int i, int y) {
    bool unseen = f->masses[i] && edge(f, i) == edge(f, i + 1);
    fprintf(out, "<rect x=\"%d\" y=\"%d\" width=\"18\" height=\"18\" fill=\"%s\"/>\n", MASS_LEFT, y - 14, mass_colours[i]);
    fprintf(out, "<text x=\"%d\" y=\"%d\" " LARGE "font-weight=\"bold\">%d. %s</text>\n", MASS_LEFT + 30, y, i + 1, mass_labels[i]);
    say(out, MASS_LEFT + 30, y + 17, SMALL, unseen ? "too little to be seen in the bar" : mass_notes[i]);
    say(out, MASS_SHARE, y, END LARGE, share_of(f->masses[i], all_masses(f)).s);
    put_mass(out, y, LARGE, f->masses[i]);
}

/* All of it in words, for those who hear the picture. */
static void put_words(FILE *out, const struct figures *f) {
    whole all = all_masses(f);
    if (all == 0) fprintf(out, "No biomass was cleared: each of the five is 0 kt.");
    else fprintf(out, "Of %s kt of dry matter:", number(all, 9, true).s);
    for (int i = 0; all && i < MASSES; i++)
        fprintf(out, " %s %s kt, %s%c", mass_labels[i], number(f->masses[i], 9, true).s, share_of(f->masses[i], all).s, i + 1 < MASSES ? ';' : '.');
}

static void draw_masses(FILE *out, const struct version *v, const char *title) {
    enum { HEIGHT = 616, LINES = MASS_TOP + MASS_BAR + 56, END_LINE = LINES + MASSES * MASS_ROW };
    static const char heading[] = "Where the cleared biomass went";
    const struct figures *f = &v->figures;
    whole all = all_masses(f);
    open_picture(out, HEIGHT, " role=\"img\" aria-labelledby=\"title desc\"");
    fprintf(out, "<title id=\"title\">%s", heading);
    if (title) fputs(": ", out), put_text(out, title, 80);
    fprintf(out, "</title>\n<desc id=\"desc\">");
    put_words(out, f);
    fprintf(out, "</desc>\n");
    put_file(out, put_heading(out, HEIGHT, heading, title), v);
    for (int i = 0; i < MASSES; i++) draw_mass(out, f, i);
    fprintf(out, "<rect x=\"%d\" y=\"%d\" width=\"%d\" height=\"%d\" fill=\"none\" stroke=\"#222\"/>\n", MASS_LEFT, MASS_TOP, MASS_SPAN, MASS_BAR);
    if (all == 0) say(out, MASS_LEFT + MASS_SPAN / 2, MASS_TOP + MASS_BAR / 2 + 5, "text-anchor=\"middle\"", "no biomass was cleared");
    say(out, MASS_SHARE, LINES - 32, END "fill=\"#555\"", "Share");
    say(out, RIGHT, LINES - 32, END "fill=\"#555\"", "Exact total, dry matter");
    for (int i = 0; i < MASSES; i++) put_mass_line(out, f, i, LINES + MASS_ROW * i);
    fprintf(out, "<g>\n<title>sum %s</title>\n<path d=\"M%d %d H%d\" stroke=\"#222\"/>\n", plain(all).s, LEFT + SPAN + 60, END_LINE - 14, RIGHT);
    say(out, MASS_SHARE, END_LINE + 8, END LARGE "font-weight=\"bold\"", "The whole");
    put_mass(out, END_LINE + 8, LARGE "font-weight=\"bold\"", all);
    fprintf(out, "</g>\n");
    say(out, 40, HEIGHT - 40, SMALL, "The totals are exact, and the five are the whole: over the conversion rows, the area by the difference of the "
        "densities.");
    say(out, 40, HEIGHT - 22, SMALL, "Shares are rounded for print alone, to a hundredth of a per cent, a half to the even neighbour; so they may not add "
        "up to 100.");
    fprintf(out, "</svg>\n");
}

#endif
