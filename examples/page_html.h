/* What the page is made of: headings, tables with their heads and totals, and cells. The text is well-formed XML too. */
#ifndef PAGE_HTML_H
#define PAGE_HTML_H

#include "page_return.h"
#include "page_style.h"

/* ---- the frame ---- */

static void begin_page(FILE *out, const char *heading, const char *title, const char *path) {
    fputs("<!DOCTYPE html>\n<html xmlns=\"http://www.w3.org/1999/xhtml\" lang=\"en\" xml:lang=\"en\">\n<head>\n<meta charset=\"utf-8\"/>\n"
          "<meta name=\"viewport\" content=\"width=device-width, initial-scale=1\"/>\n<title>", out);
    if (title) put_text(out, title, 200), fputs(": ", out);
    fprintf(out, "%s</title>\n<style>\n%s%s</style>\n</head>\n<body>\n<a class=\"skip\" href=\"#main\">To the figures</a>\n<header>\n<h1>", heading, style[0],
        style[1]);
    if (title) put_text(out, title, 200);
    else fputs(heading, out);
    fputs("</h1>\n<p>", out);
    if (title) fprintf(out, "%s. ", heading);
    fputs("<span class=\"faint\">File:</span> ", out);
    put_text(out, last_part(path), 200);
    fputs("</p>\n</header>\n", out);
}

/* The foot of the page, where there are figures with how they are to be read. */
static void end_page(FILE *out, bool figures) {
    fprintf(out, "</main>\n<footer>\n<p>Made by Niloferq, header version %d.</p>\n", NILOFERQ_VERSION);
    if (figures)
        fputs("<p>Numbers are exact decimals, with nothing rounded off but where the page says rounded; digits in brackets repeat without end, as in 0.(3) for a third. "
              "dm is dry matter; 1 Gg is 1 kt, 1 Mg is 1 t, and 1 Tg is 1,000 kt.</p>\n"
              "<p>Before this page was made, what it adds up was held against the library\u2019s own totals, and each rounded figure against its exact one. Where one "
              "did not hold there would be no page.</p>\n", out);
    fputs("</footer>\n</body>\n</html>\n", out);
}

/* ---- tables ---- */

enum { MOST_COLUMNS = 12 };

/* What stands at the foot of a column: nothing; its own sum; or, from 0 on, the figure of the library that the sum has to be. FOOT_ONLY is added to a
 * figure of a column that has no cells above, as L and M of worksheet 5-1 have none. */
enum { NOTHING = -2, OWN_SUM = -1, FOOT_ONLY = 1000 };
enum { A_NAME = 100 }; /* in place of a column's decimals: its numbers only name something */

struct column {
    const char *letter, *title, *unit, *rule;
    unsigned places;
    int foot;
};
#define COLUMNS(list) (list), (int)(sizeof(list) / sizeof *(list))

/* A sheet with a line for each row of a kind, or several: how the cells of a line are worked out from its row, and which have a mark. */
struct sheet {
    const char *name, *heading, *caption, *foot; /* as "Worksheet 5-2, sheet 2"; the foot's word, or NULL where there is no foot */
    int kind;
    const struct column *columns;
    int count;
    void (*fill)(const uint32_t *row, int line, amount *cells);
    const char *(*mark)(const struct taken *t, const uint32_t *row, int column); /* or NULL */
    const char *lines[2];                                                        /* the names of a row's lines, where it has two */
};

/* A sheet while it is written: what its columns have added up to, and their most decimals, so that points stand under points. */
struct table {
    FILE *out;
    const struct taken *of;
    const struct sheet *sheet;
    amount sums[MOST_COLUMNS];
    unsigned most[MOST_COLUMNS];
};

static void put_head(FILE *out, const struct column *c) {
    fputs("<th scope=\"col\">", out);
    if (*c->letter) fprintf(out, "<span class=\"letter\">%s</span>", c->letter);
    fputs(c->title, out);
    if (*c->unit) fprintf(out, " <span class=\"unit\">(%s)</span>", c->unit);
    if (*c->rule) fprintf(out, " <span class=\"rule\">%s</span>", c->rule);
    fputs("</th>", out);
}

/* A box of its own for a table, which scrolls where the screen is narrow, also by the keyboard. On paper numbers are broken in wide tables alone. */
#define NARROW "scroll"
#define WIDE "scroll wide"
static void open_box(FILE *out, const char *look, const char *name, const char *more, const char *caption) {
    fprintf(out, "<div class=\"%s\" role=\"region\" tabindex=\"0\" aria-label=\"%s%s\">\n<table>\n<caption><span>%s%s</span></caption>\n", look, name, more, name,
        caption);
}
static void close_box(FILE *out) { fputs("</table>\n</div>\n", out); }

/* A table with a heading of its own. The first heads are those of the rows: "Row" alone, or more where a row has several lines, or none. */
#define ROW_HEAD "<th scope=\"col\" class=\"row\"><span class=\"letter\">Row</span>id</th>"
static void open_table(FILE *out, const char *look, const char *name, const char *heading, const char *caption, const struct column *columns, int count,
    const char *rows) {
    fprintf(out, "<h3>%s</h3>\n", heading);
    open_box(out, look, name, "", caption);
    fprintf(out, "<thead><tr>%s", rows);
    for (int i = 0; i < count; i++) put_head(out, &columns[i]);
    fputs("</tr></thead>\n<tbody>\n", out);
}

/* ---- cells ---- */

/* A cell's decimals: the column's, but for scattered trees, which are counted in units of their own: thousand trees, and kt for a thousand. */
static unsigned places_of(const struct sheet *s, const uint32_t *row, int column) {
    bool trees = s->kind == STOCK && row[1] == 1;
    return trees && column < 2 ? (column == 0 ? 0 : 4) : s->columns[column].places;
}

static unsigned decimals_of(amount value, unsigned places) {
    struct text digits = number(size_without_sign(value), places, false);
    const char *point = strchr(digits.s, '.');
    return point ? (unsigned)strlen(point + 1) : 0;
}

/* A number, and behind it room for the decimals that others of its column have more. */
static void put_aligned(FILE *out, amount value, unsigned places, unsigned most) {
    unsigned decimals = decimals_of(value, places);
    put_amount(out, value, places);
    if (decimals >= most) return;
    fprintf(out, "<span class=\"pad\">%s", decimals ? "" : ".");
    for (; decimals < most; decimals++) fputc('0', out);
    fputs("</span>", out);
}

static void put_cell(struct table *t, const uint32_t *row, int i, amount value) {
    const struct column *c = &t->sheet->columns[i];
    const char *mark = t->sheet->mark ? t->sheet->mark(t->of, row, i) : "";
    if (c->foot >= FOOT_ONLY) {
        fputs("<td class=\"none\"></td>", t->out);
        return;
    }
    fputs("<td class=\"n\">", t->out);
    if (*mark) fprintf(t->out, "<span class=\"mark\">%s</span> ", mark);
    if (c->places == A_NAME) fputs(plain((whole)value).s, t->out);
    else put_aligned(t->out, value, places_of(t->sheet, row, i), t->most[i]);
    fputs("</td>", t->out);
    t->sums[i] += value;
}

/* ---- rows ---- */

static int lines_in(const struct sheet *s) { return s->lines[0] ? 2 : 1; }

static void put_row(struct table *t, const uint32_t *row) {
    for (int line = 0; line < lines_in(t->sheet); line++) {
        amount cells[MOST_COLUMNS] = {0};
        t->sheet->fill(row, line, cells);
        fputs("<tr>", t->out);
        if (lines_in(t->sheet) == 1) fprintf(t->out, "<th scope=\"row\">%" PRIu32 "</th>", row[0]);
        else if (line == 0) fprintf(t->out, "<th scope=\"rowgroup\" rowspan=\"2\">%" PRIu32 "</th>", row[0]);
        if (lines_in(t->sheet) == 2) fprintf(t->out, "<th scope=\"row\" class=\"gas\">%s</th>", t->sheet->lines[line]);
        for (int i = 0; i < t->sheet->count; i++) put_cell(t, row, i, cells[i]);
        fputs("</tr>\n", t->out);
    }
}

/* The number at the foot of a column: the library's figure, or the column's own sum. */
static amount foot_of(const struct table *t, int i) {
    int foot = t->sheet->columns[i].foot;
    return foot == OWN_SUM ? t->sums[i] : t->of->figure[foot >= FOOT_ONLY ? foot - FOOT_ONLY : foot];
}

/* The most decimals of each column, its foot with them. */
static void measure(struct table *t) {
    const struct sheet *s = t->sheet;
    for (uint32_t r = 0; r < t->of->counts[s->kind]; r++)
        for (int line = 0; line < lines_in(s); line++) {
            const uint32_t *row = row_of(t->of, s->kind, r);
            amount cells[MOST_COLUMNS] = {0};
            s->fill(row, line, cells);
            for (int i = 0; i < s->count; i++) {
                unsigned decimals = s->columns[i].places == A_NAME ? 0 : decimals_of(cells[i], places_of(s, row, i));
                if (decimals > t->most[i]) t->most[i] = decimals;
            }
        }
    for (int i = 0; i < s->count; i++) {
        unsigned decimals = s->columns[i].foot < 0 ? 0 : decimals_of(foot_of(t, i), s->columns[i].places);
        if (decimals > t->most[i]) t->most[i] = decimals;
    }
}

static struct table begin_sheet(FILE *out, const struct taken *t, const struct sheet *s) {
    struct table table = {out, t, s, {0}, {0}};
    open_table(out, NARROW, s->name, s->heading, s->caption, s->columns, s->count,
        s->lines[0] ? ROW_HEAD "<th scope=\"col\" class=\"row\">Part</th>" : ROW_HEAD);
    measure(&table);
    return table;
}

/* A column's foot. What is shown is the library's figure, and the sum of the cells above it is held against it. */
static void put_foot(struct table *t, int i) {
    const struct column *c = &t->sheet->columns[i];
    char what[160];
    if (c->foot == NOTHING) {
        fputs("<td class=\"none\"></td>", t->out);
        return;
    }
    if (c->foot >= 0 && c->foot < FOOT_ONLY) {
        snprintf(what, sizeof what, "%s, %s, column %s", meanings[c->foot].name, t->sheet->name, *c->letter ? c->letter : c->title);
        hold(what, t->sums[i], foot_of(t, i));
    }
    fputs("<td class=\"n\">", t->out);
    put_aligned(t->out, foot_of(t, i), c->places, t->most[i]);
    fputs("</td>", t->out);
}

static void end_sheet(struct table *t) {
    fputs("</tbody>\n", t->out);
    if (t->sheet->foot) {
        fprintf(t->out, "<tfoot>\n<tr><th scope=\"row\"%s>%s</th>", t->sheet->lines[0] ? " colspan=\"2\"" : "", t->sheet->foot);
        for (int i = 0; i < t->sheet->count; i++) put_foot(t, i);
        fputs("</tr>\n</tfoot>\n", t->out);
    }
    close_box(t->out);
}

/* A whole sheet. The answer has the sums of its columns. */
static struct table put_sheet(FILE *out, const struct taken *t, const struct sheet *s) {
    struct table table = begin_sheet(out, t, s);
    for (uint32_t r = 0; r < t->counts[s->kind]; r++) put_row(&table, row_of(t, s->kind, r));
    end_sheet(&table);
    return table;
}

/* A rounded figure with its exact one beside it. */
static void put_rounded(FILE *out, const struct taken *t, int figure) {
    fputs("<td class=\"n\">", out);
    put_amount(out, t->figure[figure], 0);
    fputs(" <span class=\"exact\">exact ", out);
    put_ratio(out, t->exact[figure]);
    fputs("</span></td>", out);
}

static void put_number(FILE *out, amount value, unsigned places) {
    fputs("<td class=\"n\">", out);
    put_amount(out, value, places);
    fputs("</td>", out);
}

static void say_none(FILE *out, const char *what) { fprintf(out, "<p class=\"faint\">The return has no rows of %s: all figures of this worksheet are 0.</p>\n", what); }

static void begin_section(FILE *out, const char *id, const char *heading) {
    fprintf(out, "<section aria-labelledby=\"%s\">\n<h2 id=\"%s\">%s</h2>\n", id, id, heading);
}
static void end_section(FILE *out) { fputs("</section>\n", out); }

#endif
