/* What stands before the worksheets and behind them: the figures that are reported, the notes that matter, and all figures as `sheets` prints them. */
#ifndef PAGE_GLANCE_H
#define PAGE_GLANCE_H

#include "page_more_sheets.h"
#include "page_pictures.h"
#include "page_refusal.h"

/* ---- at a glance ---- */

static void put_glance(FILE *out, const struct taken *t) {
    begin_section(out, "glance", "What is reported");
    open_box(out, NARROW, "Rounded figures", "", ": each is rounded once, to the nearest, a half to the even neighbour");
    fputs("<thead><tr><th scope=\"col\">Figure</th><th scope=\"col\" class=\"row\">Worksheet</th><th scope=\"col\">Rounded</th><th scope=\"col\">Exact</th>"
          "<th scope=\"col\">Unit</th></tr></thead>\n<tbody>\n", out);
    for (int i = 0; i < NILOFERQ_FIGURES; i++) {
        const struct meaning *m = &meanings[i];
        if (m->role != ROUNDED || i == Q) continue; /* Q is the report with its sign turned */
        fprintf(out, "<tr><td class=\"words\">%s</td><td><a href=\"#s%s\">%s</a></td>", m->what, m->sheet, m->sheet);
        put_number(out, t->figure[i], 0);
        fputs("<td class=\"n\">", out);
        put_ratio(out, t->exact[i]);
        fprintf(out, "</td><td>%s</td></tr>\n", m->unit);
    }
    fputs("</tbody>\n", out);
    close_box(out);
    end_section(out);
}

/* ---- notes ---- */

static void note_heaviest(FILE *out, const struct taken *t) {
    static const char *const of[3] = {"carbon burned on site", "carbon burned off site", "carbon left to decay"};
    static const char *const where[3] = {"sheet 2, column K", "sheet 3, column Q", "sheet 4, column I"};
    for (int i = 0; i < 3; i++) {
        const uint64_t *said = t->heaviest[i];
        if (!said[0]) {
            fprintf(out, "<li>No row weighs anything in the %s (worksheet 5-2, %s): it is 0.</li>\n", of[i], where[i]);
            continue;
        }
        fprintf(out, "<li>Row %" PRIu64 " weighs most in the %s (worksheet 5-2, %s): ", said[1], of[i], where[i]);
        put_amount(out, (amount)said[2], 12);
        fputs("\u00a0kt\u00a0C of ", out);
        put_amount(out, t->figure[places[i]], 12);
        fprintf(out, "\u00a0kt\u00a0C, a share of %s. A slip in it moves this subtotal most.</li>\n", share_of(said[2], t->drawn.exact[i]).s);
    }
}

static void note_thinner(FILE *out, const struct taken *t) {
    if (!t->figure[THINNER]) return;
    fputs("<li>Thinner periods: ", out);
    put_amount(out, t->figure[THINNER], 0);
    fputs(". There is more biomass after than before, so nothing burns or decays and the period counts as 0. Rows:", out);
    for (uint32_t i = 0; i < t->counts[CONVERSION]; i++) {
        const uint32_t *row = row_of(t, CONVERSION, i);
        bool year = is_thinner(row, false), ten = is_thinner(row, true);
        if (year || ten) fprintf(out, " %" PRIu32 " (%s);", row[0], year && ten ? "both periods" : year ? "the year\u2019s clearing" : "the ten years");
    }
    fputs(" see worksheet 5-2, sheets 1 and 4.</li>\n", out);
}

static void note_scattered(FILE *out, const struct taken *t) {
    if (!t->figure[SCATTERED]) return;
    fputs("<li>Scattered trees: ", out);
    put_amount(out, t->figure[SCATTERED], 0);
    fputs(" of the stock rows, counted in thousand trees and not in area. Rows:", out);
    for (uint32_t i = 0; i < t->counts[STOCK]; i++)
        if (row_of(t, STOCK, i)[1] == 1) fprintf(out, " %" PRIu32 ";", row_of(t, STOCK, i)[0]);
    fputs(" edition 3 reports them as land.</li>\n", out);
}

static void put_notes(FILE *out, const struct taken *t) {
    begin_section(out, "notes", "Notes");
    fputs("<ul>\n", out);
    note_heaviest(out, t);
    note_thinner(out, t);
    note_scattered(out, t);
    if (t->figure[L] && !t->figure[M]) fputs("<li>All the wood that was used came from clearing: M of worksheet 5-1 is 0.</li>\n", out);
    fprintf(out, "<li>Edition %" PRIu32 ". Rows:", t->counts[0]);
    for (int kind = 1; kind <= NILOFERQ_KINDS; kind++) fprintf(out, " %s %" PRIu32 "%s", kinds[kind].what, t->counts[kind], kind < NILOFERQ_KINDS ? "," : ".</li>\n</ul>\n");
    end_section(out);
}

/* ---- all figures ---- */

static void put_figures(FILE *out, const struct taken *t) {
    begin_section(out, "figures", "All figures");
    open_box(out, NARROW, "All figures", "", ", as <code>sheets</code> prints them, and as the worksheets have them");
    fputs("<thead><tr><th scope=\"col\">Name</th><th scope=\"col\">As printed</th><th scope=\"col\">Counted in</th><th scope=\"col\">As the worksheet has it</th>"
          "<th scope=\"col\">What it is</th></tr></thead>\n<tbody>\n", out);
    for (int i = 0; i < NILOFERQ_FIGURES; i++) {
        const struct meaning *m = &meanings[i];
        fprintf(out, "<tr><th scope=\"row\"><code>%s</code></th><td class=\"n\"><code>%s%s</code></td><td>", m->name, t->figure[i] < 0 ? "-" : "",
            plain(size_without_sign(t->figure[i])).s);
        if (m->places) fprintf(out, "10<sup>\u2212%u</sup> ", m->places);
        fprintf(out, "%s</td><td class=\"n\">", m->unit);
        put_amount(out, t->figure[i], m->places);
        fprintf(out, " %s</td><td class=\"words\">%s</td></tr>\n", m->unit, m->what);
    }
    fputs("</tbody>\n", out);
    close_box(out);
    end_section(out);
}

/* ---- a return ---- */

static void put_contents(FILE *out) {
    static const char *const sheets[] = {"5-1", "5-2", "5-3", "5-4", "5-5", "4-3", "4-4"};
    fputs("<nav aria-label=\"Contents\">\n<ul>\n<li><a href=\"#glance\">What is reported</a></li>\n<li><a href=\"#notes\">Notes</a></li>\n"
          "<li><a href=\"#pictures\">Pictures</a></li>\n", out);
    for (int i = 0; i < 7; i++) fprintf(out, "<li><a href=\"#s%s\">Worksheet %s</a></li>\n", sheets[i], sheets[i]);
    fputs("<li><a href=\"#figures\">All figures</a></li>\n</ul>\n</nav>\n<main id=\"main\">\n", out);
}

/* The whole page of a return, good or refused. */
static void put_return(FILE *out, const struct taken *t, const char *title, const char *path) {
    begin_page(out, t->refusal ? "A refused return" : "Worksheets of a return", title, path);
    if (t->refusal) put_refused(out, t);
    else {
        put_contents(out);
        put_glance(out, t);
        put_notes(out, t);
        put_pictures(out, t);
        put_sheet_51(out, t);
        put_sheet_52(out, t);
        put_sheet_53(out, t);
        put_sheet_54(out, t);
        put_sheet_55(out, t);
        put_sheet_43(out, t);
        put_sheet_44(out, t);
        put_figures(out, t);
    }
    end_page(out, !t->refusal);
}

#endif
