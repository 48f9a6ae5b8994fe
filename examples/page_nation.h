/* The national table: a line for each return of a file, the totals that the library prints, and why each refused return was refused. */
#ifndef PAGE_NATION_H
#define PAGE_NATION_H

#include "page_glance.h"

/* The figures of a national line. */
static const int national[] = {E, K, L, M, P, Q, REPORT, ONSITE, OFFSITE, DECAY, CO2, OXIDISED_ONSITE, CHARCOAL_ONSITE, OXIDISED_OFFSITE, CHARCOAL_OFFSITE, UNBURNED};
enum { NATIONAL = sizeof national / sizeof *national, CARBON_COLUMNS = 11 };

struct nation {
    const uint8_t *bytes;
    size_t length;
    int count; /* the returns that could be cut */
    struct {
        uint32_t refusal;
        const uint8_t *bytes;
        size_t length;
        amount figure[NATIONAL];
    } of[NILOFERQ_MOST_RETURNS];
    char text[NILOFERQ_NATION_ROOM + 1]; /* what the library says */
    char stop[64];                       /* its line on a stop, without the first word, or nothing */
    amount total[NATIONAL];
    struct ratio exact[NATIONAL]; /* behind each total that is rounded */
};

/* ---- what the library says ---- */

static amount parse_amount(const char *s) {
    bool minus = *s == '-';
    amount value = 0;
    for (s += minus; *s >= '0' && *s <= '9'; s++) value = 10 * value + (*s - '0');
    return minus ? -value : value;
}

/* Reads a line: a name and the rest. False at the end of the text. */
static bool next_line(const char **text, char name[32], char rest[64]) {
    if (sscanf(*text, "%31s %63[^\n]", name, rest) != 2) return false;
    *text = strchr(*text, '\n');
    if (*text) ++*text;
    return *text != NULL;
}

/* The refused returns, in order, as the lines have them and as each return alone was judged. */
static void hold_refused(const struct nation *n, int *at, const char *rest) {
    int position = 0;
    uint32_t number = 0, place = 0;
    sscanf(rest, "%d refused %" SCNu32 " %" SCNu32, &position, &number, &place);
    while (*at < n->count && !n->of[*at].refusal) ++*at;
    hold("which return is refused", *at < n->count ? *at + 1 : 0, position);
    hold("its refusal", *at < n->count ? n->of[*at].refusal : 0, 1000 * number + place);
    ++*at;
}

static void read_national(struct nation *n) {
    const char *text = n->text;
    char name[32], rest[64];
    int refused = 0, all_refused = 0, at = 0, figures = 0;
    for (int i = 0; i < n->count; i++) all_refused += n->of[i].refusal != 0;
    while (next_line(&text, name, rest)) {
        if (strcmp(name, "return") == 0) hold_refused(n, &at, rest), refused++;
        else if (strcmp(name, "stopped") == 0) snprintf(n->stop, sizeof n->stop, "%s", rest);
        else if (strcmp(name, "accepted") == 0) hold("how many are accepted", n->count - all_refused, parse_amount(rest));
        else if (strcmp(name, "refused") == 0) hold("how many are refused", all_refused, parse_amount(rest));
        for (int i = 0; i < NATIONAL; i++)
            if (strcmp(name, meanings[national[i]].name) == 0) n->total[i] = parse_amount(rest), figures++;
    }
    hold("the lines of refused returns", all_refused, refused);
    hold("the lines of national figures", NATIONAL, figures);
}

/* ---- holding ---- */

/* Each total is the sum of the accepted returns' figures, or is rounded once from such sums. */
static void hold_totals(struct nation *n) {
    amount sum[NATIONAL] = {0};
    char what[64];
    for (int r = 0; r < n->count; r++)
        for (int i = 0; i < NATIONAL; i++) sum[i] += n->of[r].figure[i];
    for (int i = 0; i < NATIONAL; i++) n->exact[i] = (struct ratio){n->total[i], 1, meanings[national[i]].places};
    n->exact[5] = (struct ratio){11 * n->total[4], 3, 6};                                             /* Q, from P */
    n->exact[6] = (struct ratio){-11 * n->total[4], 3, 6};                                            /* report */
    n->exact[10] = (struct ratio){11 * (n->total[7] + n->total[8] + n->total[9]), 3, 9};              /* co2, from on-site, off-site and decay */
    for (int i = 0; i < NATIONAL; i++) {
        bool is_rounded = meanings[national[i]].role == ROUNDED;
        snprintf(what, sizeof what, "the national %s", meanings[national[i]].name);
        hold(what, is_rounded ? rounded(n->exact[i]) : sum[i], n->total[i]);
    }
}

/* ---- cutting ---- */

/* The length of the return at the front of these bytes, by the number of blocks in its first header, or 0 where it cannot be cut. */
static size_t first_return(const uint8_t *bytes, size_t length) {
    size_t blocks = length < 6 ? 0 : bytes[4] | (size_t)bytes[5] << 8;
    return blocks * 512 > NILOFERQ_RETURN_ROOM || blocks * 512 > length ? 0 : blocks * 512;
}

static void take_one(struct nation *n, const uint8_t *bytes, size_t length) {
    static struct taken t;
    static char which[32];
    snprintf(which, sizeof which, "return %d: ", n->count + 1);
    held_of = which;
    take_return(&t, bytes, length);
    held_of = "";
    n->of[n->count].refusal = t.refusal;
    n->of[n->count].bytes = bytes;
    n->of[n->count].length = length;
    for (int i = 0; i < NATIONAL; i++) n->of[n->count].figure[i] = t.refusal ? 0 : t.figure[national[i]];
    n->count++;
}

static void take_nation(struct nation *n, const uint8_t *bytes, size_t length) {
    size_t at = 0, one;
    n->bytes = bytes, n->length = length;
    while (at < length && n->count < NILOFERQ_MOST_RETURNS && (one = first_return(bytes + at, length - at)) > 0) {
        take_one(n, bytes + at, one);
        at += one;
    }
    n->text[niloferq_nation(bytes, length, (uint8_t *)n->text, NILOFERQ_NATION_ROOM)] = 0;
    read_national(n);
    hold("where the run is stopped", at < length ? n->count + 1 : 0, parse_amount(n->stop));
    hold_totals(n);
}

/* ---- the page ---- */

/* Why the run was stopped, in the words of docs/NATION.md. */
static void put_stop(FILE *out, const struct nation *n) {
    int at = 0, blocks = 0;
    char why[16] = "";
    sscanf(n->stop, "%d %15s %d", &at, why, &blocks);
    fprintf(out, "the run was stopped at return %d, ", at);
    if (strcmp(why, "blocks") == 0) fprintf(out, "whose first header says %d blocks, which no return has", blocks);
    else fputs(strcmp(why, "short") == 0 ? "inside which the file ends" : "which is one too many", out);
    fputs(": what is shown is of the returns before it, not of the whole nation", out);
}

static void put_return_line(FILE *out, const struct nation *n, int r, int from, int to) {
    uint32_t refusal = n->of[r].refusal;
    fprintf(out, "<tr><th scope=\"row\">%d</th>", r + 1);
    if (refusal) {
        fprintf(out, "<td colspan=\"%d\"><a class=\"bad\" href=\"#return-%d\">refused: number %" PRIu32 ", place %" PRIu32 "</a>, adds nothing</td></tr>\n",
            to - from, r + 1, refusal / 1000, refusal % 1000);
        return;
    }
    for (int i = from; i < to; i++) put_number(out, n->of[r].figure[i], meanings[national[i]].places);
    fputs("</tr>\n", out);
}

/* Some of the figures, a line for each return, and the national total below. */
static void put_national_table(FILE *out, const struct nation *n, int from, int to, const char *name, const char *caption) {
    open_box(out, WIDE, name, "", caption);
    fputs("<thead><tr><th scope=\"col\" class=\"row\">Return</th>", out);
    for (int i = from; i < to; i++) {
        const struct meaning *m = &meanings[national[i]];
        struct column head = {m->name, m->what, m->unit, m->role == ROUNDED ? "rounded" : "", 0, NOTHING};
        put_head(out, &head);
    }
    fputs("</tr></thead>\n<tbody>\n", out);
    for (int r = 0; r < n->count; r++) put_return_line(out, n, r, from, to);
    fputs("</tbody>\n<tfoot>\n<tr><th scope=\"row\">National</th>", out);
    for (int i = from; i < to; i++) {
        fputs("<td class=\"n\">", out);
        put_amount(out, n->total[i], meanings[national[i]].places);
        if (meanings[national[i]].role == ROUNDED) fputs(" <span class=\"exact\">exact ", out), put_ratio(out, n->exact[i]), fputs("</span>", out);
        fputs("</td>", out);
    }
    fputs("</tr>\n</tfoot>\n", out);
    close_box(out);
}

/* The reasons and the kinds whose words are needed below. */
struct needed {
    bool reason[REASONS], kind[NILOFERQ_KINDS + 1];
};

static void put_why(FILE *out, const struct nation *n, int r, struct needed *need) {
    struct taken t = {.bytes = n->of[r].bytes, .length = n->of[r].length, .refusal = n->of[r].refusal};
    struct explained e;
    char name[32];
    explain(&e, &t);
    hold_refusal(&e, &t);
    uint32_t number = t.refusal / 1000, kind = kind_at(&e, &t);
    const struct reason *reason = reason_of(&e, number);
    snprintf(name, sizeof name, "Return %d", r + 1);
    fprintf(out, "<h3 id=\"return-%d\">Return %d: number %" PRIu32 ", %s</h3>\n", r + 1, r + 1, number, title_of(&e, number));
    put_lines(out, &e, name);
    if (number == 6) put_mend(out, &e, kind);
    if (reason) need->reason[reason - reasons] = true, fprintf(out, "<p><a href=\"#reason-%d\">What it means and what to do</a></p>\n", (int)(reason - reasons));
    need->kind[kind] = true;
    if (number == 12) need->kind[HARVEST] = need->kind[CONVERSION] = true;
}

static void put_refused_returns(FILE *out, const struct nation *n) {
    struct needed need = {0};
    bool any = false, kind = false;
    for (int r = 0; r < n->count; r++) {
        if (!n->of[r].refusal) continue;
        if (!any) begin_section(out, "refused", "Why returns were refused");
        any = true;
        put_why(out, n, r, &need);
    }
    if (!any) return;
    end_section(out);
    begin_section(out, "numbers", "What the numbers mean, and what to do");
    for (int i = 0; i < REASONS; i++) {
        if (!need.reason[i]) continue;
        fprintf(out, "<h3 id=\"reason-%d\">Number %" PRIu32 ": %s</h3>\n", i, reasons[i].number, reasons[i].title);
        put_reason(out, &reasons[i]);
    }
    for (int k = 1; k <= NILOFERQ_KINDS; k++) kind = kind || need.kind[k];
    if (kind) fputs("<h3 id=\"fields\">The fields</h3>\n", out);
    for (int k = 1; k <= NILOFERQ_KINDS; k++)
        if (need.kind[k]) put_fields(out, (uint32_t)k);
    end_section(out);
}

static void put_nation(FILE *out, const struct nation *n, const char *title, const char *path) {
    int refused = 0;
    for (int r = 0; r < n->count; r++) refused += n->of[r].refusal != 0;
    begin_page(out, "National table", title, path);
    fputs("<main id=\"main\">\n", out);
    if (*n->stop) fputs("<p class=\"stop\"><strong>Not the whole nation:</strong> ", out), put_stop(out, n), fputs(".</p>\n", out);
    fprintf(out, "<p>Returns accepted: <strong>%d</strong>; refused: <strong>%d</strong>. A refused return adds nothing to any figure. A return that is there twice counts "
        "twice.</p>\n", n->count - refused, refused);
    begin_section(out, "national", "The returns and the national totals");
    put_national_table(out, n, 0, CARBON_COLUMNS, "National table", ": exact sums; Q, report and co2 are rounded once from the national sums, so they are not the sums of the lines above");
    put_national_table(out, n, CARBON_COLUMNS, NATIONAL, "Cleared biomass", ": where it went, in five parts");
    end_section(out);
    put_refused_returns(out, n);
    end_page(out, true);
}

#endif
