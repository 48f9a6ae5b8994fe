/* A refused return: the library's lines, what they mean and what to do, as docs/EXPLAIN.md says it. */
#ifndef PAGE_REFUSAL_H
#define PAGE_REFUSAL_H

#include "page_html.h"
#include "page_reasons.h"

/* What the library says of a refusal, a line each: a name and a value. */
struct explained {
    char text[NILOFERQ_EXPLAIN_ROOM + 1];
    struct {
        const char *name, *value;
    } line[24];
    int count;
};

static void explain(struct explained *e, const struct taken *t) {
    size_t length = niloferq_explain(t->bytes, t->length, (uint8_t *)e->text, NILOFERQ_EXPLAIN_ROOM);
    e->text[length] = 0;
    e->count = 0;
    for (char *p = e->text; *p && e->count < 24;) {
        char *end = strchr(p, '\n'), *space = strchr(p, ' ');
        if (!end || !space || space > end) break;
        *end = *space = 0;
        e->line[e->count].name = p;
        e->line[e->count++].value = space + 1;
        p = end + 1;
    }
}

/* The value of a line, or NULL. */
static const char *said(const struct explained *e, const char *name) {
    for (int i = 0; i < e->count; i++)
        if (strcmp(e->line[i].name, name) == 0) return e->line[i].value;
    return NULL;
}
static unsigned long said_number(const struct explained *e, const char *name) {
    const char *value = said(e, name);
    return value ? strtoul(value, NULL, 10) : 0;
}

/* The lines begin with the refusal that the judge gave. */
static void hold_refusal(const struct explained *e, const struct taken *t) {
    char due[32];
    snprintf(due, sizeof due, "%" PRIu32 " %" PRIu32, t->refusal / 1000, t->refusal % 1000);
    const char *value = said(e, "refused");
    if (value && strcmp(value, due) == 0) return;
    broken = true;
    fprintf(stderr, "page: BROKEN: %sthe judge refuses %s, and the explanation %s\n", held_of, due, value ? value : "nothing");
}

static const struct reason *reason_of(const struct explained *e, uint32_t number) {
    const char *fault = said(e, "fault");
    for (int i = 0; i < REASONS; i++)
        if (reasons[i].number == number && (number != 4 || (fault && strcmp(reasons[i].fault, fault) == 0))) return &reasons[i];
    return NULL;
}

/* A sentence of docs/EXPLAIN.md. */
static void put_sentence(FILE *out, const char *s) {
    bool code = false, strong = false;
    for (const char *p = s; *p; p++) {
        if (*p == '`') fputs((code = !code) ? "<code>" : "</code>", out);
        else if (p[0] == '*' && p[1] == '*') fputs((strong = !strong) ? "<strong>" : "</strong>", out), p++;
        else fputc(*p, out); /* none has a character that XML would take for its own */
    }
    char last = *s ? s[strlen(s) - 1] : '.';
    if (last != '.' && last != ':') fputc('.', out);
}

static void put_reason(FILE *out, const struct reason *r) {
    bool list = false;
    for (int i = 0; i < 8 && r->lines[i]; i++) {
        bool item = strncmp(r->lines[i], "- ", 2) == 0;
        if (item != list) fputs((list = item) ? "<ul>\n" : "</ul>\n", out);
        fputs(item ? "<li>" : "<p>", out);
        put_sentence(out, r->lines[i] + (item ? 2 : 0));
        fputs(item ? "</li>\n" : "</p>\n", out);
    }
    if (list) fputs("</ul>\n", out);
}

static void put_lines(FILE *out, const struct explained *e, const char *name) {
    open_box(out, NARROW, name, "", ": the values that clash, as <code>explain</code> prints them");
    fputs("<thead><tr><th scope=\"col\">Line</th><th scope=\"col\">Value</th></tr></thead>\n<tbody>\n", out);
    for (int i = 0; i < e->count; i++) {
        fprintf(out, "<tr><th scope=\"row\"><code>%s</code></th><td class=\"n\">", e->line[i].name);
        put_text(out, e->line[i].value, 80);
        fputs("</td></tr>\n", out);
    }
    fputs("</tbody>\n", out);
    close_box(out);
}

/* The kind of the block that is meant, or 0. */
static uint32_t kind_at(const struct explained *e, const struct taken *t) {
    uint32_t number = t->refusal / 1000, place = t->refusal % 1000;
    if (number == 1 || number == 2 || number == 3 || number == 12) return 0;
    size_t at = 512 * (size_t)(number == 4 ? place : said_number(e, "block"));
    uint8_t kind = at < t->length ? t->bytes[at] : 0;
    return kind <= NILOFERQ_KINDS ? kind : 0;
}

/* Where the number that is too high is put right. */
static void put_mend(FILE *out, const struct explained *e, uint32_t kind) {
    const char *name = said(e, "field_name");
    for (int i = 0; name && i < FIELDS; i++)
        if (fields[i].kind == kind && strcmp(fields[i].name, name) == 0)
            fprintf(out, "<p>The unit of <code>%s</code> is %s. In a copy of the file the right number, VALUE, goes in by "
                "<code>examples/put FILE %lu %lu VALUE %u</code>, which puts the check of the block right too.</p>\n", name, fields[i].unit, said_number(e, "block"),
                8 + 40 * said_number(e, "row") + fields[i].first, fields[i].width);
}

static void put_fields(FILE *out, uint32_t kind) {
    open_box(out, NARROW, "Fields of ", kinds[kind].what, kinds[kind].what);
    fputs("<thead><tr><th scope=\"col\">Field</th><th scope=\"col\">Bytes</th><th scope=\"col\">Limit</th><th scope=\"col\">Unit</th></tr></thead>\n<tbody>\n", out);
    for (int i = 0; i < FIELDS; i++) {
        const struct field *f = &fields[i];
        if (f->kind != kind) continue;
        fprintf(out, "<tr><th scope=\"row\"><code>%s</code></th><td class=\"n\">%u", f->name, f->first);
        if (f->width > 1) fprintf(out, " to %u", f->first + f->width - 1);
        fprintf(out, "</td><td class=\"n\">%s</td><td>%s</td></tr>\n", f->limit, f->unit);
    }
    fputs("</tbody>\n", out);
    close_box(out);
}

/* The words for a number: what it means, and the tables of fields that they speak of. */
static void put_meaning(FILE *out, const struct explained *e, const struct taken *t) {
    uint32_t number = t->refusal / 1000, kind = kind_at(e, t);
    const struct reason *reason = reason_of(e, number);
    if (reason) put_reason(out, reason);
    if (number == 6) put_mend(out, e, kind);
    if (number == 12) put_fields(out, HARVEST), put_fields(out, CONVERSION);
    if (kind && (number >= 5 || said(e, "offset"))) put_fields(out, kind); /* a stray byte has an offset */
}

static const char *title_of(const struct explained *e, uint32_t number) {
    const struct reason *reason = reason_of(e, number);
    return reason ? reason->title : "a refusal";
}

/* A return that is refused, as a whole page's content. */
static void put_refused(FILE *out, const struct taken *t) {
    struct explained e;
    explain(&e, t);
    hold_refusal(&e, t);
    fprintf(out, "<main id=\"main\">\n<p class=\"stop\"><strong>Refused: number %" PRIu32 ", place %" PRIu32 ".</strong> A return that is refused has no figures. "
        "Mend what is said below in a copy, and make this page again; it may then name another fault, for only the first is explained.</p>\n",
        t->refusal / 1000, t->refusal % 1000);
    fprintf(out, "<h2 id=\"why\">Number %" PRIu32 ": %s</h2>\n", t->refusal / 1000, title_of(&e, t->refusal / 1000));
    put_lines(out, &e, "Refusal");
    put_meaning(out, &e, t);
}

#endif
