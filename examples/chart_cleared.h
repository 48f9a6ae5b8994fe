/* Two versions of a return: how far each subtotal moved, and whether the new one has as much cleared or more, as request §9 has it: the same conversion
 * ids in the same order, and in each row every area, every fraction and each density before at least the old one's, each density after at most. */
#ifndef CHART_CLEARED_H
#define CHART_CLEARED_H

#include "chart_figures.h"

/* The fields of a conversion row, by the names of docs/EXPLAIN.md. */
static const struct {
    const char *name;
    bool is_after; /* more of it is less cleared */
} conversion_fields[NILOFERQ_CONVERSION_NUMBERS] = {
    {"id", false},
    {"area", false},
    {"before", false},
    {"after", true},
    {"on-site_fraction", false},
    {"on-site_oxidised_fraction", false},
    {"on-site_carbon_fraction", false},
    {"off-site_fraction", false},
    {"off-site_oxidised_fraction", false},
    {"off-site_carbon_fraction", false},
    {"ten-year_area", false},
    {"ten-year_before", false},
    {"ten-year_after", true},
    {"decay_fraction", false},
    {"decay_carbon_fraction", false},
};

/* What was found: as much cleared or more; or the first conversion row, from 0, with another id or with none in one of the two; or, where all ids are
 * the same, the first row and its first field that has less cleared. */
struct finding {
    enum { AS_MUCH_OR_MORE, OTHER_IDS, LESS } what;
    uint32_t row, field;
};

static const uint32_t *conversion_row(const struct figures *f, uint32_t row) { return f->rows + NILOFERQ_CONVERSION_NUMBERS * row; }

/* The first row whose id is not the same in both, up to the end of the longer. */
static uint32_t first_other_id(const struct figures *older, const struct figures *newer) {
    uint32_t row = 0;
    while (row < older->n && row < newer->n && conversion_row(older, row)[0] == conversion_row(newer, row)[0]) row++;
    return row;
}

/* The first field that has less cleared in the newer of two rows, or NILOFERQ_CONVERSION_NUMBERS. */
static uint32_t first_less(const uint32_t *older, const uint32_t *newer) {
    for (uint32_t field = 1; field < NILOFERQ_CONVERSION_NUMBERS; field++)
        if (conversion_fields[field].is_after ? newer[field] > older[field] : newer[field] < older[field]) return field;
    return NILOFERQ_CONVERSION_NUMBERS;
}

static struct finding find_less(const struct figures *older, const struct figures *newer) {
    uint32_t alike = first_other_id(older, newer);
    if (alike < older->n || alike < newer->n) return (struct finding){OTHER_IDS, alike, 0};
    for (uint32_t row = 0; row < alike; row++) {
        uint32_t field = first_less(conversion_row(older, row), conversion_row(newer, row));
        if (field < NILOFERQ_CONVERSION_NUMBERS) return (struct finding){LESS, row, field};
    }
    return (struct finding){AS_MUCH_OR_MORE, 0, 0};
}

/* ---- in words ---- */

static void put_id(FILE *out, const struct version *v, uint32_t row) {
    if (row < v->figures.n) fprintf(out, "id %" PRIu32 " in the %s return", conversion_row(&v->figures, row)[0], v->role);
    else fprintf(out, "no row in the %s return", v->role);
}

/* The finding about both versions, of which the old one is the first. A row's block and its position there are what `explain` says of a row. */
static void put_finding(FILE *out, const struct version both[2], struct finding found) {
    uint32_t block = found.row / 12, row = found.row % 12;
    if (found.what == AS_MUCH_OR_MORE) {
        fprintf(out, "yes, in every conversion row; so none of the three is lower");
    } else if (found.what == OTHER_IDS) {
        fprintf(out, "no, the conversion ids differ: block %" PRIu32 ", row %" PRIu32 ": ", block, row);
        put_id(out, &both[0], found.row);
        fprintf(out, ", ");
        put_id(out, &both[1], found.row);
    } else {
        const uint32_t *older = conversion_row(&both[0].figures, found.row), *newer = conversion_row(&both[1].figures, found.row);
        fprintf(out, "no, id %" PRIu32 " (block %" PRIu32 ", row %" PRIu32 "): %s is %" PRIu32 " in the old return and %" PRIu32 " in the new one",
                older[0], block, row, conversion_fields[found.field].name, older[found.field], newer[found.field]);
        if (conversion_fields[found.field].is_after) fprintf(out, ", so more was left");
    }
}

/* Says loudly where a subtotal is lower, exact or as a double, though as much is cleared or more: it is proved that none is. True where none is. */
static bool none_lower(const struct version both[2]) {
    const struct figures *older = &both[0].figures, *newer = &both[1].figures;
    bool good = true;
    for (int i = 0; i < 3; i++) {
        bool lower = newer->exact[i] < older->exact[i];
        bool draws_lower = newer->verdict[i].is_whole && newer->verdict[i].value < older->verdict[i].value;
        if (!lower && !draws_lower) continue;
        good = false;
        fprintf(stderr, "chart: BROKEN: %s is lower though as much is cleared or more: exact %s, then %s; double %s, then %s. It is proved that this cannot "
                "be: do not use these figures, and send both returns to the makers of Niloferq\n", names[i], plain(older->exact[i]).s,
                plain(newer->exact[i]).s, shown(older->verdict[i], older->bits[i]).s, shown(newer->verdict[i], newer->bits[i]).s);
    }
    return good;
}

/* A line for a total or a difference: with up to 21 digits and a sign, in a column of 22. */
static void print_total(FILE *out, const char *name, const char *which, const char *sign, whole size) {
    struct text digits = plain(size);
    fprintf(out, "%-8s%-11s%*s%s x 10^-12 kt C = %s%s kt C\n", name, which, 22 - (int)strlen(digits.s), sign, digits.s, sign, number(size, 12, false).s);
}

/* Of each subtotal both exact totals and the difference, new less old; then the finding. */
static void print_pair(FILE *out, const struct version both[2], struct finding found) {
    for (int i = 0; i < 3; i++) {
        whole older = both[0].figures.exact[i], newer = both[1].figures.exact[i];
        print_total(out, names[i], both[0].role, "", older);
        print_total(out, names[i], both[1].role, "", newer);
        print_total(out, names[i], "difference", newer < older ? "-" : newer > older ? "+" : "", newer < older ? older - newer : newer - older);
    }
    fprintf(out, "as much cleared or more: ");
    put_finding(out, both, found);
    fputc('\n', out);
}

#endif
