/* Worksheets 5-1, 5-2 and 5-3, with the letters, titles, units and rules of the workbook's columns. */
#ifndef PAGE_SHEETS_H
#define PAGE_SHEETS_H

#include "page_html.h"

/* ---- worksheet 5-1 ---- */

static const struct column stocks[] = {
    {"A", "Area of forest/biomass stocks", "kha", "", 2, NOTHING},
    {"B", "Annual growth rate", "t dm/ha", "", 2, NOTHING},
    {"C", "Annual biomass increment", "kt dm", "C = A \u00d7 B", 4, NOTHING},
    {"D", "Carbon fraction of dry matter", "", "", 3, NOTHING},
    {"E", "Total carbon uptake increment", "kt C", "E = C \u00d7 D", 7, E},
};

static void fill_stock(const uint32_t *row, int line, amount *c) {
    (void)line;
    c[0] = row[3];
    c[1] = row[2];
    c[2] = c[0] * c[1];
    c[3] = row[4];
    c[4] = c[2] * c[3];
}
static const struct sheet growth = {"Worksheet 5-1, sheet 1", "Sheet 1 of 3: growth", ": what grows, and the carbon that it takes up", "Total", STOCK,
    COLUMNS(stocks), fill_stock, NULL, {0}};

/* The rows of land, or those of scattered trees, which stand at the foot of the workbook's sheet in units of their own. The answer is how many. */
static uint32_t put_stocks(struct table *t, bool trees) {
    uint32_t found = 0;
    for (uint32_t i = 0; i < t->of->counts[STOCK]; i++) {
        const uint32_t *row = row_of(t->of, STOCK, i);
        if ((row[1] == 1) != trees) continue;
        if (trees && found++ == 0)
            fputs("<tr><th scope=\"rowgroup\" colspan=\"6\">Trees outside forests: A is the number of trees (thousand trees), B the annual growth rate "
                  "(kt dm per thousand trees)</th></tr>\n", t->out);
        put_row(t, row);
    }
    return found;
}

static void put_growth(FILE *out, const struct taken *t) {
    struct table table = begin_sheet(out, t, &growth);
    put_stocks(&table, false);
    hold("scattered, worksheet 5-1, sheet 1", put_stocks(&table, true), t->figure[SCATTERED]);
    end_sheet(&table);
}

static const struct column harvests[] = {
    {"F", "Commercial harvest", "1000 m\u00b3 roundwood", "", 1, NOTHING},
    {"G", "Biomass conversion/expansion ratio", "t dm/m\u00b3", "", 3, NOTHING},
    {"H", "Total biomass removed in commercial harvest", "kt dm", "H = F \u00d7 G", 4, NOTHING},
    {"I", "Total traditional fuelwood consumed", "kt dm", "", 1, NOTHING},
    {"J", "Total other wood use", "kt dm", "", 1, NOTHING},
    {"K", "Total biomass consumption", "kt dm", "K = H + I + J", 4, K},
    {"L", "Wood removed from forest clearing", "kt dm", "from column M, worksheet 5-2, sheet 3", 6, FOOT_ONLY + L},
    {"M", "Total biomass consumption from stocks", "kt dm", "M = K \u2212 L", 6, FOOT_ONLY + M},
};

static void fill_harvest(const uint32_t *row, int line, amount *c) {
    (void)line;
    c[0] = row[1];
    c[1] = row[2];
    c[2] = c[0] * c[1];
    c[3] = row[3];
    c[4] = row[4];
    c[5] = c[2] + 1000 * (c[3] + c[4]);
}
static const struct sheet harvest = {"Worksheet 5-1, sheet 2", "Sheet 2 of 3: harvest", ": the wood that was used", "Totals", HARVEST, COLUMNS(harvests),
    fill_harvest, NULL, {0}};

static const struct column balance[] = {
    {"N", "Carbon fraction", "", "", 3, NOTHING},
    {"O", "Annual carbon release", "kt C", "O = M \u00d7 N", 9, NOTHING},
    {"P", "Net annual carbon uptake (+) or release (\u2212)", "kt C", "P = E \u2212 O", 9, NOTHING},
    {"Q", "Annual CO\u2082 removal (+) or emission (\u2212)", "t CO\u2082, rounded", "Q = P \u00d7 44/12", 0, NOTHING},
    {"", "Reported: emission (+) or removal (\u2212)", "t CO\u2082, rounded", "\u2212Q", 0, NOTHING},
};

/* A sheet of one line, which is no row of the return. */
static void open_line(FILE *out, const char *name, const char *heading, const char *caption, const struct column *columns, int count) {
    open_table(out, NARROW, name, heading, caption, columns, count, "");
    fputs("<tr>", out);
}
static void close_line(FILE *out) {
    fputs("</tr>\n</tbody>\n", out);
    close_box(out);
}

static void put_sheet_51(FILE *out, const struct taken *t) {
    begin_section(out, "s5-1", "Worksheet 5-1: changes in forest and other woody biomass stocks");
    put_growth(out, t);
    put_sheet(out, t, &harvest);
    open_line(out, "Worksheet 5-1, sheet 3", "Sheet 3 of 3: carbon and CO\u2082", ": from the totals of sheets 1 and 2", COLUMNS(balance));
    put_number(out, parameters_of(t)[0], 3);
    put_number(out, t->figure[O], 9);
    put_number(out, t->figure[P], 9);
    put_rounded(out, t, Q);
    put_rounded(out, t, REPORT);
    close_line(out);
    end_section(out);
}

/* ---- worksheet 5-2 ---- */

/* The difference that counts in the year's clearing, or in the ten years: 0 where there is more after than before. */
static uint32_t counted(const uint32_t *row, bool ten_years) {
    uint32_t before = row[ten_years ? 11 : 2], after = row[ten_years ? 12 : 3];
    return after > before ? 0 : before - after;
}
static bool is_thinner(const uint32_t *row, bool ten_years) { return row[ten_years ? 12 : 3] > row[ten_years ? 11 : 2]; }
static amount biomass(const uint32_t *row, bool ten_years) { return (amount)row[ten_years ? 10 : 1] * counted(row, ten_years); }

static const struct column cleared[] = {
    {"A", "Area converted annually", "kha", "", 2, NOTHING},
    {"B", "Biomass before conversion", "t dm/ha", "", 1, NOTHING},
    {"C", "Biomass after conversion", "t dm/ha", "", 1, NOTHING},
    {"D", "Net change in biomass density", "t dm/ha", "D = B \u2212 C", 1, NOTHING},
    {"E", "Annual loss of biomass", "kt dm", "E = A \u00d7 D", 3, OWN_SUM},
};
static const struct column onsite[] = {
    {"F", "Fraction of biomass burned on site", "", "", 3, NOTHING},
    {"G", "Quantity of biomass burned on site", "kt dm", "G = E \u00d7 F", 6, NOTHING},
    {"H", "Fraction of biomass oxidised on site", "", "", 3, NOTHING},
    {"I", "Quantity of biomass oxidised on site", "kt dm", "I = G \u00d7 H", 9, OXIDISED_ONSITE},
    {"J", "Carbon fraction of above-ground biomass (burned on site)", "", "", 3, NOTHING},
    {"K", "Quantity of carbon released (from biomass burned)", "kt C", "K = I \u00d7 J", 12, ONSITE},
};
static const struct column offsite[] = {
    {"L", "Fraction of biomass burned off site", "", "", 3, NOTHING},
    {"M", "Quantity of biomass burned off site", "kt dm", "M = E \u00d7 L", 6, L},
    {"N", "Fraction of biomass oxidised off site", "", "", 3, NOTHING},
    {"O", "Quantity of biomass oxidised off site", "kt dm", "O = M \u00d7 N", 9, OXIDISED_OFFSITE},
    {"P", "Carbon fraction of above-ground biomass (burned off site)", "", "", 3, NOTHING},
    {"Q", "Quantity of carbon released (from biomass burned off site)", "kt C", "Q = O \u00d7 P", 12, OFFSITE},
    {"R", "Total carbon released (from on- and off-site burning)", "kt C", "R = K + Q", 12, R},
};
static const struct column decaying[] = {
    {"A", "Average area converted (10-year average)", "kha", "", 2, NOTHING},
    {"B", "Biomass before conversion", "t dm/ha", "", 1, NOTHING},
    {"C", "Biomass after conversion", "t dm/ha", "", 1, NOTHING},
    {"D", "Net change in biomass density", "t dm/ha", "D = B \u2212 C", 1, NOTHING},
    {"E", "Average annual loss of biomass", "kt dm", "E = A \u00d7 D", 3, NOTHING},
    {"F", "Fraction left to decay", "", "", 3, NOTHING},
    {"G", "Quantity of biomass left to decay", "kt dm", "G = E \u00d7 F", 6, NOTHING},
    {"H", "Carbon fraction in above-ground biomass", "", "", 3, NOTHING},
    {"I", "Carbon released from decay of above-ground biomass", "kt C", "I = G \u00d7 H", 12, DECAY},
};
static const struct column released[] = {
    {"A", "Immediate release from burning", "kt C", "", 12, NOTHING},
    {"B", "Delayed emissions from decay (10-year average)", "kt C", "", 12, NOTHING},
    {"C", "Total annual carbon release", "kt C", "C = A + B", 12, NOTHING},
    {"D", "Total annual CO\u2082 release", "t CO\u2082, rounded", "D = C \u00d7 44/12", 0, NOTHING},
};
static const struct column fates[] = {
    {"", "Annual loss of biomass", "kt dm", "E of sheet 1", 9, OWN_SUM},
    {"", "Oxidised on site", "kt dm", "I of sheet 2", 9, OXIDISED_ONSITE},
    {"", "Charcoal on site", "kt dm", "G \u2212 I", 9, CHARCOAL_ONSITE},
    {"", "Oxidised off site", "kt dm", "O of sheet 3", 9, OXIDISED_OFFSITE},
    {"", "Charcoal off site", "kt dm", "M \u2212 O", 9, CHARCOAL_OFFSITE},
    {"", "Left unburned", "kt dm", "E \u2212 G \u2212 M", 9, UNBURNED},
};

static void fill_cleared(const uint32_t *row, int line, amount *c) {
    (void)line;
    for (int i = 0; i < 3; i++) c[i] = row[1 + i];
    c[3] = counted(row, false);
    c[4] = biomass(row, false);
}
static void fill_onsite(const uint32_t *row, int line, amount *c) {
    (void)line;
    c[0] = row[4];
    c[1] = biomass(row, false) * c[0];
    c[2] = row[5];
    c[3] = c[1] * c[2];
    c[4] = row[6];
    c[5] = c[3] * c[4];
}
static void fill_offsite(const uint32_t *row, int line, amount *c) {
    amount burned_here[MOST_COLUMNS];
    fill_onsite(row, line, burned_here);
    c[0] = row[7];
    c[1] = biomass(row, false) * c[0];
    c[2] = row[8];
    c[3] = c[1] * c[2];
    c[4] = row[9];
    c[5] = c[3] * c[4];
    c[6] = burned_here[5] + c[5];
}
static void fill_decaying(const uint32_t *row, int line, amount *c) {
    (void)line;
    for (int i = 0; i < 3; i++) c[i] = row[10 + i];
    c[3] = counted(row, true);
    c[4] = biomass(row, true);
    c[5] = row[13];
    c[6] = c[4] * c[5];
    c[7] = row[14];
    c[8] = c[6] * c[7] * 1000; /* in 10^-12 kt: 01 has an oxidised fraction of 1,000 here */
}
static void fill_fates(const uint32_t *row, int line, amount *c) {
    amount all = biomass(row, false);
    (void)line;
    c[0] = all * 1000000;
    c[1] = all * row[4] * row[5];
    c[2] = all * row[4] * (1000 - row[5]);
    c[3] = all * row[7] * row[8];
    c[4] = all * row[7] * (1000 - row[8]);
    c[5] = all * (1000 - row[4] - row[7]) * 1000;
}

/* The marks: of a thinner period its difference, and of the heaviest row of a subtotal its part. */
static const char *mark_heaviest(const struct taken *t, const uint32_t *row, int code) {
    return t->heaviest[code][0] && t->heaviest[code][1] == row[0] ? "heaviest" : "";
}
static const char *mark_cleared(const struct taken *t, const uint32_t *row, int column) { return (void)t, column == 3 && is_thinner(row, false) ? "thinner" : ""; }
static const char *mark_onsite(const struct taken *t, const uint32_t *row, int column) { return column == 5 ? mark_heaviest(t, row, 0) : ""; }
static const char *mark_offsite(const struct taken *t, const uint32_t *row, int column) { return column == 5 ? mark_heaviest(t, row, 1) : ""; }
static const char *mark_decaying(const struct taken *t, const uint32_t *row, int column) {
    return column == 3 && is_thinner(row, true) ? "thinner" : column == 8 ? mark_heaviest(t, row, 2) : "";
}

static const struct sheet clearing = {"Worksheet 5-2, sheet 1", "Sheet 1 of 5: biomass cleared", ": the year\u2019s clearing", "Subtotals", CONVERSION,
    COLUMNS(cleared), fill_cleared, mark_cleared, {0}};
static const struct sheet burned_onsite = {"Worksheet 5-2, sheet 2", "Sheet 2 of 5: carbon from burning on site", ": what was burned where it stood", "Subtotal",
    CONVERSION, COLUMNS(onsite), fill_onsite, mark_onsite, {0}};
static const struct sheet burned_offsite = {"Worksheet 5-2, sheet 3", "Sheet 3 of 5: carbon from burning off site", ": what was carried off and burned", "Subtotals",
    CONVERSION, COLUMNS(offsite), fill_offsite, mark_offsite, {0}};
static const struct sheet left_to_decay = {"Worksheet 5-2, sheet 4", "Sheet 4 of 5: carbon from decay", ": the clearing of the ten years before", "Subtotal", CONVERSION,
    COLUMNS(decaying), fill_decaying, mark_decaying, {0}};
static const struct sheet fate = {"Cleared biomass", "Where the cleared biomass went", ": each row\u2019s five parts, which add up to its loss of biomass", "Total",
    CONVERSION, COLUMNS(fates), fill_fates, NULL, {0}};

/* The heaviest row that the library names is the one with the largest cell in the column of the subtotal, the lowest id where two are alike. */
static void hold_heaviest(const struct taken *t, const struct sheet *s, int column, int code) {
    const uint64_t *said = t->heaviest[code];
    amount most = 0, id = 0, cells[MOST_COLUMNS];
    for (uint32_t i = 0; i < t->counts[CONVERSION]; i++) {
        const uint32_t *row = row_of(t, CONVERSION, i);
        s->fill(row, 0, cells);
        if (cells[column] > most) most = cells[column], id = row[0];
    }
    hold("whether a row is the heaviest", most != 0, (amount)said[0]);
    hold("the id of the heaviest row", id, (amount)said[1]);
    hold("the part of the heaviest row", most, (amount)said[2]);
}

static void hold_thinner(const struct taken *t) {
    amount thinner = 0;
    for (uint32_t i = 0; i < t->counts[CONVERSION]; i++)
        thinner += is_thinner(row_of(t, CONVERSION, i), false) + is_thinner(row_of(t, CONVERSION, i), true);
    hold("thinner, worksheet 5-2, sheets 1 and 4", thinner, t->figure[THINNER]);
}

static void hold_biomass(const struct taken *t, amount lost) {
    amount five = 0;
    for (int i = OXIDISED_ONSITE; i <= UNBURNED; i++) five += t->figure[i];
    hold("the five masses, worksheet 5-2, sheet 1, column E", 1000000 * lost, five);
}

static void put_released(FILE *out, const struct taken *t) {
    open_line(out, "Worksheet 5-2, sheet 5", "Sheet 5 of 5: summary and CO\u2082", ": from the subtotals of sheets 3 and 4", COLUMNS(released));
    put_number(out, t->figure[R], 12);
    put_number(out, t->figure[DECAY], 12);
    put_number(out, t->figure[R] + t->figure[DECAY], 12);
    put_rounded(out, t, CO2);
    close_line(out);
}

static void put_sheet_52(FILE *out, const struct taken *t) {
    begin_section(out, "s5-2", "Worksheet 5-2: forest and grassland conversion, CO\u2082 from biomass");
    hold_biomass(t, put_sheet(out, t, &clearing).sums[4]);
    put_sheet(out, t, &burned_onsite);
    put_sheet(out, t, &burned_offsite);
    put_sheet(out, t, &left_to_decay);
    if (t->figure[THINNER])
        fputs("<p class=\"faint\"><span class=\"mark\">thinner</span> There is more biomass after than before: nothing to burn or decay, so D counts as 0.</p>\n", out);
    put_released(out, t);
    put_sheet(out, t, &fate);
    end_section(out);
    hold_thinner(t);
    hold_heaviest(t, &burned_onsite, 5, 0);
    hold_heaviest(t, &burned_offsite, 5, 1);
    hold_heaviest(t, &left_to_decay, 8, 2);
}

/* ---- worksheet 5-3 ---- */

static const struct column burning[] = {
    {"A", "Quantity of carbon released", "kt C", "from column K, sheet 2 of worksheet 5-2", 12, NOTHING},
    {"B", "Nitrogen\u2013carbon ratio", "", "", 3, NOTHING},
    {"C", "Total nitrogen released", "kt N", "C = A \u00d7 B", 15, NOTHING},
    {"D", "Trace gas emission ratio", "", "", 3, NOTHING},
    {"E", "Trace gas emissions", "kt C or kt N", "E = A \u00d7 D for C, C \u00d7 D for N", 15, NOTHING},
    {"F", "Conversion ratio", "", "", 0, NOTHING},
    {"G", "Emissions from burning of cleared forests", "t of gas, rounded", "G = E \u00d7 F", 0, NOTHING},
};

static void put_sheet_53(FILE *out, const struct taken *t) {
    const uint32_t *p = parameters_of(t);
    const uint32_t ratios[4] = {p[1], p[2], p[4], p[5]};
    const amount carbon = t->figure[ONSITE], nitrogen = carbon * p[3];
    begin_section(out, "s5-3", "Worksheet 5-3: on-site burning of forests, non-CO\u2082 gases");
    open_table(out, WIDE, "Worksheet 5-3, sheet 1", "Sheet 1 of 1: non-CO\u2082 emissions", ": from the carbon burned on site alone", COLUMNS(burning),
        "<th scope=\"col\" class=\"row\">Gas</th>");
    for (int gas = 0; gas < 4; gas++) {
        bool of_nitrogen = gases[gas].of_nitrogen;
        fprintf(out, "<tr><th scope=\"row\">%s</th>", gases[gas].name);
        put_number(out, carbon, 12);
        if (of_nitrogen) put_number(out, p[3], 3), put_number(out, nitrogen, 15);
        else fputs("<td class=\"none\"></td><td class=\"none\"></td>", out);
        put_number(out, ratios[gas], 3);
        put_number(out, (of_nitrogen ? nitrogen : carbon) * ratios[gas], of_nitrogen ? 18 : 15);
        fprintf(out, "<td class=\"n\">%s</td>", gases[gas].conversion);
        put_rounded(out, t, CH4 + gas);
        fputs("</tr>\n", out);
    }
    fputs("</tbody>\n", out);
    close_box(out);
    end_section(out);
}

#endif
