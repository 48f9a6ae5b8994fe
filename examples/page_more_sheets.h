/* Worksheets 5-4, 5-5, 4-3 and 4-4, as page_sheets.h has the first three. Our copy of module 4 ends before its sheets: their columns are those of its text. */
#ifndef PAGE_MORE_SHEETS_H
#define PAGE_MORE_SHEETS_H

#include "page_sheets.h"

/* ---- worksheet 5-4 ---- */

static const struct column regrowth[] = {
    {"A", "Total area abandoned and regrowing for the last twenty years", "kha", "", 2, NOTHING},
    {"B", "Annual rate of above-ground biomass growth", "t dm/ha", "", 2, NOTHING},
    {"C", "Annual above-ground biomass growth", "kt dm", "C = A \u00d7 B", 4, NOTHING},
    {"D", "Carbon fraction of above-ground biomass", "", "", 3, NOTHING},
    {"E", "Annual carbon uptake in above-ground biomass", "kt C", "E = C \u00d7 D", 7, OWN_SUM},
};
static const struct column longer_regrowth[] = {
    {"G", "Total area abandoned for more than twenty years", "kha", "", 2, NOTHING},
    {"H", "Annual rate of above-ground biomass growth", "t dm/ha", "", 2, NOTHING},
    {"I", "Annual above-ground biomass growth", "kt dm", "I = G \u00d7 H", 4, NOTHING},
    {"J", "Carbon fraction of above-ground biomass", "", "", 3, NOTHING},
    {"K", "Annual carbon uptake in above-ground biomass", "kt C", "K = I \u00d7 J", 7, OWN_SUM},
};
static const struct column removal[] = {
    {"L", "Total carbon uptake from abandoned lands", "kt C", "L = E + K", 7, NOTHING},
    {"M", "Total carbon dioxide uptake", "t CO\u2082, rounded", "M = L \u00d7 44/12", 0, NOTHING},
};

/* The three fields of one age, and what they multiply to. */
static void fill_age(const uint32_t *age, amount *c) {
    c[0] = age[0];
    c[1] = age[1];
    c[2] = c[0] * c[1];
    c[3] = age[2];
    c[4] = c[2] * c[3];
}
static void fill_regrowth(const uint32_t *row, int line, amount *c) { (void)line, fill_age(row + 1, c); }
static void fill_longer(const uint32_t *row, int line, amount *c) { (void)line, fill_age(row + 4, c); }

static const struct sheet young = {"Worksheet 5-4, sheet 1", "Sheet 1 of 3: the first twenty years", ": carbon taken up by regrowth", "Subtotal", ABANDONED,
    COLUMNS(regrowth), fill_regrowth, NULL, {0}};
static const struct sheet old = {"Worksheet 5-4, sheet 2", "Sheet 2 of 3: more than twenty years", ": carbon taken up by regrowth", "Subtotal", ABANDONED,
    COLUMNS(longer_regrowth), fill_longer, NULL, {0}};

static void put_sheet_54(FILE *out, const struct taken *t) {
    amount uptake = 0;
    begin_section(out, "s5-4", "Worksheet 5-4: abandonment of managed lands");
    if (t->counts[ABANDONED]) {
        uptake = put_sheet(out, t, &young).sums[4];
        uptake += put_sheet(out, t, &old).sums[4];
        open_line(out, "Worksheet 5-4, sheet 3", "Sheet 3 of 3: total CO\u2082 removal", ": from the subtotals of sheets 1 and 2", COLUMNS(removal));
        put_number(out, t->figure[UPTAKE], 7);
        put_rounded(out, t, UPTAKE_CO2);
        close_line(out);
    } else say_none(out, "abandoned land");
    hold("uptake, worksheet 5-4, columns E and K", uptake, t->figure[UPTAKE]);
    end_section(out);
}

/* ---- worksheets 5-5 and 5-5A ---- */

static const struct column soil_carbon[] = {
    {"A", "Land-use/management system", "a number of the desk", "", A_NAME, NOTHING},
    {"B", "Soil type", "a number of the desk", "", A_NAME, NOTHING},
    {"C", "Soil carbon under native vegetation", "Mg C/ha", "", 1, NOTHING},
    {"D", "Base factor", "", "", 2, NOTHING},
    {"E", "Tillage factor", "", "", 2, NOTHING},
    {"F", "Input factor", "", "", 2, NOTHING},
    {"G", "Soil carbon in agriculturally impacted lands", "Mg C/ha", "G = C \u00d7 D \u00d7 E \u00d7 F", 7, NOTHING},
};
static const struct column soil_change[] = {
    {"A", "Land-use/management system", "a number of the desk", "", A_NAME, NOTHING},
    {"B", "Soil type", "a number of the desk", "", A_NAME, NOTHING},
    {"C", "Soil carbon", "Mg C/ha", "G of worksheet 5-5A", 7, NOTHING},
    {"D", "Land area twenty years ago (t\u221220)", "Mha", "", 3, OWN_SUM},
    {"E", "Land area now (t)", "Mha", "", 3, OWN_SUM},
    {"F", "Soil carbon twenty years ago (t\u221220)", "Tg", "F = C \u00d7 D", 10, OWN_SUM},
    {"G", "Soil carbon now (t)", "Tg", "G = C \u00d7 E", 10, OWN_SUM},
    {"H", "Net change in soil carbon in mineral soils", "Tg over 20 years", "H = G \u2212 F", 10, SOIL},
};
static const struct column yearly_change[] = {
    {"", "Net change in twenty years", "t C", "total of H", 4, NOTHING},
    {"", "Change in a year", "t C a year, rounded", "H over 20", 0, NOTHING},
};

static void fill_soil_carbon(const uint32_t *row, int line, amount *c) {
    (void)line;
    c[0] = row[1];
    c[1] = row[2];
    for (int i = 2; i < 6; i++) c[i] = row[3 + i];
    c[6] = c[2] * c[3] * c[4] * c[5];
}
static void fill_soil_change(const uint32_t *row, int line, amount *c) {
    amount carbon[MOST_COLUMNS];
    fill_soil_carbon(row, line, carbon);
    c[0] = row[1];
    c[1] = row[2];
    c[2] = carbon[6];
    c[3] = row[4];
    c[4] = row[3];
    c[5] = c[2] * c[3];
    c[6] = c[2] * c[4];
    c[7] = c[6] - c[5];
}

static const struct sheet soils_carbon = {"Worksheet 5-5A, sheet 1", "Worksheet 5-5A (additional): soil carbon", ": the factors are 1 for untouched land", NULL,
    MINERAL_SOIL, COLUMNS(soil_carbon), fill_soil_carbon, NULL, {0}};
static const struct sheet soils_change = {"Worksheet 5-5, sheet 1", "Worksheet 5-5, sheet 1: change in mineral soils", ": below zero is a loss", "Totals", MINERAL_SOIL,
    COLUMNS(soil_change), fill_soil_change, NULL, {0}};

static void put_sheet_55(FILE *out, const struct taken *t) {
    begin_section(out, "s5-5", "Worksheet 5-5: change in soil carbon for mineral soils");
    if (t->counts[MINERAL_SOIL]) {
        put_sheet(out, t, &soils_carbon);
        struct table change = put_sheet(out, t, &soils_change);
        hold("the areas of worksheet 5-5, now and twenty years ago", change.sums[4], change.sums[3]);
        hold("soil, worksheet 5-5, column G less F", change.sums[6] - change.sums[5], t->figure[SOIL]);
        open_line(out, "Yearly change", "The change in a year", ": what is not on the sheet, asked for by the desk", COLUMNS(yearly_change));
        put_number(out, t->figure[SOIL], 4);
        put_rounded(out, t, SOIL_CHANGE);
        close_line(out);
    } else {
        say_none(out, "mineral soil");
        hold("soil, with no rows", 0, t->figure[SOIL]);
    }
    end_section(out);
}

/* ---- gases of rows that have their own ratios, as in worksheets 4-3 and 4-4 ---- */

struct gas_sheet {
    const char *name, *heading;
    int kind, first, figure; /* the field of N/C, behind which the ratios stand, and the figure of the first gas */
    unsigned places;         /* of the carbon */
    amount (*carbon)(const uint32_t *);
    struct column columns[7];
};

/* A row's four lines, one for each gas: its carbon, N/C and nitrogen, then the ratio, the emission, the conversion and the gas, exactly. */
static void put_gases_of_row(FILE *out, const struct gas_sheet *s, const uint32_t *row) {
    amount carbon = s->carbon(row);
    for (int gas = 0; gas < 4; gas++) {
        uint32_t ratio = row[s->first + 1 + gas];
        bool of_nitrogen = gases[gas].of_nitrogen;
        fputs("<tr>", out);
        if (gas == 0) fprintf(out, "<th scope=\"rowgroup\" rowspan=\"4\">%" PRIu32 "</th>", row[0]);
        fprintf(out, "<th scope=\"row\" class=\"gas\">%s</th>", gases[gas].name);
        put_number(out, carbon, s->places);
        if (of_nitrogen) put_number(out, row[s->first], 3), put_number(out, carbon * row[s->first], s->places + 3);
        else fputs("<td class=\"none\"></td><td class=\"none\"></td>", out);
        put_number(out, ratio, 3);
        put_number(out, carbon * ratio * (of_nitrogen ? row[s->first] : 1), s->places + (of_nitrogen ? 6 : 3));
        fprintf(out, "<td class=\"n\">%s</td><td class=\"n\">", gases[gas].conversion);
        put_ratio(out, gas_from(gas, carbon, s->places, row[s->first], ratio));
        fputs("</td></tr>\n", out);
    }
}

static void put_gases(FILE *out, const struct taken *t, const struct gas_sheet *s) {
    open_table(out, WIDE, s->name, s->heading, ": each row by its own ratios; each gas is added up exactly and rounded once", s->columns, 7,
        ROW_HEAD "<th scope=\"col\" class=\"row\">Gas</th>");
    for (uint32_t i = 0; i < t->counts[s->kind]; i++) {
        if (i) fputs("</tbody>\n<tbody class=\"group\">\n", out); /* the four lines of a row belong together */
        put_gases_of_row(out, s, row_of(t, s->kind, i));
    }
    fputs("</tbody>\n<tfoot>\n", out);
    for (int gas = 0; gas < 4; gas++) {
        fprintf(out, "<tr><th scope=\"row\" colspan=\"2\">Total %s</th><td class=\"none\" colspan=\"6\"></td>", gases[gas].name);
        put_rounded(out, t, s->figure + gas);
        fputs("</tr>\n", out);
    }
    fputs("</tfoot>\n", out);
    close_box(out);
}

/* ---- worksheet 4-3 ---- */

static const struct column savannas[] = {
    {"A", "Area burned by category", "kha", "", 2, NOTHING},
    {"B", "Biomass density of savanna", "t dm/ha", "", 1, NOTHING},
    {"C", "Total biomass exposed to burning", "Gg dm", "C = A \u00d7 B", 3, NOTHING},
    {"D", "Fraction actually burned", "", "", 3, NOTHING},
    {"E", "Quantity actually burned", "Gg dm", "E = C \u00d7 D", 6, NOTHING},
    {"F", "Fraction of living biomass burned", "", "", 3, NOTHING},
    {"G", "Quantity of living biomass burned", "Gg dm", "G = E \u00d7 F", 9, NOTHING},
    {"H", "Quantity of dead biomass burned", "Gg dm", "H = E \u2212 G", 9, NOTHING},
};
static const struct column savanna_oxidised[] = {
    {"I", "Fraction oxidised of living and dead biomass", "", "", 3, NOTHING},
    {"J", "Total biomass oxidised", "Gg dm", "living J = G \u00d7 I, dead J = H \u00d7 I", 12, NOTHING},
    {"K", "Carbon fraction of living and dead biomass", "", "", 3, NOTHING},
    {"L", "Total carbon released", "Gg C", "L = J \u00d7 K", 15, SAVANNA},
};
static const struct gas_sheet savanna_gases = {"Worksheet 4-3, sheet 3", "Sheet 3 of 3: gases", BURNED_SAVANNA, 9, SAVANNA_CH4, 15, savanna_carbon, {
    {"L", "Total carbon released", "Gg C", "living and dead of sheet 2", 15, NOTHING},
    {"M", "Nitrogen\u2013carbon ratio", "", "", 3, NOTHING},
    {"N", "Total nitrogen content", "Gg N", "N = L \u00d7 M", 18, NOTHING},
    {"O", "Emission ratio", "", "", 3, NOTHING},
    {"P", "Emissions", "Gg C or Gg N", "P = L \u00d7 O for C, N \u00d7 O for N", 18, NOTHING},
    {"Q", "Conversion ratio", "", "", 0, NOTHING},
    {"R", "Emissions from savanna burning", "t of gas", "R = P \u00d7 Q", 0, NOTHING},
}};

static void fill_savanna(const uint32_t *row, int line, amount *c) {
    (void)line;
    c[0] = row[1];
    c[1] = row[2];
    c[2] = c[0] * c[1];
    c[3] = row[3];
    c[4] = c[2] * c[3];
    c[5] = row[4];
    c[6] = c[4] * c[5];
    c[7] = c[4] * 1000 - c[6];
}
/* The living part, and below it the dead one. */
static void fill_savanna_part(const uint32_t *row, int line, amount *c) {
    amount burned[MOST_COLUMNS];
    fill_savanna(row, 0, burned);
    c[0] = row[line == 0 ? 5 : 7];
    c[1] = burned[line == 0 ? 6 : 7] * c[0];
    c[2] = row[line == 0 ? 6 : 8];
    c[3] = c[1] * c[2];
}

static const struct sheet savanna_biomass = {"Worksheet 4-3, sheet 1", "Sheet 1 of 3: biomass burned", ": living and dead", NULL, BURNED_SAVANNA, COLUMNS(savannas),
    fill_savanna, NULL, {0}};
static const struct sheet savanna_parts = {"Worksheet 4-3, sheet 2", "Sheet 2 of 3: carbon released", ": living and dead each by its own fractions", "Total",
    BURNED_SAVANNA, COLUMNS(savanna_oxidised), fill_savanna_part, NULL, {"Living", "Dead"}};

static void put_sheet_43(FILE *out, const struct taken *t) {
    begin_section(out, "s4-3", "Worksheet 4-3: prescribed burning of savannas");
    if (t->counts[BURNED_SAVANNA]) {
        put_sheet(out, t, &savanna_biomass);
        put_sheet(out, t, &savanna_parts);
        put_gases(out, t, &savanna_gases);
    } else {
        say_none(out, "savanna");
        hold("savanna_carbon, with no rows", 0, t->figure[SAVANNA]);
    }
    end_section(out);
}

/* ---- worksheet 4-4 ---- */

static const struct column residues[] = {
    {"A", "Annual production", "Gg crop", "", 1, NOTHING},
    {"B", "Residue to crop ratio", "", "", 2, NOTHING},
    {"C", "Quantity of residue", "Gg biomass", "C = A \u00d7 B", 3, NOTHING},
    {"D", "Dry matter fraction", "", "", 3, NOTHING},
    {"E", "Quantity of dry residue", "Gg dm", "E = C \u00d7 D", 6, NOTHING},
    {"F", "Fraction burned in fields", "", "", 3, NOTHING},
    {"G", "Fraction oxidised", "", "", 3, NOTHING},
    {"H", "Total biomass burned", "Gg dm", "H = E \u00d7 F \u00d7 G", 12, NOTHING},
};
static const struct column residue_carbon[] = {
    {"I", "Carbon fraction of residue", "", "", 4, NOTHING},
    {"J", "Total carbon released", "Gg C", "J = H \u00d7 I", 16, CROP},
    {"K", "Nitrogen\u2013carbon ratio", "", "", 3, NOTHING},
    {"L", "Total nitrogen released", "Gg N", "L = J \u00d7 K", 19, NOTHING},
};
static const struct gas_sheet residue_gases = {"Worksheet 4-4, sheet 3", "Sheet 3 of 3: gases", CROP_RESIDUES, 7, CROP_CH4, 16, crop_carbon, {
    {"J", "Total carbon released", "Gg C", "of sheet 2", 16, NOTHING},
    {"K", "Nitrogen\u2013carbon ratio", "", "", 3, NOTHING},
    {"L", "Total nitrogen released", "Gg N", "L = J \u00d7 K", 19, NOTHING},
    {"M", "Emission ratio", "", "", 3, NOTHING},
    {"N", "Emissions", "Gg C or Gg N", "N = J \u00d7 M for C, L \u00d7 M for N", 19, NOTHING},
    {"O", "Conversion ratio", "", "", 0, NOTHING},
    {"P", "Emissions from field burning of agricultural residues", "t of gas", "P = N \u00d7 O", 0, NOTHING},
}};

static void fill_residues(const uint32_t *row, int line, amount *c) {
    (void)line;
    c[0] = row[1];
    c[1] = row[2];
    c[2] = c[0] * c[1];
    c[3] = row[3];
    c[4] = c[2] * c[3];
    c[5] = row[4];
    c[6] = row[5];
    c[7] = c[4] * c[5] * c[6];
}
static void fill_residue_carbon(const uint32_t *row, int line, amount *c) {
    amount burned[MOST_COLUMNS];
    fill_residues(row, line, burned);
    c[0] = row[6];
    c[1] = burned[7] * c[0];
    c[2] = row[7];
    c[3] = c[1] * c[2];
}

static const struct sheet residue_biomass = {"Worksheet 4-4, sheet 1", "Sheet 1 of 3: biomass burned", ": what was burned in the fields", NULL, CROP_RESIDUES,
    COLUMNS(residues), fill_residues, NULL, {0}};
static const struct sheet residues_carbon = {"Worksheet 4-4, sheet 2", "Sheet 2 of 3: carbon and nitrogen", ": what the fires released", "Total", CROP_RESIDUES,
    COLUMNS(residue_carbon), fill_residue_carbon, NULL, {0}};

static void put_sheet_44(FILE *out, const struct taken *t) {
    begin_section(out, "s4-4", "Worksheet 4-4: field burning of agricultural residues");
    if (t->counts[CROP_RESIDUES]) {
        put_sheet(out, t, &residue_biomass);
        put_sheet(out, t, &residues_carbon);
        put_gases(out, t, &residue_gases);
    } else {
        say_none(out, "crop residues");
        hold("crop_carbon, with no rows", 0, t->figure[CROP]);
    }
    end_section(out);
}

#endif
