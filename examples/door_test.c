/* Tries what the header says: areas of length 0, NULL among their pointers; each function on the worked day, and the figures of the day with thinner
 * rows, with scattered trees, with rows of each kind above 4 and with soils that changed. Reading and writing are in door_rows.c, returns byte by byte in
 * door_bytes.c, number 14 in door_trees.c, number 12 in door_wood.c, number 13 in door_soil.c, the cleared biomass in door_matter.c, what crop residues leave
 * as it is in door_crop.c, table 5-2 in door_table52.c, the explanation and the heaviest rows in door_explain.c, the national line in door_nation.c, rows as text in door_texts.c; all of
 * them take the kinds from the table in door_kinds.c. */
#include "door_test.h"
#include <stdio.h>
#include <string.h>

static unsigned tried, wrong;

void must(int holds, const char *what) {
    tried++;
    if (!holds) {
        wrong++;
        printf("WRONG: %s\n", what);
    }
}

static void empty_areas(const uint8_t *day, size_t length) {
    uint32_t counts[NILOFERQ_COUNTS];
    uint8_t room[16];
    int kept = 1;
    for (int i = 0; i < NILOFERQ_COUNTS; i++) counts[i] = UNTOUCHED;
    memset(room, 0xee, sizeof room);
    must(niloferq_judge(NULL, 0, counts, NILOFERQ_COUNTS) == 1000, "judge: no bytes, NULL");
    for (int i = 0; i < NILOFERQ_COUNTS; i++) kept &= counts[i] == UNTOUCHED;
    must(kept, "judge: no bytes, and the counts as they were");
    must(niloferq_judge(NULL, 0, NULL, 0) == 1000, "judge: no bytes and no room, NULL both");
    must(niloferq_judge(day, length, NULL, 0) == 9000, "judge: a good return and no room, NULL");
    must(niloferq_lines(NULL, 0, room, sizeof room) == 12 && memcmp(room, "refused 1 0\n\xee\xee\xee\xee", 16) == 0, "lines: no bytes, NULL");
    must(niloferq_lines(day, length, NULL, 0) == 0, "lines: no room, NULL");
    memset(room, 0xee, sizeof room);
    must(niloferq_subtotal(NULL, 0, 0, room, sizeof room) == 1000 && room[0] == 0xee, "subtotal: no bytes, NULL");
    must(niloferq_subtotal(day, length, 0, NULL, 0) == 9000, "subtotal: no room, NULL");
    must(niloferq_subtotal(day, length, 3, NULL, 0) == 11000, "subtotal: code 3 comes before the room");
    must(niloferq_subtotal(NULL, 0, 3, NULL, 0) == 1000, "subtotal: the return comes before the code");
    must(niloferq_figures(NULL, 0, NULL, 0) == 1000, "figures: no bytes and no room, NULL both");
    must(niloferq_figures(day, length, NULL, 0) == 9000, "figures: a good return and no room, NULL");
}

/* ---- the figures */

/* The worked day's lines, which no row behind it moves; and the figures that the requests print behind them, as the day itself has them. Of its biomass of
 * 200 x 900 = 180,000, 400 thousandths are burned on site and 200 off site, 900 thousandths of either are oxidised, and 400 thousandths stay unburned. */
static const char DAY_LINES[] = "E 340000000\nK 775000\nL 36000000\nM 41500000\nO 20750000000\nP 13250000000\nQ 48583\nreport -48583\n"
                                "onsite 32400000000000\noffsite 16200000000000\nR 48600000000000\ndecay 40500000000000\nco2 326700\n"
                                "ch4 518\nco 4536\nn2o 4\nnox 129\n";
static const char *const REQUESTED[] = {"uptake 0\n", "uptake_co2 0\n", "thinner 0\n", "savanna_carbon 0\n", "savanna_ch4 0\n", "savanna_co 0\n",
    "savanna_n2o 0\n", "savanna_nox 0\n", "soil 0\n", "soil_change 0\n", "scattered 0\n", "oxidised_onsite 64800000000\n", "charcoal_onsite 7200000000\n",
    "oxidised_offsite 32400000000\n", "charcoal_offsite 3600000000\n", "unburned 72000000000\n", "crop_carbon 0\n", "crop_ch4 0\n", "crop_co 0\n",
    "crop_n2o 0\n", "crop_nox 0\n"};

/* The whole text of the day with these lines in place of those of the same names; the answer is its length. */
static size_t text_of(char text[NILOFERQ_LINES_ROOM + 1], const char *lines) {
    strcpy(text, DAY_LINES);
    for (size_t i = 0; i < sizeof REQUESTED / sizeof *REQUESTED; i++) {
        const char *line = lines;
        size_t name = strcspn(REQUESTED[i], " ") + 1;
        while (*line && strncmp(line, REQUESTED[i], name) != 0) line = strchr(line, '\n') + 1;
        if (!*line) line = REQUESTED[i];
        strncat(text, line, (size_t)(strchr(line, '\n') + 1 - line));
    }
    return strlen(text);
}

/* Ten times a number of two words, and a digit more. */
static void add_digit(uint64_t *upper, uint64_t *lower, unsigned digit) {
    uint64_t low = (*lower & 0xffffffff) * 10 + digit, high = (*lower >> 32) * 10 + (low >> 32);
    *upper = *upper * 10 + (high >> 32);
    *lower = high << 32 | (low & 0xffffffff);
}

/* The numbers of these lines, one after the other. */
static void must_figure(const uint8_t *bytes, size_t length, const char *lines, const char *what) {
    enum { ROOM = NILOFERQ_FIGURES_ROOM };
    uint64_t room[ROOM + 2];
    for (int i = 0; i < ROOM + 2; i++) room[i] = UNTOUCHED;
    must(niloferq_figures(bytes, length, room, ROOM - 1) == 9000 && room[0] == UNTOUCHED && room[ROOM - 2] == UNTOUCHED, "figures: room too short by one");
    must(niloferq_figures(bytes, length, room, ROOM + 2) == 0 && room[ROOM] == UNTOUCHED && room[ROOM + 1] == UNTOUCHED, "figures: accepted");
    int figures = 0;
    for (; *lines && figures < NILOFERQ_FIGURES; figures++, lines++) {
        const uint64_t *found = room + 3 * figures;
        uint64_t upper = 0, lower = 0;
        lines = strchr(lines, ' ') + 1;
        uint64_t below = *lines == '-';
        for (lines += below; *lines != '\n'; lines++) add_digit(&upper, &lower, (unsigned)(*lines - '0'));
        must(found[0] == below && found[1] == upper && found[2] == lower, what);
    }
    must(figures == NILOFERQ_FIGURES && !*lines, "figures: a line for each");
}

/* The three doubles of the day, which no row behind it moves. */
static void must_double(const uint8_t *bytes, size_t length) {
    static const double due[3] = {32400000000000.0, 16200000000000.0, 40500000000000.0};
    for (uint32_t code = 0; code < 3; code++) {
        uint8_t bits[8];
        double found = 0;
        must(niloferq_subtotal(bytes, length, code, bits, 8) == 0, "the day's subtotal");
        memcpy(&found, bits, 8); /* x86-64 keeps the lowest byte first, as the room does */
        must(found == due[code], "its value");
    }
}

void must_judge(const uint8_t *bytes, size_t length, const shape due, const char *what) {
    uint32_t counts[NILOFERQ_COUNTS + SPARE];
    for (size_t n = 0; n <= NILOFERQ_COUNTS + SPARE; n++) {
        int enough = n >= NILOFERQ_COUNTS, good = 1;
        for (int i = 0; i < NILOFERQ_COUNTS + SPARE; i++) counts[i] = UNTOUCHED;
        must(niloferq_judge(bytes, length, counts, n) == (enough ? 0 : 9000), what);
        for (int i = 0; i < NILOFERQ_COUNTS + SPARE; i++) good &= counts[i] == (enough && i < NILOFERQ_COUNTS ? due[i] : UNTOUCHED);
        must(good, "judge: the edition and the counts, or the room as it was");
    }
}

/* A return that is the day but for these of the requested lines. */
static void must_be_day(const uint8_t *bytes, size_t length, const shape counts, const char *lines, const char *what) {
    char due[NILOFERQ_LINES_ROOM + 1], text[NILOFERQ_LINES_ROOM + 1];
    size_t size = text_of(due, lines);
    must_judge(bytes, length, counts, what);
    must_figure(bytes, length, due, what);
    must_double(bytes, length);
    memset(text, 0xee, sizeof text);
    must(niloferq_lines(bytes, length, (uint8_t *)text, size - 1) == 0 && (uint8_t)text[0] == 0xee, "lines: room too short by one");
    must(niloferq_lines(bytes, length, (uint8_t *)text, NILOFERQ_LINES_ROOM) == size, what);
    must(memcmp(text, due, size) == 0 && (uint8_t)text[size] == 0xee, what);
}

/* The day with two more conversion rows: grass of 4.9 t/ha turned to a crop of 10, thinner in the one period that it has, and a row that is thinner
 * in both. They have areas and fractions, and move nothing but the count. */
static void thinner_rows(void) {
    static struct rows r;
    static uint8_t bytes[NILOFERQ_RETURN_ROOM];
    const shape counts = {1, 3, 1, 1, 1};
    fill_rows(&r, counts);
    uint32_t *grass = row_of(&r, CONVERSION, 1), *both = row_of(&r, CONVERSION, 2);
    grass[2] = 49, grass[3] = 100, grass[11] = 0, grass[12] = 0;
    both[2] = 0, both[3] = 1, both[11] = 9999, both[12] = 10000;
    must_be_day(bytes, written(&r, bytes), counts, "thinner 3\n", "the day with rows that are thinner before than after");
}

/* The day with its stock row as scattered trees, in the editions that have them: of so many thousand trees as it has 0.01 kha, so that no figure moves. */
static void scattered_rows(void) {
    static uint8_t bytes[NILOFERQ_RETURN_ROOM];
    for (uint32_t edition = 1; edition < TREELESS; edition++) {
        const shape counts = {edition, 1, 1, 1, 1, [SCATTERED] = 1};
        must_be_day(bytes, written_as(counts, bytes), counts, "scattered 1\n", "the day with scattered trees");
    }
}

/* Rows of a kind above 4 beside the day: the table's, of which the last may be another, or all at their limits but for one field. */
enum { AS_THEY_ARE, LAST_IS, AT_LIMITS };
static const struct {
    uint32_t kind, count;
    int how;
    uint32_t row[NILOFERQ_CONVERSION_NUMBERS]; /* of LAST_IS the row, of AT_LIMITS a field and its value */
    const char *lines, *what;
} CASES[] = {
    /* Abandoned land, by hand. A row takes up 300 x 250 x 500 + 420 x 75 x 450 = 37,500,000 + 14,175,000 = 51,675,000 of 10^-7 kt C, and
     * 11 x 51,675,000 / 30,000 = 18,947.5 t CO2, rounded 18,948. Two rows take up 103,350,000, which is 37,895 t, not twice 18,948. The largest row
     * takes up 2 x 10^7 x 10^4 x 10^3 = 2 x 10^14, and 32 of them 6.4 x 10^15, which is 2,346,666,666,666.7 t. */
    {ABANDONED, 1, AS_THEY_ARE, {0}, "uptake 51675000\nuptake_co2 18948\n", "the day with a row of abandoned land"},
    {ABANDONED, 2, AS_THEY_ARE, {0}, "uptake 103350000\nuptake_co2 37895\n", "two rows of abandoned land are rounded once"},
    {ABANDONED, 32, AT_LIMITS, {1, 10000000}, "uptake 6400000000000000\nuptake_co2 2346666666667\n", "the largest uptake"},
    /* Savanna, by hand. Of a row 500 x 70 x 850 = 29,750,000 is really burned. 450 x 800 x 450 = 162,000,000 of the live part and
     * 550 x 1,000 x 400 = 220,000,000 of the dead are carbon, so its carbon is 29,750,000 x 382,000,000 = 11,364,500,000,000,000 of 10^-15 kt C.
     * CH4: 4 x 4 x 11.3645 / 3 = 60.6 t. CO: 7 x 60 x 11.3645 / 3 = 1,591.03 t. N2O: 11 x 6 x 7 x 11.3645 / 7,000 = 0.750 t. NOx:
     * 23 x 6 x 121 x 11.3645 / 7,000 = 27.1 t. Two rows give 121.2, 3,182.06, 1.5001 and 54.2 t: of CH4 121, not twice 61. */
    {SAVANNA, 1, AS_THEY_ARE, {0}, "savanna_carbon 11364500000000000\nsavanna_ch4 61\nsavanna_co 1591\nsavanna_n2o 1\nsavanna_nox 27\n",
     "the day with a row of savanna"},
    {SAVANNA, 2, AS_THEY_ARE, {0}, "savanna_carbon 22729000000000000\nsavanna_ch4 121\nsavanna_co 3182\nsavanna_n2o 2\nsavanna_nox 54\n",
     "two rows of savanna are rounded once"},
    /* A row whose gases are all halves, by hand: 375 x 1 x 1,000 is burned, all of it live and carbon, which is 0.375 x 10^15 of 10^-15 kt C. N/C 70
     * and ratios of 3, 12, 400 and 400 give 1.5, 10.5, 16.5 and 34.5 t, each rounded to even. Behind the table's row it makes 62.1, 1,601.53, 17.3
     * and 61.6 t: each row by its own ratios, and the sum rounded once. */
    {SAVANNA, 1, LAST_IS, {2, 375, 1, 1000, 1000, 1000, 1000, 0, 0, 70, 3, 12, 400, 400},
     "savanna_carbon 375000000000000\nsavanna_ch4 2\nsavanna_co 10\nsavanna_n2o 16\nsavanna_nox 34\n", "halves of savanna go to even"},
    {SAVANNA, 2, LAST_IS, {2, 375, 1, 1000, 1000, 1000, 1000, 0, 0, 70, 3, 12, 400, 400},
     "savanna_carbon 11739500000000000\nsavanna_ch4 62\nsavanna_co 1602\nsavanna_n2o 17\nsavanna_nox 62\n", "each row of savanna by its own ratios"},
/* The largest row has 10^6 x 10^4 x 10^3 x 10^9 = 10^22 of carbon, which no word holds, and 32 of them 3.2 x 10^23. However it is shared between live
 * and dead, field 4, it is as much. */
#define LARGEST_SAVANNAS \
    "savanna_carbon 320000000000000000000000\nsavanna_ch4 426666666667\nsavanna_co 746666666667\nsavanna_n2o 502857142857\nsavanna_nox 1051428571429\n"
    {SAVANNA, 32, AT_LIMITS, {4, 1000}, LARGEST_SAVANNAS, "the largest savannas, all live"},
    {SAVANNA, 32, AT_LIMITS, {4, 500}, LARGEST_SAVANNAS, "the largest savannas, half of them live"},
    {SAVANNA, 32, AT_LIMITS, {4, 1}, LARGEST_SAVANNAS, "the largest savannas, hardly any live"},
    {SAVANNA, 32, AT_LIMITS, {4, 0}, LARGEST_SAVANNAS, "the largest savannas, all dead"},
    /* Crop residues, by hand. 10,000 x 130 x 850 = 1,105,000,000 of a row are dry residues, of which 250 x 900 are burned and oxidised, and 4,853 are carbon,
     * so its carbon is 1,206,577,125,000,000,000 of 10^-16 kt C. CH4: 4 x 5 x 120.6577125 / 3 = 804.4 t. CO: 7 x 60 x 120.6577125 / 3 = 16,892.08 t. N2O:
     * 11 x 12 x 7 x 120.6577125 / 7,000 = 15.9 t. NOx: 23 x 12 x 121 x 120.6577125 / 7,000 = 575.6 t. Two rows give 1,608.8, 33,784.2, 31.9 and 1,151.3 t:
     * of CH4 1,609, not twice 804, and of NOx 1,151, not twice 576. Residues that are burned are no CO2. */
    {CROP, 1, AS_THEY_ARE, {0}, "crop_carbon 1206577125000000000\ncrop_ch4 804\ncrop_co 16892\ncrop_n2o 16\ncrop_nox 576\n",
     "the day with a row of wheat"},
    {CROP, 2, AS_THEY_ARE, {0}, "crop_carbon 2413154250000000000\ncrop_ch4 1609\ncrop_co 33784\ncrop_n2o 32\ncrop_nox 1151\n",
     "two rows of wheat are rounded once"},
    /* A row whose gases are all halves, with savanna's ratios above: 375 x 1 of residues, all of them dry, burned, oxidised and carbon, are 0.375 x 10^16 of
     * 10^-16 kt C. Behind the table's row it makes 805.9, 16,902.58, 32.4 and 610.1 t. */
    {CROP, 1, LAST_IS, {2, 375, 1, 1000, 1000, 1000, 10000, 70, 3, 12, 400, 400},
     "crop_carbon 3750000000000000\ncrop_ch4 2\ncrop_co 10\ncrop_n2o 16\ncrop_nox 34\n", "halves of crops go to even"},
    {CROP, 2, LAST_IS, {2, 375, 1, 1000, 1000, 1000, 10000, 70, 3, 12, 400, 400},
     "crop_carbon 1210327125000000000\ncrop_ch4 806\ncrop_co 16903\ncrop_n2o 32\ncrop_nox 610\n", "each crop by its own ratios"},
    {CROP, 1, LAST_IS, {2, 1, 1, 1, 1, 1, 1, 1, 1, 1, 1, 1}, "crop_carbon 1\n", "the least carbon of a crop"},
    /* The largest row has 10^7 x 10^3 x 10^9 x 10^4 = 10^23 of carbon, which no word holds, and 32 of them 3.2 x 10^24. */
    {CROP, 32, AT_LIMITS, {1, 10000000},
     "crop_carbon 3200000000000000000000000\ncrop_ch4 426666666667\ncrop_co 746666666667\ncrop_n2o 502857142857\ncrop_nox 1051428571429\n",
     "the largest crops"},
};

/* Each case alone, and the first of each kind side by side. */
static void later_kinds(void) {
    static struct rows r;
    static uint8_t bytes[NILOFERQ_RETURN_ROOM];
    char all[NILOFERQ_LINES_ROOM] = "";
    shape one_each;
    uint32_t kind_before = 0;
    for (size_t i = 0; i < sizeof CASES / sizeof *CASES; i++) {
        uint32_t kind = CASES[i].kind, last = CASES[i].count - 1;
        size_t row_size = 4 * KINDS[kind].numbers;
        shape counts = {2 + i % 2, 1, 1, 1, 1}; /* in editions 2 and 3 by turns */
        counts[kind] = CASES[i].count;
        fill_rows(&r, counts);
        if (CASES[i].how == LAST_IS) memcpy(row_of(&r, kind, last), CASES[i].row, row_size);
        for (uint32_t row = 0; CASES[i].how == AT_LIMITS && row <= last; row++) {
            memcpy(row_of(&r, kind, row) + 1, KINDS[kind].limits + 1, row_size - 4);
            row_of(&r, kind, row)[CASES[i].row[0]] = CASES[i].row[1];
        }
        must_be_day(bytes, written(&r, bytes), counts, CASES[i].lines, CASES[i].what);
        if (kind != kind_before) strcat(all, CASES[i].lines);
        kind_before = kind;
    }
    for (uint32_t edition = 2; edition <= NILOFERQ_EDITIONS; edition++) {
        fill_shape(one_each, edition, 1);
        must_be_day(bytes, written_as(one_each, bytes), one_each, all, "a row of each kind side by side");
    }
}

/* Two rows of one soil type beside the day, by hand: land system 0 with so much now and then, and what it gave or got on land system 1. */
static const struct {
    uint32_t rows[2][NILOFERQ_SOIL_NUMBERS];
    const char *lines, *what;
} SOILS[] = {
    /* 1 Mha of forest, 60 t/ha, becomes a field, which keeps 0.6 x 0.9 x 0.8 of that: 600 x (1,000,000 - 432,000) x 1,000 = 340,800,000,000 of 10^-4 t
     * are lost, a 20th of which is 1,704,000 t a year; and the other way round. */
    {{{1, 0, 1, 4000, 5000, 600, 100, 100, 100}, {2, 1, 1, 2000, 1000, 600, 60, 90, 80}}, "soil -340800000000\nsoil_change -1704000\n", "forest to field"},
    {{{1, 0, 1, 5000, 4000, 600, 100, 100, 100}, {2, 1, 1, 1000, 2000, 600, 60, 90, 80}}, "soil 340800000000\nsoil_change 1704000\n", "field to forest"},
    /* 1 x 100 x 100 x 10 = 100,000 for each unit of the area, half a tonne a year: -2.5, -1.5, -0.5 and 2.5 t go to even. */
    {{{1, 0, 0, 0, 5, 1, 100, 100, 10}, {2, 1, 0, 5, 0, 0, 100, 100, 100}}, "soil -500000\nsoil_change -2\n", "-2.5 t go to -2"},
    {{{1, 0, 0, 0, 3, 1, 100, 100, 10}, {2, 1, 0, 3, 0, 0, 100, 100, 100}}, "soil -300000\nsoil_change -2\n", "-1.5 t go to -2"},
    {{{1, 0, 0, 0, 1, 1, 100, 100, 10}, {2, 1, 0, 1, 0, 0, 100, 100, 100}}, "soil -100000\nsoil_change 0\n", "-0.5 t go to 0, with no sign"},
    {{{1, 0, 0, 5, 0, 1, 100, 100, 10}, {2, 1, 0, 0, 5, 0, 100, 100, 100}}, "soil 500000\nsoil_change 2\n", "2.5 t go to 2"},
    /* 1.5 t lost and 0.15 t gained are 1.35 t lost, rounded once, not 2 and 0; and what has the same area now and then changes nothing. */
    {{{1, 0, 7, 0, 3, 1, 100, 100, 10}, {2, 1, 7, 3, 0, 1, 100, 100, 1}}, "soil -270000\nsoil_change -1\n", "soils are rounded once"},
    {{{1, 0, 65535, 100000, 100000, 10000, 300, 300, 300}, {2, 1, 0, 7, 7, 1, 100, 100, 100}}, "", "as much now as then"},
};

static void changed_soils(void) {
    static struct rows r;
    static uint8_t bytes[NILOFERQ_RETURN_ROOM];
    shape counts = {2, 1, 1, 1, 1};
    counts[SOIL] = 2;
    for (size_t i = 0; i < sizeof SOILS / sizeof *SOILS; i++) {
        counts[EDITION] = 2 + i % 2;
        fill_rows(&r, counts);
        memcpy(row_of(&r, SOIL, 0), SOILS[i].rows, sizeof SOILS[i].rows);
        must_be_day(bytes, written(&r, bytes), counts, SOILS[i].lines, SOILS[i].what);
    }
    /* The largest row has 10^5 x 10^4 x 300^3 = 2.7 x 10^16, and 16 of them, gained from or lost to as much bare rock, 4.32 x 10^17: 2.16 x 10^12 t a year. */
    counts[SOIL] = NILOFERQ_MOST_ROWS;
    for (uint32_t lost = 0; lost < 2; lost++) {
        fill_rows(&r, counts);
        for (uint32_t i = 0; i < NILOFERQ_MOST_ROWS; i++) {
            uint32_t rock = i % 2, now = rock == lost ? 100000 : 0;
            const uint32_t row[NILOFERQ_SOIL_NUMBERS] = {i, rock, i / 2, now, 100000 - now, rock ? 0 : 10000, 300, 300, 300};
            memcpy(row_of(&r, SOIL, i), row, sizeof row);
        }
        must_be_day(bytes, written(&r, bytes), counts,
                    lost ? "soil -432000000000000000\nsoil_change -2160000000000\n" : "soil 432000000000000000\nsoil_change 2160000000000\n",
                    "the largest change of soils");
    }
}

/* The default parameters are the worked day's, and nothing behind them changes. */
static void defaults(void) {
    uint32_t room[NILOFERQ_PARAMETERS_NUMBERS + 1];
    for (size_t n = 0; n <= NILOFERQ_PARAMETERS_NUMBERS + 1; n++) {
        int enough = n >= NILOFERQ_PARAMETERS_NUMBERS, good = 1;
        for (int i = 0; i <= NILOFERQ_PARAMETERS_NUMBERS; i++) room[i] = UNTOUCHED;
        must(niloferq_defaults(room, n) == (enough ? 0 : 9000), "defaults: the answer");
        for (int i = 0; i <= NILOFERQ_PARAMETERS_NUMBERS; i++)
            good &= room[i] == (enough && i < NILOFERQ_PARAMETERS_NUMBERS ? KINDS[PARAMETERS].row[i] : UNTOUCHED);
        must(good, "defaults: the six numbers, or the room as it was");
    }
    must(niloferq_defaults(NULL, 0) == 9000, "defaults: no room at all");
}

int main(int count, char **words) {
    static uint8_t day[NILOFERQ_RETURN_ROOM + 1];
    FILE *file = count == 2 ? fopen(words[1], "rb") : NULL;
    if (!file) {
        fprintf(stderr, "usage: door_test DAY.RETURN\n");
        return 2;
    }
    size_t length = fread(day, 1, sizeof day, file);
    fclose(file);
    empty_areas(day, length);
    must_be_day(day, length, DAY, "", "the day itself");
    thinner_rows();
    scattered_rows();
    later_kinds();
    changed_soils();
    reading(day, length);
    writing(day, length);
    returns_in_bytes(day, length);
    trees();
    wood();
    soils();
    matter();
    crops();
    defaults();
    table52();
    explanations(day, length);
    nations(day, length);
    texts(day, length);
    printf("door: %u tried, %u wrong\n", tried, wrong);
    return wrong != 0;
}
