/* Tries what became of cleared biomass, five masses in 10^-9 kt: rows by hand, at their ends and in between, thinner ones and the largest; in the figures, the
 * lines, the explanation and the national line alike; that the five add up to 1,000,000 times area by counted difference; and that no field moves them which is
 * no part of them. Here too is what the other files share of them. */
#include "door_test.h"
#include <stdio.h>
#include <string.h>

const char *const MASSES[MASS_COUNT] = {"oxidised_onsite", "charcoal_onsite", "oxidised_offsite", "charcoal_offsite", "unburned"};

void put_masses(char *text, const masses m) {
    text += strlen(text);
    for (int i = 0; i < MASS_COUNT; i++) text += sprintf(text, "%s %llu\n", MASSES[i], (unsigned long long)m[i]);
}

/* ---- rows by hand */

/* What the masses are made of in a conversion row, of which there are so many, and what they come to. */
enum { FIRST_FIGURE = 28 }; /* where they stand among the figures, from 0 */
struct clearing {
    uint32_t rows, area, before, after, on, on_oxidised, off, off_oxidised;
    masses due;
    const char *what;
};
static const struct clearing CLEARINGS[] = {
    {0, 0, 0, 0, 0, 0, 0, 0, {0}, "no rows"},
    {1, 200, 1000, 100, 400, 900, 200, 900, {64800000000, 7200000000, 32400000000, 3600000000, 72000000000}, "the day's row"},
    {2, 200, 1000, 100, 400, 900, 200, 900, {129600000000, 14400000000, 64800000000, 7200000000, 144000000000}, "the day's row twice"},
    /* one unit of biomass is 1,000,000 of these */
    {1, 1, 1, 0, 1000, 1000, 0, 0, {1000000, 0, 0, 0, 0}, "all oxidised on site"},
    {1, 1, 1, 0, 1000, 0, 0, 0, {0, 1000000, 0, 0, 0}, "all charcoal on site"},
    {1, 1, 1, 0, 0, 0, 1000, 1000, {0, 0, 1000000, 0, 0}, "all oxidised off site"},
    {1, 1, 1, 0, 0, 0, 1000, 0, {0, 0, 0, 1000000, 0}, "all charcoal off site"},
    {1, 1, 1, 0, 0, 1000, 0, 1000, {0, 0, 0, 0, 1000000}, "all unburned"},
    {1, 1, 1, 0, 1, 1, 1, 1, {1, 999, 1, 999, 998000}, "the least of each fraction"},
    {1, 1, 1, 0, 1, 999, 998, 999, {999, 1, 997002, 998, 1000}, "hardly any unburned"},
    {1, 1, 1, 0, 500, 1, 500, 999, {500, 499500, 499500, 500, 0}, "none unburned"},
    /* 7 x (13 - 2) = 77 of biomass */
    {1, 7, 13, 2, 333, 667, 334, 1, {17102547, 8538453, 25718, 25692282, 25641000}, "odd numbers"},
    {13, 7, 13, 2, 333, 667, 334, 1, {222333111, 110999889, 334334, 333999666, 333333000}, "odd numbers in two blocks"},
    /* nothing is cleared */
    {1, 1000000, 0, 10000, 500, 500, 500, 500, {0}, "thinner before than after"},
    {1, 1000000, 10000, 10000, 500, 500, 500, 500, {0}, "the same before and after"},
    {1, 0, 10000, 0, 500, 500, 500, 500, {0}, "no area"},
    /* the largest row has 10^6 x 10^4 = 10^10 of biomass, and 32 of them come to 3.2 x 10^17 */
    {32, 1000000, 10000, 0, 1000, 1000, 0, 0, {320000000000000000, 0, 0, 0, 0}, "the most oxidised on site"},
    {32, 1000000, 10000, 0, 1000, 0, 0, 0, {0, 320000000000000000, 0, 0, 0}, "the most charcoal on site"},
    {32, 1000000, 10000, 0, 0, 0, 1000, 1000, {0, 0, 320000000000000000, 0, 0}, "the most oxidised off site"},
    {32, 1000000, 10000, 0, 0, 0, 1000, 0, {0, 0, 0, 320000000000000000, 0}, "the most charcoal off site"},
    {32, 1000000, 10000, 0, 0, 0, 0, 0, {0, 0, 0, 0, 320000000000000000}, "the most unburned"},
    {32, 1000000, 10000, 0, 400, 500, 400, 500, {64000000000000000, 64000000000000000, 64000000000000000, 64000000000000000, 64000000000000000},
     "the most, in five equal parts"},
};

/* Where the fields of a row stand that are no part of the masses: both carbon fractions, and all of the ten years. */
enum { ON_CARBON = 6, OFF_CARBON = 9, TEN_YEAR_AREA = 10, DECAY = 13, DECAY_CARBON = 14 };

/* Its rows, the most of harvest that as many rows can say, and parameters. What is no part of the masses is nothing, or as much as it may be. */
static void fill_clearing(struct rows *r, const struct clearing *c, uint32_t edition, uint32_t as_much) {
    static const uint32_t most[] = {10000000, 10000, 10000000, 10000000};
    fill_rows(r, (const shape){edition, c->rows, 0, c->rows, 1});
    for (uint32_t i = 0; i < c->rows; i++) {
        uint32_t *row = row_of(r, CONVERSION, i);
        row[1] = c->area, row[2] = c->before, row[3] = c->after, row[4] = c->on, row[5] = c->on_oxidised, row[7] = c->off, row[8] = c->off_oxidised;
        row[ON_CARBON] = row[OFF_CARBON] = row[DECAY_CARBON] = as_much ? 1000 : 0;
        row[TEN_YEAR_AREA] = as_much ? 1000000 : 0, row[DECAY] = as_much ? 1000 - c->on - c->off : 0;
        memcpy(row_of(r, HARVEST, i) + 1, most, sizeof most);
    }
}

/* ---- wherever they are told */

/* The text that a function tells of these bytes ends with the masses so many times over; the lines of a return have those of its crops behind. */
static void must_end(size_t (*tell)(const uint8_t *, size_t, uint8_t *, size_t), const uint8_t *bytes, size_t length, const masses m, uint64_t times,
                     const char *what) {
    static uint8_t room[NILOFERQ_NATION_ROOM];
    masses all;
    char due[256] = "";
    for (int i = 0; i < MASS_COUNT; i++) all[i] = times * m[i];
    put_masses(due, all);
    if (tell == niloferq_lines) strcat(due, NO_CROPS);
    size_t size = tell(bytes, length, room, sizeof room), end = strlen(due);
    must(size > end && memcmp(room + size - end, due, end) == 0 && room[size - end - 1] == '\n', what);
}

static void must_tell_masses(const uint8_t *bytes, size_t length, const struct clearing *c) {
    static uint8_t file[3 * NILOFERQ_RETURN_ROOM];
    uint64_t figures[NILOFERQ_FIGURES_ROOM] = {0}, sum = 0, biomass = c->before < c->after ? 0 : (uint64_t)c->rows * c->area * (c->before - c->after);
    must(niloferq_figures(bytes, length, figures, NILOFERQ_FIGURES_ROOM) == 0, c->what);
    for (int i = 0; i < MASS_COUNT; i++) {
        const uint64_t *figure = figures + 3 * (FIRST_FIGURE + i);
        must(figure[0] == 0 && figure[1] == 0 && figure[2] == c->due[i], c->what);
        sum += figure[2];
    }
    must(sum == 1000000 * biomass, "the masses add up to the biomass");
    must_end(niloferq_lines, bytes, length, c->due, 1, c->what);
    must_end(niloferq_explain, bytes, length, c->due, 1, c->what);
    for (size_t times = 1; times <= 3; times++) {
        memcpy(file + (times - 1) * length, bytes, length);
        must_end(niloferq_nation, file, times * length, c->due, times, c->what);
    }
}

/* Two rows that differ, each with parts of its own: they add up one by one. */
static void two_rows(void) {
    static struct rows r;
    static uint8_t bytes[NILOFERQ_RETURN_ROOM];
    static const uint32_t odd[] = {7, 13, 2, 333, 667, 500, 334, 1, 500};
    const masses due = {64817102547, 7208538453, 32400025718, 3625692282, 72025641000};
    fill_rows(&r, (const shape){2, 2, 0, 1, 1});
    memcpy(row_of(&r, CONVERSION, 1) + 1, odd, sizeof odd);
    size_t length = written(&r, bytes);
    must_end(niloferq_lines, bytes, length, due, 1, "two rows that differ");
    must_end(niloferq_explain, bytes, length, due, 1, "two rows that differ");
    must_end(niloferq_nation, bytes, length, due, 1, "two rows that differ");
}

void matter(void) {
    static struct rows r;
    static uint8_t bytes[NILOFERQ_RETURN_ROOM];
    for (size_t i = 0; i < sizeof CLEARINGS / sizeof *CLEARINGS; i++)
        for (uint32_t edition = 1; edition <= NILOFERQ_EDITIONS; edition++)
            for (uint32_t as_much = 0; as_much < 2; as_much++) {
                fill_clearing(&r, CLEARINGS + i, edition, as_much);
                size_t length = written(&r, bytes);
                must_tell_masses(bytes, length, CLEARINGS + i);
            }
    two_rows();
}
