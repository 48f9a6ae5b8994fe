/* A return as the page has it: what the library says of it, and the exact number behind each rounded figure. Everything is held before it is shown: what the
 * page adds up itself has to come to the library's own figure, or no page is made. */
#ifndef PAGE_RETURN_H
#define PAGE_RETURN_H

#include "page_numbers.h"

/* ---- the figures ---- */

/* Their places, in the header's order. */
enum { E, K, L, M, O, P, Q, REPORT, ONSITE, OFFSITE, R, DECAY, CO2, CH4, CO, N2O, NOX, UPTAKE, UPTAKE_CO2, THINNER, SAVANNA, SAVANNA_CH4, SAVANNA_CO,
    SAVANNA_N2O, SAVANNA_NOX, SOIL, SOIL_CHANGE, SCATTERED, OXIDISED_ONSITE, CHARCOAL_ONSITE, OXIDISED_OFFSITE, CHARCOAL_OFFSITE, UNBURNED, CROP, CROP_CH4,
    CROP_CO, CROP_N2O, CROP_NOX };

enum role { EXACT, ROUNDED, COUNT };

/* A figure's name, the decimals of the unit in which it is counted, that unit without them, what it is, and its worksheet. */
struct meaning {
    const char *name;
    unsigned places;
    const char *unit, *what, *sheet;
    enum role role;
};

static const struct meaning meanings[NILOFERQ_FIGURES] = {
    {"E", 7, "kt C", "carbon taken up by growth", "5-1", EXACT},
    {"K", 4, "kt dm", "wood used", "5-1", EXACT},
    {"L", 6, "kt dm", "wood from clearing", "5-1", EXACT},
    {"M", 6, "kt dm", "wood used, less that from clearing", "5-1", EXACT},
    {"O", 9, "kt C", "carbon of M", "5-1", EXACT},
    {"P", 9, "kt C", "net carbon: E less O", "5-1", EXACT},
    {"Q", 0, "t CO\u2082", "net CO\u2082, taken up where above zero", "5-1", ROUNDED},
    {"report", 0, "t CO\u2082", "CO\u2082 as it is reported: below zero is an uptake", "5-1", ROUNDED},
    {"onsite", 12, "kt C", "carbon burned on site", "5-2", EXACT},
    {"offsite", 12, "kt C", "carbon burned off site", "5-2", EXACT},
    {"R", 12, "kt C", "carbon burned, on site and off it", "5-2", EXACT},
    {"decay", 12, "kt C", "carbon left to decay", "5-2", EXACT},
    {"co2", 0, "t CO\u2082", "CO\u2082 of burning and decay", "5-2", ROUNDED},
    {"ch4", 0, "t CH\u2084", "methane of burning on site", "5-3", ROUNDED},
    {"co", 0, "t CO", "carbon monoxide of burning on site", "5-3", ROUNDED},
    {"n2o", 0, "t N\u2082O", "nitrous oxide of burning on site", "5-3", ROUNDED},
    {"nox", 0, "t NO\u2093", "nitrogen oxides of burning on site", "5-3", ROUNDED},
    {"uptake", 7, "kt C", "carbon taken up by abandoned land", "5-4", EXACT},
    {"uptake_co2", 0, "t CO\u2082", "CO\u2082 taken up by abandoned land", "5-4", ROUNDED},
    {"thinner", 0, "periods", "periods with more biomass after than before", "5-2", COUNT},
    {"savanna_carbon", 15, "kt C", "carbon of burned savannas", "4-3", EXACT},
    {"savanna_ch4", 0, "t CH\u2084", "methane of burned savannas", "4-3", ROUNDED},
    {"savanna_co", 0, "t CO", "carbon monoxide of burned savannas", "4-3", ROUNDED},
    {"savanna_n2o", 0, "t N\u2082O", "nitrous oxide of burned savannas", "4-3", ROUNDED},
    {"savanna_nox", 0, "t NO\u2093", "nitrogen oxides of burned savannas", "4-3", ROUNDED},
    {"soil", 4, "t C", "carbon gained by mineral soils in twenty years, below zero where lost", "5-5", EXACT},
    {"soil_change", 0, "t C a year", "carbon gained by mineral soils in a year, below zero where lost", "5-5", ROUNDED},
    {"scattered", 0, "rows", "stock rows of scattered trees", "5-1", COUNT},
    {"oxidised_onsite", 9, "kt dm", "cleared and burned to gas on site", "5-2", EXACT},
    {"charcoal_onsite", 9, "kt dm", "cleared and burned to charcoal on site", "5-2", EXACT},
    {"oxidised_offsite", 9, "kt dm", "cleared and burned to gas off site", "5-2", EXACT},
    {"charcoal_offsite", 9, "kt dm", "cleared and burned to charcoal off site", "5-2", EXACT},
    {"unburned", 9, "kt dm", "cleared and left unburned", "5-2", EXACT},
    {"crop_carbon", 16, "kt C", "carbon of burned crop residues", "4-4", EXACT},
    {"crop_ch4", 0, "t CH\u2084", "methane of burned crop residues", "4-4", ROUNDED},
    {"crop_co", 0, "t CO", "carbon monoxide of burned crop residues", "4-4", ROUNDED},
    {"crop_n2o", 0, "t N\u2082O", "nitrous oxide of burned crop residues", "4-4", ROUNDED},
    {"crop_nox", 0, "t NO\u2093", "nitrogen oxides of burned crop residues", "4-4", ROUNDED},
};

/* ---- the kinds of rows ---- */

enum { CONVERSION = 1, STOCK, HARVEST, PARAMETERS, ABANDONED, BURNED_SAVANNA, MINERAL_SOIL, CROP_RESIDUES };

static const struct {
    const char *what;
    uint32_t numbers;
} kinds[NILOFERQ_KINDS + 1] = {
    {"", 0},
    {"conversion", NILOFERQ_CONVERSION_NUMBERS},
    {"stock", NILOFERQ_STOCK_NUMBERS},
    {"harvest", NILOFERQ_HARVEST_NUMBERS},
    {"parameters", NILOFERQ_PARAMETERS_NUMBERS},
    {"abandoned land", NILOFERQ_ABANDONED_NUMBERS},
    {"savanna", NILOFERQ_SAVANNA_NUMBERS},
    {"mineral soil", NILOFERQ_SOIL_NUMBERS},
    {"crop residues", NILOFERQ_CROP_NUMBERS},
};

/* ---- a return ---- */

struct taken {
    const uint8_t *bytes;
    size_t length;
    uint32_t refusal; /* 0, or the library's answer, and then there is nothing of what follows */
    uint32_t counts[NILOFERQ_COUNTS];
    struct figures drawn; /* the rows, and what the pictures are drawn from */
    amount figure[NILOFERQ_FIGURES];
    struct ratio exact[NILOFERQ_FIGURES];
    uint64_t heaviest[3][NILOFERQ_HEAVIEST_ROOM];
};

static const uint32_t *row_of(const struct taken *t, int kind, uint32_t row) {
    size_t before = 0;
    for (int k = 1; k < kind; k++) before += (size_t)kinds[k].numbers * t->counts[k];
    return t->drawn.rows + before + (size_t)kinds[kind].numbers * row;
}

static const uint32_t *parameters_of(const struct taken *t) { return row_of(t, PARAMETERS, 0); }

/* ---- holding ---- */

static const char *held_of = ""; /* which of several returns is meant, as "return 3: " */
static bool broken;

/* What the page adds up has to be what the library says. Else it is said loudly, and no page is made. */
static void hold(const char *what, amount ours, amount theirs) {
    if (ours == theirs) return;
    broken = true;
    fprintf(stderr, "page: BROKEN: %s%s: the rows come to %s%s, and the library says %s%s\n", held_of, what, ours < 0 ? "-" : "",
        plain(size_without_sign(ours)).s, theirs < 0 ? "-" : "", plain(size_without_sign(theirs)).s);
}

/* ---- from the return to the figures ---- */

/* The carbon of a savanna row, its living or its dead part, in 10^-15 kt. */
static amount savanna_part(const uint32_t *row, bool living) {
    return (amount)row[1] * row[2] * row[3] * (living ? row[4] : 1000 - row[4]) * row[living ? 5 : 7] * row[living ? 6 : 8];
}
static amount savanna_carbon(const uint32_t *row) { return savanna_part(row, true) + savanna_part(row, false); }

/* The carbon of a row of crop residues, in 10^-16 kt. */
static amount crop_carbon(const uint32_t *row) { return (amount)row[1] * row[2] * row[3] * row[4] * row[5] * row[6]; }

/* The four gases, in the order of the sheets: what a tonne of carbon or of nitrogen makes of each. */
static const struct {
    const char *name, *conversion, *element;
    unsigned over, under;
    bool of_nitrogen;
} gases[4] = {
    {"CH\u2084", "16/12", "C", 4, 3, false}, {"CO", "28/12", "C", 7, 3, false}, {"N\u2082O", "44/28", "N", 11, 7, true}, {"NO\u2093", "46/14", "N", 23, 7, true},
};

/* Tonnes of a gas from carbon in 10^-places kt: by N/C for one of nitrogen, by its own ratio and by its conversion. */
static struct ratio gas_from(int gas, amount carbon, unsigned places, uint32_t nitrogen, uint32_t ratio) {
    bool of_nitrogen = gases[gas].of_nitrogen;
    return (struct ratio){carbon * (of_nitrogen ? nitrogen : 1) * ratio * gases[gas].over, gases[gas].under, places + (of_nitrogen ? 3 : 0)};
}

/* The same summed over rows that each have their own N/C, from the field `first` on, and behind it their own four ratios. */
static struct ratio gas_of_rows(const struct taken *t, int kind, int gas, amount (*carbon)(const uint32_t *), unsigned places, int first) {
    struct ratio sum = gas_from(gas, 0, places, 0, 0);
    for (uint32_t i = 0; i < t->counts[kind]; i++) {
        const uint32_t *row = row_of(t, kind, i);
        sum.over += gas_from(gas, carbon(row), places, row[first], row[first + 1 + gas]).over;
    }
    return sum;
}

/* The exact number behind every figure; of one that is not rounded it is the figure itself. */
static void make_exact(struct taken *t) {
    const amount *f = t->figure;
    const uint32_t *p = parameters_of(t);
    const uint32_t ratios[4] = {p[1], p[2], p[4], p[5]};
    for (int i = 0; i < NILOFERQ_FIGURES; i++) t->exact[i] = (struct ratio){f[i], 1, meanings[i].places};
    t->exact[Q] = (struct ratio){11 * f[P], 3, 6};
    t->exact[REPORT] = (struct ratio){-11 * f[P], 3, 6};
    t->exact[CO2] = (struct ratio){11 * (f[R] + f[DECAY]), 3, 9};
    t->exact[UPTAKE_CO2] = (struct ratio){11 * f[UPTAKE], 3, 4};
    t->exact[SOIL_CHANGE] = (struct ratio){5 * f[SOIL], 1, 6}; /* over 20, of 10^-4 t */
    for (int gas = 0; gas < 4; gas++) {
        t->exact[CH4 + gas] = gas_from(gas, f[ONSITE], 12, p[3], ratios[gas]);
        t->exact[SAVANNA_CH4 + gas] = gas_of_rows(t, BURNED_SAVANNA, gas, savanna_carbon, 15, 9);
        t->exact[CROP_CH4 + gas] = gas_of_rows(t, CROP_RESIDUES, gas, crop_carbon, 16, 7);
    }
    for (int i = 0; i < NILOFERQ_FIGURES; i++)
        if (meanings[i].role == ROUNDED) hold(meanings[i].name, rounded(t->exact[i]), f[i]);
}

/* The steps from one figure to the next, which no table of rows has. */
static void hold_steps(const struct taken *t) {
    const amount *f = t->figure;
    hold("M of worksheet 5-1, K less L", 100 * f[K] - f[L], f[M]);
    hold("O of worksheet 5-1, M by N", f[M] * parameters_of(t)[0], f[O]);
    hold("P of worksheet 5-1, E less O", 100 * f[E] - f[O], f[P]);
    hold("report, Q with its sign turned", -f[Q], f[REPORT]);
    hold("R of worksheet 5-2, K and Q", f[ONSITE] + f[OFFSITE], f[R]);
    hold("scattered, as the judge counts", t->counts[NILOFERQ_SCATTERED], f[SCATTERED]);
}

/* The doubles, from which the bars are drawn, as the chart holds them. */
static void hold_bars(struct taken *t) {
    struct figures *d = &t->drawn;
    for (int i = 0; i < 3; i++) {
        d->verdict[i] = compare(d->exact[i], d->bits[i], d->n);
        if (d->verdict[i].holds) continue;
        broken = true;
        fprintf(stderr, "page: BROKEN: %s%s is off: exact %s, double %s\n", held_of, names[i], plain(d->exact[i]).s, shown(d->verdict[i], d->bits[i]).s);
    }
}

/* A figure of the library as a number with its sign. None reaches 2^120. */
static amount figure_of(const uint64_t *room, int i) {
    whole size = size_of(room, i);
    if (size >> 120) hold(meanings[i].name, 0, (amount)1 << 120), size = 0;
    return room[3 * i] ? -(amount)size : (amount)size;
}

/* Asks the library for all that the page shows of these bytes. */
static void take_return(struct taken *t, const uint8_t *bytes, size_t length) {
    uint64_t room[NILOFERQ_FIGURES_ROOM];
    t->bytes = bytes, t->length = length;
    t->refusal = niloferq_judge(bytes, length, t->counts, NILOFERQ_COUNTS);
    if (!t->refusal) t->refusal = gather(bytes, length, &t->drawn);
    if (!t->refusal) t->refusal = niloferq_figures(bytes, length, room, NILOFERQ_FIGURES_ROOM);
    for (uint32_t code = 0; code < 3 && !t->refusal; code++)
        t->refusal = niloferq_heaviest(bytes, length, code, t->heaviest[code], NILOFERQ_HEAVIEST_ROOM);
    if (t->refusal) return;
    for (int i = 0; i < NILOFERQ_FIGURES; i++) t->figure[i] = figure_of(room, i);
    make_exact(t);
    hold_steps(t);
    hold_bars(t);
}

#endif
