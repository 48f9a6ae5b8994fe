/* Tries niloferq_table52: entries as document 001 prints them, rooms of every length, the refusals in their order, and what docs/TABLE52.md counts
 * over the whole table. */
#include "door_test.h"
#include <stdlib.h>

enum { LENT = NILOFERQ_TABLE52_ROOM + SPARE };

static void clear(int32_t room[LENT]) {
    for (int i = 0; i < LENT; i++) room[i] = (int32_t)UNTOUCHED;
}

/* Has the room these elements in front, and is untouched behind them? */
static int holds(const int32_t room[LENT], const int32_t *front, int length) {
    int good = 1;
    for (int i = 0; i < LENT; i++) good &= room[i] == (i < length ? front[i] : (int32_t)UNTOUCHED);
    return good;
}

/* Answered with this entry in rooms of every length that is enough, and refused in shorter ones, which stay as they were. */
static void must_look_up(uint32_t country, uint32_t zone, const int32_t due[NILOFERQ_TABLE52_ROOM], const char *what) {
    int32_t room[LENT];
    for (size_t n = 0; n <= LENT; n++) {
        int enough = n >= NILOFERQ_TABLE52_ROOM;
        clear(room);
        must(niloferq_table52(country, zone, room, n) == (enough ? 0 : 9000), what);
        must(holds(room, due, enough ? NILOFERQ_TABLE52_ROOM : 0), what);
    }
    must(niloferq_table52(country, zone, NULL, 0) == 9000, what);
}

/* Refused by this answer whatever the room, and nothing has changed. */
static void must_refuse_number(uint32_t country, uint32_t zone, uint32_t answer, const char *what) {
    int32_t room[LENT];
    for (size_t n = 0; n <= LENT; n++) {
        clear(room);
        must(niloferq_table52(country, zone, room, n) == answer && holds(room, NULL, 0), what);
    }
    must(niloferq_table52(country, zone, NULL, 0) == answer, what);
}

/* By hand from document 001, in tenths: 1 and the figure for each that is given, and the mark last. */
static const struct {
    uint32_t country, zone;
    int32_t due[NILOFERQ_TABLE52_ROOM];
    const char *what;
} PRINTED[] = {
    {0, 0, {0, 0, 0, 0, 0, 0, 0}, "table52: Angola 0, the first entry, where nothing is given"},
    {0, 1, {1, 31233, 1, 29045, 1, 219, 0}, "table52: Angola 1"},
    {0, 5, {0, 0, 0, 0, 0, 0, 0}, "table52: Angola 5, where nothing is given"},
    {1, 3, {1, 30989, 1, 29404, 1, 158, 0}, "table52: Botswana 3"},
    {5, 0, {1, 7063, 1, 7063, 1, 0, 0}, "table52: Rep. C. Africana 0, a blank rate beside equal areas"},
    {44, 4, {1, 576, 1, 573, 1, 0, 0}, "table52: Sri Lanka 4, a rate that is printed as zero"},
    {60, 0, {1, 3017223, 1, 2915966, 1, 10126, 0}, "table52: Brasil 0, the largest figure"},
    {70, 2, {1, 36, 1, 55, 1, -2, 0}, "table52: Granada 2, a rate below zero"},
    {72, 2, {1, 7305, 1, 7305, 1, 0, 0}, "table52: Guatemala 2, a blank rate beside equal areas"},
    {72, 5, {1, 240, 0, 0, 1, 24, 0}, "table52: Guatemala 5, where the area of 1990 is not given"},
    {77, 4, {1, 0, 1, 0, 1, 0, 0}, "table52: Martinica 4, areas of zero, which are given"},
    {83, 2, {1, 1307, 1, 1506, 1, -20, 0}, "table52: Puerto Rico 2, the lowest rate"},
    {89, 0, {1, 210738, 1, 196018, 1, 1472, 0}, "table52: Venezuela 0, the last country"},
    {89, 5, {1, 259, 1, 178, 1, 8, 0}, "table52: Venezuela 5, the last entry"},
};

static void entries(void) {
    for (size_t i = 0; i < sizeof PRINTED / sizeof *PRINTED; i++)
        must_look_up(PRINTED[i].country, PRINTED[i].zone, PRINTED[i].due, PRINTED[i].what);
}

/* The country comes before the zone, and both before the room. 6 x 715827883 is 2 in 32 bits, 6 x 2^31 is 0, so that an entry's number would be on the
 * table. */
static void refusals(void) {
    static const uint32_t off_countries[] = {90, 91, 96, 256, 540, 65536, 0x7fffffff, 0x80000000, 715827883, 0xffffffff};
    static const uint32_t off_zones[] = {6, 7, 11, 256, 65536, 0x7fffffff, 0x80000000, 0xfffffffa, 0xffffffff};
    static const uint32_t countries[] = {0, 1, 88, 89}, zones[] = {0, 5, 6, 0xffffffff};
    for (size_t i = 0; i < sizeof off_countries / sizeof *off_countries; i++)
        for (size_t j = 0; j < sizeof zones / sizeof *zones; j++)
            must_refuse_number(off_countries[i], zones[j], 1, "table52: a country off the table, whatever the zone and the room");
    for (size_t i = 0; i < sizeof off_zones / sizeof *off_zones; i++)
        for (size_t j = 0; j < sizeof countries / sizeof *countries; j++)
            must_refuse_number(countries[j], off_zones[i], 2, "table52: a zone off the table, whatever the room");
}

/* What is counted over the entries. */
struct counted {
    int entries, given[3], all_given, none_given, marked, zero_rates, low_rates, deviations[6];
    int64_t sums[3];
};

/* How far ten times the rate is from the fall in area; of an entry with all three figures alone. */
static void count_deviation(struct counted *c, const int32_t room[NILOFERQ_TABLE52_ROOM]) {
    int32_t deviation = abs(10 * room[5] - (room[1] - room[3]));
    must(deviation <= 5, "table52: ten times the rate is near the fall in area");
    if (deviation <= 5) c->deviations[deviation]++;
}

static void count_entry(struct counted *c, const int32_t room[NILOFERQ_TABLE52_ROOM]) {
    int given = 0;
    for (int i = 0; i < 3; i++) {
        must(room[2 * i] == 1 || (room[2 * i] == 0 && room[2 * i + 1] == 0), "table52: 1 and a figure, or 0 and 0");
        given += room[2 * i];
        c->given[i] += room[2 * i];
        c->sums[i] += room[2 * i + 1];
    }
    c->entries++;
    c->all_given += given == 3;
    c->none_given += given == 0;
    c->marked += room[6];
    c->zero_rates += room[4] && room[5] == 0;
    c->low_rates += room[5] < 0;
    if (given == 3) count_deviation(c, room);
}

/* The numbers of docs/TABLE52.md: 818 printed figures and 15 zero rates are 833 given ones; nine more rates are printed as zero. The sums are those of
 * the columns of docs/TABLE52.csv. */
static void whole_table(void) {
    static const int deviations[6] = {43, 52, 67, 41, 39, 35};
    struct counted c = {0};
    int32_t room[LENT];
    for (uint32_t country = 0; country < NILOFERQ_COUNTRIES; country++)
        for (uint32_t zone = 0; zone < NILOFERQ_ZONES; zone++) {
            clear(room);
            must(niloferq_table52(country, zone, room, NILOFERQ_TABLE52_ROOM) == 0, "table52: every country in every zone is answered");
            count_entry(&c, room);
        }
    must(c.entries == 540 && c.all_given == 277 && c.none_given == 262, "table52: entries with all three figures, and with none");
    must(c.given[0] == 278 && c.given[1] == 277 && c.given[2] == 278 && 278 + 277 + 278 == 818 + 15, "table52: the figures that are given");
    must(c.zero_rates == 15 + 9 && c.low_rates == 4, "table52: rates of zero and below");
    must(c.marked == 0, "table52: no entry is marked");
    must(c.sums[0] == 18383423 && c.sums[1] == 16884703 && c.sums[2] == 149868, "table52: the sums of the figures");
    for (int i = 0; i < 6; i++) must(c.deviations[i] == deviations[i], "table52: the deviations from the rule");
}

void table52(void) {
    entries();
    refusals();
    whole_table();
}
