/* Tries number 12, more wood cleared than used: each function on returns and rows at both sides of the border, with nothing lent changed by a refusal;
 * and its order, behind 1 to 7, 10 and 14 and before 11 and 9. The sums are by hand, from the paper. */
#include "door_test.h"
#include <stdio.h>
#include <string.h>

/* ---- rows and returns */

/* What L is made of in a conversion row, off being its off-site fraction, and what 100 K is made of in a harvest row. */
struct cleared {
    uint32_t area, before, after, off;
};
struct used {
    uint32_t f, g, i, j;
};
enum { OFF_AT = 18 }; /* where the off-site fraction stands in a record */

/* So many rows of each kind, the last of which differs from the others; L and 100 K in 10^-6 kt. Where L is above, the return is refused. */
struct balance {
    uint32_t conversions;
    struct cleared last_cleared, others_cleared;
    uint32_t harvests;
    struct used last_used, others_used;
    uint64_t cleared, used;
    const char *what;
};

/* The worked day's conversion row clears 200 x 900 x 200 = 36,000,000, and 360 of fuelwood are 100 x 1,000 x 360 = 36,000,000 used. A row of one unit of
 * area, difference and fraction clears 1, and one of 1 x 1 of commercial harvest is 100 used. */
#define DAY_CLEARED {200, 1000, 100, 200}
#define ONE_CLEARED {1, 1, 0, 1}
#define MOST_CLEARED {1000000, 10000, 0, 1000} /* 10^13 */
#define NONE_CLEARED {0, 0, 0, 0}
#define FUELWOOD {0, 0, 360, 0}
#define MOST_COMMERCIAL {10000000, 10000, 0, 0} /* 100 x 10^11 = 10^13 */
#define NONE_USED {0, 0, 0, 0}
static const struct balance BALANCES[] = {
    {0, NONE_CLEARED, NONE_CLEARED, 0, NONE_USED, NONE_USED, 0, 0, "neither cleared nor used"},
    {0, NONE_CLEARED, NONE_CLEARED, 1, FUELWOOD, NONE_USED, 0, 36000000, "used alone"},
    {1, {1000000, 10000, 0, 0}, NONE_CLEARED, 0, NONE_USED, NONE_USED, 0, 0, "all of it burned on site"},
    {1, ONE_CLEARED, NONE_CLEARED, 0, NONE_USED, NONE_USED, 1, 0, "the least that can be cleared, and no harvest"},
    {1, ONE_CLEARED, NONE_CLEARED, 1, NONE_USED, NONE_USED, 1, 0, "the least that can be cleared, and a harvest of nothing"},
    {1, ONE_CLEARED, NONE_CLEARED, 1, {1, 1, 0, 0}, NONE_USED, 1, 100, "the least of both"},
    {1, {1, 1, 0, 100}, NONE_CLEARED, 1, {1, 1, 0, 0}, NONE_USED, 100, 100, "equal, a hundred of each"},
    {1, {1, 101, 0, 1}, NONE_CLEARED, 1, {1, 1, 0, 0}, NONE_USED, 101, 100, "one above a hundred"},
    {1, DAY_CLEARED, NONE_CLEARED, 0, NONE_USED, NONE_USED, 36000000, 0, "the day's clearing without its harvest"},
    {1, DAY_CLEARED, NONE_CLEARED, 1, FUELWOOD, NONE_USED, 36000000, 36000000, "equal by fuelwood"},
    {1, DAY_CLEARED, NONE_CLEARED, 1, {0, 0, 0, 360}, NONE_USED, 36000000, 36000000, "equal by other use"},
    {1, DAY_CLEARED, NONE_CLEARED, 1, {600, 600, 0, 0}, NONE_USED, 36000000, 36000000, "equal by commercial harvest"},
    {1, DAY_CLEARED, NONE_CLEARED, 1, {300, 600, 100, 80}, NONE_USED, 36000000, 36000000, "equal by all three"},
    {1, DAY_CLEARED, NONE_CLEARED, 1, {599, 601, 0, 0}, NONE_USED, 36000000, 35999900, "a hundred above"},
    {2, ONE_CLEARED, DAY_CLEARED, 1, FUELWOOD, NONE_USED, 36000001, 36000000, "one above by the last conversion row"},
    {2, {99, 1, 0, 1}, DAY_CLEARED, 2, {1, 1, 0, 0}, FUELWOOD, 36000099, 36000100, "one below"},
    {2, {100, 1, 0, 1}, DAY_CLEARED, 2, {1, 1, 0, 0}, FUELWOOD, 36000100, 36000100, "equal by the last harvest row"},
    {2, {101, 1, 0, 1}, DAY_CLEARED, 2, {1, 1, 0, 0}, FUELWOOD, 36000101, 36000100, "one above"},
    /* a difference counts as 0 where after is above before, neither below zero nor by its size */
    {1, {1000000, 0, 10000, 1000}, NONE_CLEARED, 0, NONE_USED, NONE_USED, 0, 0, "a thinner row clears nothing"},
    {2, {200, 100, 1000, 200}, DAY_CLEARED, 0, NONE_USED, NONE_USED, 36000000, 0, "a thinner row does not make up for another"},
    {2, {200, 100, 1000, 200}, DAY_CLEARED, 1, FUELWOOD, NONE_USED, 36000000, 36000000, "equal beside a thinner row"},
    {2, {200, 0, 1, 200}, ONE_CLEARED, 0, NONE_USED, NONE_USED, 1, 0, "one above beside a thinner row"},
    /* rows in more blocks than one */
    {13, ONE_CLEARED, NONE_CLEARED, 0, NONE_USED, NONE_USED, 1, 0, "the least in a second block"},
    {13, DAY_CLEARED, NONE_CLEARED, 13, FUELWOOD, NONE_USED, 36000000, 36000000, "equal in second blocks"},
    {32, DAY_CLEARED, DAY_CLEARED, 32, FUELWOOD, FUELWOOD, 1152000000, 1152000000, "equal, of 32 rows each"},
    {32, {200, 1000, 100, 201}, DAY_CLEARED, 32, FUELWOOD, FUELWOOD, 1152180000, 1152000000, "above by a thousandth of the last of 32 rows"},
    {32, DAY_CLEARED, DAY_CLEARED, 32, {1, 1, 360, 0}, FUELWOOD, 1152000000, 1152000100, "below by a little in the last of 32 rows"},
    {32, DAY_CLEARED, DAY_CLEARED, 32, {0, 0, 359, 0}, FUELWOOD, 1152000000, 1151900000, "above by fuelwood of the last of 32 rows"},
    /* the largest, which no 32 bits hold */
    {32, MOST_CLEARED, MOST_CLEARED, 32, MOST_COMMERCIAL, MOST_COMMERCIAL, 320000000000000, 320000000000000, "equal, of the most that 32 rows can clear"},
    {32, MOST_CLEARED, MOST_CLEARED, 32, {9999999, 10000, 0, 0}, MOST_COMMERCIAL, 320000000000000, 319999999000000, "the most cleared, a little less used"},
    {32, MOST_CLEARED, MOST_CLEARED, 0, NONE_USED, NONE_USED, 320000000000000, 0, "the most cleared, and nothing used"},
    {32, MOST_CLEARED, MOST_CLEARED, 32, {10000000, 10000, 10000000, 10000000}, {10000000, 10000, 10000000, 10000000}, 320000000000000, 384000000000000,
     "the most of both"},
    /* 10^13 is 1,316,134,912 above a multiple of 2^32, and 4,295,000,000 is 32,704 above 2^32 */
    {1, MOST_CLEARED, NONE_CLEARED, 1, {0, 0, 13162, 0}, NONE_USED, 10000000000000, 1316200000, "above, though not by the lower 32 bits"},
    {1, DAY_CLEARED, NONE_CLEARED, 1, {0, 0, 42950, 0}, NONE_USED, 36000000, 4295000000, "below, though not by the lower 32 bits"},
};
enum { EACH = sizeof BALANCES / sizeof *BALANCES };

/* Its rows, and parameters. What is not taken off the site is burned there, so that no fraction can stand in for another. There is no stock, so E is 0. */
static void fill_balance(struct rows *r, const struct balance *b, uint32_t edition) {
    const shape counts = {edition, b->conversions, 0, b->harvests, 1};
    fill_rows(r, counts);
    for (uint32_t i = 0; i < b->conversions; i++) {
        const struct cleared *c = i + 1 < b->conversions ? &b->others_cleared : &b->last_cleared;
        uint32_t *row = row_of(r, CONVERSION, i);
        row[1] = c->area, row[2] = c->before, row[3] = c->after, row[4] = 1000 - c->off, row[7] = c->off, row[13] = 0;
    }
    for (uint32_t i = 0; i < b->harvests; i++) {
        const struct used *u = i + 1 < b->harvests ? &b->others_used : &b->last_used;
        uint32_t *row = row_of(r, HARVEST, i);
        row[1] = u->f, row[2] = u->g, row[3] = u->i, row[4] = u->j;
    }
}

/* A return of these rows, good or not: written with nothing taken off the site, which is then put in; the answer is its number of bytes. */
static size_t put_together(const struct rows *r, uint8_t bytes[NILOFERQ_RETURN_ROOM]) {
    static struct rows without, with;
    without = *r, with = *r;
    for (uint32_t i = 0; i < r->counts[CONVERSION]; i++) row_of(&without, CONVERSION, i)[7] = 0;
    size_t length = written(&without, bytes);
    for (uint32_t i = 0; i < r->counts[CONVERSION]; i++) {
        uint8_t *block = bytes + 512 * (i / 12);
        put(block + 8 + 40 * (i % 12) + OFF_AT, row_of(&with, CONVERSION, i)[7], 2);
        put_check(block);
    }
    return length;
}

/* ---- both sides of the border */

static void must_refuse_balance(const struct balance *b, const struct rows *r, const uint8_t *bytes, size_t length) {
    char due[NILOFERQ_EXPLAIN_ROOM];
    must_be_refused(bytes, length, 12000, b->what);
    sprintf(due, "refused 12 0\nused %llu\ncleared %llu\n", (unsigned long long)b->used, (unsigned long long)b->cleared);
    must_tell(niloferq_explain, bytes, length, due, WHOLE, b->what);
    must_refuse(r, length, 1, 12000, b->what);
    must_refuse(r, length - 1, 1, 12000, b->what);
    must_refuse(r, 0, 0, 12000, b->what);
}

/* A figure's three elements. */
static int stands(const uint64_t *figure, uint64_t below, uint64_t size) { return figure[0] == below && figure[1] == 0 && figure[2] == size; }

/* K, L, M and O, none of them below zero, and P, which is below zero where O is not 0. The parameters' N is 500. */
static void must_accept_balance(const struct balance *b, const struct rows *r, const uint8_t *bytes, size_t length) {
    static uint8_t again[NILOFERQ_RETURN_ROOM];
    static uint32_t rows[NILOFERQ_ROWS_ROOM], counts[NILOFERQ_COUNTS];
    uint64_t figures[NILOFERQ_FIGURES_ROOM] = {0}, m = b->used - b->cleared;
    must_judge(bytes, length, r->counts, b->what);
    must(niloferq_figures(bytes, length, figures, NILOFERQ_FIGURES_ROOM) == 0, b->what);
    must(stands(figures + 3, 0, b->used / 100) && stands(figures + 6, 0, b->cleared), "its K and its L");
    must(stands(figures + 9, 0, m) && stands(figures + 12, 0, 500 * m), "its M and its O, never below zero");
    must(stands(figures + 15, m != 0, 500 * m), "its P, which may be");
    must_write(r, length, 1, length, b->what);
    must(written(r, again) == length && memcmp(again, bytes, length) == 0, "write: the same bytes");
    must(niloferq_read(bytes, length, rows, NILOFERQ_ROWS_ROOM, counts, NILOFERQ_COUNTS) == 0 && memcmp(counts, r->counts, sizeof counts) == 0 &&
             memcmp(rows, r->area, 4 * r->area_len) == 0,
         "read: the same rows");
}

static void balances(uint32_t edition) {
    static struct rows r;
    static uint8_t bytes[NILOFERQ_RETURN_ROOM];
    for (size_t i = 0; i < EACH; i++) {
        const struct balance *b = BALANCES + i;
        fill_balance(&r, b, edition);
        size_t length = put_together(&r, bytes);
        if (b->cleared > b->used)
            must_refuse_balance(b, &r, bytes, length);
        else
            must_accept_balance(b, &r, bytes, length);
    }
}

/* ---- its order */

/* Two of the day's conversion rows and a harvest of nothing: 12, but for what is put in beside it. The blocks are conversion, harvest and parameters. */
static const struct balance UNCOVERED = {2, DAY_CLEARED, DAY_CLEARED, 1, NONE_USED, NONE_USED, 72000000, 0, "two rows uncovered"};

/* Reading: a number in a block of it, with the check that is then due but for number 2. */
static const struct {
    uint32_t answer, block, at, value;
    int width;
    const char *what;
} BEFORE_READING[] = {
    {2002, 2, 508, 0, 4, "a check comes before 12"},
    {3001, 1, 6, 2, 2, "an edition comes before 12"},
    {4002, 2, 507, 1, 1, "a stray byte comes before 12"},
    {5001, 0, 48, 7, 4, "an id comes before 12"},
    {6012, 1, 12, 10000001, 4, "a harvest above its limit comes before 12"},
    {6024, 2, 12, 1001, 2, "a parameter above its limit comes before 12"},
    {7000, 0, 8 + OFF_AT, 201, 2, "fractions above 1,000 come before 12"},
    {7001, 0, 48 + OFF_AT, 1000, 2, "fractions above 1,000 in the last row come before 12"},
    {12000, 0, 8 + OFF_AT, 199, 2, "fractions below 1,000 do not"},
    {12000, 0, 8, 6, 4, "ids that rise do not"},
};

/* Writing: a number in a row of it, of a kind. */
static const struct {
    uint32_t answer, kind, row, field, value;
    const char *what;
} BEFORE_WRITING[] = {
    {5001, CONVERSION, 1, 0, 7, "write: an id comes before 12"},
    {6012, HARVEST, 0, 1, 10000001, "write: a harvest above its limit comes before 12"},
    {6024, PARAMETERS, 0, 0, 1001, "write: a parameter above its limit comes before 12"},
    {7000, CONVERSION, 0, 7, 201, "write: fractions above 1,000 come before 12"},
    {7001, CONVERSION, 1, 4, 801, "write: fractions above 1,000 in the last row come before 12"},
    {12000, CONVERSION, 0, 7, 199, "write: fractions below 1,000 do not"},
    {12000, CONVERSION, 0, 0, 6, "write: ids that rise do not"},
};

static void order(void) {
    static struct rows r;
    static uint8_t bytes[NILOFERQ_RETURN_ROOM], made[NILOFERQ_RETURN_ROOM];
    fill_balance(&r, &UNCOVERED, 1);
    size_t length = put_together(&r, made);
    must_be_refused(made, length - 1, 1000, "a length comes before 12");
    for (size_t i = 0; i < sizeof BEFORE_READING / sizeof *BEFORE_READING; i++) {
        uint8_t *block = bytes + 512 * BEFORE_READING[i].block;
        memcpy(bytes, made, length);
        put(block + BEFORE_READING[i].at, BEFORE_READING[i].value, BEFORE_READING[i].width);
        if (BEFORE_READING[i].at < 508) put_check(block);
        must_be_refused(bytes, length, BEFORE_READING[i].answer, BEFORE_READING[i].what);
    }
    for (size_t i = 0; i < sizeof BEFORE_WRITING / sizeof *BEFORE_WRITING; i++) {
        fill_balance(&r, &UNCOVERED, 1);
        row_of(&r, BEFORE_WRITING[i].kind, BEFORE_WRITING[i].row)[BEFORE_WRITING[i].field] = BEFORE_WRITING[i].value;
        must_refuse(&r, length, 1, BEFORE_WRITING[i].answer, BEFORE_WRITING[i].what);
    }
    fill_balance(&r, &UNCOVERED, NILOFERQ_EDITIONS + 1);
    must_refuse(&r, length, 1, 10000, "write: an unknown edition comes before 12");
    fill_balance(&r, &UNCOVERED, 1);
    for (r.lengths_len = 0; r.lengths_len < NILOFERQ_KINDS; r.lengths_len++) must_refuse(&r, length, 1, 10000, "write: lengths come before 12");
    r.lengths_len = NILOFERQ_KINDS, r.lengths[PARAMETERS - 1]--, r.area_len--;
    must_refuse(&r, length, 1, 10004, "write: part of a row comes before 12");
    r.area_len -= r.lengths[PARAMETERS - 1], r.lengths[PARAMETERS - 1] = 0;
    must_refuse(&r, length, 1, 10004, "write: no parameters come before 12");
}

void wood(void) {
    for (uint32_t edition = 1; edition <= NILOFERQ_EDITIONS; edition++) balances(edition);
    order();
}
