/* Tries number 13, a soil type with more or less area now than twenty years ago: each function on returns and rows at both sides of the border, with
 * nothing lent changed by a refusal; its place; and its order, behind 1 to 7, 10, 12 and 14 and before 11 and 9. The sums are by hand, from the paper. */
#include "door_test.h"
#include <stdio.h>
#include <string.h>

/* ---- rows and returns */

/* What the rule looks at in a row, and the land system, which it must not look at. */
struct soil {
    uint32_t system, type, now, then;
};

/* So many rows beside the worked day, with ids from 1 on. Where `first` is not NONE, the return is refused at this row, for this type's sums. */
enum { NONE = NILOFERQ_MOST_ROWS };
struct soils {
    uint32_t count;
    struct soil rows[6]; /* any behind them are as the last */
    uint32_t first, type, now, then;
    const char *what;
};

static const struct soils SOILS[] = {
    {0, {{0}}, NONE, 0, 0, 0, "no soils"},
    {1, {{1, 3, 5, 5}}, NONE, 0, 0, 0, "as much now as then"},
    {1, {{1, 3, 5, 4}}, 0, 3, 5, 4, "one more now"},
    {1, {{1, 3, 4, 5}}, 0, 3, 4, 5, "one more then"},
    {1, {{1, 0, 1, 0}}, 0, 0, 1, 0, "the lowest soil type"},
    {1, {{1, 65535, 100000, 0}}, 0, 65535, 100000, 0, "the highest soil type"},
    {2, {{1, 3, 4, 5}, {2, 3, 2, 1}}, NONE, 0, 0, 0, "a row makes up for another of its soil type"},
    {2, {{1, 3, 4, 5}, {1, 4, 2, 1}}, 0, 3, 4, 5, "not for one of another, though the land system is the same"},
    {3, {{1, 3, 4, 5}, {2, 4, 9, 9}, {3, 3, 2, 1}}, NONE, 0, 0, 0, "rows of a soil type need not stand together"},
    {2, {{1, 0, 1, 0}, {1, 65535, 0, 1}}, 0, 0, 1, 0, "0 and 65,535"},
    {2, {{1, 65535, 0, 1}, {1, 0, 1, 0}}, 1, 0, 1, 0, "65,535 and 0"},
    {2, {{1, 256, 1, 0}, {1, 1, 0, 1}}, 1, 1, 0, 1, "types are told apart, and lower is lower, by both bytes"},
    /* the place */
    {3, {{1, 2, 7, 7}, {1, 5, 3, 2}, {2, 5, 1, 1}}, 1, 5, 4, 3, "a type that is not the first, with a lower type in balance"},
    {3, {{1, 2, 7, 8}, {1, 5, 3, 2}, {2, 2, 1, 0}}, 1, 5, 3, 2, "the same, where the lower type is in balance by two rows"},
    {3, {{1, 9, 7, 6}, {1, 5, 3, 3}, {2, 4, 1, 0}}, 2, 4, 1, 0, "two types out of balance, the lower later"},
    {3, {{1, 9, 3, 3}, {1, 5, 3, 3}, {2, 9, 1, 0}}, 0, 9, 4, 3, "the first row of the type, though it is in balance by itself"},
    {6, {{1, 9, 1, 0}, {2, 2, 8, 8}, {1, 3, 5, 5}, {4, 9, 0, 7}, {5, 3, 0, 2}, {6, 3, 1, 1}}, 2, 3, 6, 8, "the lowest type out of balance, at its first row"},
    /* rows in more blocks than one */
    {13, {{1, 8, 4, 4}, {1, 9, 4, 4}, {1, 8, 4, 4}, {1, 7, 2, 2}}, NONE, 0, 0, 0, "thirteen in balance"},
    {13, {{1, 8, 4, 4}, {1, 9, 4, 4}, {1, 8, 3, 4}, {1, 7, 2, 2}}, 0, 8, 7, 8, "thirteen, of which the third row is not"},
    {13, {{1, 8, 4, 4}, {1, 9, 4, 4}, {1, 8, 4, 4}, {1, 7, 2, 1}}, 3, 7, 20, 10, "ten rows of one type from the fourth on"},
    /* the largest sums: 32 x 100,000 */
    {32, {{1, 65535, 100000, 100000}}, NONE, 0, 0, 0, "the most of both"},
    {32, {{1, 65535, 100000, 0}}, 0, 65535, 3200000, 0, "the most now, and none then"},
    {32, {{1, 65535, 0, 100000}}, 0, 65535, 0, 3200000, "none now, and the most then"},
    {32, {{1, 65535, 99999, 100000}, {1, 65535, 100000, 100000}}, 0, 65535, 3199999, 3200000, "the most, and one less"},
};

/* The day in this edition, with these soils. */
static void fill_soils(struct rows *r, const struct soils *s, uint32_t edition) {
    shape counts = {edition, 1, 1, 1, 1};
    uint32_t given = 6; /* without the rows of zeros at their end */
    while (given > 1 && s->rows[given - 1].type == 0 && s->rows[given - 1].now == 0 && s->rows[given - 1].then == 0) given--;
    counts[SOIL] = s->count;
    fill_rows(r, counts);
    for (uint32_t i = 0; i < s->count; i++) {
        const struct soil *from = &s->rows[i < given ? i : given - 1];
        uint32_t *row = row_of(r, SOIL, i);
        row[SOIL_TYPE - 1] = from->system, row[SOIL_TYPE] = from->type, row[AREA_NOW] = from->now, row[AREA_THEN] = from->then;
    }
}

/* A return of these rows, good or not: written with the areas of now for both, then with those of twenty years ago; the answer is its number of bytes. */
static size_t put_together(const struct rows *r, uint8_t bytes[NILOFERQ_RETURN_ROOM]) {
    static struct rows even, own;
    even = *r, own = *r;
    for (uint32_t i = 0; i < r->counts[SOIL]; i++) row_of(&even, SOIL, i)[AREA_THEN] = row_of(&even, SOIL, i)[AREA_NOW];
    size_t length = written(&even, bytes);
    for (uint32_t i = 0; i < r->counts[SOIL]; i++) {
        uint8_t *block = bytes + 512 * (first_block(r->counts, SOIL) + i / 12);
        put(block + 8 + 40 * (i % 12) + THEN_AT, row_of(&own, SOIL, i)[AREA_THEN], 4);
        put_check(block);
    }
    return length;
}

/* ---- both sides of the border */

static void must_refuse_soils(const struct soils *s, const struct rows *r, const uint8_t *bytes, size_t length) {
    char due[NILOFERQ_EXPLAIN_ROOM];
    uint32_t place = 12 * first_block(r->counts, SOIL) + s->first;
    must_be_refused(bytes, length, 13000 + place, s->what);
    sprintf(due, "refused 13 %u\nblock %u\nrow %u\nkind_name soil\nid %u\nsoil_type %u\narea_now %u\narea_then %u\n", place, place / 12, place % 12,
            1 + s->first, s->type, s->now, s->then);
    must_tell(niloferq_explain, bytes, length, due, WHOLE, s->what);
    must_refuse(r, length, 1, 13000 + place, s->what);
    must_refuse(r, length - 1, 1, 13000 + place, s->what);
    must_refuse(r, 0, 0, 13000 + place, s->what);
}

static void must_accept_soils(const struct soils *s, const struct rows *r, const uint8_t *bytes, size_t length) {
    static uint8_t again[NILOFERQ_RETURN_ROOM];
    static uint32_t rows[NILOFERQ_ROWS_ROOM], counts[NILOFERQ_COUNTS];
    must_judge(bytes, length, r->counts, s->what);
    must_write(r, length, 1, length, s->what);
    must(written(r, again) == length && memcmp(again, bytes, length) == 0, "write: the same bytes");
    must(niloferq_read(bytes, length, rows, NILOFERQ_ROWS_ROOM, counts, NILOFERQ_COUNTS) == 0 && memcmp(counts, r->counts, sizeof counts) == 0 &&
             memcmp(rows, r->area, 4 * r->area_len) == 0,
         "read: the same rows");
}

static void both_sides(uint32_t edition) {
    static struct rows r;
    static uint8_t bytes[NILOFERQ_RETURN_ROOM];
    for (size_t i = 0; i < sizeof SOILS / sizeof *SOILS; i++) {
        fill_soils(&r, SOILS + i, edition);
        size_t length = put_together(&r, bytes);
        if (SOILS[i].first != NONE)
            must_refuse_soils(SOILS + i, &r, bytes, length);
        else
            must_accept_soils(SOILS + i, &r, bytes, length);
    }
}

/* The type out of balance first met in a second and in a third block, all others being different and in balance. */
static void later_blocks(void) {
    static struct rows r;
    static uint8_t bytes[NILOFERQ_RETURN_ROOM];
    for (uint32_t at = 11; at < NILOFERQ_MOST_ROWS; at += 5) {
        struct soils s = {NILOFERQ_MOST_ROWS, {{0}}, at, 1000 + at, 5, 6, "a soil type in a later block"};
        fill_soils(&r, &s, 2);
        for (uint32_t i = 0; i < s.count; i++) {
            uint32_t *row = row_of(&r, SOIL, i);
            row[SOIL_TYPE] = 1000 + i, row[AREA_NOW] = 5, row[AREA_THEN] = i == at ? 6 : 5;
        }
        size_t length = put_together(&r, bytes);
        must_refuse_soils(&s, &r, bytes, length);
    }
}

/* ---- its order */

/* Two rows out of balance by 1: 13 at place 48, but for what is put in beside it. The blocks are the day's four, and the soils. */
static const struct soils UNEVEN = {2, {{1, 3, 5, 4}, {1, 3, 2, 2}}, 0, 3, 7, 6, "two rows out of balance"};

static const struct {
    uint32_t answer, block, at, value;
    int width;
    const char *what;
} BEFORE_READING[] = {
    {2004, 4, 508, 0, 4, "a check comes before 13"},
    {3004, 4, 6, 1, 2, "an edition comes before 13"},
    {4004, 4, 507, 1, 1, "a stray byte comes before 13"},
    {4004, 4, 8 + 24, 1, 1, "a stray byte behind the fields of a row comes before 13"},
    {5049, 4, 48, 1, 4, "an id comes before 13"},
    {6048, 4, 8 + 8, 100001, 4, "an area above its limit comes before 13"},
    {6049, 4, 48 + 22, 301, 2, "a factor above its limit comes before 13"},
    {7000, 0, 8 + 12, 501, 2, "fractions above 1,000 come before 13"},
    {12000, 2, 12, 0, 4, "12 comes before 13"},
    {13048, 4, 8 + 4, 65535, 2, "another land system does not"},
    {13048, 4, 8 + 16, 0, 2, "no native carbon does not"},
};

static const struct {
    uint32_t answer, kind, row, field, value;
    const char *what;
} BEFORE_WRITING[] = {
    {5049, SOIL, 1, 0, 1, "write: an id comes before 13"},
    {6048, SOIL, 0, AREA_NOW, 100001, "write: an area above its limit comes before 13"},
    {6048, SOIL, 0, SOIL_TYPE, 65536, "write: a soil type of 65,536 is 6"},
    {6049, SOIL, 1, SOIL_TYPE, 65536 + 3, "write: a soil type whose two bytes would be another is 6"},
    {6048, SOIL, 0, SOIL_TYPE - 1, 65536, "write: a land system of 65,536 is 6"},
    {7000, CONVERSION, 0, 4, 501, "write: fractions above 1,000 come before 13"},
    {12000, HARVEST, 0, 1, 0, "write: 12 comes before 13"},
    {13048, SOIL, 0, 5, 0, "write: no native carbon does not"},
};

static void order(void) {
    static struct rows r;
    static uint8_t bytes[NILOFERQ_RETURN_ROOM], made[NILOFERQ_RETURN_ROOM];
    fill_soils(&r, &UNEVEN, 2);
    size_t length = put_together(&r, made);
    must_be_refused(made, length - 1, 1000, "a length comes before 13");
    for (size_t i = 0; i < sizeof BEFORE_READING / sizeof *BEFORE_READING; i++) {
        uint8_t *block = bytes + 512 * BEFORE_READING[i].block;
        memcpy(bytes, made, length);
        put(block + BEFORE_READING[i].at, BEFORE_READING[i].value, BEFORE_READING[i].width);
        if (BEFORE_READING[i].at < 508) put_check(block);
        must_be_refused(bytes, length, BEFORE_READING[i].answer, BEFORE_READING[i].what);
    }
    for (size_t i = 0; i < sizeof BEFORE_WRITING / sizeof *BEFORE_WRITING; i++) {
        fill_soils(&r, &UNEVEN, 2);
        row_of(&r, BEFORE_WRITING[i].kind, BEFORE_WRITING[i].row)[BEFORE_WRITING[i].field] = BEFORE_WRITING[i].value;
        must_refuse(&r, length, 1, BEFORE_WRITING[i].answer, BEFORE_WRITING[i].what);
    }
    fill_soils(&r, &UNEVEN, 2);
    r.counts[EDITION] = 1;
    must_refuse(&r, length, 1, 10007, "write: soils in edition 1 come before 13");
    fill_soils(&r, &UNEVEN, 2);
    r.lengths[SOIL - 1]--, r.area_len--;
    must_refuse(&r, length, 1, 10007, "write: part of a row comes before 13");
}

void soils(void) {
    for (uint32_t edition = 2; edition <= NILOFERQ_EDITIONS; edition++) both_sides(edition);
    later_blocks();
    order();
}
