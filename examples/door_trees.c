/* Tries scattered trees, unit code 1 of a stock row. In editions 1 and 2 they are read, worked out and written as ever, and the answer says how many rows there
 * are; in edition 3 they are number 14: each function, with nothing lent changed by the refusal; its place; and its order, behind 1 to 6 and 10 and before 7,
 * 12, 13, 11 and 9. */
#include "door_test.h"
#include <stdio.h>
#include <string.h>

enum { FIGURE = 27 }; /* where their count stands among the figures, from 0 */

/* ---- rows and returns */

/* So many stock rows beside the worked day's others. The lowest bit of `trees` says whether the first row is scattered trees, and so on. */
struct stocks {
    uint32_t rows, trees;
    const char *what;
};
static const struct stocks STOCKS[] = {
    {0, 0, "no stock rows"},
    {1, 0, "a row of land"},
    {1, 1, "a row of scattered trees"},
    {2, 1, "scattered trees before land"},
    {2, 2, "scattered trees behind land"},
    {2, 3, "scattered trees alone"},
    {5, 0x15, "scattered trees and land by turns"},
    {12, 0x800, "the last row of a block"},
    {13, 0x1000, "the first row of a second block"},
    {13, 0x1800, "rows of two blocks"},
    {24, 0x800000, "the last row of a second block"},
    {25, 0x1000000, "the first row of a third block"},
    {32, 0, "as much land as there may be"},
    {32, 0x80000000, "the last row of all"},
    {32, 0x80000001, "the first row and the last"},
    {32, 0x55555555, "every second row"},
    {32, 0xaaaaaaaa, "every other row"},
    {32, 0xffffffff, "as many as there may be"},
};

static uint32_t is_tree(const struct stocks *s, uint32_t row) { return s->trees >> row & 1; }

static void fill_stocks(struct rows *r, const struct stocks *s, uint32_t edition) {
    fill_rows(r, (const shape){edition, 1, s->rows, 1, 1});
    for (uint32_t i = 0; i < s->rows; i++) {
        row_of(r, STOCK, i)[UNIT_CODE] = is_tree(s, i);
        r->counts[SCATTERED] += is_tree(s, i);
    }
}

/* A return of these rows as if they were all land, and then with the unit codes put in, by hand; the answer is its number of bytes. */
static size_t put_together(const struct stocks *s, uint32_t edition, uint8_t land[NILOFERQ_RETURN_ROOM], uint8_t bytes[NILOFERQ_RETURN_ROOM]) {
    size_t length = written_as((const shape){edition, 1, s->rows, 1, 1}, land);
    memcpy(bytes, land, length);
    for (uint32_t i = 0; i < s->rows; i++) {
        uint8_t *block = bytes + 512 * (1 + i / 12); /* behind the conversion row's */
        block[8 + 40 * (i % 12) + UNIT_AT] = (uint8_t)is_tree(s, i);
        put_check(block);
    }
    return length;
}

/* ---- editions 1 and 2: as ever, and counted */

/* The text of land with this count, of one or two digits, in its line of scattered trees. */
static void put_count(char *text, uint32_t scattered) {
    static const char none[] = "\nscattered 0\n";
    char *at = strstr(text, none);
    must(at != NULL, "land has no scattered trees");
    if (!at) return;
    char *digits = at + strlen(none) - 2;
    if (scattered > 9) memmove(digits + 1, digits, strlen(digits) + 1), *digits++ = (char)('0' + scattered / 10);
    *digits = (char)('0' + scattered % 10);
}

/* The same figures, lines, doubles, heaviest rows and explanation as of land; but for the count. */
static void must_be_as_land(const uint8_t *land, const uint8_t *bytes, size_t length, uint32_t scattered, const char *what) {
    uint64_t figures[2][NILOFERQ_FIGURES_ROOM] = {{0}};
    char lines[2][NILOFERQ_LINES_ROOM + 2] = {""}, said[2][NILOFERQ_EXPLAIN_ROOM + 1] = {""};
    const uint8_t *each[2] = {land, bytes};
    for (int i = 0; i < 2; i++) {
        must(niloferq_figures(each[i], length, figures[i], NILOFERQ_FIGURES_ROOM) == 0, what);
        must(niloferq_lines(each[i], length, (uint8_t *)lines[i], NILOFERQ_LINES_ROOM) != 0, what);
        must(niloferq_explain(each[i], length, (uint8_t *)said[i], NILOFERQ_EXPLAIN_ROOM) != 0, what);
    }
    must(figures[0][3 * FIGURE + 2] == 0 && figures[1][3 * FIGURE + 2] == scattered, "the figure of scattered trees");
    figures[0][3 * FIGURE + 2] = scattered;
    must(memcmp(figures[0], figures[1], sizeof *figures) == 0, "scattered trees move no other figure");
    put_count(lines[0], scattered);
    must(strcmp(lines[0], lines[1]) == 0, "the line of scattered trees, and no other moves");
    must(strcmp(said[0], said[1]) == 0, "scattered trees are no part of an explanation");
    for (uint32_t code = 0; code < 3; code++) {
        uint8_t bits[2][8];
        uint64_t rows[2][NILOFERQ_HEAVIEST_ROOM];
        for (int i = 0; i < 2; i++) {
            must(niloferq_subtotal(each[i], length, code, bits[i], 8) == 0, what);
            must(niloferq_heaviest(each[i], length, code, rows[i], NILOFERQ_HEAVIEST_ROOM) == 0, what);
        }
        must(memcmp(bits[0], bits[1], sizeof *bits) == 0 && memcmp(rows[0], rows[1], sizeof *rows) == 0, "scattered trees move no subtotal");
    }
}

static void must_read_back(const struct rows *r, const uint8_t *bytes, size_t length, const char *what) {
    static uint32_t rows[NILOFERQ_ROWS_ROOM], counts[NILOFERQ_COUNTS];
    counts[0] = UNTOUCHED;
    must(niloferq_read(bytes, length, rows, NILOFERQ_ROWS_ROOM, counts, NILOFERQ_COUNTS - 1) == 9000 && counts[0] == UNTOUCHED,
         "read: room for all counts but that of scattered trees");
    must(niloferq_read(bytes, length, rows, NILOFERQ_ROWS_ROOM, counts, NILOFERQ_COUNTS) == 0, what);
    must(memcmp(counts, r->counts, sizeof counts) == 0 && memcmp(rows, r->area, 4 * r->area_len) == 0, "read: the same rows, and the count of scattered trees");
}

static void must_take(const struct stocks *s, uint32_t edition) {
    static struct rows r;
    static uint8_t land[NILOFERQ_RETURN_ROOM], bytes[NILOFERQ_RETURN_ROOM], again[NILOFERQ_RETURN_ROOM];
    size_t length = put_together(s, edition, land, bytes);
    fill_stocks(&r, s, edition);
    must_judge(bytes, length, r.counts, s->what);
    must_read_back(&r, bytes, length, s->what);
    must_be_as_land(land, bytes, length, r.counts[SCATTERED], s->what);
    must_write(&r, length, 1, length, s->what);
    must(written(&r, again) == length && memcmp(again, bytes, length) == 0, "write: the same bytes");
    must_refuse(&r, length - 1, 1, 9000, "write: scattered trees, room too short by one");
}

/* ---- edition 3: number 14 */

static void must_explain_trees(const uint8_t *bytes, size_t length, uint32_t place, uint32_t id, const char *what) {
    char due[NILOFERQ_EXPLAIN_ROOM];
    sprintf(due, "refused 14 %u\nblock %u\nrow %u\nkind_name stock\nid %u\nunit_code 1\nedition %u\n", place, place / 12, place % 12, id, TREELESS);
    must_tell(niloferq_explain, bytes, length, due, WHOLE, what);
}

static void must_refuse_trees(const struct stocks *s) {
    static struct rows r;
    static uint8_t land[NILOFERQ_RETURN_ROOM], bytes[NILOFERQ_RETURN_ROOM];
    size_t length = put_together(s, TREELESS, land, bytes);
    uint32_t first = 0;
    while (!is_tree(s, first)) first++;
    uint32_t place = 12 + first, answer = 14000 + place; /* stock begins in block 1, and all its blocks but the last are full */
    must_be_refused(bytes, length, answer, s->what);
    must_explain_trees(bytes, length, place, KINDS[STOCK].row[0] + first, s->what);
    fill_stocks(&r, s, TREELESS);
    must_refuse(&r, length, 1, answer, s->what);
    must_refuse(&r, length - 1, 1, answer, s->what);
    must_refuse(&r, 0, 0, answer, s->what);
}

/* Stock rows at the very front of a return, with the lowest id and the highest. */
static void at_the_front(void) {
    static struct rows r;
    static uint8_t bytes[NILOFERQ_RETURN_ROOM];
    for (uint32_t row = 0; row < 2; row++) {
        fill_rows(&r, (const shape){TREELESS - 1, 0, 2, 0, 1});
        row_of(&r, STOCK, 0)[0] = 0, row_of(&r, STOCK, 1)[0] = UINT32_MAX;
        row_of(&r, STOCK, row)[UNIT_CODE] = 1;
        size_t length = written(&r, bytes);
        put_editions(bytes, length, TREELESS);
        must_be_refused(bytes, length, 14000 + row, "scattered trees at the front of a return");
        must_explain_trees(bytes, length, row, row ? UINT32_MAX : 0, "the lowest id and the highest");
        r.counts[EDITION] = TREELESS;
        must_refuse(&r, length, 1, 14000 + row, "write: scattered trees at the front of a return");
    }
}

/* ---- its order */

/* Two conversion rows, two rows of scattered trees, a harvest, parameters and two rows of soil: 14 at place 12 in edition 3, but for what is put in beside it.
 * In edition 2 they are good. */
static const shape TWO_TREES = {2, 2, 2, 1, 1, 0, 0, 2, [SCATTERED] = 2};

static const struct {
    uint32_t answer, block, at, value;
    int width;
    const char *what;
} BESIDE_READING[] = {
    {2004, 4, 508, 0, 4, "a check comes before 14"},
    {3001, 1, 6, 2, 2, "an edition unlike block 0's comes before 14"},
    {3004, 4, 0, NILOFERQ_KINDS + 1, 1, "a kind comes before 14"},
    {4001, 1, 8 + UNIT_AT + 1, 1, 1, "the byte behind the unit code comes before 14"},
    {4004, 4, 507, 1, 1, "a stray byte comes before 14"},
    {5001, 0, 48, 7, 4, "an id comes before 14"},
    {5013, 1, 48, 1, 4, "an id of scattered trees comes before 14"},
    {5049, 4, 48, 1, 4, "an id behind them comes before 14"},
    {6012, 1, 8 + UNIT_AT, 2, 1, "a unit code of 2 is 6"},
    {6012, 1, 8 + UNIT_AT, 255, 1, "a unit code of 255 is 6"},
    {6013, 1, 48 + UNIT_AT, 2, 1, "a unit code of 2 in the second row comes before 14 in the first"},
    {6012, 1, 8 + 6, 10001, 2, "a rate of scattered trees above its limit comes before 14"},
    {6048, 4, 8 + 8, 100001, 4, "a limit behind them comes before 14"},
    {14013, 1, 8 + UNIT_AT, 0, 1, "land in the first row, and scattered trees in the second"},
    {14012, 1, 48 + UNIT_AT, 0, 1, "scattered trees in the first row alone"},
    {14012, 0, 8 + 12, 501, 2, "14 comes before fractions above 1,000"},
    {14012, 2, 12, 0, 4, "14 comes before 12"},
    {14012, 4, 8 + 8, 4001, 4, "14 comes before 13"},
};

static const struct {
    uint32_t answer, kind, row, field, value;
    const char *what;
} BESIDE_WRITING[] = {
    {5013, STOCK, 1, 0, 1, "write: an id comes before 14"},
    {6012, STOCK, 0, UNIT_CODE, 2, "write: a unit code of 2 is 6"},
    {6013, STOCK, 1, UNIT_CODE, 256, "write: a unit code whose byte would be 0 is 6"},
    {6013, STOCK, 1, UNIT_CODE, 257, "write: a unit code whose byte would be 1 is 6"},
    {6012, STOCK, 0, UNIT_CODE, UINT32_MAX, "write: a unit code with all its bits set is 6"},
    {6048, SOIL, 0, AREA_NOW, 100001, "write: a limit comes before 14"},
    {14013, STOCK, 0, UNIT_CODE, 0, "write: land in the first row, and scattered trees in the second"},
    {14012, STOCK, 1, UNIT_CODE, 0, "write: scattered trees in the first row alone"},
    {14012, CONVERSION, 0, 4, 501, "write: 14 comes before fractions above 1,000"},
    {14012, HARVEST, 0, 1, 0, "write: 14 comes before 12"},
    {14012, SOIL, 0, AREA_NOW, 4001, "write: 14 comes before 13"},
};

static void fill_two_trees(struct rows *r, uint32_t edition) {
    fill_rows(r, TWO_TREES);
    row_of(r, HARVEST, 0)[3] = 700; /* fuelwood for both conversion rows, if there is also commercial harvest */
    r->counts[EDITION] = edition;
}

static void order_of_reading(const uint8_t *made, size_t length) {
    static uint8_t bytes[NILOFERQ_RETURN_ROOM];
    must_be_refused(made, length, 14012, "two rows of scattered trees");
    must_be_refused(made, length - 1, 1000, "a length comes before 14");
    for (size_t i = 0; i < sizeof BESIDE_READING / sizeof *BESIDE_READING; i++) {
        uint8_t *block = bytes + 512 * BESIDE_READING[i].block;
        memcpy(bytes, made, length);
        put(block + BESIDE_READING[i].at, BESIDE_READING[i].value, BESIDE_READING[i].width);
        if (BESIDE_READING[i].at < 508) put_check(block);
        must_be_refused(bytes, length, BESIDE_READING[i].answer, BESIDE_READING[i].what);
    }
}

static void order_of_writing(size_t length) {
    static struct rows r;
    for (size_t i = 0; i < sizeof BESIDE_WRITING / sizeof *BESIDE_WRITING; i++) {
        fill_two_trees(&r, TREELESS);
        row_of(&r, BESIDE_WRITING[i].kind, BESIDE_WRITING[i].row)[BESIDE_WRITING[i].field] = BESIDE_WRITING[i].value;
        must_refuse(&r, length, 1, BESIDE_WRITING[i].answer, BESIDE_WRITING[i].what);
    }
    fill_two_trees(&r, TREELESS + 1);
    must_refuse(&r, length, 1, 10000, "write: an unknown edition comes before 14");
    fill_two_trees(&r, TREELESS);
    r.lengths[SOIL - 1]--, r.area_len--;
    must_refuse(&r, length, 1, 10007, "write: part of a row comes before 14");
    fill_two_trees(&r, TREELESS);
    for (uint32_t i = 0; i < 2; i++) row_of(&r, STOCK, i)[UNIT_CODE] = 0;
    must_write(&r, length, 1, length, "write: the same rows as land");
}

static void order(void) {
    static struct rows r;
    static uint8_t made[NILOFERQ_RETURN_ROOM];
    fill_two_trees(&r, 2);
    size_t length = written(&r, made);
    must_judge(made, length, TWO_TREES, "two rows of scattered trees in edition 2");
    put_editions(made, length, TREELESS);
    order_of_reading(made, length);
    order_of_writing(length);
}

void trees(void) {
    for (size_t i = 0; i < sizeof STOCKS / sizeof *STOCKS; i++) {
        for (uint32_t edition = 1; edition < TREELESS; edition++) must_take(STOCKS + i, edition);
        if (STOCKS[i].trees) must_refuse_trees(STOCKS + i);
        else must_take(STOCKS + i, TREELESS);
    }
    at_the_front();
    order();
}
