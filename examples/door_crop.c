/* Tries crop residues, kind 8. They move no figure but their own, nor the doubles, the heaviest rows, the explanation, the national line or the blocks before
 * them, whatever stands there; each field is tried at its limit and above it, and edition 1 has none of them. What they come to is in door_test.c. */
#include "door_test.h"
#include <stdio.h>
#include <string.h>

/* ---- what they leave as it is */

/* All that is told of a good return, but for the crops' own figures, which are the last. */
enum { OWN = 5, OTHERS = 3 * (NILOFERQ_FIGURES - OWN), CODES = 3 };
struct told {
    uint64_t figures[OTHERS], heaviest[CODES][NILOFERQ_HEAVIEST_ROOM];
    uint8_t bits[CODES][8];
    char lines[NILOFERQ_LINES_ROOM + 1], explained[NILOFERQ_EXPLAIN_ROOM + 1], nation[NILOFERQ_NATION_ROOM + 1];
};

static void tell(struct told *t, uint64_t own[3 * OWN], const uint8_t *bytes, size_t length, const char *what) {
    uint64_t figures[NILOFERQ_FIGURES_ROOM] = {0};
    memset(t, 0, sizeof *t); /* the bytes between its parts too, as all of it is compared */
    must(niloferq_figures(bytes, length, figures, NILOFERQ_FIGURES_ROOM) == 0, what);
    memcpy(t->figures, figures, sizeof t->figures);
    memcpy(own, figures + OTHERS, 3 * OWN * sizeof *own);
    for (uint32_t code = 0; code < CODES; code++) {
        must(niloferq_subtotal(bytes, length, code, t->bits[code], 8) == 0, what);
        must(niloferq_heaviest(bytes, length, code, t->heaviest[code], NILOFERQ_HEAVIEST_ROOM) == 0, what);
    }
    must(niloferq_lines(bytes, length, (uint8_t *)t->lines, NILOFERQ_LINES_ROOM) != 0, what);
    must(niloferq_explain(bytes, length, (uint8_t *)t->explained, NILOFERQ_EXPLAIN_ROOM) != 0, what);
    must(niloferq_nation(bytes, length, (uint8_t *)t->nation, NILOFERQ_NATION_ROOM) != 0, what);
    char *crops = strstr(t->lines, "\ncrop_carbon ");
    must(crops != NULL, "the crops' lines");
    if (crops) memset(crops + 1, 0, strlen(crops + 1));
}

/* The blocks before the crops' are those of the return without them, but for the number of blocks and the check. */
static void must_keep_blocks(const uint8_t *without, size_t length, const uint8_t *with, size_t longer, const char *what) {
    for (size_t at = 0; at < length; at += 512) {
        uint8_t block[512];
        memcpy(block, without + at, 512);
        put(block + 4, (uint32_t)(longer / 512), 2);
        put_check(block);
        must(memcmp(block, with + at, 512) == 0, what);
    }
}

/* So many crop rows, the table's or all at their limits, behind rows of this shape. */
static size_t with_crops(const shape others, uint32_t rows, int largest, uint8_t bytes[NILOFERQ_RETURN_ROOM]) {
    static struct rows r;
    shape counts;
    memcpy(counts, others, sizeof counts);
    counts[CROP] = rows;
    fill_rows(&r, counts);
    for (uint32_t i = 0; largest && i < rows; i++) memcpy(row_of(&r, CROP, i) + 1, KINDS[CROP].limits + 1, 4 * (NILOFERQ_CROP_NUMBERS - 1));
    size_t length = written(&r, bytes);
    must_judge(bytes, length, counts, "the crops are counted, and the others as without them");
    return length;
}

static void must_leave(const shape others, const char *what) {
    static const uint32_t rows[] = {1, 2, 12, 13, 24, 25, NILOFERQ_MOST_ROWS};
    static const uint64_t none[3 * OWN] = {0};
    static uint8_t without[NILOFERQ_RETURN_ROOM], with[NILOFERQ_RETURN_ROOM];
    static struct told due, found;
    uint64_t own[3 * OWN];
    size_t length = with_crops(others, 0, 0, without);
    tell(&due, own, without, length, what);
    must(memcmp(own, none, sizeof own) == 0, "no crops, and their figures are 0");
    for (size_t i = 0; i < sizeof rows / sizeof *rows; i++)
        for (int largest = 0; largest < 2; largest++) {
            size_t longer = with_crops(others, rows[i], largest, with);
            tell(&found, own, with, longer, what);
            must(memcmp(&due, &found, sizeof due) == 0, what);
            for (int k = 0; k < OWN; k++) must(own[3 * k] == 0 && (own[3 * k + 1] | own[3 * k + 2]) != 0, "the crops' own figures");
            must_keep_blocks(without, length, with, longer, what);
        }
}

/* Editions 2 and 3, and edition 1 beside them: with other blocks the same, its figures are those of the others with crops. */
static void left_alone(void) {
    static uint8_t first[NILOFERQ_RETURN_ROOM], with[NILOFERQ_RETURN_ROOM];
    static struct told due, found;
    uint64_t own[3 * OWN];
    for (uint32_t edition = 2; edition <= NILOFERQ_EDITIONS; edition++) {
        shape others = {edition, 1, 1, 1, 1};
        must_leave(others, "crops behind the day");
        tell(&due, own, first, written_as(DAY, first), "the day in edition 1");
        tell(&found, own, with, with_crops(others, 13, 1, with), "the day with crops");
        must(memcmp(&due, &found, sizeof due) == 0, "crops in a later edition, beside edition 1");
        fill_shape(others, edition, 0);
        must_leave(others, "crops behind the parameters alone");
        fill_shape(others, edition, 1);
        must_leave(others, "crops behind a row of each kind");
        fill_shape(others, edition, NILOFERQ_MOST_ROWS);
        if (edition < TREELESS) others[SCATTERED] = 7;
        must_leave(others, "crops behind all rows of each kind");
    }
}

/* ---- refusals: none is new */

/* Where each field stands in its record, with its limit, by hand. */
static const struct {
    uint32_t at, limit;
    int width;
    const char *name;
} FIELDS[NILOFERQ_CROP_NUMBERS] = {
    {0, UINT32_MAX, 4, "id"},
    {4, 10000000, 4, "production"},
    {8, 1000, 2, "residue_ratio"},
    {10, 1000, 2, "dry_matter"},
    {12, 1000, 2, "burned_fraction"},
    {14, 1000, 2, "oxidised_fraction"},
    {16, 10000, 2, "carbon_fraction"},
    {18, 1000, 2, "N/C"},
    {20, 1000, 2, "CH4"},
    {22, 1000, 2, "CO"},
    {24, 1000, 2, "N2O"},
    {26, 1000, 2, "NOx"},
};

/* The day with a crop row: this field of it with this value, when reading and when writing. Its block is the fifth. */
static void must_limit(uint32_t edition, uint32_t field, uint32_t value) {
    static struct rows r;
    static uint8_t bytes[NILOFERQ_RETURN_ROOM];
    char due[NILOFERQ_EXPLAIN_ROOM];
    const shape counts = {edition, 1, 1, 1, 1, [CROP] = 1};
    uint8_t *block = bytes + 4 * 512;
    fill_rows(&r, counts);
    size_t length = written(&r, bytes);
    put(block + 8 + FIELDS[field].at, value, FIELDS[field].width);
    put_check(block);
    row_of(&r, CROP, 0)[field] = value;
    if (value <= FIELDS[field].limit) {
        must_judge(bytes, length, counts, "a crop's field up to its limit");
        must_write(&r, length, 1, length, "write: a crop's field up to its limit");
        return;
    }
    must_be_refused(bytes, length, 6048, "a crop's field above its limit");
    sprintf(due, "refused 6 48\nblock 4\nrow 0\nkind_name crop\nid 1\nfield %u\nfield_name %s\nvalue %u\nlimit %u\n", field, FIELDS[field].name, value,
            FIELDS[field].limit);
    must_tell(niloferq_explain, bytes, length, due, WHOLE, "explain: a crop's field above its limit");
    must_refuse(&r, length, 1, 6048, "write: a crop's field above its limit");
}

static void limits(uint32_t edition) {
    must_limit(edition, 0, 0);
    must_limit(edition, 0, UINT32_MAX);
    for (uint32_t field = 1; field < NILOFERQ_CROP_NUMBERS; field++) {
        must_limit(edition, field, 0);
        must_limit(edition, field, FIELDS[field].limit);
        must_limit(edition, field, FIELDS[field].limit + 1);
        must_limit(edition, field, FIELDS[field].width == 2 ? 65535 : UINT32_MAX);
    }
}

/* The last row of a full return has the highest place there is, 12 times 21 blocks and 7 more. */
static void highest_place(uint32_t edition) {
    static struct rows r;
    static uint8_t bytes[NILOFERQ_RETURN_ROOM];
    shape full;
    fill_shape(full, edition, NILOFERQ_MOST_ROWS);
    fill_rows(&r, full);
    size_t length = written(&r, bytes);
    must(length == 22 * 512 && length == NILOFERQ_RETURN_ROOM && bytes[21 * 512] == CROP && bytes[21 * 512 + 1] == 8, "the longest return ends with crops");
    put(bytes + 21 * 512 + 8 + 40 * 7 + 26, 1001, 2);
    put_check(bytes + 21 * 512);
    row_of(&r, CROP, 31)[11] = 1001;
    must_be_refused(bytes, length, 6259, "the highest place of a row");
    must_refuse(&r, length, 1, 6259, "write: the highest place of a row");
}

/* Edition 1 has no crops: 3 when reading, and 10 when writing, before any limit. */
static void first_edition(void) {
    static struct rows r;
    static uint8_t bytes[NILOFERQ_RETURN_ROOM];
    shape counts = {2, 1, 1, 1, 1, [CROP] = 1};
    size_t length = written_as(counts, bytes);
    put_editions(bytes, length, 1);
    must_be_refused(bytes, length, 3004, "a crop in edition 1");
    must_tell(niloferq_explain, bytes, length,
              "refused 3 4\nkind 8\ncount 1\nnumber 4\nblocks 5\nedition 1\nnumber_due 4\nblocks_due 5\nedition_first 1\n", WHOLE,
              "explain: a crop in edition 1");
    counts[EDITION] = 1;
    fill_rows(&r, counts);
    must_refuse(&r, length, 1, 10008, "write: a crop in edition 1");
    row_of(&r, CROP, 0)[6] = 10001;
    must_refuse(&r, length, 1, 10008, "write: a crop in edition 1 comes before its limit");
    r.counts[EDITION] = 2;
    must_refuse(&r, length, 1, 6048, "write: which is what is wrong in edition 2");
}

void crops(void) {
    left_alone();
    for (uint32_t edition = 2; edition <= NILOFERQ_EDITIONS; edition++) {
        limits(edition);
        highest_place(edition);
    }
    first_edition();
}
