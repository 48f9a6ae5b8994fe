/* What the files of door_test share: the count of trials, the table of kinds, and rows and returns made from it. */
#ifndef DOOR_TEST_H
#define DOOR_TEST_H

#include "niloferq.h"
#include <stddef.h>
#include <stdint.h>

/* Counts a trial, and says which it was where it went wrong. */
void must(int holds, const char *what);

/* Elements and bytes behind what is lent, which must keep their values. */
enum { SPARE = 3 };
static const uint32_t UNTOUCHED = 0xdeadbeef;

/* Kinds are numbered as in the paper. A shape is what a read counts: the edition, how many rows of each kind, and how many of the stock rows are scattered
 * trees. */
enum { EDITION, CONVERSION, STOCK, HARVEST, PARAMETERS, ABANDONED, SAVANNA, SOIL, CROP, SCATTERED };
_Static_assert(CROP == NILOFERQ_KINDS && SCATTERED == NILOFERQ_SCATTERED && SCATTERED == NILOFERQ_COUNTS - 1, "the counts' order");
typedef uint32_t shape[NILOFERQ_COUNTS];
/* The unit code of a stock row, where it stands in a record, and the edition that has no scattered trees. */
enum { UNIT_CODE = 1, UNIT_AT = 4, TREELESS = 3 };
/* The fields of a row of mineral soil whose sums for each soil type have to be equal, and where the type and the later one stand in a record. */
enum { SOIL_TYPE = 2, AREA_NOW = 3, AREA_THEN = 4, THEN_AT = 12 };
static inline int is_balanced(uint32_t kind, uint32_t field) { return kind == SOIL && (field == AREA_NOW || field == AREA_THEN); }
static const shape DAY = {1, 1, 1, 1, 1}, DAY_IN_2 = {2, 1, 1, 1, 1};

/* A line for each kind: the edition that brought it, the numbers in a row, the most rows, a row, and of a kind above 4 the most that each field may
 * be and the row's record, by hand. The first four kinds' rows are the worked day's. */
struct kind {
    uint32_t since, numbers, most;
    uint32_t row[NILOFERQ_CONVERSION_NUMBERS], limits[NILOFERQ_CONVERSION_NUMBERS];
    uint8_t record[40];
};
extern const struct kind KINDS[NILOFERQ_KINDS + 1];

/* So many rows of each kind that the edition has; of parameters one. */
void fill_shape(shape counts, uint32_t edition, uint32_t rows);

/* The first block of a kind's rows, and the bytes of all blocks. */
uint32_t first_block(const shape counts, uint32_t kind);
size_t bytes_of(const shape counts);

/* Rows as they lie in lent memory, with room for a row too many. */
struct rows {
    shape counts;
    uint32_t area[NILOFERQ_ROWS_ROOM + NILOFERQ_CONVERSION_NUMBERS];
    size_t area_len;
    uint32_t lengths[NILOFERQ_KINDS + 1];
    size_t lengths_len;
};

/* The table's rows, of each kind so many; copies have rising ids, but for parameters, which have none. The first stock rows are scattered trees, as many as
 * the shape has, with the numbers of the others. */
void fill_rows(struct rows *r, const shape counts);
/* A kind's row in the area, by the lengths. */
uint32_t *row_of(struct rows *r, uint32_t kind, uint32_t row);
/* A return of these rows, to be tried further; the answer is its number of bytes. */
size_t written(const struct rows *r, uint8_t bytes[NILOFERQ_RETURN_ROOM]);
size_t written_as(const shape counts, uint8_t bytes[NILOFERQ_RETURN_ROOM]);

/* Puts a number into so many bytes, the lowest first, as everywhere in a return; into a block the check that is then due; and an edition into every block. */
void put(uint8_t *at, uint32_t value, int width);
void put_check(uint8_t *block);
void put_editions(uint8_t *bytes, size_t length, uint32_t edition);

/* What became of cleared biomass: five masses in 10^-9 kt, their names in the order of the lines, and the lines put behind a text. */
enum { MASS_COUNT = 5 };
typedef uint64_t masses[MASS_COUNT];
extern const char *const MASSES[MASS_COUNT];
void put_masses(char *text, const masses m);

/* Accepted with this edition and these counts, in rooms of every length. */
void must_judge(const uint8_t *bytes, size_t length, const shape due, const char *what);

/* Told by this text, or by one that begins with it and goes on, in rooms of every length that is enough, and not at all in shorter ones. */
enum { WHOLE, GOES_ON };
void must_tell(size_t (*tell)(const uint8_t *, size_t, uint8_t *, size_t), const uint8_t *bytes, size_t length, const char *due, int how, const char *what);

/* Refused by this answer whatever the code and the rooms, and what is lent stays as it was; the lines say so, and the explanation begins with them. */
void must_be_refused(const uint8_t *bytes, size_t length, uint32_t answer, const char *what);

/* Written into rooms of these lengths as so many bytes; or refused by this answer, also with no room at all for a rule before 9. Nothing else has
 * changed. */
void must_write(const struct rows *r, size_t room_len, size_t size_len, size_t due, const char *what);
void must_refuse(const struct rows *r, size_t room_len, size_t size_len, uint32_t answer, const char *what);

/* The figures of crop residues where there are none, which are the last lines. */
#define NO_CROPS "crop_carbon 0\ncrop_ch4 0\ncrop_co 0\ncrop_n2o 0\ncrop_nox 0\n"

/* The trials of reading and writing, of returns byte by byte, of scattered trees with number 14, of numbers 12 and 13, of the cleared biomass, of crop
 * residues, of niloferq_table52, of niloferq_explain and niloferq_heaviest, of niloferq_nation, and of rows as text, with the worked day. */
void reading(const uint8_t *day, size_t length);
void writing(const uint8_t *day, size_t length);
void returns_in_bytes(const uint8_t *day, size_t length);
void trees(void);
void wood(void);
void soils(void);
void matter(void);
void crops(void);
void table52(void);
void explanations(const uint8_t *day, size_t length);
void nations(const uint8_t *day, size_t length);
void texts(const uint8_t *day, size_t length);

#endif
