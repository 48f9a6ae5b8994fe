/* Tries reading into rooms of every length, and writing in each edition, rows with a fault of each kind among them. */
#include "door_test.h"
#include <string.h>

/* The answer due of a good return's rooms: the counts' first, then the lowest kind whose rows end behind the area. */
static uint32_t due_of(const struct rows *r, size_t rows_len, size_t counts_len) {
    size_t end = 0;
    if (counts_len < NILOFERQ_COUNTS) return 9000;
    for (uint32_t kind = 1; kind <= NILOFERQ_KINDS; kind++)
        if ((end += r->lengths[kind - 1]) > rows_len) return 9000 + kind;
    return 0;
}

/* Reads a return of these rows into rooms of these lengths. */
static void read_into(const uint8_t *bytes, size_t length, const struct rows *r, size_t rows_len, size_t counts_len, const char *what) {
    static uint32_t rows[NILOFERQ_ROWS_ROOM + SPARE], counts[NILOFERQ_COUNTS + SPARE];
    int good = 1, rows_due = 0, counts_due = 0;
    for (int i = 0; i < NILOFERQ_ROWS_ROOM + SPARE; i++) rows[i] = UNTOUCHED;
    for (int i = 0; i < NILOFERQ_COUNTS + SPARE; i++) counts[i] = UNTOUCHED;
    must(niloferq_read(bytes, length - 1, rows, rows_len, counts, counts_len) == 1000, "read: the bytes come before the rooms");
    uint32_t due = due_of(r, rows_len, counts_len);
    must(niloferq_read(bytes, length, rows, rows_len, counts, counts_len) == due, what);
    if (due == 0) rows_due = (int)r->area_len, counts_due = NILOFERQ_COUNTS;
    for (int i = 0; i < NILOFERQ_ROWS_ROOM + SPARE; i++) good &= rows[i] == (i < rows_due ? r->area[i] : UNTOUCHED);
    for (int i = 0; i < NILOFERQ_COUNTS + SPARE; i++) good &= counts[i] == (i < counts_due ? r->counts[i] : UNTOUCHED);
    must(good, due == 0 ? "read: rows, edition and counts, and the elements behind them" : "read: a refusal changes nothing");
}

/* Reads a return of these rows into rooms of every length. */
static void read_every_length(const uint8_t *bytes, size_t length, const struct rows *r, const char *what) {
    for (size_t counts_len = 0; counts_len <= NILOFERQ_COUNTS + SPARE; counts_len++)
        for (size_t rows_len = 0; rows_len <= r->area_len + SPARE; rows_len++) read_into(bytes, length, r, rows_len, counts_len, what);
}

/* Reads a full return up to each kind's last row, and up to the element before. */
static void read_full(const shape counts) {
    static struct rows r;
    static uint8_t full[NILOFERQ_RETURN_ROOM];
    size_t size = bytes_of(counts);
    fill_rows(&r, counts);
    must(written(&r, full) == size, "write: a full return, to be read");
    read_into(full, size, &r, NILOFERQ_ROWS_ROOM + SPARE, NILOFERQ_COUNTS, "read: a full return");
    for (size_t end = 0, kind = 1; kind <= NILOFERQ_KINDS; kind++) {
        end += r.lengths[kind - 1];
        read_into(full, size, &r, end - 1, NILOFERQ_COUNTS, "read: a full return, up to a kind's last row but for one element");
        read_into(full, size, &r, end, NILOFERQ_COUNTS, "read: a full return, up to a kind's last row");
    }
}

void reading(const uint8_t *day, size_t length) {
    static struct rows r;
    static uint8_t bytes[NILOFERQ_RETURN_ROOM];
    enum { ALL = NILOFERQ_COUNTS };
    uint32_t counts[NILOFERQ_COUNTS] = {UNTOUCHED};
    shape full, one_each;
    fill_rows(&r, DAY);
    read_every_length(day, length, &r, "read: the day into rooms of every length");
    /* by hand: the day's rows end at 15, 20, 25 and 31 */
    must(due_of(&r, 31, ALL) == 0 && due_of(&r, 30, ALL) == 9004 && due_of(&r, 25, ALL) == 9004 && due_of(&r, 24, ALL) == 9003, "the places due");
    must(due_of(&r, 19, ALL) == 9002 && due_of(&r, 15, ALL) == 9002 && due_of(&r, 14, ALL) == 9001 && due_of(&r, 14, ALL - 1) == 9000, "the places due");
    fill_rows(&r, DAY_IN_2);
    read_every_length(bytes, written(&r, bytes), &r, "read: the day in edition 2 into rooms of every length");
    for (uint32_t edition = 1; edition < TREELESS; edition++) {
        fill_rows(&r, (const shape){edition, 1, 3, 1, 1, [SCATTERED] = 2});
        read_every_length(bytes, written(&r, bytes), &r, "read: the day with scattered trees into rooms of every length");
    }
    fill_shape(one_each, NILOFERQ_EDITIONS, 1);
    fill_rows(&r, one_each);
    read_every_length(bytes, written(&r, bytes), &r, "read: a row of each kind into rooms of every length");
    /* by hand: its abandoned land ends at 38, its savanna at 52, its soil at 61, its crop at 73 */
    must(due_of(&r, 38, ALL) == 9006 && due_of(&r, 37, ALL) == 9005 && due_of(&r, 31, ALL) == 9005 && due_of(&r, 30, ALL) == 9004, "the places due");
    must(due_of(&r, 51, ALL) == 9006 && due_of(&r, 52, ALL) == 9007 && due_of(&r, 51, ALL - 1) == 9000, "the places due");
    must(due_of(&r, 60, ALL) == 9007 && due_of(&r, 61, ALL) == 9008 && due_of(&r, 72, ALL) == 9008 && due_of(&r, 73, ALL) == 0, "the places due");
    must(due_of(&r, r.area_len, ALL) == 0 && due_of(&r, r.area_len - 1, ALL) == 9000 + NILOFERQ_KINDS, "the places due");
    for (uint32_t kind = PARAMETERS + 1; kind <= NILOFERQ_KINDS; kind++) {
        shape alone = {2 + kind % 2, 1, 1, 1, 1};
        alone[kind] = 2;
        fill_rows(&r, alone);
        read_every_length(bytes, written(&r, bytes), &r, "read: the day with rows of one kind above 4 into rooms of every length");
    }

    for (uint32_t edition = 1; edition <= NILOFERQ_EDITIONS; edition++) {
        fill_shape(full, edition, NILOFERQ_MOST_ROWS);
        if (edition < TREELESS) full[SCATTERED] = 31;
        read_full(full);
    }
    fill_rows(&r, full);
    must(r.area_len == NILOFERQ_ROWS_ROOM && bytes_of(full) == NILOFERQ_RETURN_ROOM, "the rooms for a full return");

    must(niloferq_read(NULL, 0, NULL, 0, NULL, 0) == 1000, "read: NULL everywhere");
    must(niloferq_read(day, length, NULL, 0, NULL, 0) == 9000, "read: a good return and no rooms, NULL");
    must(niloferq_read(day, length, NULL, 0, counts, NILOFERQ_COUNTS) == 9001 && counts[0] == UNTOUCHED, "read: only the counts' room");
}

static uint8_t room[NILOFERQ_RETURN_ROOM + SPARE];
static uint32_t sizes[1 + SPARE];

/* Writes these rows; rows and lengths must stay as they are, and so must the room and the size behind what is due. */
static uint32_t write_rows(const struct rows *r, size_t room_len, size_t size_len, size_t due) {
    static struct rows lent;
    int good = 1;
    lent = *r;
    memset(room, 0xee, sizeof room);
    for (int i = 0; i < 1 + SPARE; i++) sizes[i] = UNTOUCHED;
    uint32_t answer =
        niloferq_write(lent.counts[EDITION], lent.area, lent.area_len, lent.lengths, lent.lengths_len, room, room_len, sizes, size_len);
    must(memcmp(lent.area, r->area, sizeof r->area) == 0, "write: the rows are only read");
    must(memcmp(lent.lengths, r->lengths, sizeof r->lengths) == 0, "write: the lengths are only read");
    for (size_t i = due; i < sizeof room; i++) good &= room[i] == 0xee;
    for (int i = due != 0; i < 1 + SPARE; i++) good &= sizes[i] == UNTOUCHED;
    must(good, due ? "write: what stands behind the blocks and the size" : "write: a refusal changes nothing");
    return answer;
}

void must_write(const struct rows *r, size_t room_len, size_t size_len, size_t due, const char *what) {
    must(write_rows(r, room_len, size_len, due) == 0 && sizes[0] == due, what);
}

void must_refuse(const struct rows *r, size_t room_len, size_t size_len, uint32_t answer, const char *what) {
    must(write_rows(r, room_len, size_len, 0) == answer, what);
    if (answer == 9000) return;
    must(write_rows(r, 0, size_len, 0) == answer, what);
    must(write_rows(r, room_len, 0, 0) == answer, what);
}

/* Writes rows of this shape into just enough room, and reads them back with the edition. */
static void must_write_back(const shape counts, const char *what) {
    static struct rows r;
    size_t size = bytes_of(counts);
    fill_rows(&r, counts);
    must_write(&r, size, 1, size, what);
    must_judge(room, size, counts, "and it is accepted");
    read_into(room, size, &r, r.area_len, NILOFERQ_COUNTS, "and read back");
    must_refuse(&r, size - 1, 1, 9000, "write: room too short by one");
    must_refuse(&r, size, 0, 9000, "write: no room for the size");
}

/* Shapes of all sizes in each edition: the day, a row of each kind, all rows, of which some are scattered trees, the parameters alone, and with each kind
 * above 4. */
static void shapes(void) {
    for (uint32_t edition = 1; edition <= NILOFERQ_EDITIONS; edition++) {
        shape counts = {edition, 1, 1, 1, 1};
        must_write_back(counts, "write: the day in each edition");
        fill_shape(counts, edition, 1);
        must_write_back(counts, "write: a row of each kind");
        fill_shape(counts, edition, NILOFERQ_MOST_ROWS);
        must_write_back(counts, "write: a full return");
        for (counts[SCATTERED] = 1; edition < TREELESS && counts[SCATTERED] <= NILOFERQ_MOST_ROWS; counts[SCATTERED]++)
            must_write_back(counts, "write: a full return with scattered trees");
        fill_shape(counts, edition, 0);
        must_write_back(counts, "write: the parameters alone");
        for (uint32_t kind = PARAMETERS + 1; kind <= NILOFERQ_KINDS && KINDS[kind].since <= edition; kind++) {
            shape alone = {edition, 0, 0, 0, 1};
            alone[kind] = 13;
            must_write_back(alone, "write: the parameters and two blocks of a kind above 4");
        }
    }
}

/* Rows of a kind above 4 in edition 1. */
static void later_in_1(uint32_t kind) {
    static struct rows r;
    shape counts = {1, 1, 1, 1, 1};
    counts[kind] = 1;
    fill_rows(&r, counts);
    must_refuse(&r, sizeof room, 1, 10000 + kind, "write: a kind above 4 in edition 1");
    row_of(&r, CONVERSION, 0)[1] = 1000001; /* a limit as well: 10 comes first */
    must_refuse(&r, sizeof room, 1, 10000 + kind, "write: a kind above 4 in edition 1 comes before a limit");
    r.lengths[kind - 1]--, r.area_len--;
    must_refuse(&r, sizeof room, 1, 10000 + kind, "write: part of a row of a kind above 4 in edition 1");
    counts[kind] = NILOFERQ_MOST_ROWS + 1;
    fill_rows(&r, counts);
    must_refuse(&r, sizeof room, 1, 10000 + kind, "write: too many rows of a kind above 4 in edition 1");
    counts[kind] = 1, counts[PARAMETERS] = 0;
    fill_rows(&r, counts);
    must_refuse(&r, sizeof room, 1, 10004, "write: the parameters' place is lower than that of a kind above 4");
}

/* Writing in an edition that is not there, and kinds above 4 in edition 1. */
static void editions(void) {
    static struct rows r;
    /* 65537 to 65539 are 1 to 3 in two bytes */
    static const uint32_t unknown[] = {0, NILOFERQ_EDITIONS + 1, 65535, 65536, 65537, 65538, 65539, 16777219, 4294967295};
    shape one_each;
    fill_shape(one_each, NILOFERQ_EDITIONS, 1);
    for (size_t i = 0; i < sizeof unknown / sizeof *unknown; i++) {
        fill_rows(&r, i % 2 ? DAY : one_each);
        r.counts[EDITION] = unknown[i];
        must_refuse(&r, sizeof room, 1, 10000, "write: an unknown edition");
        r.lengths[0]--, r.area_len--;
        must_refuse(&r, sizeof room, 1, 10000, "write: an unknown edition comes before a kind's length");
    }
    for (uint32_t kind = PARAMETERS + 1; kind <= NILOFERQ_KINDS; kind++) later_in_1(kind);
    one_each[EDITION] = 1;
    fill_rows(&r, one_each);
    must_refuse(&r, sizeof room, 1, 10005, "write: all kinds above 4 in edition 1, the lowest at fault");
}

/* Number 10 at place 0. */
static void adding_up(const shape counts) {
    static struct rows r;
    fill_rows(&r, counts);
    row_of(&r, CONVERSION, 0)[1] = 1000001; /* a limit as well: 10 comes first */
    for (r.lengths_len = 0; r.lengths_len <= NILOFERQ_KINDS + 1; r.lengths_len++)
        if (r.lengths_len != NILOFERQ_KINDS) must_refuse(&r, sizeof room, 1, 10000, "write: not a length for each kind");
    for (r.lengths_len = NILOFERQ_KINDS - 1; r.lengths_len >= PARAMETERS; r.lengths_len--) {
        r.lengths[r.lengths_len - 1] += r.lengths[r.lengths_len];
        must_refuse(&r, sizeof room, 1, 10000, "write: fewer lengths that add up");
    }

    for (int kind = 0; kind < NILOFERQ_KINDS; kind++) {
        fill_rows(&r, counts);
        r.lengths[kind]--;
        must_refuse(&r, sizeof room, 1, 10000, "write: a length less by one");
        r.lengths[kind] += 2;
        must_refuse(&r, sizeof room, 1, 10000, "write: a length more by one");
        r.lengths[kind] += KINDS[kind + 1].numbers - 1;
        must_refuse(&r, sizeof room, 1, 10000, "write: a length more by a row");
        r.lengths[kind] = 0;
        if (counts[kind + 1]) must_refuse(&r, sizeof room, 1, 10000, "write: a length of zero too little");
        for (int other = 0; other < NILOFERQ_KINDS; other++) {
            if (other == kind) continue;
            uint32_t moved = KINDS[kind + 1].numbers + KINDS[other + 1].numbers; /* more than the other has: it goes below zero */
            fill_rows(&r, counts);
            r.lengths[kind] += moved;
            r.lengths[other] -= moved;
            must_refuse(&r, sizeof room, 1, 10000, "write: a sum that is right only in 32 bits");
            fill_rows(&r, counts);
            r.lengths[kind] += 0x80000000;
            r.lengths[other] += 0x80000000;
            must_refuse(&r, sizeof room, 1, 10000, "write: two halves of 2^32 more");
        }
        fill_rows(&r, counts);
        for (int other = 1; other <= 4; other++) r.lengths[(kind + other) % NILOFERQ_KINDS] += 0x40000000;
        must_refuse(&r, sizeof room, 1, 10000, "write: four quarters of 2^32 more");
    }
    fill_rows(&r, counts);
    r.area_len++;
    must_refuse(&r, sizeof room, 1, 10000, "write: an area longer than its lengths");
    r.area_len -= 2;
    must_refuse(&r, sizeof room, 1, 10000, "write: an area shorter than its lengths");
    r.area_len = 0;
    must_refuse(&r, sizeof room, 1, 10000, "write: no area");
}

/* Number 10 at a kind that the edition has. */
static void lengths_of_kinds(const shape good) {
    static struct rows r;
    for (uint32_t kind = 1; kind <= NILOFERQ_KINDS && good[kind]; kind++) {
        shape counts;
        memcpy(counts, good, sizeof counts);
        fill_rows(&r, counts);
        row_of(&r, CONVERSION, 0)[1] = 1000001; /* a limit as well: 10 comes first */
        r.lengths[kind - 1]--, r.area_len--;
        must_refuse(&r, sizeof room, 1, 10000 + kind, "write: a row less one element");
        r.lengths[kind - 1] += 2, r.area_len += 2;
        must_refuse(&r, sizeof room, 1, 10000 + kind, "write: a row and one element");
        counts[kind] = KINDS[kind].most + 1;
        fill_rows(&r, counts);
        must_refuse(&r, sizeof room, 1, 10000 + kind, "write: a row too many");
        counts[PARAMETERS] = 0;
        fill_rows(&r, counts);
        must_refuse(&r, sizeof room, 1, 10000 + (kind < PARAMETERS ? kind : PARAMETERS), "write: no parameters, and the lowest kind at fault");
    }
    const shape none = {good[EDITION]}, two = {good[EDITION], 0, 0, 0, 2};
    fill_rows(&r, none);
    must_refuse(&r, sizeof room, 1, 10004, "write: no rows at all");
    fill_rows(&r, two);
    must_refuse(&r, sizeof room, 1, 10004, "write: two rows of parameters");
}

/* Numbers 5 to 7. 13 rows of a kind take two blocks, so stock begins at place 24, harvest at 48, the parameters at 72. */
static void rules(const shape thirteen) {
    static struct rows r;
    fill_rows(&r, thirteen);
    row_of(&r, STOCK, 12)[0] = row_of(&r, STOCK, 11)[0];
    row_of(&r, CONVERSION, 12)[1] = 1000001; /* 5 comes before 6 */
    must_refuse(&r, sizeof room, 1, 5024 + 12, "write: an id not above the one before");
    fill_rows(&r, thirteen);
    row_of(&r, HARVEST, 12)[4] = 10000001;
    row_of(&r, CONVERSION, 0)[4] = 501; /* 6 comes before 7 */
    must_refuse(&r, sizeof room, 1, 6048 + 12, "write: a field above its limit");
    fill_rows(&r, thirteen);
    row_of(&r, PARAMETERS, 0)[5] = 65536; /* its two bytes would be 0 */
    must_refuse(&r, sizeof room, 1, 6072, "write: a field that its two bytes have no room for");
    row_of(&r, STOCK, 1)[1] = 256; /* its byte would be 0 */
    must_refuse(&r, sizeof room, 1, 6025, "write: a unit code that its byte has no room for");
    fill_rows(&r, thirteen);
    row_of(&r, CONVERSION, 12)[4] = 501;
    row_of(&r, CONVERSION, 0)[3] = 1001; /* thinner before than after, which is no fault */
    must_refuse(&r, sizeof room, 1, 7012, "write: fractions above 1,000");
    fill_rows(&r, thirteen);
    row_of(&r, CONVERSION, 11)[12] = 1001;
    must_write(&r, sizeof room, 1, bytes_of(thirteen), "write: after above before");
}

/* Numbers 5 and 6 of a kind above 4. */
static void later_rules(const shape thirteen, uint32_t kind) {
    static struct rows r;
    uint32_t place = 12 * first_block(thirteen, kind);
    size_t size = bytes_of(thirteen);
    fill_rows(&r, thirteen);
    row_of(&r, kind, 0)[0] = row_of(&r, kind, 1)[0];
    row_of(&r, CONVERSION, 0)[1] = 1000001; /* 5 comes before 6 */
    must_refuse(&r, sizeof room, 1, 5000 + place + 1, "write: an id of a kind above 4 not above the one before");
    for (uint32_t field = 1; field < KINDS[kind].numbers; field++) {
        uint32_t limit = KINDS[kind].limits[field];
        fill_rows(&r, thirteen);
        row_of(&r, kind, 12)[field] = limit;
        if (is_balanced(kind, field)) {
            must_refuse(&r, sizeof room, 1, 13000 + place, "write: an area at its limit, unlike that of the other time");
            row_of(&r, kind, 12)[AREA_NOW + AREA_THEN - field] = limit;
        }
        must_write(&r, sizeof room, 1, size, "write: a field of a kind above 4 at its limit");
        row_of(&r, kind, 12)[field] = limit + 1;
        must_refuse(&r, sizeof room, 1, 6000 + place + 12, "write: a field of a kind above 4 above its limit");
        row_of(&r, kind, 12)[field] = limit < 65536 ? 65536 : UINT32_MAX; /* two bytes would be 0 */
        must_refuse(&r, sizeof room, 1, 6000 + place + 12, "write: a field of a kind above 4 far above its limit");
        row_of(&r, CONVERSION, 0)[4] = 501; /* 6 comes before 7 */
        must_refuse(&r, sizeof room, 1, 6000 + place + 12, "write: a limit of a kind above 4 comes before the fractions");
    }
}

/* Number 10, then 5 to 7, with returns of an edition. */
static void refused_rows(const shape one_each, uint32_t edition) {
    shape thirteen;
    fill_shape(thirteen, edition, 13);
    adding_up(one_each);
    lengths_of_kinds(one_each);
    rules(thirteen);
    for (uint32_t kind = PARAMETERS + 1; kind <= NILOFERQ_KINDS && KINDS[kind].since <= edition; kind++) later_rules(thirteen, kind);
}

void writing(const uint8_t *day, size_t length) {
    static struct rows r;
    fill_rows(&r, DAY);
    must_write(&r, length, 1, length, "write: the day");
    must(memcmp(room, day, length) == 0, "its bytes");
    must_write(&r, length + SPARE, 1 + SPARE, length, "write: the day, longer rooms");
    shapes();

    fill_rows(&r, DAY);
    must_refuse(&r, 0, 0, 9000, "write: no room at all");
    must(niloferq_write(1, r.area, r.area_len, r.lengths, NILOFERQ_KINDS, NULL, 0, NULL, 0) == 9000, "write: no rooms, NULL");
    memset(r.lengths, 0, sizeof r.lengths);
    must(niloferq_write(1, NULL, 0, r.lengths, NILOFERQ_KINDS, NULL, 0, NULL, 0) == 10004, "write: no rows, NULL");
    must(niloferq_write(1, NULL, 0, NULL, 0, NULL, 0, NULL, 0) == 10000, "write: NULL everywhere");

    editions();
    for (uint32_t edition = 1; edition <= NILOFERQ_EDITIONS; edition++) {
        shape one_each;
        fill_shape(one_each, edition, 1);
        refused_rows(one_each, edition);
    }
}
