/* Tries niloferq_explain and niloferq_heaviest: returns that are refused by each number and each fault, and good ones, in rooms of every length; the
 * refusals in their order; rows of the same weight, and none. The texts and the parts are by hand, from the paper. */
#include "door_test.h"
#include <stdio.h>
#include <string.h>

/* Elements that a heaviest row is tried with. */
enum { LENT = NILOFERQ_HEAVIEST_ROOM + SPARE };

/* What a return is made in, with room for one that is too long. */
static uint8_t bytes[NILOFERQ_RETURN_ROOM + 512];

/* ---- returns */

/* The worked day's conversion row. Its parts are 200 x 900 x 400 x 900 x 500 on site, 200 x 900 x 200 x 900 x 500 off site and
 * 300 x 900 x 300 x 1,000 x 500 of decay. */
typedef uint32_t conversion[NILOFERQ_CONVERSION_NUMBERS];
enum { ID = 0, AREA = 1, AFTER = 3, ONSITE = 4, OFFSITE = 7, TEN_YEAR_AFTER = 12, DECAY = 13 }; /* where they stand in it */
static const conversion DAY_ROW = {7, 200, 1000, 100, 400, 900, 500, 200, 900, 500, 300, 1000, 100, 300, 500};
static const uint64_t DAY_PARTS[3] = {32400000000000, 16200000000000, 40500000000000};
static const masses DAY_MASSES = {64800000000, 7200000000, 32400000000, 3600000000, 72000000000}, NO_MASSES = {0};

/* So many copies of it, with rising ids. */
static void copy_rows(conversion *rows, uint32_t count) {
    for (uint32_t i = 0; i < count; i++) {
        memcpy(rows[i], DAY_ROW, sizeof DAY_ROW);
        rows[i][ID] += i;
    }
}

/* As much wood used as one harvest row can say, 100 x (10^7 x 10^4 + 1,000 x 2 x 10^7) = 1.2 x 10^13: more than the rows below carry off. */
static const uint32_t ENOUGH[NILOFERQ_HARVEST_NUMBERS] = {1, 10000000, 10000, 10000000, 10000000};

/* A return of these conversion rows, the harvest above and the parameters; the answer is its number of bytes. */
static size_t written_rows(conversion *rows, uint32_t count) {
    static uint32_t area[NILOFERQ_ROWS_ROOM];
    const uint32_t lengths[NILOFERQ_KINDS] = {NILOFERQ_CONVERSION_NUMBERS * count, 0, NILOFERQ_HARVEST_NUMBERS, NILOFERQ_PARAMETERS_NUMBERS};
    const uint32_t rest = lengths[0] + NILOFERQ_HARVEST_NUMBERS;
    uint32_t size = 0;
    memcpy(area, rows, count * sizeof *rows);
    memcpy(area + lengths[0], ENOUGH, sizeof ENOUGH);
    must(niloferq_defaults(area + rest, NILOFERQ_PARAMETERS_NUMBERS) == 0, "write: the parameters");
    must(niloferq_write(1, area, rest + NILOFERQ_PARAMETERS_NUMBERS, lengths, NILOFERQ_KINDS, bytes, sizeof bytes, &size, 1) == 0,
         "write: a good return");
    return size;
}

/* ---- the explanation */

/* Explained by this text in rooms of every length that is enough, and not at all in shorter ones, which stay as they were. */
static void must_explain(const uint8_t *from, size_t length, const char *due, const char *what) {
    static uint8_t room[NILOFERQ_EXPLAIN_ROOM + SPARE], kept[sizeof room];
    size_t size = strlen(due);
    must(size <= NILOFERQ_EXPLAIN_ROOM, "explain: the room that is always enough");
    memset(kept, 0xee, sizeof kept);
    for (size_t n = 0; n <= sizeof room; n++) {
        memset(room, 0xee, sizeof room);
        size_t answer = niloferq_explain(from, length, room, n);
        if (n < size)
            must(answer == 0 && memcmp(room, kept, sizeof room) == 0, what);
        else
            must(answer == size && memcmp(room, due, size) == 0 && memcmp(room + size, kept, sizeof room - size) == 0, what);
    }
    must(niloferq_explain(from, length, NULL, 0) == 0, what);
}

/* A good return: these lines of its heaviest rows, and its masses. */
static void must_explain_good(const uint8_t *from, size_t length, const char *heaviest, const masses m, const char *what) {
    char due[2 * NILOFERQ_EXPLAIN_ROOM];
    put_masses(strcpy(due, heaviest), m);
    must_explain(from, length, due, what);
}

/* The day with a number in one of its blocks, whose check is then put right. */
static void must_explain_with(const uint8_t *day, size_t length, size_t block, size_t at, uint32_t value, int width, const char *due,
                              const char *what) {
    memcpy(bytes, day, length);
    put(bytes + 512 * block + at, value, width);
    put_check(bytes + 512 * block);
    must_explain(bytes, length, due, what);
}

static void lengths(const uint8_t *day, size_t length) {
    must_explain(NULL, 0, "refused 1 0\nlength 0\n", "explain: no bytes, NULL");
    must_explain(day, length - 1, "refused 1 0\nlength 2047\n", "explain: the day less a byte");
    char due[NILOFERQ_EXPLAIN_ROOM];
    memset(bytes, 0, sizeof bytes);
    sprintf(due, "refused 1 0\nlength %u\n", (unsigned)sizeof bytes);
    must_explain(bytes, sizeof bytes, due, "explain: a block too many, told as it is and not as the program reads it");
    sprintf(due, "refused 3 0\nkind 0\ncount 0\nnumber 0\nblocks 0\nedition 0\nnumber_due 0\nblocks_due %u\nedition_first 0\n",
            NILOFERQ_RETURN_ROOM / 512);
    must_explain(bytes, NILOFERQ_RETURN_ROOM, due, "explain: the most blocks, all of zeros, whose checks are right");
}

/* Numbers 2 and 3, with numbers as long as they can be among them. */
static void checks_and_headers(const uint8_t *day, size_t length) {
    memcpy(bytes, day, length);
    put(bytes + 508, 4294967295, 4);
    must_explain(bytes, length, "refused 2 0\nstored 4294967295\ncomputed 64251\n", "explain: a check");
    must_explain_with(day, length, 2, 6, 2, 2,
                      "refused 3 2\nkind 3\ncount 1\nnumber 2\nblocks 4\nedition 2\nnumber_due 2\nblocks_due 4\nedition_first 1\n",
                      "explain: an edition unlike block 0's");
    memset(bytes, 0xff, 8);
    put_check(bytes);
    must_explain(bytes, length,
                 "refused 3 0\nkind 255\ncount 255\nnumber 65535\nblocks 65535\nedition 65535\nnumber_due 0\nblocks_due 4\nedition_first 65535\n",
                 "explain: a header with all its bits set");
}

/* Number 4, a word each; `fourth` is never the first fault of a return. */
static void faults(const uint8_t *day, size_t length) {
    must_explain_with(day, length, 2, 0, 1, 1, "refused 4 2\nfault order\nkind 1\ncount 1\nnumber 2\nblocks 4\nedition 1\nkind_before 2\n",
                      "explain: order");
    must_explain_with(day, length, 2, 0, 4, 1, "refused 4 2\nfault end\nkind 4\ncount 1\nnumber 2\nblocks 4\nedition 1\n", "explain: end");
    must_explain_with(day, length, 3, 1, 2, 1, "refused 4 3\nfault count\nkind 4\ncount 2\nnumber 3\nblocks 4\nedition 1\n", "explain: count");
    must_explain_with(day, length, 2, 0, 2, 1, "refused 4 1\nfault unfilled\nkind 2\ncount 1\nnumber 1\nblocks 4\nedition 1\nkind_next 2\n",
                      "explain: unfilled");
    conversion rows[NILOFERQ_MOST_ROWS];
    copy_rows(rows, NILOFERQ_MOST_ROWS);
    size_t longer = written_rows(rows, NILOFERQ_MOST_ROWS);
    bytes[2 * 512 + 1] = 9;
    put_check(bytes + 2 * 512);
    must_explain(bytes, longer, "refused 4 2\nfault overfilled\nkind 1\ncount 9\nnumber 2\nblocks 5\nedition 1\n", "explain: overfilled");
    must_explain_with(day, length, 1, 13, 255, 1, "refused 4 1\nfault stray\noffset 13\nbyte 255\n", "explain: stray, before the rate of a stock row");
    must_explain_with(day, length, 3, 507, 1, 1, "refused 4 3\nfault stray\noffset 507\nbyte 1\n", "explain: stray, just before the check");
}

/* Numbers 5 to 7. */
static void records(const uint8_t *day, size_t length) {
    memcpy(bytes, day, length);
    memcpy(bytes + 512 + 48, bytes + 512 + 8, 40); /* the stock row twice */
    bytes[512 + 1] = 2;
    put_check(bytes + 512);
    must_explain(bytes, length, "refused 5 13\nblock 1\nrow 1\nkind_name stock\nid_before 1\nid 1\n", "explain: an id");
    must_explain_with(day, length, 0, 12, 4294967295, 4,
                      "refused 6 0\nblock 0\nrow 0\nkind_name conversion\nid 7\nfield 1\nfield_name area\nvalue 4294967295\nlimit 1000000\n",
                      "explain: an area");
    must_explain_with(day, length, 0, 28, 1001, 2,
                      "refused 6 0\nblock 0\nrow 0\nkind_name conversion\nid 7\nfield 8\nfield_name off-site_oxidised_fraction\nvalue 1001\nlimit 1000\n",
                      "explain: the longest name of a field");
    must_explain_with(day, length, 3, 18, 65535, 2,
                      "refused 6 36\nblock 3\nrow 0\nkind_name parameters\nfield 3\nfield_name N/C\nvalue 65535\nlimit 1000\n",
                      "explain: a parameter, whose row has no id");
    must_explain_with(day, length, 0, 40, 1000, 2,
                      "refused 7 0\nblock 0\nrow 0\nkind_name conversion\nid 7\nonsite 400\noffsite 200\ndecay 1000\nsum 1600\n",
                      "explain: the fractions");
    conversion rows[NILOFERQ_MOST_ROWS];
    copy_rows(rows, NILOFERQ_MOST_ROWS);
    size_t longer = written_rows(rows, NILOFERQ_MOST_ROWS);
    put(bytes + 512 + 8 + 40 * 11 + 4, 1000001, 4); /* the area of the last row of the second block */
    put_check(bytes + 512);
    must_explain(bytes, longer, "refused 6 23\nblock 1\nrow 11\nkind_name conversion\nid 30\nfield 1\nfield_name area\nvalue 1000001\nlimit 1000000\n",
                 "explain: a row that is neither first nor in the first block");
}

/* Number 12: the day without its harvest block; less used than cleared; and one more cleared than used, beside as much, which is good. The day's
 * clearing gives 200 x 900 x 200, and without F its harvest is 100 x 1,000 x 300. */
static void wood_explained(const uint8_t *day, size_t length) {
    memcpy(bytes, day, 2 * 512);
    memcpy(bytes + 2 * 512, day + 3 * 512, 512);
    for (uint32_t b = 0; b < 3; b++) {
        put(bytes + 512 * b + 2, b, 2);
        put(bytes + 512 * b + 4, 3, 2);
        put_check(bytes + 512 * b);
    }
    must_explain(bytes, 3 * 512, "refused 12 0\nused 0\ncleared 36000000\n", "explain: no harvest rows");
    must_explain_with(day, length, 2, 12, 0, 4, "refused 12 0\nused 30000000\ncleared 36000000\n", "explain: less used than cleared");
    memcpy(bytes, day, length);
    put(bytes + 12, 101, 4), put(bytes + 16, 1, 2), put(bytes + 18, 0, 2), put(bytes + 26, 1, 2); /* 101 x (1 - 0) x 1 */
    put_check(bytes);
    put(bytes + 1024 + 12, 1, 4), put(bytes + 1024 + 16, 1, 2), put(bytes + 1024 + 20, 0, 4); /* 100 x 1 x 1 */
    put_check(bytes + 1024);
    must_explain(bytes, length, "refused 12 0\nused 100\ncleared 101\n", "explain: one more cleared than used");
    put(bytes + 12, 100, 4);
    put_check(bytes);
    const masses equal = {36000000, 4000000, 90000, 10000, 59900000};
    must_explain_good(bytes, length,
                      "heaviest_onsite 7\nheaviest_onsite_part 18000000000\nheaviest_offsite 7\nheaviest_offsite_part 45000000\n"
                      "heaviest_decay 7\nheaviest_decay_part 40500000000000\n",
                      equal, "explain: as much cleared as used");
}

/* ---- the heaviest row */

/* The answer to this code in a room of this length, which is changed just where the answer is 0. */
static void must_answer(const uint8_t *from, size_t length, uint32_t code, size_t room_len, uint32_t answer, const uint64_t *due, const char *what) {
    uint64_t room[LENT];
    int good = 1;
    for (int i = 0; i < LENT; i++) room[i] = UNTOUCHED;
    must(niloferq_heaviest(from, length, code, room, room_len) == answer, what);
    for (int i = 0; i < LENT; i++) good &= room[i] == (answer == 0 && i < NILOFERQ_HEAVIEST_ROOM ? due[i] : UNTOUCHED);
    must(good, what);
}

/* A good return: this row by this code in rooms of every length that is enough, and 9000 in shorter ones. A part of 0 is no row. */
static void must_weigh(const uint8_t *from, size_t length, uint32_t code, uint32_t id, uint64_t part, const char *what) {
    const uint64_t due[NILOFERQ_HEAVIEST_ROOM] = {part != 0, part ? id : 0, part};
    for (size_t n = 0; n <= LENT; n++) must_answer(from, length, code, n, n < NILOFERQ_HEAVIEST_ROOM ? 9000 : 0, due, what);
    must(niloferq_heaviest(from, length, code, NULL, 0) == 9000, what);
}

/* Refused by this answer whatever the code and the room, and nothing has changed. */
static void must_refuse_all(const uint8_t *from, size_t length, uint32_t answer, const char *what) {
    static const uint32_t codes[] = {0, 1, 2, 3, 256, UINT32_MAX};
    for (size_t i = 0; i < sizeof codes / sizeof *codes; i++) {
        for (size_t n = 0; n <= LENT; n++) must_answer(from, length, codes[i], n, answer, NULL, what);
        must(niloferq_heaviest(from, length, codes[i], NULL, 0) == answer, what);
    }
}

/* The return's refusals first, by each number, then the code, and last the room. */
static void refusals(const uint8_t *day, size_t length) {
    static const struct {
        uint32_t answer;
        size_t block, at;
        uint32_t value;
    } BROKEN[] = {{3002, 2, 2, 1}, {4003, 3, 1, 2}, {6012, 1, 20, 1001}, {7000, 0, 20, 501}, {12000, 2, 12, 0}};
    static const uint32_t codes[] = {3, 4, 255, 256, 257, 65536, 0x7fffffff, 0x80000000, UINT32_MAX};
    must_refuse_all(NULL, 0, 1000, "heaviest: no bytes, NULL");
    memcpy(bytes, day, length);
    bytes[512 + 508]++;
    must_refuse_all(bytes, length, 2001, "heaviest: a check");
    for (size_t i = 0; i < sizeof BROKEN / sizeof *BROKEN; i++) {
        memcpy(bytes, day, length);
        put(bytes + 512 * BROKEN[i].block + BROKEN[i].at, BROKEN[i].value, BROKEN[i].at == 1 ? 1 : 2);
        put_check(bytes + 512 * BROKEN[i].block);
        must_refuse_all(bytes, length, BROKEN[i].answer, "heaviest: a refused return, whatever the code and the room");
    }
    memcpy(bytes, day, length);
    memcpy(bytes + 48, bytes + 8, 40);
    bytes[1] = 2;
    put_check(bytes);
    must_refuse_all(bytes, length, 5001, "heaviest: an id");
    for (size_t i = 0; i < sizeof codes / sizeof *codes; i++) {
        for (size_t n = 0; n <= LENT; n++) must_answer(day, length, codes[i], n, 11000, NULL, "heaviest: a code above 2, whatever the room");
        must(niloferq_heaviest(day, length, codes[i], NULL, 0) == 11000, "heaviest: a code above 2, and NULL");
    }
}

static void day_row(const uint8_t *day, size_t length) {
    for (uint32_t code = 0; code < 3; code++) must_weigh(day, length, code, 7, DAY_PARTS[code], "heaviest: the day's row");
    must_explain_good(day, length,
                      "heaviest_onsite 7\nheaviest_onsite_part 32400000000000\nheaviest_offsite 7\nheaviest_offsite_part 16200000000000\n"
                      "heaviest_decay 7\nheaviest_decay_part 40500000000000\n",
                      DAY_MASSES, "explain: the day");
}

/* Rows of the same weight: the lowest id is named, until another row is a little heavier. A thousandth more of its fraction is
 * 200 x 900 x 900 x 500 = 81,000,000,000 on site and off site, and 300 x 900 x 1,000 x 500 = 135,000,000,000 of decay. */
static void ties(void) {
    static const uint32_t fields[3] = {ONSITE, OFFSITE, DECAY};
    static const uint64_t more[3] = {81000000000, 81000000000, 135000000000};
    conversion rows[NILOFERQ_MOST_ROWS];
    for (uint32_t at = 0; at < NILOFERQ_MOST_ROWS; at += at == 0 ? 11 : 10) /* 0, 11, 21 and 31, which are in three blocks */
        for (uint32_t code = 0; code < 3; code++) {
            copy_rows(rows, NILOFERQ_MOST_ROWS);
            size_t length = written_rows(rows, NILOFERQ_MOST_ROWS);
            must_weigh(bytes, length, code, 7, DAY_PARTS[code], "heaviest: of equal rows that with the lowest id");
            rows[at][fields[code]]++;
            length = written_rows(rows, NILOFERQ_MOST_ROWS);
            must_weigh(bytes, length, code, 7 + at, DAY_PARTS[code] + more[code], "heaviest: a row that is a little heavier");
            must_weigh(bytes, length, (code + 1) % 3, 7, DAY_PARTS[(code + 1) % 3], "heaviest: it does not move the other subtotals");
            rows[NILOFERQ_MOST_ROWS - 1][fields[code]] = rows[at][fields[code]];
            length = written_rows(rows, NILOFERQ_MOST_ROWS);
            must_weigh(bytes, length, code, 7 + at, DAY_PARTS[code] + more[code], "heaviest: the lower id of the two heaviest");
        }
}

/* Where a subtotal is zero there is no row, though there are rows; id 0 is a row like any other. */
static void none(void) {
    static const char all_none[] = "heaviest_onsite none\nheaviest_offsite none\nheaviest_decay none\n";
    conversion rows[2];
    size_t length = written_rows(rows, 0);
    for (uint32_t code = 0; code < 3; code++) must_weigh(bytes, length, code, 0, 0, "heaviest: no rows");
    must_explain_good(bytes, length, all_none, NO_MASSES, "explain: no rows");
    copy_rows(rows, 2);
    rows[0][AREA] = 0, rows[0][DECAY] = 0;
    rows[1][AFTER] = 1001, rows[1][TEN_YEAR_AFTER] = 1001; /* thinner before than after: its difference counts as 0 */
    length = written_rows(rows, 2);
    for (uint32_t code = 0; code < 3; code++) must_weigh(bytes, length, code, 0, 0, "heaviest: rows with no part");
    must_explain_good(bytes, length, all_none, NO_MASSES, "explain: rows with no part");
    copy_rows(rows, 1);
    rows[0][ID] = 0, rows[0][OFFSITE] = 0;
    length = written_rows(rows, 1);
    must_weigh(bytes, length, 0, 0, DAY_PARTS[0], "heaviest: id 0 on site");
    must_weigh(bytes, length, 1, 0, 0, "heaviest: none off site");
    must_weigh(bytes, length, 2, 0, DAY_PARTS[2], "heaviest: id 0 of decay");
    const masses on_site = {64800000000, 7200000000, 0, 0, 108000000000};
    must_explain_good(bytes, length,
                      "heaviest_onsite 0\nheaviest_onsite_part 32400000000000\nheaviest_offsite none\nheaviest_decay 0\nheaviest_decay_part 40500000000000\n",
                      on_site, "explain: id 0, and none off site");
}

/* 10^6 x 10^4 x 10^3 x 10^3 x 10^3 = 10^19 is the largest part, above 2^63; the highest id beside it makes the longest answers. */
static void largest(void) {
    static const uint64_t most = 10000000000000000000u;
    conversion rows[2] = {{3, 1000000, 10000, 0, 1000, 1000, 1000, 0, 1000, 1000, 1000000, 10000, 0, 0, 1000},
        {UINT32_MAX, 1000000, 10000, 0, 0, 1000, 1000, 1000, 1000, 1000, 1000000, 10000, 0, 0, 1000}};
    size_t length = written_rows(rows, 2);
    must_weigh(bytes, length, 0, 3, most, "heaviest: the largest part on site");
    must_weigh(bytes, length, 1, UINT32_MAX, most, "heaviest: the largest part off site, with the highest id");
    must_weigh(bytes, length, 2, 0, 0, "heaviest: none of decay beside the largest parts");
    rows[0][ONSITE] = 0, rows[0][DECAY] = 1000;
    length = written_rows(rows, 2);
    must_weigh(bytes, length, 2, 3, most, "heaviest: the largest part of decay");
    rows[1][ONSITE] = 334, rows[1][OFFSITE] = 333, rows[1][DECAY] = 333; /* 1,000 together */
    length = written_rows(rows + 1, 1);
    const masses thirds = {3340000000000000, 0, 3330000000000000, 0, 3330000000000000};
    must_explain_good(bytes, length,
                      "heaviest_onsite 4294967295\nheaviest_onsite_part 3340000000000000000\nheaviest_offsite 4294967295\n"
                      "heaviest_offsite_part 3330000000000000000\nheaviest_decay 4294967295\nheaviest_decay_part 3330000000000000000\n",
                      thirds, "explain: the highest id and large parts");
}

/* The longest text: ids of ten digits, parts of 10^19, three masses of 10^17 and two of 10^16. Ten rows each are all oxidised on site, all oxidised off site
 * and all unburned; two are all charcoal, on site and off it. */
static void longest(void) {
    static struct rows r;
    const uint32_t all = NILOFERQ_MOST_ROWS, first = UINT32_MAX - all + 1;
    const masses due = {100000000000000000, 10000000000000000, 100000000000000000, 10000000000000000, 100000000000000000};
    char text[2 * NILOFERQ_EXPLAIN_ROOM];
    fill_rows(&r, (const shape){1, all, 0, all, 1});
    for (uint32_t i = 0; i < all; i++) {
        uint32_t on = i < 10 || i == 30 ? 1000 : 0, off = (i >= 10 && i < 20) || i == 31 ? 1000 : 0, oxidised = i < 30 ? 1000 : 0;
        const conversion row = {first + i, 1000000, 10000, 0, on, oxidised, 1000, off, oxidised, 1000, 1000000, 10000, 0, 1000 - on - off, 1000};
        memcpy(row_of(&r, CONVERSION, i), row, sizeof row);
        memcpy(row_of(&r, HARVEST, i) + 1, ENOUGH + 1, sizeof ENOUGH - sizeof *ENOUGH);
    }
    size_t length = written(&r, bytes);
    sprintf(text, "heaviest_onsite %u\nheaviest_onsite_part 10000000000000000000\nheaviest_offsite %u\nheaviest_offsite_part 10000000000000000000\n"
            "heaviest_decay %u\nheaviest_decay_part 10000000000000000000\n", first, first + 10, first + 20);
    must_explain_good(bytes, length, text, due, "explain: the longest text");
    put_masses(text, due);
    must(strlen(text) == 375, "its length");
}

void explanations(const uint8_t *day, size_t length) {
    lengths(day, length);
    checks_and_headers(day, length);
    faults(day, length);
    records(day, length);
    wood_explained(day, length);
    refusals(day, length);
    day_row(day, length);
    ties();
    none();
    largest();
    longest();
}
