/* Tries niloferq_nation: no return, one, several, refused ones among them; each sort of stop, and which comes first; as many returns as a run takes, and
 * more; halves, and the largest sums. Rooms that are enough and too short. The texts are by hand, from the paper. */
#include "door_test.h"
#include <stdio.h>
#include <string.h>

enum { MOST = NILOFERQ_MOST_RETURNS, MOST_BLOCKS = NILOFERQ_RETURN_ROOM / 512 };

/* The file that is tried, return behind return, and what it was before the call. */
static uint8_t file[(MOST + 1) * NILOFERQ_RETURN_ROOM], kept[sizeof file];
static size_t length;

static void add(const uint8_t *bytes, size_t size) {
    memcpy(file + length, bytes, size);
    length += size;
}

/* Six bytes, of which the last two say a number of blocks, and zeros up to so many bytes in all. */
static void add_header(uint32_t blocks, size_t size) {
    memset(file + length, 0, size);
    put(file + length + 4, blocks, 2);
    length += size;
}

/* ---- the text in a room */

/* In a room of this length it is at the front, or is not there, and nothing else has changed. */
static void must_take(const char *due, size_t room_len, const char *what) {
    static uint8_t room[NILOFERQ_NATION_ROOM + SPARE], before[sizeof room];
    size_t size = strlen(due), put_in = room_len < size ? 0 : size;
    memset(room, 0xee, sizeof room), memset(before, 0xee, sizeof before);
    must(niloferq_nation(file, length, room, room_len) == put_in, what);
    must(memcmp(room, due, put_in) == 0 && memcmp(room + put_in, before, sizeof room - put_in) == 0, what);
}

static void must_print(const char *due, const char *what) {
    size_t size = strlen(due);
    must(size <= NILOFERQ_NATION_ROOM, "nation: the room that is always enough");
    memcpy(kept, file, length);
    must_take(due, NILOFERQ_NATION_ROOM, what);
    must_take(due, NILOFERQ_NATION_ROOM - 1, what);
    must_take(due, NILOFERQ_NATION_ROOM + SPARE, what);
    must_take(due, size, what);
    must_take(due, size + 1, what);
    must_take(due, size - 1, what);
    must_take(due, size / 2, what);
    must_take(due, 1, what);
    must_take(due, 0, what);
    must(niloferq_nation(file, length, NULL, 0) == 0, "nation: no room, NULL");
    must(memcmp(file, kept, length) == 0, "nation: the file as it was");
}

/* These lines, the counts, and the figures of so many worked days, of which Q is given: it is rounded once, from 48,583.33.. for each. */
static void must_print_days(const char *lines, unsigned accepted, unsigned refused, unsigned days, long long q, const char *what) {
    static char due[NILOFERQ_NATION_ROOM + 1];
    const unsigned long long n = days;
    char *at = due;
    at += sprintf(at, "%saccepted %u\nrefused %u\nE %llu\nK %llu\nL %llu\nM %llu\nP %llu\nQ %lld\nreport %lld\n", lines, accepted, refused, 340000000 * n,
                  775000 * n, 36000000 * n, 41500000 * n, 13250000000 * n, q, -q);
    sprintf(at, "onsite %llu\noffsite %llu\ndecay %llu\nco2 %llu\n", 32400000000000 * n, 16200000000000 * n, 40500000000000 * n, 326700 * n);
    put_masses(due, (const masses){64800000000 * n, 7200000000 * n, 32400000000 * n, 3600000000 * n, 72000000000 * n});
    must_print(due, what);
}
static const long long Q_OF_DAYS[] = {0, 48583, 97167, 145750};

/* ---- the returns that a file is made of */

/* d: the worked day. e: it in edition 3. s: it in edition 2 with scattered trees, which move no figure. t: the same in edition 3, refused 14 12. c: it with a
 * wrong check in its last block, refused 2 3. u: it with no harvest, refused 12 0. p: the lone parameters. z: with zeros in place of all its bytes but the
 * number of blocks, refused 2 0. */
static uint8_t returns[128][NILOFERQ_RETURN_ROOM];
static size_t sizes[128];

static void make_returns(const uint8_t *day, size_t size) {
    static const char each[] = "dectuz";
    for (const char *at = each; *at; at++) memcpy(returns[(unsigned char)*at], day, sizes[(unsigned char)*at] = size);
    returns['c'][size - 1] ^= 1;
    memset(returns['u'] + 2 * 512 + 12, 0, 16);
    put_check(returns['u'] + 2 * 512);
    memset(returns['z'], 0, size);
    put(returns['z'] + 4, (uint32_t)(size / 512), 2);
    put_editions(returns['e'], size, TREELESS);
    sizes['s'] = written_as((const shape){2, 1, 1, 1, 1, [SCATTERED] = 1}, returns['s']);
    memcpy(returns['t'], returns['s'], size);
    put_editions(returns['t'], size, TREELESS);
    sizes['p'] = written_as((const shape){1, 0, 0, 0, 1}, returns['p']);
}

static void fill(const char *letters) {
    for (length = 0; *letters; letters++) add(returns[(unsigned char)*letters], sizes[(unsigned char)*letters]);
}

static const struct {
    const char *letters, *lines, *what;
    unsigned accepted, refused, days;
} FILES[] = {
    {"", "", "nation: no return", 0, 0, 0},
    {"d", "", "nation: one", 1, 0, 1},
    {"dd", "", "nation: the worked day twice, doubled before it is rounded", 2, 0, 2},
    {"ddd", "", "nation: three times", 3, 0, 3},
    {"dp", "", "nation: a return that adds nothing is counted", 2, 0, 1},
    {"pdpd", "", "nation: returns of several lengths", 4, 0, 2},
    {"dcd", "return 2 refused 2 3\n", "nation: good, refused, good", 2, 1, 2},
    {"cdd", "return 1 refused 2 3\n", "nation: refused, good, good", 2, 1, 2},
    {"c", "return 1 refused 2 3\n", "nation: one that is refused", 0, 1, 0},
    {"des", "", "nation: each edition, and scattered trees", 3, 0, 3},
    {"stst", "return 2 refused 14 12\nreturn 4 refused 14 12\n", "nation: scattered trees in editions 2 and 3", 2, 2, 2},
    {"udcpz", "return 1 refused 12 0\nreturn 3 refused 2 3\nreturn 5 refused 2 0\n", "nation: three refused, each by its own number", 2, 3, 1},
};

/* ---- stops */

/* Behind a good return and a refused one. The rest is the returns before it. */
static void must_stop(const char *why, const char *what) {
    char lines[64];
    sprintf(lines, "return 2 refused 2 3\nstopped 3 %s\n", why);
    must_print_days(lines, 1, 1, 1, 48583, what);
}

static void stops(void) {
    static const uint32_t wrong[] = {0, MOST_BLOCKS + 1, 255, 256, 257, 4096, 65535};
    char why[32];
    for (size_t i = 0; i < sizeof wrong / sizeof *wrong; i++) {
        sprintf(why, "blocks %u", wrong[i]);
        fill("dc"), add_header(wrong[i], 6);
        must_stop(why, "nation: a number of blocks that no return has, at the end");
        add(returns['d'], sizes['d']);
        must_stop(why, "nation: the same, and what is behind it is not looked at");
    }
    for (size_t more = 1; more < 6; more++) {
        fill("dc"), add(returns['d'], more);
        must_stop("short", "nation: fewer than six bytes");
        fill("dc"), add_header(0, 6), length -= 6 - more;
        must_stop("short", "nation: fewer than six bytes come before the number of blocks");
    }
    for (uint32_t blocks = 1; blocks <= MOST_BLOCKS; blocks++) {
        fill("dc"), add_header(blocks, 6);
        must_stop("short", "nation: a header alone");
        fill("dc"), add_header(blocks, 512 * blocks - 1);
        must_stop("short", "nation: a byte is missing");
        fill("dc"), add_header(blocks, 512 * blocks); /* zeros, but for one or two bytes: a return that is refused by its check */
        must_print_days("return 2 refused 2 3\nreturn 3 refused 2 0\n", 1, 2, 1, 48583, "nation: no byte is missing");
    }
    /* It is the first header that cuts. With one block in it, the day's second block is the next return, which says four. */
    fill("d"), file[4] = 1;
    must_print_days("return 1 refused 2 0\nstopped 2 short\n", 0, 1, 0, 0, "nation: cut by the first header");
    fill("dd"), file[512 + 4] = 1;
    must_print_days("return 1 refused 2 1\n", 1, 1, 1, 48583, "nation: not by another");
    fill(""), add_header(0, 5);
    must_print_days("stopped 1 short\n", 0, 0, 0, 0, "nation: stopped at the first, short");
    fill(""), add_header(0, 6);
    must_print_days("stopped 1 blocks 0\n", 0, 0, 0, 0, "nation: stopped at the first by its blocks");
}

/* ---- as many as a run takes */

static void many(void) {
    char lines[MOST * 24 + 32] = "";
    fill("");
    for (int i = 1; i < MOST; i++) add(returns['p'], sizes['p']);
    must_print_days("", MOST - 1, 0, 0, 0, "nation: one fewer than a run takes");
    size_t before = length;
    add(returns['d'], sizes['d'] - 1);
    sprintf(lines, "stopped %d short\n", MOST);
    must_print_days(lines, MOST - 1, 0, 0, 0, "nation: the last that a run takes is short");
    length = before, add_header(0, 512);
    sprintf(lines, "stopped %d blocks 0\n", MOST);
    must_print_days(lines, MOST - 1, 0, 0, 0, "nation: the last that a run takes has no blocks");
    length = before, add(returns['d'], sizes['d']);
    must_print_days("", MOST, 0, 1, 48583, "nation: as many as a run takes");
    before = length;
    sprintf(lines, "stopped %d many\n", MOST + 1);
    add(returns['d'], sizes['d']);
    must_print_days(lines, MOST, 0, 1, 48583, "nation: one too many");
    length = before + 1;
    must_print_days(lines, MOST, 0, 1, 48583, "nation: a byte too many, before it is short");
    length = before, add_header(0, 512);
    must_print_days(lines, MOST, 0, 1, 48583, "nation: one too many, before its blocks are looked at");
    /* the longest list of refusals */
    fill(""), *lines = 0;
    for (int i = 1; i <= MOST; i++) add(returns['c'], sizes['c']), sprintf(lines + strlen(lines), "return %d refused 2 3\n", i);
    must_print_days(lines, 0, MOST, 0, 0, "nation: all are refused");
    fill("");
    for (int i = 1; i <= MOST; i++) add(returns['d'], sizes['d']);
    must_print_days("", MOST, 0, MOST, 24291667, "nation: the day as often as a run takes");
}

/* ---- figures */

#define NO_MASSES "oxidised_onsite 0\ncharcoal_onsite 0\noxidised_offsite 0\ncharcoal_offsite 0\nunburned 0\n"

/* So many returns of one sort. */
static void repeat(const struct rows *r, int times) {
    static uint8_t bytes[NILOFERQ_RETURN_ROOM];
    size_t size = written(r, bytes);
    for (int i = 0; i < times; i++) add(bytes, size);
}

/* E is 1 x 15,000 x 1 in one, and in the other M is 100 x 15,000 x 1 and N is 1: P is 1,500,000 and as much below zero, Q 5.5 t and as much below. */
static void halves(void) {
    static struct rows up, down;
    static const struct {
        int ups, downs;
        const char *due, *what;
    } cases[] = {
        {1, 0, "accepted 1\nrefused 0\nE 15000\nK 0\nL 0\nM 0\nP 1500000\nQ 6\nreport -6\n", "nation: 5.5 goes to even"},
        {2, 0, "accepted 2\nrefused 0\nE 30000\nK 0\nL 0\nM 0\nP 3000000\nQ 11\nreport -11\n", "nation: twice 5.5 is 11 and not twice 6"},
        {3, 0, "accepted 3\nrefused 0\nE 45000\nK 0\nL 0\nM 0\nP 4500000\nQ 16\nreport -16\n", "nation: 16.5 goes to even"},
        {0, 3, "accepted 3\nrefused 0\nE 0\nK 45000\nL 0\nM 4500000\nP -4500000\nQ -16\nreport 16\n", "nation: and below zero too"},
        {2, 3, "accepted 5\nrefused 0\nE 30000\nK 45000\nL 0\nM 4500000\nP -1500000\nQ -6\nreport 6\n", "nation: above and below zero together"},
        {3, 3, "accepted 6\nrefused 0\nE 45000\nK 45000\nL 0\nM 4500000\nP 0\nQ 0\nreport 0\n", "nation: as much above zero as below"},
    };
    char due[NILOFERQ_NATION_ROOM];
    fill_rows(&up, (const shape){1, 0, 1, 0, 1});
    memcpy(row_of(&up, STOCK, 0), (const uint32_t[]){1, 0, 1, 15000, 1}, 4 * NILOFERQ_STOCK_NUMBERS);
    fill_rows(&down, (const shape){1, 0, 0, 1, 1});
    memcpy(row_of(&down, HARVEST, 0), (const uint32_t[]){1, 15000, 1, 0, 0}, 4 * NILOFERQ_HARVEST_NUMBERS);
    row_of(&down, PARAMETERS, 0)[0] = 1;
    for (size_t i = 0; i < sizeof cases / sizeof *cases; i++) {
        put_masses(strcat(strcpy(due, cases[i].due), "onsite 0\noffsite 0\ndecay 0\nco2 0\n"), (const masses){0});
        fill(""), repeat(&up, cases[i].ups), repeat(&down, cases[i].downs);
        must_print(due, cases[i].what);
        fill(""), repeat(&down, cases[i].downs), repeat(&up, cases[i].ups);
        must_print(due, "nation: the same in another order");
    }
}

/* Everything at its limit in as many returns as a run takes: 16,000 rows of each kind. E is 16,000 x 10^14. K is 16,000 x 10^11 by F and G, and the biomass
 * as many times 10^10. Carried off whole, it makes L 16,000 x 10^13, as much as K, so that P is E; the off-site carbon is then 16,000 x 10^19, and what is
 * oxidised 16,000 x 10^16, which no word holds. Half burned on site and half off it, half of either oxidised, each of the four is a quarter of that, more
 * than a word holds too, and O is half of E. Unburned, it leaves M at K. With I and J as well, and no stock, M is 12 x 16,000 x 10^12. */
static const struct {
    uint32_t on, oxidised, off;
    const char *due, *what;
} LARGEST[] = {
    {0, 1000, 1000, "L 160000000000000000\nM 0\nP 160000000000000000000\nQ 586666666666667\nreport -586666666666667\n"
     "onsite 0\noffsite 160000000000000000000000\ndecay 0\nco2 586666666666667\noxidised_onsite 0\ncharcoal_onsite 0\n"
     "oxidised_offsite 160000000000000000000\ncharcoal_offsite 0\nunburned 0\n",
     "nation: the largest growth and clearing"},
    {500, 500, 500, "L 80000000000000000\nM 80000000000000000\nP 80000000000000000000\nQ 293333333333333\nreport -293333333333333\n"
     "onsite 40000000000000000000000\noffsite 40000000000000000000000\ndecay 0\nco2 293333333333333\noxidised_onsite 40000000000000000000\n"
     "charcoal_onsite 40000000000000000000\noxidised_offsite 40000000000000000000\ncharcoal_offsite 40000000000000000000\nunburned 0\n",
     "nation: the largest clearing, in four parts"},
    {0, 0, 0, "L 0\nM 160000000000000000\nP 0\nQ 0\nreport 0\nonsite 0\noffsite 0\ndecay 0\nco2 0\noxidised_onsite 0\ncharcoal_onsite 0\n"
     "oxidised_offsite 0\ncharcoal_offsite 0\nunburned 160000000000000000000\n", "nation: the largest clearing, unburned"},
};

static void largest(void) {
    static struct rows r;
    static char due[NILOFERQ_NATION_ROOM];
    const uint32_t rows = NILOFERQ_MOST_ROWS;
    for (size_t k = 0; k < sizeof LARGEST / sizeof *LARGEST; k++) {
        const uint32_t on = LARGEST[k].on, oxidised = LARGEST[k].oxidised, off = LARGEST[k].off;
        fill_rows(&r, (const shape){1, rows, rows, rows, 1});
        for (uint32_t i = 0; i < rows; i++) {
            memcpy(row_of(&r, CONVERSION, i) + 1, (const uint32_t[]){1000000, 10000, 0, on, oxidised, 1000, off, oxidised, 1000, 0, 0, 0, 0, 0}, 4 * 14);
            memcpy(row_of(&r, STOCK, i) + 1, (const uint32_t[]){0, 10000, 10000000, 1000}, 4 * 4);
            memcpy(row_of(&r, HARVEST, i) + 1, (const uint32_t[]){10000000, 10000, 0, 0}, 4 * 4);
        }
        row_of(&r, PARAMETERS, 0)[0] = 1000;
        fill(""), repeat(&r, MOST);
        strcat(strcpy(due, "accepted 500\nrefused 0\nE 1600000000000000000\nK 1600000000000000\n"), LARGEST[k].due);
        must_print(due, LARGEST[k].what);
    }
    fill_rows(&r, (const shape){1, 0, 0, rows, 1});
    for (uint32_t i = 0; i < rows; i++) memcpy(row_of(&r, HARVEST, i) + 1, (const uint32_t[]){10000000, 10000, 10000000, 10000000}, 4 * 4);
    row_of(&r, PARAMETERS, 0)[0] = 1000;
    fill(""), repeat(&r, MOST);
    must_print("accepted 500\nrefused 0\nE 0\nK 1920000000000000\nL 0\nM 192000000000000000\nP -192000000000000000000\nQ -704000000000000\n"
               "report 704000000000000\nonsite 0\noffsite 0\ndecay 0\nco2 0\n" NO_MASSES,
               "nation: the largest harvest");
}

void nations(const uint8_t *day, size_t size) {
    uint8_t room[NILOFERQ_NATION_ROOM];
    static const char none[] = "accepted 0\nrefused 0\nE 0\nK 0\nL 0\nM 0\nP 0\nQ 0\nreport 0\nonsite 0\noffsite 0\ndecay 0\nco2 0\n" NO_MASSES;
    must(niloferq_nation(NULL, 0, room, sizeof room) == strlen(none) && memcmp(room, none, strlen(none)) == 0, "nation: no bytes, NULL");
    must(niloferq_nation(NULL, 0, NULL, 0) == 0, "nation: no bytes and no room, NULL both");
    make_returns(day, size);
    for (size_t i = 0; i < sizeof FILES / sizeof *FILES; i++) {
        fill(FILES[i].letters);
        must_print_days(FILES[i].lines, FILES[i].accepted, FILES[i].refused, FILES[i].days, Q_OF_DAYS[FILES[i].days], FILES[i].what);
    }
    stops();
    many();
    halves();
    largest();
}
