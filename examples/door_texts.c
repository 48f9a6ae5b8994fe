/* Tries niloferq_pack, niloferq_pack_why and niloferq_unpack: the worked day as text, both ways; each fault of a text and each number of writing with its lines, by hand from the
 * paper; rooms that are enough and too short, and what is lent as it was on a refusal. */
#include "door_test.h"
#include <stdio.h>
#include <string.h>

static const char DAY_TEXT[] =
    "edition,1\n"
    "# conversion,id,area (kha),before (t/ha),after (t/ha),on-site_fraction,on-site_oxidised_fraction,on-site_carbon_fraction,off-site_fraction,"
    "off-site_oxidised_fraction,off-site_carbon_fraction,ten-year_area (kha),ten-year_before (t/ha),ten-year_after (t/ha),decay_fraction,decay_carbon_fraction\n"
    "conversion,7,2.00,100.0,10.0,0.400,0.900,0.500,0.200,0.900,0.500,3.00,100.0,10.0,0.300,0.500\n"
    "# stock,id,unit_code (land or trees),rate (t/ha or kt per 1000 trees),amount (kha or 1000 trees),carbon_fraction\n"
    "stock,1,land,6.80,10.00,0.500\n"
    "# harvest,id,F (1000 m3),G (t/m3),I (kt),J (kt)\n"
    "harvest,1,50.0,0.950,30.0,0.0\n"
    "# parameters,N,CH4,CO,N/C,N2O,NOx\n"
    "parameters,0.500,0.012,0.060,0.010,0.007,0.121\n";

enum { ROOM = NILOFERQ_UNPACK_ROOM };
static uint8_t room[ROOM + SPARE];

static void clear(void) { memset(room, 0xee, sizeof room); }
static int untouched(size_t from) {
    while (from < sizeof room && room[from] == 0xee) from++;
    return from == sizeof room;
}

/* ---- a text, and what is answered in rooms of these lengths */

static void must_pack(const char *text, size_t length, const uint8_t *due, size_t size, const char *what) {
    const size_t lengths[] = {size, size + 1, NILOFERQ_RETURN_ROOM, size - 1, 0};
    for (size_t i = 0; i < sizeof lengths / sizeof *lengths; i++) {
        uint32_t told[2] = {UNTOUCHED, UNTOUCHED};
        int fits = lengths[i] >= size;
        clear();
        must(niloferq_pack((const uint8_t *)text, length, room, lengths[i], told, 1) == (fits ? 0 : 9000), what);
        must(fits ? memcmp(room, due, size) == 0 && untouched(size) : untouched(0), what);
        must(told[0] == (fits ? size : UNTOUCHED) && told[1] == UNTOUCHED, what);
    }
    uint32_t none = UNTOUCHED;
    clear();
    must(niloferq_pack((const uint8_t *)text, length, room, sizeof room, &none, 0) == 9000 && untouched(0) && none == UNTOUCHED, what);
}

static void must_say(const char *text, size_t length, const char *due, const char *what) {
    size_t size = strlen(due);
    const size_t lengths[] = {size, size + 1, NILOFERQ_PACK_WHY_ROOM, size - 1, 1, 0};
    must(size <= NILOFERQ_PACK_WHY_ROOM, "why: the room that is always enough");
    for (size_t i = 0; i < sizeof lengths / sizeof *lengths; i++) {
        size_t put_in = lengths[i] < size ? 0 : size;
        clear();
        must(niloferq_pack_why((const uint8_t *)text, length, room, lengths[i]) == put_in, what);
        must(memcmp(room, due, put_in) == 0 && untouched(put_in), what);
    }
}

/* A refusal: its code in any rooms, and its lines; nothing lent has changed. */
static void must_fault(const char *text, size_t length, uint32_t code, const char *lines) {
    static uint8_t kept[200000];
    const size_t rooms[] = {0, 1, NILOFERQ_RETURN_ROOM};
    memcpy(kept, text, length);
    for (size_t i = 0; i < 3; i++) {
        for (size_t sizes = 0; sizes < 2; sizes++) {
            uint32_t told = UNTOUCHED;
            clear();
            must(niloferq_pack((const uint8_t *)text, length, room, rooms[i], &told, sizes) == code, lines);
            must(untouched(0) && told == UNTOUCHED && memcmp(text, kept, length) == 0, lines);
        }
    }
    must_say(text, length, lines, lines);
}

static void refuse(const char *text, uint32_t code, const char *lines) { must_fault(text, strlen(text), code, lines); }

/* ---- the faults of a text, each by hand */

#define PARAMETERS_ROW "parameters,0.500,0.012,0.060,0.010,0.007,0.121\n"

static void faults(void) {
    static char longer[131073];
    memset(longer, '#', sizeof longer);
    must_fault(longer, sizeof longer, 1, "refused line 0 long\n");
    must_fault(longer, sizeof longer - 1, 2, "refused line 0 edition\n"); /* one long note, and no line that counts */
    must_fault("", 0, 2, "refused line 0 edition\n");
    refuse("\n,;\t \n# a note\n", 2, "refused line 0 edition\n");
    refuse("\nedition 1\n", 2, "refused line 2 edition\n");
    refuse("edition,one\n", 2, "refused line 1 edition\n");
    refuse("\tedition\t1\n", 2, "refused line 1 edition\n");
    refuse("edition,1\nEDITION,1\n", 2, "refused line 2 edition\n");
    refuse("edition,1,1\n", 6, "refused line 1 fields\ndue 1\nfound 2\n");
    refuse("edition,1\nroads,1\n", 3, "refused line 2 kind\n");
    refuse("edition,1\n" PARAMETERS_ROW "harvest,1,1,1,1,1\n", 4, "refused line 3 order\n");
    refuse("edition,1\nharvest,1,1,1,1\n", 6, "refused line 2 fields\ndue 5\nfound 4\n");
    refuse("edition,1\nharvest,1,1,1,1,1,x\n", 6, "refused line 2 fields\ndue 5\nfound 6\n");
    refuse("edition,1\nstock,1,acres,1,1,1\n", 7, "refused line 2 unit\nfield 1\nfield_name unit_code\n");
    refuse("edition,1\nharvest,1,-1,1,1,1\n", 8, "refused line 2 number\nfield 1\nfield_name F\n");
    refuse("edition,1\nharvest,1,1,,1,1\n", 8, "refused line 2 number\nfield 2\nfield_name G\n");
    refuse("edition,1\nharvest,1,1.25,1,1,1\n", 9, "refused line 2 decimals\nfield 1\nfield_name F\n");
    refuse("edition,1\nharvest,4294967296,1,1,1,1\n", 10, "refused line 2 large\nfield 0\nfield_name id\n");
    refuse("edition;1\nharvest;1;1,25;1;1;1\n", 9, "refused line 2 decimals\nfield 1\nfield_name F\n");
    /* the lowest line, and in it the first */
    refuse("edition,1\nharvest,x,1.25,1,1,1\nroads\n", 8, "refused line 2 number\nfield 0\nfield_name id\n");
    char rows[2000], *at = rows;
    at += sprintf(at, "edition,1\n");
    for (int id = 1; id <= 33; id++) at += sprintf(at, "harvest,%d,1,1,1,1\n", id);
    refuse(rows, 5, "refused line 34 rows\n");
}

/* ---- writing's own */

static void rows_refused(void) {
    refuse("edition,9\n" PARAMETERS_ROW, 10000, "refused 10 0\nedition 9\n");
    refuse("edition,1\n", 10004, "refused 10 4\nkind_name parameters\nrows 0\n");
    refuse("edition,1\n" PARAMETERS_ROW PARAMETERS_ROW, 10004, "refused 10 4\nkind_name parameters\nrows 2\n");
    refuse("edition,1\n" PARAMETERS_ROW "soil,1,1,1,1,1,1,1,1,1\n", 10007, "refused 10 7\nkind_name soil\nrows 1\n");
    refuse("edition,1\nharvest,2,1,1,1,1\n\nharvest,2,1,1,1,1\n" PARAMETERS_ROW, 5001,
           "refused 5 1\nblock 0\nrow 1\nkind_name harvest\nid_before 2\nid 2\nline 4\n");
    refuse("edition,1\nharvest,2,1,429496.7,1,1\n" PARAMETERS_ROW, 6000,
           "refused 6 0\nblock 0\nrow 0\nkind_name harvest\nid 2\nfield 2\nfield_name G\nvalue 429496700\nlimit 10000\nline 2\n");
    refuse("edition,1\nparameters,1.001,0,0,0,0,0\n", 6000, "refused 6 0\nblock 0\nrow 0\nkind_name parameters\nfield 0\nfield_name N\nvalue 1001\nlimit 1000\nline 2\n");
    refuse("edition,3\nstock,4,trees,0.0001,1,0.5\n" PARAMETERS_ROW, 14000, "refused 14 0\nblock 0\nrow 0\nkind_name stock\nid 4\nunit_code 1\nedition 3\nline 2\n");
    refuse("edition,1\nconversion,7,2,100,10,0.5,1,1,0.4,1,1,2,100,10,0.2,1\n" PARAMETERS_ROW, 7000,
           "refused 7 0\nblock 0\nrow 0\nkind_name conversion\nid 7\nonsite 500\noffsite 400\ndecay 200\nsum 1100\nline 2\n");
    refuse("edition,1\nconversion,7,2,100,10,0.5,1,1,0.4,1,1,2,100,10,0.1,1\n" PARAMETERS_ROW, 12000, "refused 12 0\nused 0\ncleared 72000000\n");
    refuse("edition,2\n" PARAMETERS_ROW "# soils\nsoil,1,1,3,1,1.5,60,1,1,1\n", 13012,
           "refused 13 12\nblock 1\nrow 0\nkind_name soil\nid 1\nsoil_type 3\narea_now 1000\narea_then 1500\nline 4\n");
}

/* ---- the worked day, both ways */

static void must_unpack(const uint8_t *bytes, size_t length, const char *due, const char *what) {
    size_t size = strlen(due);
    const size_t lengths[] = {size, size + 1, NILOFERQ_UNPACK_ROOM, size - 1, 0};
    for (size_t i = 0; i < sizeof lengths / sizeof *lengths; i++) {
        uint32_t told[2] = {UNTOUCHED, UNTOUCHED};
        int fits = lengths[i] >= size;
        clear();
        must(niloferq_unpack(bytes, length, room, lengths[i], told, 1) == (fits ? 0 : 9000), what);
        must(fits ? memcmp(room, due, size) == 0 && untouched(size) : untouched(0), what);
        must(told[0] == (fits ? size : UNTOUCHED) && told[1] == UNTOUCHED, what);
    }
    uint32_t none = UNTOUCHED;
    clear();
    must(niloferq_unpack(bytes, length, room, sizeof room, &none, 0) == 9000 && untouched(0) && none == UNTOUCHED, what);
}

void texts(const uint8_t *day, size_t length) {
    static uint8_t bad[NILOFERQ_RETURN_ROOM];
    must_unpack(day, length, DAY_TEXT, "texts: the day unpacked");
    must_pack(DAY_TEXT, strlen(DAY_TEXT), day, length, "texts: the day packed");
    must_say(DAY_TEXT, strlen(DAY_TEXT), "packed 2048\n", "texts: the day's bytes");
    static const char OTHER[] = "\xEF\xBB\xBF Edition ;1;;\r\n\r\nCONVERSION;7; 2;100;\"10\";0,4;0,9;0,5;0,2;0,9;0,5;3;100;10;0,3;0,5\r\n"
                                "Stock;1;LAND;6,8;10;0.5;;;\r\n\"# a note\"\r\nharvest;001;50;0,95;30;0\r\nparameters;0,5;0,012;0,06;0,01;0,007;0,121";
    must_pack(OTHER, strlen(OTHER), day, length, "texts: the day from another spreadsheet");
    memcpy(bad, day, length);
    bad[508]++;
    uint32_t told = UNTOUCHED;
    clear();
    must(niloferq_unpack(bad, length, room, sizeof room, &told, 1) == 2000 && untouched(0) && told == UNTOUCHED, "texts: a refused return");
    must(niloferq_unpack(NULL, 0, room, sizeof room, &told, 1) == 1000 && untouched(0) && told == UNTOUCHED, "texts: no return");
    must(niloferq_pack(NULL, 0, room, sizeof room, &told, 1) == 2 && untouched(0) && told == UNTOUCHED, "texts: no text, NULL");
    faults();
    rows_refused();
}
