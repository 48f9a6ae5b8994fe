/* Looks up table 5-2: table52 [COUNTRY [ZONE]]. Prints a line of column names, then a line for each entry. docs/TABLE52.md says how to read it.
 * Status 0: printed. 1: no such country or zone, or the lines were not written. 2: wrong use. */
#include "niloferq.h"
#include "table52_find.h"
#include <errno.h>

/* A name in so many columns: printf would count bytes, and an accented letter has two. */
static void print_name(const char *name, int columns) {
    printf("%s", name);
    for (; *name; name++) columns -= (*name & 0xc0) != 0x80; /* the second byte of a letter is no column */
    printf("%*s", columns < 0 ? 0 : columns, "");
}

/* A figure from its two elements of the room, behind two spaces or more: tenths, written out exactly. */
static void print_figure(const int32_t given[2], int columns) {
    char text[16] = "not given";
    if (given[0]) {
        uint32_t size = given[1] < 0 ? 0 - (uint32_t)given[1] : (uint32_t)given[1];
        snprintf(text, sizeof text, "%s%u.%u", given[1] < 0 ? "-" : "", size / 10, size % 10);
    }
    printf("  %*s", columns, text);
}

/* As wide as the longest name, and as the heads of the figures. */
enum { COUNTRY_COLUMNS = 17, ZONE_COLUMNS = 31, AREA_COLUMNS = 9, RATE_COLUMNS = 14 };

static void print_heads(void) {
    printf("%-3s  %-*s  %-3s  %-*s  %*s  %*s  %*s\n", "no.", COUNTRY_COLUMNS, "country", "no.", ZONE_COLUMNS, "zone", AREA_COLUMNS, "1980, kha",
           AREA_COLUMNS, "1990, kha", RATE_COLUMNS, "rate, kha/year");
}

static void print_entry(uint32_t country, uint32_t zone, const int32_t *room) {
    printf("%-3u  ", country);
    print_name(COUNTRY_NAMES[country], COUNTRY_COLUMNS);
    printf("  %-3u  ", zone);
    print_name(ZONE_NAMES[zone], ZONE_COLUMNS);
    print_figure(room, AREA_COLUMNS);
    print_figure(room + 2, AREA_COLUMNS);
    print_figure(room + 4, RATE_COLUMNS);
    printf("%s\n", room[6] ? "  marked" : "");
}

/* The entries from these numbers up to, but not with, those. */
static int print_entries(uint32_t country, uint32_t countries_end, uint32_t first_zone, uint32_t zones_end) {
    print_heads();
    for (; country < countries_end; country++)
        for (uint32_t zone = first_zone; zone < zones_end; zone++) {
            int32_t room[NILOFERQ_TABLE52_ROOM];
            uint32_t answer = niloferq_table52(country, zone, room, NILOFERQ_TABLE52_ROOM);
            if (answer != 0) {
                fprintf(stderr, "table52: the library answers %u to country %u and zone %u\n", answer, country, zone);
                return 1;
            }
            print_entry(country, zone, room);
        }
    if (fflush(stdout) != 0 || ferror(stdout)) {
        fprintf(stderr, "table52: cannot write standard output: %s\n", strerror(errno));
        return 1;
    }
    return 0;
}

int main(int count, char **words) {
    if (count > 3 || (count > 1 && words[1][0] == '-') || (count > 2 && words[2][0] == '-')) {
        fprintf(stderr, "usage: table52 [COUNTRY [ZONE]]\n");
        return 2;
    }
    if (count < 2) return print_entries(0, COUNTRY.size, 0, ZONE.size);
    uint32_t country = number_of(&COUNTRY, words[1]), zone = count == 3 ? number_of(&ZONE, words[2]) : 0;
    int32_t room[NILOFERQ_TABLE52_ROOM];
    uint32_t answer = niloferq_table52(country, zone, room, NILOFERQ_TABLE52_ROOM);
    if (answer == 1) return say_off(&COUNTRY, words[1]);
    if (answer == 2 && count == 3) return say_off(&ZONE, words[2]);
    return print_entries(country, country + 1, zone, count == 3 ? zone + 1 : ZONE.size);
}
