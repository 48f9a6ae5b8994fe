/* What the tests of the chart share: the program itself, with two of its calls in the test's hands; numbers drawn from a seed; returns made of rows;
 * and whole runs. */
#ifndef CHART_TEST_H
#define CHART_TEST_H

#define _POSIX_C_SOURCE 200809L
#include "niloferq.h"

struct bytes {
    uint8_t b[NILOFERQ_RETURN_ROOM];
    size_t length;
};

/* The chart's own calls come through here, so that it can be given the doubles or the rows of another return. */
static const struct bytes *other_doubles, *other_rows;
static uint32_t subtotal_for_chart(const uint8_t *bytes, size_t length, uint32_t code, uint8_t *room, size_t room_length) {
    if (other_doubles) return niloferq_subtotal(other_doubles->b, other_doubles->length, code, room, room_length);
    return niloferq_subtotal(bytes, length, code, room, room_length);
}
static uint32_t read_for_chart(const uint8_t *bytes, size_t length, uint32_t *rows, size_t rows_length, uint32_t *counts, size_t counts_length) {
    if (other_rows) return niloferq_read(other_rows->b, other_rows->length, rows, rows_length, counts, counts_length);
    return niloferq_read(bytes, length, rows, rows_length, counts, counts_length);
}
#define niloferq_subtotal subtotal_for_chart
#define niloferq_read read_for_chart
#define main chart_main
#include "chart.c"
#undef main
#undef niloferq_read
#undef niloferq_subtotal

static unsigned long failures;
static inline void must(bool holds, const char *what, unsigned long which) {
    if (holds) return;
    if (failures++ < 20) printf("FAILED: %s, case %lu\n", what, which);
}

/* ---- numbers drawn from a seed ---- */

static uint64_t state = 20240501;
static inline uint64_t draw64(void) { /* splitmix64 */
    uint64_t z = state += UINT64_C(0x9e3779b97f4a7c15);
    z = (z ^ z >> 30) * UINT64_C(0xbf58476d1ce4e5b9);
    z = (z ^ z >> 27) * UINT64_C(0x94d049bb133111eb);
    return z ^ z >> 31;
}
static inline uint32_t from_to(uint32_t least, uint32_t most) { return least + (uint32_t)(draw64() % ((uint64_t)most - least + 1)); }
/* As often an end of the range, or a small number, as one from the middle. */
static inline uint32_t up_to(uint32_t most) {
    switch (draw64() % 6) {
    case 0: return most;
    case 1: return draw64() % 2 && most ? most - 1 : 0;
    case 2: return from_to(0, most < 9 ? most : 9);
    default: return from_to(0, most);
    }
}

/* ---- rows, and returns made of them ---- */

enum { FIELDS = NILOFERQ_CONVERSION_NUMBERS, ROWS = NILOFERQ_MOST_ROWS };
typedef uint32_t row[FIELDS];

/* What a return has besides its conversion rows that no subtotal takes: so many of the largest rows. */
struct besides {
    uint32_t edition, land, savanna, crops;
};

/* From none to all rows of abandoned land, of savanna and of crop residues, by turns that differ; edition 1 has none. */
static inline struct besides in_edition(uint32_t edition, unsigned long which) {
    struct besides more = {edition, 0, 0, 0};
    if (edition == 1) return more;
    more.land = (uint32_t)(which % (NILOFERQ_MOST_ROWS + 1));
    more.savanna = (uint32_t)(which / 2 % (NILOFERQ_MOST_ROWS + 1));
    more.crops = (uint32_t)(which / 3 % (NILOFERQ_MOST_ROWS + 1));
    return more;
}

/* Copies of a row with ids from 0 on. The answer is where the next kind begins. */
static inline uint32_t *put_rows(uint32_t *at, const uint32_t *like, uint32_t numbers, uint32_t count) {
    for (uint32_t i = 0; i < count; i++, at += numbers) {
        memcpy(at, like, numbers * sizeof *at);
        at[0] = i;
    }
    return at;
}

/* n conversion rows, the default parameters, and what else there is; and as many of the largest harvest rows, so that not more wood is cleared than
 * used: 100 K is 1.2 x 10^13 of each of them, and L at most 10^13 of each conversion row. */
static inline void make(struct bytes *r, row *rows, uint32_t n, struct besides more) {
    static const uint32_t harvest[NILOFERQ_HARVEST_NUMBERS] = {0, 10000000, 10000, 10000000, 10000000};
    static const uint32_t land[NILOFERQ_ABANDONED_NUMBERS] = {0, 10000000, 10000, 1000, 10000000, 10000, 1000};
    static const uint32_t grass[NILOFERQ_SAVANNA_NUMBERS] = {0, 1000000, 10000, 1000, 500, 1000, 1000, 1000, 1000, 1000, 1000, 1000, 1000, 1000};
    static const uint32_t straw[NILOFERQ_CROP_NUMBERS] = {0, 10000000, 1000, 1000, 1000, 1000, 10000, 1000, 1000, 1000, 1000, 1000};
    static const uint32_t defaults[NILOFERQ_PARAMETERS_NUMBERS] = {500, 12, 60, 10, 7, 121};
    const uint32_t lengths[NILOFERQ_KINDS] = {n * FIELDS, 0, n * NILOFERQ_HARVEST_NUMBERS, NILOFERQ_PARAMETERS_NUMBERS,
                                              more.land * NILOFERQ_ABANDONED_NUMBERS, more.savanna * NILOFERQ_SAVANNA_NUMBERS, 0,
                                              more.crops * NILOFERQ_CROP_NUMBERS};
    static uint32_t area[NILOFERQ_ROWS_ROOM];
    memcpy(area, rows, n * sizeof *rows);
    uint32_t *at = put_rows(area + n * FIELDS, harvest, NILOFERQ_HARVEST_NUMBERS, n);
    memcpy(at, defaults, sizeof defaults);
    at = put_rows(at + NILOFERQ_PARAMETERS_NUMBERS, land, NILOFERQ_ABANDONED_NUMBERS, more.land);
    at = put_rows(at, grass, NILOFERQ_SAVANNA_NUMBERS, more.savanna);
    at = put_rows(at, straw, NILOFERQ_CROP_NUMBERS, more.crops);
    uint32_t size = 0;
    uint32_t answer = niloferq_write(more.edition, area, (size_t)(at - area), lengths, NILOFERQ_KINDS, r->b, sizeof r->b, &size, 1);
    must(answer == 0, "the test's own rows are good", answer);
    r->length = size;
}

/* The difference that counts: none where more is left than there was. */
static inline uint32_t counted(uint32_t before, uint32_t after) { return before < after ? 0 : before - after; }

/* A row's part of a subtotal, by the rules of worksheet 5-2, without the library. */
static inline whole part(const uint32_t *r, int code) {
    if (code == 2) return (whole)r[10] * counted(r[11], r[12]) * r[13] * 1000 * r[14];
    const uint32_t *f = r + 4 + 3 * code;
    return (whole)r[1] * counted(r[2], r[3]) * f[0] * f[1] * f[2];
}

/* Every eighth period is thinner, or may be. */
static inline void random_row(uint32_t *r, uint32_t id) {
    r[0] = id;
    r[1] = up_to(1000000), r[10] = up_to(1000000);
    r[2] = up_to(10000), r[3] = up_to(draw64() % 8 ? r[2] : 10000);
    r[11] = up_to(10000), r[12] = up_to(draw64() % 8 ? r[11] : 10000);
    uint32_t left = 1000;
    static const int fractions[3] = {4, 7, 13};
    for (uint32_t i = from_to(0, 2), k = 0; k < 3; k++, i = (i + 1) % 3) left -= r[fractions[i]] = up_to(left);
    r[5] = up_to(1000), r[6] = up_to(1000), r[8] = up_to(1000), r[9] = up_to(1000), r[14] = up_to(1000);
}

/* A row of odd factors near the top, where every step of a double rounds. */
static inline void sharp_row(uint32_t *r, uint32_t id) {
    static const row sharp = {0, 999999, 9999, 0, 333, 999, 997, 331, 991, 999, 999983, 9973, 0, 333, 997};
    memcpy(r, sharp, sizeof sharp);
    r[0] = id;
    r[1] -= 2 * from_to(0, 999);
    r[3] += 2 * from_to(0, 9);
}

/* ---- whole runs of the program, with what it prints and says caught ---- */

static char printed[65536], caught[4096];
static unsigned long runs;

/* Turns a stream into a file of its own; the answer is what it was. */
static inline int turn(FILE *stream, FILE *file) {
    fflush(stream);
    int before = dup(fileno(stream));
    dup2(fileno(file), fileno(stream));
    return before;
}

static inline void turn_back(FILE *stream, FILE *file, int before, char *text, size_t room) {
    fflush(stream);
    dup2(before, fileno(stream));
    close(before);
    rewind(file);
    text[fread(text, 1, room - 1, file)] = 0;
    fclose(file);
}

/* The words end at the first NULL. */
static inline int run_words(char **words) {
    int count = 0;
    while (words[count]) count++;
    FILE *out = tmpfile(), *said = tmpfile();
    int before_out = turn(stdout, out), before_said = turn(stderr, said);
    int status = chart_main(count, words);
    runs++;
    turn_back(stderr, said, before_said, caught, sizeof caught);
    turn_back(stdout, out, before_out, printed, sizeof printed);
    return status;
}
#define run(...) run_words((char *[]){"chart", __VA_ARGS__, NULL})

static inline size_t slurp(const char *path, char *text, size_t room) {
    FILE *file = fopen(path, "rb");
    if (!file) return 0;
    size_t size = fread(text, 1, room - 1, file);
    fclose(file);
    text[size] = 0;
    return size;
}

static inline void spill(const char *path, const struct bytes *r) {
    FILE *file = fopen(path, "wb");
    must(file && fwrite(r->b, 1, r->length, file) == r->length && fclose(file) == 0, "the test's own file", 0);
}

#endif
