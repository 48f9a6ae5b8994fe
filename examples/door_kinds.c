/* The table of kinds, and rows and returns made from it. */
#include "door_test.h"
#include <string.h>

/* Limits have the id's, which is any number, in front. In a record an id, an area and a production have four bytes, anything else two, then there are zeros. */
const struct kind KINDS[NILOFERQ_KINDS + 1] = {
    [CONVERSION] = {1, NILOFERQ_CONVERSION_NUMBERS, NILOFERQ_MOST_ROWS, .row = {7, 200, 1000, 100, 400, 900, 500, 200, 900, 500, 300, 1000, 100, 300, 500}},
    [STOCK] = {1, NILOFERQ_STOCK_NUMBERS, NILOFERQ_MOST_ROWS, .row = {1, 0, 680, 1000, 500}},
    [HARVEST] = {1, NILOFERQ_HARVEST_NUMBERS, NILOFERQ_MOST_ROWS, .row = {1, 500, 950, 300, 0}},
    [PARAMETERS] = {1, NILOFERQ_PARAMETERS_NUMBERS, 1, .row = {500, 12, 60, 10, 7, 121}},
    [ABANDONED] = {2, NILOFERQ_ABANDONED_NUMBERS, NILOFERQ_MOST_ROWS, .row = {3, 300, 250, 500, 420, 75, 450},
        .limits = {UINT32_MAX, 10000000, 10000, 1000, 10000000, 10000, 1000},
        .record = {3, 0, 0, 0, 0x2c, 1, 0, 0, 250, 0, 0xf4, 1, 0xa4, 1, 0, 0, 75, 0, 0xc2, 1}},
    [SAVANNA] = {2, NILOFERQ_SAVANNA_NUMBERS, NILOFERQ_MOST_ROWS, .row = {1, 500, 70, 850, 450, 800, 450, 1000, 400, 6, 4, 60, 7, 121},
        .limits = {UINT32_MAX, 1000000, 10000, 1000, 1000, 1000, 1000, 1000, 1000, 1000, 1000, 1000, 1000, 1000},
        .record = {1, 0, 0, 0, 0xf4, 1, 0, 0, 70, 0, 0x52, 3, 0xc2, 1, 0x20, 3, 0xc2, 1, 0xe8, 3, 0x90, 1, 6, 0, 4, 0, 60, 0, 7, 0, 121, 0}},
    [SOIL] = {2, NILOFERQ_SOIL_NUMBERS, NILOFERQ_MOST_ROWS, .row = {1, 258, 772, 4000, 4000, 600, 60, 90, 80},
        .limits = {UINT32_MAX, 65535, 65535, 100000, 100000, 10000, 300, 300, 300},
        .record = {1, 0, 0, 0, 2, 1, 4, 3, 0xa0, 0x0f, 0, 0, 0xa0, 0x0f, 0, 0, 0x58, 2, 60, 0, 90, 0, 80, 0}},
    [CROP] = {2, NILOFERQ_CROP_NUMBERS, NILOFERQ_MOST_ROWS, .row = {1, 10000, 130, 850, 250, 900, 4853, 12, 5, 60, 7, 121},
        .limits = {UINT32_MAX, 10000000, 1000, 1000, 1000, 1000, 10000, 1000, 1000, 1000, 1000, 1000},
        .record = {1, 0, 0, 0, 0x10, 0x27, 0, 0, 130, 0, 0x52, 3, 250, 0, 0x84, 3, 0xf5, 0x12, 12, 0, 5, 0, 60, 0, 7, 0, 121, 0}},
};

void fill_shape(shape counts, uint32_t edition, uint32_t rows) {
    counts[EDITION] = edition;
    counts[SCATTERED] = 0;
    for (uint32_t kind = 1; kind <= NILOFERQ_KINDS; kind++) counts[kind] = KINDS[kind].since > edition ? 0 : kind == PARAMETERS ? 1 : rows;
}

uint32_t first_block(const shape counts, uint32_t kind) {
    uint32_t block = 0;
    for (uint32_t before = 1; before < kind; before++) block += (counts[before] + 11) / 12;
    return block;
}

size_t bytes_of(const shape counts) { return 512 * (size_t)first_block(counts, NILOFERQ_KINDS + 1); }

void fill_rows(struct rows *r, const shape counts) {
    memset(r, 0, sizeof *r);
    memcpy(r->counts, counts, sizeof r->counts);
    r->lengths_len = NILOFERQ_KINDS;
    for (uint32_t kind = 1; kind <= NILOFERQ_KINDS; kind++) {
        for (uint32_t i = 0; i < counts[kind]; i++) {
            uint32_t *row = r->area + r->area_len;
            memcpy(row, KINDS[kind].row, 4 * KINDS[kind].numbers);
            if (kind != PARAMETERS) row[0] += i;
            if (kind == STOCK) row[UNIT_CODE] = i < counts[SCATTERED];
            r->area_len += KINDS[kind].numbers;
        }
        r->lengths[kind - 1] = KINDS[kind].numbers * counts[kind];
    }
}

uint32_t *row_of(struct rows *r, uint32_t kind, uint32_t row) {
    uint32_t *at = r->area + KINDS[kind].numbers * row;
    for (uint32_t before = 1; before < kind; before++) at += r->lengths[before - 1];
    return at;
}

size_t written(const struct rows *r, uint8_t bytes[NILOFERQ_RETURN_ROOM]) {
    uint32_t size = 0;
    must(niloferq_write(r->counts[EDITION], r->area, r->area_len, r->lengths, r->lengths_len, bytes, NILOFERQ_RETURN_ROOM, &size, 1) == 0,
         "write: a good return");
    return size;
}

size_t written_as(const shape counts, uint8_t bytes[NILOFERQ_RETURN_ROOM]) {
    static struct rows r;
    fill_rows(&r, counts);
    return written(&r, bytes);
}

void put(uint8_t *at, uint32_t value, int width) {
    for (int i = 0; i < width; i++) at[i] = (uint8_t)(value >> 8 * i);
}

void put_check(uint8_t *block) {
    uint32_t check = 0;
    for (uint32_t i = 0; i < 508; i++) check += (i + 1) * block[i];
    put(block + 508, check, 4);
}

void put_editions(uint8_t *bytes, size_t length, uint32_t edition) {
    for (size_t at = 0; at < length; at += 512) {
        put(bytes + at + 6, edition, 2);
        put_check(bytes + at);
    }
}
