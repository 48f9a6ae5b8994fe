/* Tries what include/niloferq.h says of a refused write: with one wrong row in a list of rows, the place of the refusal, told apart by the header's
 * lines, is that row. Prints how many were tried. Status 0 only if none is wrong. */
#include "niloferq.h"
#include <stdio.h>
#include <string.h>

static const uint32_t numbers[NILOFERQ_KINDS + 1] = {0, NILOFERQ_CONVERSION_NUMBERS, NILOFERQ_STOCK_NUMBERS, NILOFERQ_HARVEST_NUMBERS,
                                                     NILOFERQ_PARAMETERS_NUMBERS, NILOFERQ_ABANDONED_NUMBERS, NILOFERQ_SAVANNA_NUMBERS,
                                                     NILOFERQ_SOIL_NUMBERS, NILOFERQ_CROP_NUMBERS};

/* The answer to rows of zeros, n[k] of each kind with rising ids, where the first field behind the id of one row is wrong. */
static uint32_t answer_to(uint32_t edition, const uint32_t *n, uint32_t wrong_kind, uint32_t wrong_row, uint32_t wrong) {
    static uint32_t rows[NILOFERQ_ROWS_ROOM];
    static uint8_t room[NILOFERQ_RETURN_ROOM];
    uint32_t lengths[NILOFERQ_KINDS], size, length = 0;
    memset(rows, 0, sizeof rows);
    for (uint32_t kind = 1; kind <= NILOFERQ_KINDS; kind++) {
        lengths[kind - 1] = n[kind] * numbers[kind];
        for (uint32_t r = 0; r < n[kind]; r++, length += numbers[kind]) {
            if (kind != 4) rows[length] = r; /* the id; parameters have none */
            if (kind == wrong_kind && r == wrong_row) rows[length + (kind != 4)] = wrong;
        }
    }
    return niloferq_write(edition, rows, length, lengths, NILOFERQ_KINDS, room, sizeof room, &size, 1);
}

int main(void) {
    static const uint32_t counts[] = {0, 1, 2, 11, 12, 13, 23, 24, 25, 31, 32};
    enum { COUNTS = sizeof counts / sizeof *counts };
    unsigned tried = 0, bad = 0;
    for (uint32_t draw = 0; draw < 4000; draw++) {
        uint32_t n[NILOFERQ_KINDS + 1], z = draw * UINT32_C(2654435761); /* other counts for each kind, by turns that differ */
        for (uint32_t kind = 1; kind <= NILOFERQ_KINDS; kind++, z = z * UINT32_C(1664525) + UINT32_C(1013904223)) n[kind] = counts[(z >> 16) % COUNTS];
        n[4] = 1;
        uint32_t wrong_kind = 1 + draw % NILOFERQ_KINDS;
        if (n[wrong_kind] == 0) continue;
        uint32_t edition = 2 + draw / NILOFERQ_KINDS % 2, trees = edition == 3 && wrong_kind == 2; /* above its limit, 6; or scattered trees, 14 */
        uint32_t wrong_row = (z >> 8) % n[wrong_kind], answer = answer_to(edition, n, wrong_kind, wrong_row, trees ? 1 : UINT32_MAX);
        uint32_t place = answer % 1000, kind, block, row;
        /* the header's lines */
        block = place / 12;
        for (kind = 1; block >= (n[kind] + 11) / 12; kind++) block -= (n[kind] + 11) / 12;
        row = 12 * block + place % 12;
        tried++;
        if (answer / 1000 == (trees ? 14 : 6) && kind == wrong_kind && row == wrong_row) continue;
        bad++;
        printf("WRONG: answer %u with row %u of kind %u wrong is told as row %u of kind %u\n", answer, wrong_row, wrong_kind, row, kind);
    }
    printf("places: %u tried, %u wrong\n", tried, bad);
    return bad != 0 || tried < 3000;
}
