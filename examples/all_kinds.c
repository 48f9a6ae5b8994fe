/* Writes a return of edition 2 with rows of every kind to standard output: all_kinds >FILE. examples/all_kinds.return is what it writes. It shows how a
 * program writes a return; include/niloferq.h has the fields of each kind with their units. Edition 3 would refuse its scattered trees, by 14.
 * Status 0: written. 1: not. */
#include "niloferq.h"
#include <stdio.h>

/* The rows of all kinds in one area, kind after kind. */
static const uint32_t rows[] = {
    /* conversion: id, area, before, after, three fractions on site, three off site, then area, before, after, decay and carbon fraction of the ten years */
    7, 200, 1000, 100, 400, 900, 500, 200, 900, 500, 300, 1000, 100, 300, 500, /* the worked day's: 2 kha of forest, 100 t/ha down to 10 */
    8, 150, 49, 100, 500, 900, 450, 0, 900, 450, 150, 49, 100, 100, 450,       /* grass thinner than the crop, in both periods: nothing to burn or decay */
    /* stock: id, unit code, growth rate, amount, carbon fraction */
    1, 0, 680, 1000, 500, /* 10 kha of land, 6.8 t/ha */
    2, 1, 50, 40, 500,    /* 40 thousand scattered trees, 0.005 kt per thousand */
    /* harvest: id, commercial harvest, tonnes per m3, fuelwood, other use */
    1, 500, 950, 300, 0,
    /* parameters: N, CH4, CO, N/C, N2O, NOx */
    500, 12, 60, 10, 7, 121,
    /* abandoned land: id, then area, growth rate and carbon fraction of up to twenty years, and the same of longer */
    1, 500, 200, 500, 300, 100, 500,
    /* savanna: id, area, density, fraction really burned, live fraction, oxidised and carbon fraction of the live and of the dead, N/C, CH4, CO, N2O, NOx */
    1, 10000, 66, 850, 550, 800, 450, 1000, 400, 6, 4, 60, 7, 121,
    /* mineral soil: id, land system, soil type, area now and twenty years ago, native soil carbon, base, tillage and input factor */
    1, 1, 3, 4000, 5000, 600, 100, 100, 100, /* forest: 1 Mha of it, 60 t/ha, became a field, on one soil type */
    2, 2, 3, 2000, 1000, 600, 60, 90, 80,
    /* crop residues: id, production, residue ratio, dry matter, burned and oxidised fraction, carbon fraction, N/C, CH4, CO, N2O, NOx */
    1, 10000, 130, 850, 250, 900, 4853, 12, 5, 60, 7, 121, /* 1,000 kt of wheat, a quarter of whose straw is burned in the field */
};

/* How many elements of the area are the rows of each kind. */
static const uint32_t lengths[NILOFERQ_KINDS] = {
    2 * NILOFERQ_CONVERSION_NUMBERS, 2 * NILOFERQ_STOCK_NUMBERS, NILOFERQ_HARVEST_NUMBERS,
    NILOFERQ_PARAMETERS_NUMBERS,     NILOFERQ_ABANDONED_NUMBERS, NILOFERQ_SAVANNA_NUMBERS,
    2 * NILOFERQ_SOIL_NUMBERS,       NILOFERQ_CROP_NUMBERS,
};

int main(void) {
    static uint8_t room[NILOFERQ_RETURN_ROOM];
    uint32_t size;
    uint32_t answer = niloferq_write(2, rows, sizeof rows / sizeof *rows, lengths, NILOFERQ_KINDS, room, sizeof room, &size, 1);
    if (answer != 0) {
        fprintf(stderr, "all_kinds: refused %u %u\n", answer / 1000, answer % 1000);
        return 1;
    }
    if (fwrite(room, 1, size, stdout) != size || fflush(stdout) != 0) {
        perror("all_kinds: cannot write standard output");
        return 1;
    }
    return 0;
}
