/* Niloferq for programs in C. Link libdoor.a (`tools/library` writes it to target/staticlib, for x86-64 Linux).
 *
 * What every call asks of its caller, since nothing checks C:
 *   - a pointer and the length after it belong together: that many elements can be read there, and, where the pointer is not to
 *     const, written;
 *   - no two of the lent areas overlap, and nothing else writes to them until the call returns;
 *   - a pointer to int32_t, uint32_t or uint64_t is aligned as that type is.
 * The pointer of an area of length 0 has to be a valid one too, as for any other length. NULL with length 0 is tried by
 * examples/door_test and works, though the compiler's guide does not promise it.
 *
 * A refusal is 1,000 times its number plus its place, by the paper's table; number 8 is not given any more; two of niloferq_table52 have
 * no number there and are 1 and 2; the faults of a text of rows (niloferq_pack) are 1 to 10; the refusal of a room that is too short, 9000 and when reading
 * also 9001 to 9008, comes last. On a refusal no lent element has changed, but for niloferq_lines, niloferq_explain, niloferq_nation and
 * niloferq_pack_why: the text of a refusal is its lines, and it is written like any other.
 *
 * The numbers of a return are tried in this order: 1 to 6, 14, 7, 12, 13; those of rows to be written: 10, 5, 6, 14, 7, 12, 13. Each is tried over the
 * whole input before the next.
 *
 * Number 14 is tried straight after 6: the unit code of a stock row is 1, for scattered trees, in edition 3, which has none. Its place is the row's. A unit
 * code of 2 or above is 6 in every edition.
 *
 * Number 12, always at place 0, is tried straight after 7: L is above 100 K, so that clearing would give more wood than was used. Equality is good.
 *   K is the sum over the harvest rows of F x G + 1,000 x (I + J), in 10^-4 kt;
 *   L is the sum over the conversion rows of area x (before - after, or 0 where after is above before) x off-site fraction, in 10^-6 kt.
 *
 * Number 13 is tried straight after 12: the areas now of a soil type's rows and those of twenty years ago add up to different sums. Its place is that of the
 * first row of the lowest soil type of which this is so.
 *
 * Rows in lent memory: a row is its fields in the order below, each a uint32_t, with no zero bytes between. The rows of all kinds
 * lie in one area, kind after kind: conversion, stock, harvest, parameters, abandoned land, savanna, mineral soil, crop residues, which are kinds 1 to 8.
 *
 * A return is of edition 1, 2 or 3. Edition 1 has kinds 1 to 4 alone, edition 2 all kinds; edition 3 is edition 2 without scattered trees. The judge and a
 * read tell the edition, and a write is told it.
 *
 * The fields of a row, from 0, each with its limit and its unit: a value is a whole number of the unit, from 0 up to the limit. An id may be any
 * number; within a kind the ids rise from row to row. On-site, off-site and decay fraction of a conversion row add up to at most 1,000. A carbon
 * fraction counts in 0.001, that of kind 8 alone in 0.0001.
 *
 *   kind 1, conversion
 *      0  id                                  any
 *      1  area                          1,000,000  0.01 kha
 *      2  before                           10,000  0.1 t/ha
 *      3  after                            10,000  0.1 t/ha
 *      4  on-site_fraction                  1,000  0.001
 *      5  on-site_oxidised_fraction         1,000  0.001
 *      6  on-site_carbon_fraction           1,000  0.001
 *      7  off-site_fraction                 1,000  0.001
 *      8  off-site_oxidised_fraction        1,000  0.001
 *      9  off-site_carbon_fraction          1,000  0.001
 *     10  ten-year_area                 1,000,000  0.01 kha
 *     11  ten-year_before                  10,000  0.1 t/ha
 *     12  ten-year_after                   10,000  0.1 t/ha
 *     13  decay_fraction                    1,000  0.001
 *     14  decay_carbon_fraction             1,000  0.001
 *   kind 2, stock
 *      0  id                                  any
 *      1  unit_code                             1  0 is land, 1 is scattered trees, not in edition 3
 *      2  rate                             10,000  0.01 t/ha, or 0.0001 kt per thousand trees
 *      3  amount                       10,000,000  0.01 kha, or one thousand trees
 *      4  carbon_fraction                   1,000  0.001
 *   kind 3, harvest
 *      0  id                                  any
 *      1  F (commercial harvest)       10,000,000  0.1 thousand m3
 *      2  G (tonnes per m3)                10,000  0.001
 *      3  I (fuelwood)                 10,000,000  0.1 kt
 *      4  J (other use)                10,000,000  0.1 kt
 *   kind 4, parameters
 *      0  N                                 1,000  0.001
 *      1  CH4                               1,000  0.001
 *      2  CO                                1,000  0.001
 *      3  N/C                               1,000  0.001
 *      4  N2O                               1,000  0.001
 *      5  NOx                               1,000  0.001
 *   kind 5, abandoned land
 *      0  id                                  any
 *      1  area                         10,000,000  0.01 kha
 *      2  growth_rate                      10,000  0.01 t/ha
 *      3  carbon_fraction                   1,000  0.001
 *      4  longer_area                  10,000,000  0.01 kha
 *      5  longer_growth_rate               10,000  0.01 t/ha
 *      6  longer_carbon_fraction            1,000  0.001
 *   kind 6, savanna
 *      0  id                                  any
 *      1  area                          1,000,000  0.01 kha
 *      2  density                          10,000  0.1 t/ha
 *      3  fraction_really_burned            1,000  0.001
 *      4  live_fraction                     1,000  0.001
 *      5  live_oxidised_fraction            1,000  0.001
 *      6  live_carbon_fraction              1,000  0.001
 *      7  dead_oxidised_fraction            1,000  0.001
 *      8  dead_carbon_fraction              1,000  0.001
 *      9  N/C                               1,000  0.001
 *     10  CH4                               1,000  0.001
 *     11  CO                                1,000  0.001
 *     12  N2O                               1,000  0.001
 *     13  NOx                               1,000  0.001
 *   kind 7, mineral soil
 *      0  id                                  any
 *      1  land_system                      65,535  a number of the desk's own
 *      2  soil_type                        65,535  a number of the desk's own
 *      3  area_now                        100,000  0.001 Mha
 *      4  area_then (twenty years ago)    100,000  0.001 Mha
 *      5  native (soil carbon)             10,000  0.1 t/ha
 *      6  base (factor)                       300  0.01
 *      7  tillage (factor)                    300  0.01
 *      8  input (factor)                      300  0.01
 *   kind 8, crop residues
 *      0  id                                  any
 *      1  production (of the crop)     10,000,000  0.1 kt
 *      2  residue_ratio (residue to crop)   1,000  0.01
 *      3  dry_matter (fraction)             1,000  0.001
 *      4  burned_fraction (in the field)    1,000  0.001
 *      5  oxidised_fraction                 1,000  0.001
 *      6  carbon_fraction                  10,000  0.0001
 *      7  N/C                               1,000  0.001
 *      8  CH4                               1,000  0.001
 *      9  CO                                1,000  0.001
 *     10  N2O                               1,000  0.001
 *     11  NOx                               1,000  0.001
 *
 * The place of a refusal by the numbers 5, 6, 7, 13 and 14 is that of a row: 12 times its block plus its position in the block, both from 0. A kind of n rows
 * takes (n + 11) / 12 blocks, twelve rows in each but the last, and the kinds stand one after the other. So, when writing, where n[k] rows of each
 * kind k are handed in, this tells which row of which kind is meant:
 *     block = place / 12;
 *     for (kind = 1; block >= (n[kind] + 11) / 12; kind++) block -= (n[kind] + 11) / 12;
 *     row = 12 * block + place % 12;
 * It is row `row`, from 0, of kind `kind`. When reading, the block at place / 12 says its kind in its first byte, and niloferq_explain names the row.
 */
#ifndef NILOFERQ_H
#define NILOFERQ_H

#include <stddef.h>
#include <stdint.h>

/* Of the functions below; 14 had no rows as text, 13 had seven kinds, 12 did not have the five figures of cleared biomass, 11 had two editions, no number 14 and no `scattered`, 10
 * six kinds and no number 13, 9 no national line, 8 no number 12, 7 named no row in an explanation, 6 had no explanation, 5 no table, 4 had five kinds, 3
 * number 8 and no `thinner`, 2 four kinds and no edition, 1 an area for each kind. */
#define NILOFERQ_VERSION 15

#define NILOFERQ_EDITIONS 3            /* the latest edition */
#define NILOFERQ_KINDS 8               /* the kinds of rows */
/* The counts: counts[0] is the edition, counts[k] the rows of kind k, counts[NILOFERQ_SCATTERED] how many of the stock rows are scattered trees. */
#define NILOFERQ_SCATTERED (NILOFERQ_KINDS + 1)
#define NILOFERQ_COUNTS (NILOFERQ_KINDS + 2)
#define NILOFERQ_CONVERSION_NUMBERS 15 /* the numbers in a conversion row */
#define NILOFERQ_STOCK_NUMBERS 5       /* the numbers in a stock row */
#define NILOFERQ_HARVEST_NUMBERS 5     /* the numbers in a harvest row */
#define NILOFERQ_PARAMETERS_NUMBERS 6  /* the numbers in the row of parameters */
#define NILOFERQ_ABANDONED_NUMBERS 7   /* the numbers in a row of abandoned land */
#define NILOFERQ_SAVANNA_NUMBERS 14    /* the numbers in a row of savanna */
#define NILOFERQ_SOIL_NUMBERS 9        /* the numbers in a row of mineral soil */
#define NILOFERQ_CROP_NUMBERS 12       /* the numbers in a row of crop residues */
#define NILOFERQ_MOST_ROWS 32          /* the most rows of a kind in a return; of parameters there is always one */
#define NILOFERQ_FIGURES 38            /* the figures of a return */
#define NILOFERQ_MOST_RETURNS 500      /* the most returns of a national line */
#define NILOFERQ_LONGEST_TEXT 131072   /* the most bytes of a text of rows */

/* Rooms that are always enough. */
#define NILOFERQ_ROWS_ROOM                                                                                        \
    (NILOFERQ_MOST_ROWS * NILOFERQ_CONVERSION_NUMBERS + NILOFERQ_MOST_ROWS * NILOFERQ_STOCK_NUMBERS +             \
     NILOFERQ_MOST_ROWS * NILOFERQ_HARVEST_NUMBERS + NILOFERQ_PARAMETERS_NUMBERS +                                \
     NILOFERQ_MOST_ROWS * NILOFERQ_ABANDONED_NUMBERS +                                                            \
     NILOFERQ_MOST_ROWS * NILOFERQ_SAVANNA_NUMBERS +                                                              \
     NILOFERQ_MOST_ROWS * NILOFERQ_SOIL_NUMBERS +                                                                 \
     NILOFERQ_MOST_ROWS * NILOFERQ_CROP_NUMBERS) /* elements for the rows of a return, 2,150 */
#define NILOFERQ_RETURN_ROOM 11264                   /* bytes for a return */
#define NILOFERQ_FIGURES_ROOM (3 * NILOFERQ_FIGURES) /* elements for the figures, 114 */
#define NILOFERQ_LINES_ROOM 2280                     /* bytes for the lines */
#define NILOFERQ_EXPLAIN_ROOM 500                    /* bytes for an explanation */
#define NILOFERQ_NATION_ROOM 16000                   /* bytes for a national line */
#define NILOFERQ_HEAVIEST_ROOM 3                     /* elements for the heaviest row */
#define NILOFERQ_PACK_WHY_ROOM 400                   /* bytes for why a text can't be packed */
#define NILOFERQ_UNPACK_ROOM 33500                   /* bytes for a return's rows as text */

#define NILOFERQ_COUNTRIES 90   /* the countries of table 5-2 */
#define NILOFERQ_ZONES 6        /* its forest zones */
#define NILOFERQ_TABLE52_ROOM 7 /* elements for an entry of it */

#ifdef __cplusplus
extern "C" {
#endif

/* Judges a return: any bytes of any length.
 * 0: accepted, and the first NILOFERQ_COUNTS elements of counts are the edition, the numbers of conversion, stock, harvest, parameter,
 *    abandoned land, savanna, soil and crop rows, and how many of the stock rows are scattered trees, which is 0 in edition 3; later
 *    elements keep their values.
 * 1000 to 7263, 12000, 13000 to 13263, 14000 to 14263: refused, by the numbers of a return in their order, above. 9000: a good return, and
 *    counts_len is below NILOFERQ_COUNTS. */
uint32_t niloferq_judge(const uint8_t *bytes, size_t bytes_len, uint32_t *counts, size_t counts_len);

/* The NILOFERQ_FIGURES figures as numbers, in the order in which `sheets` prints them: E, K, L, M, O, P, Q, report, onsite, offsite, R,
 * decay, co2, ch4, co, n2o, nox, uptake, uptake_co2, thinner, savanna_carbon, savanna_ch4, savanna_co, savanna_n2o, savanna_nox, soil,
 * soil_change, scattered, oxidised_onsite, charcoal_onsite, oxidised_offsite, charcoal_offsite, unburned, crop_carbon, crop_ch4, crop_co, crop_n2o,
 * crop_nox. thinner is a count, of the periods of conversion rows whose density after is above that before, 0 to 64: such a period counts with a difference
 * of 0. soil is in 10^-4 t of carbon and soil_change in tonnes of carbon a year; both are above zero for a gain. scattered is a count, of the stock rows that
 * are scattered trees, 0 to 32. The five from oxidised_onsite on are dry matter in 10^-9 kt: what became of the cleared biomass. Together they are 1,000,000
 * times the sum over the conversion rows of area x (before - after, or 0 where after is above before). crop_carbon is in 10^-16 kt of carbon: the sum over
 * the crop rows of the product of their fields 1 to 6. The four behind it are tonnes of gas. Crop rows move no other figure.
 * 0: the first NILOFERQ_FIGURES_ROOM elements of room are three for each figure: 1 where it is below zero and else 0, then the upper
 *    and the lower word of its size, which is lower + 2^64 upper; later elements keep their values. Only P, Q, report, soil and
 *    soil_change may be below zero: the sign of M and O is always 0, since a return whose M would be below zero is refused.
 * 1000 to 7263, 12000, 13000 to 13263, 14000 to 14263: refused, by the numbers of a return in their order, above. 9000: a good return, and
 *    room_len is below NILOFERQ_FIGURES_ROOM. */
uint32_t niloferq_figures(const uint8_t *bytes, size_t bytes_len, uint64_t *room, size_t room_len);

/* The text that the program `sheets` prints: a line for each figure of a good return, or `refused`, number and place.
 * The text's length, and the text stands at the front of room, with no zero byte behind it; later bytes keep their values.
 * 0: room_len is below the text's length, and room is unchanged. NILOFERQ_LINES_ROOM bytes are always enough. */
size_t niloferq_lines(const uint8_t *bytes, size_t bytes_len, uint8_t *room, size_t room_len);

/* The text that the program `explain` prints: `refused`, number and place, then, where a row is refused, its block, its position there, its kind and its
 * id, and then the values that clash, a line each, for 12 `used`, which is 100 K, and `cleared`, which is L, for 13 `soil_type`, `area_now` and
 * `area_then`, its two sums, for 14 `unit_code` and `edition`; of a good return the heaviest conversion row of each of the three carbon subtotals, and
 * then the five figures of the cleared biomass. docs/EXPLAIN.md has the lines.
 * The text's length, and the text stands at the front of room, with no zero byte behind it; later bytes keep their values.
 * 0: room_len is below the text's length, and room is unchanged. NILOFERQ_EXPLAIN_ROOM bytes are always enough. */
size_t niloferq_explain(const uint8_t *bytes, size_t bytes_len, uint8_t *room, size_t room_len);

/* The heaviest row of a carbon subtotal, by its code: 0 on-site, 1 off-site, 2 decay. It is the conversion row with the largest exact part, the one
 * with the lower id on a tie; where the subtotal is zero there is none.
 * 0: the first NILOFERQ_HEAVIEST_ROOM elements of room are 1, the row's id and its part in 10^-12 kt C; or 0, 0, 0 where there is none, so that a
 *    row with id 0 is told apart from none. Later elements keep their values.
 * 1000 to 7263, 12000, 13000 to 13263, 14000 to 14263: refused, by the numbers of a return in their order, above. 11000: a good return
 *    and a code above 2. Last 9000: room_len is below NILOFERQ_HEAVIEST_ROOM. */
uint32_t niloferq_heaviest(const uint8_t *bytes, size_t bytes_len, uint32_t code, uint64_t *room, size_t room_len);

/* One of the three carbon subtotals as a double, by its code: 0 on-site, 1 off-site, 2 decay.
 * 0: the first eight bytes of room are the double's bits, the lowest byte first; later bytes keep their values. The double is a
 *    whole number of 10^-12 kt C, and its distance from the exact subtotal, times 2^53, is at most n + 2 times the exact subtotal,
 *    where n is the number of conversion rows.
 * 1000 to 7263, 12000, 13000 to 13263, 14000 to 14263: refused, by the numbers of a return in their order, above. 11000: a good return
 *    and a code above 2. Last 9000: room_len is below 8. */
uint32_t niloferq_subtotal(const uint8_t *bytes, size_t bytes_len, uint32_t code, uint8_t *room, size_t room_len);

/* The text that the program `nation` prints of a file of returns end to end, up to NILOFERQ_MOST_RETURNS, each cut by the number of blocks that its first
 * header says: a line for each refused return; a line that begins with `stopped` where the run was, which a caller has to look for, since the rest is then
 * of the returns before it alone; how many were accepted and refused; and the figures of the accepted ones. No bytes are no return, and all is 0.
 * docs/NATION.md has the lines.
 * The text's length, and the text stands at the front of room, with no zero byte behind it; later bytes keep their values.
 * 0: room_len is below the text's length, and room is unchanged. NILOFERQ_NATION_ROOM bytes are always enough. */
size_t niloferq_nation(const uint8_t *bytes, size_t bytes_len, uint8_t *room, size_t room_len);

/* The rows of a return, kind after kind. NILOFERQ_ROWS_ROOM and NILOFERQ_COUNTS elements are always enough.
 * 0: the rows of all kinds stand at the front of rows, and the first NILOFERQ_COUNTS elements of counts are what niloferq_judge tells; later
 *    elements of both keep their values.
 * 1000 to 7263, 12000, 13000 to 13263, 14000 to 14263: refused, by the numbers of a return in their order, above. Last, of a good return,
 *    the lowest place: 9000, counts_len is below NILOFERQ_COUNTS; 9001 to 9008, the lowest kind whose rows no longer fit: the rows of the kinds up to it
 *    have more numbers than rows_len. */
uint32_t niloferq_read(const uint8_t *bytes, size_t bytes_len, uint32_t *rows, size_t rows_len, uint32_t *counts, size_t counts_len);

/* The workbook's default parameters as a row of NILOFERQ_PARAMETERS_NUMBERS numbers: N 500, CH4 12, CO 60, N/C 10, N2O 7, NOx 121. No
 * other function puts them in: a return has a parameter row of its own, or is refused.
 * 0: they stand at the front of room; later elements keep their values. 9000: room_len is below NILOFERQ_PARAMETERS_NUMBERS. */
uint32_t niloferq_defaults(uint32_t *room, size_t room_len);

/* Rows as a return of an edition: at most NILOFERQ_MOST_ROWS of each kind, none needed, but exactly one of parameters. lengths has for
 * each kind, from kind 1 on, how many elements of rows are its rows: elements, not rows. NILOFERQ_RETURN_ROOM bytes and one element of
 * size are always enough.
 * 0: the blocks stand at the front of room, and the first element of size is their number of bytes; later elements of both keep
 *    their values. niloferq_read gives the same rows and the edition back.
 * First the lowest place of the number 10: 10000, there is no such edition, or lengths_len is not NILOFERQ_KINDS, or the lengths do not
 *    add up to rows_len; 10001 to 10008, the length of this kind is no whole number of its rows, or is more than NILOFERQ_MOST_ROWS of
 *    them, or for parameters isn't exactly one row, or isn't 0 though the edition does not have the kind. Then 5000 to
 *    7263, 12000, 13000 to 13263, 14000 to 14263: refused by 5, 6, 14, 7, 12 or 13, tried in this order, the place being where the
 *    record would stand: above is how to tell which row of which kind that is. Last 9000: room_len is below the number of bytes, or
 *    size_len is 0. */
uint32_t niloferq_write(uint32_t edition, const uint32_t *rows, size_t rows_len, const uint32_t *lengths, size_t lengths_len, uint8_t *room,
                        size_t room_len, uint32_t *size, size_t size_len);

/* A text of rows, as a spreadsheet saves it, as a return: any bytes of any length. docs/ROWS.md has the text. NILOFERQ_RETURN_ROOM bytes and one element
 * of size are always enough.
 * 0: the blocks stand at the front of room, and the first element of size is their number of bytes; later elements of both keep their values.
 * 1 to 10: the text's first fault, the lowest line and in it the first of: 1 long, 2 edition, 3 kind, 4 order, 5 rows, 6 fields, then of the first field at
 *    fault 7 unit, 8 number, 9 decimals, 10 large. Then 10000 to 10008, 5000 to 7263, 12000, 13000 to 13263, 14000 to 14263: its rows are refused, as
 *    niloferq_write refuses them. Last 9000: room_len is below the number of bytes, or size_len is 0. */
uint32_t niloferq_pack(const uint8_t *text, size_t text_len, uint8_t *room, size_t room_len, uint32_t *size, size_t size_len);

/* Why a text can't be packed: the lines that the program `pack` prints on standard error; of a text that can, `packed` and the number of bytes of its
 * return. docs/ROWS.md has the lines.
 * The lines' length, and they stand at the front of room, with no zero byte behind them; later bytes keep their values.
 * 0: room_len is below the length, and room is unchanged. NILOFERQ_PACK_WHY_ROOM bytes are always enough. */
size_t niloferq_pack_why(const uint8_t *text, size_t text_len, uint8_t *room, size_t room_len);

/* The rows of a return as text that niloferq_pack packs to the same bytes. NILOFERQ_UNPACK_ROOM bytes and one element of size are always enough.
 * 0: the text stands at the front of room, with no zero byte behind it, and the first element of size is its number of bytes; later elements of both keep
 *    their values.
 * 1000 to 7263, 12000, 13000 to 13263, 14000 to 14263: refused, by the numbers of a return in their order, above. Last 9000: room_len is below the
 *    number of bytes, or size_len is 0. */
uint32_t niloferq_unpack(const uint8_t *bytes, size_t bytes_len, uint8_t *room, size_t room_len, uint32_t *size, size_t size_len);

/* Table 5-2 of document 001: the forest area of 1980 and of 1990, in tenths of kha, and the yearly conversion rate, in tenths of kha a year and
 * below zero where forest grew, of a country in a forest zone. Both are numbered from 0 in the document's order without totals:
 * docs/TABLE52.csv has the names.
 * 0: the first NILOFERQ_TABLE52_ROOM elements of room are two for each of the three figures, 1 and the figure where it is given, 0 and 0 where it
 *    is not, so that a figure of zero (1, 0) is told apart from none (0, 0); then 1 where the entry is marked, as the source breaks the rule
 *    of the rates there, and else 0. Later elements keep their values.
 * 1: country is NILOFERQ_COUNTRIES or above. 2: it is not, and zone is NILOFERQ_ZONES or above. Both are below 1000, as the paper gives
 *    these refusals no number. Last 9000: room_len is below NILOFERQ_TABLE52_ROOM. */
uint32_t niloferq_table52(uint32_t country, uint32_t zone, int32_t *room, size_t room_len);

#ifdef __cplusplus
}
#endif

#endif
