/* Writes returns for examples/page_test to standard output: page_returns SEED ROWS EDITION, with so many rows of each kind that the edition has, their
 * numbers taken by the seed. Seed 0 takes the largest numbers that no limit refuses, with as many digits as may be. Status 0: written. 1: not. */
#include "niloferq.h"
#include <stdbool.h>
#include <stdio.h>
#include <stdlib.h>

static uint64_t state;
static bool largest;

/* A number from 0 to the limit. */
static uint32_t any(uint32_t limit) {
    if (largest) return limit - (uint32_t)(state += 7) % (limit / 100 + 1);
    state = state * UINT64_C(6364136223846793005) + UINT64_C(1442695040888963407);
    return (uint32_t)((state >> 33) % ((uint64_t)limit + 1));
}

static uint32_t rows[NILOFERQ_ROWS_ROOM], *next = rows;
static void put(uint32_t value) { *next++ = value; }

/* The limits behind the id of each kind, and the unit code of a stock row left to the edition. */
static const uint32_t limits[NILOFERQ_KINDS + 1][16] = {
    {0},
    {1000000, 10000, 10000, 400, 1000, 1000, 300, 1000, 1000, 1000000, 10000, 10000, 300, 1000},
    {1, 10000, 10000000, 1000},
    {10000000, 10000, 10000000, 10000000},
    {1000, 1000, 1000, 1000, 1000, 1000},
    {10000000, 10000, 1000, 10000000, 10000, 1000},
    {1000000, 10000, 1000, 1000, 1000, 1000, 1000, 1000, 1000, 1000, 1000, 1000, 1000},
    {65535, 3, 100000, 100000, 10000, 300, 300, 300},
    {10000000, 1000, 1000, 1000, 1000, 10000, 1000, 1000, 1000, 1000, 1000},
};

static void put_row(int kind, uint32_t i, uint32_t id, uint32_t edition) {
    uint32_t *row = next;
    if (kind != 4) put(id);
    for (int field = 0; limits[kind][field]; field++) put(any(limits[kind][field]));
    if (kind == 1 && largest) row[3] = i % 8 == 5 ? 10000 : i, row[12] = i; /* large differences, and some thinner periods */
    if (kind == 2) row[1] = edition == 3 ? 0 : largest ? i % 5 == 4 : any(1);
    if (kind == 7) row[4] = row[3]; /* as much land now as twenty years ago: */
}

/* Two rows of a soil type give each other a part of their land. */
static void exchange_land(uint32_t *first, uint32_t count) {
    for (uint32_t i = 0; i + 1 < count; i += 2) {
        uint32_t *a = first + NILOFERQ_SOIL_NUMBERS * i, *b = a + NILOFERQ_SOIL_NUMBERS;
        uint32_t part = any(a[3] < 100000 - b[3] ? a[3] : 100000 - b[3]);
        b[2] = a[2];
        a[3] -= part, b[3] += part;
    }
}

int main(int count, char **words) {
    static uint8_t room[NILOFERQ_RETURN_ROOM];
    uint32_t lengths[NILOFERQ_KINDS], size, edition = count == 4 ? (uint32_t)atoi(words[3]) : 0, most = count == 4 ? (uint32_t)atoi(words[2]) : 0;
    if (count != 4 || most > NILOFERQ_MOST_ROWS) return 1;
    largest = atoi(words[1]) == 0;
    state = (uint64_t)atoi(words[1]);
    for (int kind = 1; kind <= NILOFERQ_KINDS; kind++) {
        uint32_t *first = next, n = kind == 4 ? 1 : edition == 1 && kind > 4 ? 0 : most;
        for (uint32_t i = 0; i < n; i++) put_row(kind, i, largest ? 4294967295u - n + i : 3 * i + any(2), edition);
        if (kind == 7) exchange_land(first, n);
        lengths[kind - 1] = (uint32_t)(next - first);
    }
    uint32_t answer = niloferq_write(edition, rows, (size_t)(next - rows), lengths, NILOFERQ_KINDS, room, sizeof room, &size, 1);
    if (answer) fprintf(stderr, "page_returns: refused %u %u\n", answer / 1000, answer % 1000);
    return answer || fwrite(room, 1, size, stdout) != size || fflush(stdout) != 0;
}
