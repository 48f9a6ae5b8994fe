/* Stands between examples/page.c and the library for examples/page_test, by the linker's --wrap, and spoils one answer, so that it is seen that no page is
 * made then. SPOIL says which: "figure I" or "figure -I", one more or one less; "row KIND FIELD", one more or less in the first row of a kind; "heaviest CODE
 * I"; "subtotal CODE"; "explain"; "nation I", the I-th line's last digit. */
#include "niloferq.h"
#include <stdio.h>
#include <stdlib.h>
#include <string.h>

static int asked(const char *form, int *a, int *b) {
    const char *spoil = getenv("SPOIL");
    *a = *b = 0;
    return spoil && sscanf(spoil, form, a, b) >= (strchr(form, '%') ? 1 : 0) && strncmp(spoil, form, strcspn(form, " ")) == 0;
}

uint32_t __real_niloferq_figures(const uint8_t *bytes, size_t length, uint64_t *room, size_t room_len);
uint32_t __wrap_niloferq_figures(const uint8_t *bytes, size_t length, uint64_t *room, size_t room_len) {
    int i, none;
    uint32_t answer = __real_niloferq_figures(bytes, length, room, room_len);
    if (answer == 0 && asked("figure %d%d", &i, &none)) room[3 * abs(i) + 2] += i < 0 || (i == 0 && strstr(getenv("SPOIL"), "-")) ? UINT64_MAX : 1;
    return answer;
}

uint32_t __real_niloferq_read(const uint8_t *bytes, size_t length, uint32_t *rows, size_t rows_len, uint32_t *counts, size_t counts_len);
uint32_t __wrap_niloferq_read(const uint8_t *bytes, size_t length, uint32_t *rows, size_t rows_len, uint32_t *counts, size_t counts_len) {
    static const uint32_t numbers[NILOFERQ_KINDS + 1] = {0, NILOFERQ_CONVERSION_NUMBERS, NILOFERQ_STOCK_NUMBERS, NILOFERQ_HARVEST_NUMBERS,
        NILOFERQ_PARAMETERS_NUMBERS, NILOFERQ_ABANDONED_NUMBERS, NILOFERQ_SAVANNA_NUMBERS, NILOFERQ_SOIL_NUMBERS, NILOFERQ_CROP_NUMBERS};
    int kind, field;
    uint32_t answer = __real_niloferq_read(bytes, length, rows, rows_len, counts, counts_len), *row = rows;
    if (answer || !asked("row %d %d", &kind, &field)) return answer;
    for (int k = 1; k < kind; k++) row += numbers[k] * counts[k];
    row[field] += row[field] ? UINT32_MAX : 1;
    return 0;
}

uint32_t __real_niloferq_heaviest(const uint8_t *bytes, size_t length, uint32_t code, uint64_t *room, size_t room_len);
uint32_t __wrap_niloferq_heaviest(const uint8_t *bytes, size_t length, uint32_t code, uint64_t *room, size_t room_len) {
    int of, i;
    uint32_t answer = __real_niloferq_heaviest(bytes, length, code, room, room_len);
    if (answer == 0 && asked("heaviest %d %d", &of, &i) && (uint32_t)of == code) room[i] ^= 1;
    return answer;
}

uint32_t __real_niloferq_subtotal(const uint8_t *bytes, size_t length, uint32_t code, uint8_t *room, size_t room_len);
uint32_t __wrap_niloferq_subtotal(const uint8_t *bytes, size_t length, uint32_t code, uint8_t *room, size_t room_len) {
    int of, none;
    uint32_t answer = __real_niloferq_subtotal(bytes, length, code, room, room_len);
    if (answer == 0 && asked("subtotal %d%d", &of, &none) && (uint32_t)of == code) room[3] ^= 1;
    return answer;
}

size_t __real_niloferq_explain(const uint8_t *bytes, size_t length, uint8_t *room, size_t room_len);
size_t __wrap_niloferq_explain(const uint8_t *bytes, size_t length, uint8_t *room, size_t room_len) {
    int none, other;
    size_t size = __real_niloferq_explain(bytes, length, room, room_len);
    if (size && asked("explain", &none, &other)) room[8] ^= 1; /* the first digit of the number */
    return size;
}

size_t __real_niloferq_nation(const uint8_t *bytes, size_t length, uint8_t *room, size_t room_len);
size_t __wrap_niloferq_nation(const uint8_t *bytes, size_t length, uint8_t *room, size_t room_len) {
    int line, none;
    size_t size = __real_niloferq_nation(bytes, length, room, room_len);
    if (!asked("nation %d%d", &line, &none)) return size;
    for (size_t i = 0; i < size; i++)
        if (room[i] == '\n' && line-- == 1) room[i - 1] ^= 1;
    return size;
}
