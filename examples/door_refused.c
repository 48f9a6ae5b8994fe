/* A refused return, by every function that reads one. */
#include "door_test.h"
#include <stdio.h>
#include <string.h>

/* A room, or the rest of one, is as it was. */
static int kept(const void *room, size_t size) {
    const uint8_t *bytes = room;
    while (size && bytes[size - 1] == 0xee) size--;
    return size == 0;
}

void must_tell(size_t (*tell)(const uint8_t *, size_t, uint8_t *, size_t), const uint8_t *bytes, size_t length, const char *due, int how,
               const char *what) {
    uint8_t room[NILOFERQ_EXPLAIN_ROOM + SPARE];
    size_t begins = strlen(due), size = begins;
    if (how == GOES_ON) size = tell(bytes, length, room, NILOFERQ_EXPLAIN_ROOM);
    must(how == WHOLE || size > begins, what);
    for (size_t n = 0; n <= sizeof room; n++) {
        memset(room, 0xee, sizeof room);
        size_t answer = tell(bytes, length, room, n);
        if (n < size)
            must(answer == 0 && kept(room, sizeof room), what);
        else
            must(answer == size && memcmp(room, due, begins) == 0 && kept(room + size, sizeof room - size), what);
    }
    must(tell(bytes, length, NULL, 0) == 0, what);
}

void must_be_refused(const uint8_t *bytes, size_t length, uint32_t answer, const char *what) {
    static const uint32_t codes[] = {0, 1, 2, 3, 256, UINT32_MAX};
    enum { ROWS = NILOFERQ_ROWS_ROOM, FIGURES = NILOFERQ_FIGURES_ROOM + SPARE };
    static uint32_t rows[ROWS], counts[NILOFERQ_COUNTS + SPARE];
    uint64_t words[FIGURES];
    uint8_t bits[8 + SPARE];
    char line[32];
    memset(rows, 0xee, sizeof rows), memset(counts, 0xee, sizeof counts), memset(words, 0xee, sizeof words), memset(bits, 0xee, sizeof bits);
    for (size_t n = 0; n <= NILOFERQ_COUNTS + SPARE; n++) must(niloferq_judge(bytes, length, counts, n) == answer, what);
    must(niloferq_judge(bytes, length, NULL, 0) == answer, what);
    for (size_t n = 0; n <= FIGURES; n++) must(niloferq_figures(bytes, length, words, n) == answer, what);
    must(niloferq_figures(bytes, length, NULL, 0) == answer, what);
    for (size_t i = 0; i < sizeof codes / sizeof *codes; i++) {
        for (size_t n = 0; n <= sizeof bits; n++) must(niloferq_subtotal(bytes, length, codes[i], bits, n) == answer, what);
        for (size_t n = 0; n <= NILOFERQ_HEAVIEST_ROOM + SPARE; n++) must(niloferq_heaviest(bytes, length, codes[i], words, n) == answer, what);
        must(niloferq_subtotal(bytes, length, codes[i], NULL, 0) == answer && niloferq_heaviest(bytes, length, codes[i], NULL, 0) == answer, what);
    }
    for (size_t n = 0; n <= NILOFERQ_COUNTS + SPARE; n++)
        for (size_t m = 0; m <= ROWS; m += m < 16 ? 1 : ROWS - 16) must(niloferq_read(bytes, length, rows, m, counts, n) == answer, what);
    must(niloferq_read(bytes, length, NULL, 0, NULL, 0) == answer, what);
    must(kept(rows, sizeof rows) && kept(counts, sizeof counts) && kept(words, sizeof words) && kept(bits, sizeof bits), "a refusal changes nothing");
    sprintf(line, "refused %u %u\n", answer / 1000, answer % 1000);
    must_tell(niloferq_lines, bytes, length, line, WHOLE, what);
    must_tell(niloferq_explain, bytes, length, line, GOES_ON, what);
}
