/* Tries returns byte by byte: editions, the records of the kinds above 4, numbers 3 to 6 in them, and the longest return. */
#include "door_test.h"
#include <string.h>

/* Puts an edition into a block, and the check that is then due. */
static void put_edition(uint8_t *block, uint32_t edition) {
    put(block + 6, edition, 2);
    put_check(block);
}

static uint32_t judged(const uint8_t *bytes, size_t length) {
    uint32_t counts[NILOFERQ_COUNTS];
    return niloferq_judge(bytes, length, counts, NILOFERQ_COUNTS);
}

/* The day's bytes in each edition, and number 3 for editions that are unknown, mixed, or have no such kind. */
static void editions_in_bytes(const uint8_t *day, size_t length) {
    static uint8_t bytes[NILOFERQ_RETURN_ROOM], by_hand[NILOFERQ_RETURN_ROOM];
    static const uint32_t unknown[] = {0, NILOFERQ_EDITIONS + 1, 257, 258, 259, 65535};
    shape one_each;
    memcpy(by_hand, day, length);
    for (uint32_t edition = 1; edition <= NILOFERQ_EDITIONS; edition++) {
        put_editions(by_hand, length, edition);
        must(written_as((const shape){edition, 1, 1, 1, 1}, bytes) == length && memcmp(bytes, by_hand, length) == 0,
             "write: the day in another edition has another edition and checks");
    }
    for (uint32_t edition = 2; edition <= NILOFERQ_EDITIONS; edition++) {
        fill_shape(one_each, edition, 1);
        length = written_as(one_each, bytes);
        must(length == NILOFERQ_KINDS * 512, "a row of each kind, a block each");
        for (uint32_t block = 0; block < NILOFERQ_KINDS; block++) must(bytes[512 * block] == block + 1, "the kinds stand in order");
        for (uint32_t other = 0; other <= NILOFERQ_EDITIONS + 1; other++)
            for (uint32_t block = 0; other != edition && block < NILOFERQ_KINDS; block++) {
                int unknown_first = block == 0 && (other == 0 || other > NILOFERQ_EDITIONS);
                put_edition(bytes + 512 * block, other); /* unlike block 0's, so with block 0 itself it is block 1 that is unlike, but where it is unknown */
                must(judged(bytes, length) == (block ? 3000 + block : unknown_first ? 3000 : 3001), "judge: an edition unlike block 0's");
                put_edition(bytes + 512 * block, edition);
            }
        must(judged(bytes, length) == 0, "judge: one edition everywhere");
    }
    for (size_t i = 0; i < sizeof unknown / sizeof *unknown; i++) {
        put_editions(bytes, length, unknown[i]);
        must(judged(bytes, length) == 3000, "judge: an unknown edition");
    }
}

/* The day with a row of a kind above 4: where it stands, its bytes, and number 3 in edition 1. */
static void later_in_bytes(uint32_t kind, uint32_t edition) {
    static uint8_t bytes[NILOFERQ_RETURN_ROOM];
    shape counts = {edition, 1, 1, 1, 1};
    counts[kind] = 1;
    size_t length = written_as(counts, bytes);
    must(length == 5 * 512 && bytes[3 * 512] == PARAMETERS && bytes[4 * 512] == kind, "a kind above 4 stands after the parameters");
    must(memcmp(bytes + 4 * 512 + 8, KINDS[kind].record, 40) == 0, "the bytes of its row");
    put_editions(bytes, length, 1);
    must(judged(bytes, length) == 3004, "judge: a kind above 4 in edition 1");
}

/* The answer to a return with another number at a place of one of its blocks, the check being right; then it is as it was. */
static uint32_t judged_with(uint8_t *bytes, size_t length, size_t block, size_t at, uint32_t value, int width) {
    uint8_t kept[512];
    memcpy(kept, bytes + 512 * block, 512);
    put(bytes + 512 * block + at, value, width);
    put_check(bytes + 512 * block);
    uint32_t answer = judged(bytes, length);
    memcpy(bytes + 512 * block, kept, 512);
    return answer;
}

/* An area or a production has four bytes, and a limit that needs them; anything else has two. */
static int width_of(uint32_t kind, uint32_t field) { return KINDS[kind].limits[field] > 65535 ? 4 : 2; }

/* Numbers 3 to 6 at the thirteenth row of a kind above 4, which is alone in its second block. */
static void thirteenth_in_bytes(uint32_t kind, uint32_t edition) {
    static uint8_t bytes[NILOFERQ_RETURN_ROOM];
    shape thirteen;
    fill_shape(thirteen, edition, 13);
    size_t length = written_as(thirteen, bytes), at = 8 + 4;
    uint32_t block = first_block(thirteen, kind) + 1, place = 12 * block;
    must(judged(bytes, length) == 0, "judge: thirteen rows of each kind");
    must(judged_with(bytes, length, block, 0, NILOFERQ_KINDS + 1, 1) == 3000 + block, "judge: a kind above all");
    must(judged_with(bytes, length, block - 1, 0, NILOFERQ_KINDS + 1, 1) == 3000 + block - 1, "judge: a kind above all, before a kind's last block");
    must(judged_with(bytes, length, block - 1, 1, 11, 1) == 4000 + block - 1, "judge: a kind goes on behind a block that is not full");
    must(judged_with(bytes, length, block, 8, KINDS[kind].row[0] + 11, 4) == 5000 + place, "judge: an id not above the one before");
    for (uint32_t field = 1; field < KINDS[kind].numbers; field++) {
        int width = width_of(kind, field);
        uint32_t limit = KINDS[kind].limits[field], above = width == 2 && limit == 65535 ? 0 : 6000 + place;
        /* an area alone at its limit is out of balance, and the thirteen rows are of one type */
        must(judged_with(bytes, length, block, at, limit, width) == (is_balanced(kind, field) ? 13000 + place - 12 : 0),
             "judge: a field of a kind above 4 at its limit");
        must(!above || judged_with(bytes, length, block, at, limit + 1, width) == above, "judge: a field of a kind above 4 above its limit");
        must(judged_with(bytes, length, block, at, UINT32_MAX, width) == above, "judge: a field of a kind above 4 with all its bits set");
        at += (size_t)width;
    }
    must(judged_with(bytes, length, block, at, 1, 1) == 4000 + block, "judge: a byte behind a row");
    must(judged_with(bytes, length, block, 8 + 39, 1, 1) == 4000 + block, "judge: the last byte of a record");
}

/* The longest return, and a block or a byte more. */
static void longest(uint32_t edition) {
    static uint8_t bytes[NILOFERQ_RETURN_ROOM + 512];
    shape full;
    fill_shape(full, edition, NILOFERQ_MOST_ROWS);
    size_t length = written_as(full, bytes);
    must(length == NILOFERQ_RETURN_ROOM && judged(bytes, length) == 0, "judge: the longest return");
    must(judged(bytes, length + 1) == 1000 && judged(bytes, length + 512) == 1000, "judge: more than the longest return");
    must(judged(bytes, length - 512) == 3000, "judge: the longest return without its last block");
}

void returns_in_bytes(const uint8_t *day, size_t length) {
    editions_in_bytes(day, length);
    for (uint32_t edition = 2; edition <= NILOFERQ_EDITIONS; edition++) {
        for (uint32_t kind = PARAMETERS + 1; kind <= NILOFERQ_KINDS; kind++) {
            later_in_bytes(kind, edition);
            thirteenth_in_bytes(kind, edition);
        }
        longest(edition);
    }
}
