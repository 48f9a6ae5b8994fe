/* The judge, the subtotals and reading in plain C, as a C programmer would write them from the paper. For the benchmark alone: nothing
 * relies on it, and the benchmark holds its answers against the library's. */
#include <stddef.h>
#include <stdint.h>
#include <string.h>

struct field {
    uint32_t zeros, width, limit;
};

static const struct field conversion[] = {
    {0, 4, 4294967295u}, {0, 4, 1000000}, {0, 2, 10000}, {0, 2, 10000}, {0, 2, 1000}, {0, 2, 1000}, {0, 2, 1000}, {0, 2, 1000},
    {0, 2, 1000}, {0, 2, 1000}, {0, 4, 1000000}, {0, 2, 10000}, {0, 2, 10000}, {0, 2, 1000}, {0, 2, 1000},
};
static const struct field stock[] = {{0, 4, 4294967295u}, {0, 1, 1}, {1, 2, 10000}, {0, 4, 10000000}, {0, 2, 1000}};
static const struct field harvest[] = {{0, 4, 4294967295u}, {0, 4, 10000000}, {0, 2, 10000}, {2, 4, 10000000}, {0, 4, 10000000}};
static const struct field parameters[] = {{4, 2, 1000}, {0, 2, 1000}, {0, 2, 1000}, {0, 2, 1000}, {0, 2, 1000}, {0, 2, 1000}};

static const struct field abandoned[] = {
    {0, 4, 4294967295u}, {0, 4, 10000000}, {0, 2, 10000}, {0, 2, 1000}, {0, 4, 10000000}, {0, 2, 10000}, {0, 2, 1000},
};

static const struct field savanna[] = {
    {0, 4, 4294967295u}, {0, 4, 1000000}, {0, 2, 10000}, {0, 2, 1000}, {0, 2, 1000}, {0, 2, 1000}, {0, 2, 1000},
    {0, 2, 1000}, {0, 2, 1000}, {0, 2, 1000}, {0, 2, 1000}, {0, 2, 1000}, {0, 2, 1000}, {0, 2, 1000},
};

static const struct field soil[] = {
    {0, 4, 4294967295u}, {0, 2, 65535}, {0, 2, 65535}, {0, 4, 100000}, {0, 4, 100000}, {0, 2, 10000}, {0, 2, 300}, {0, 2, 300}, {0, 2, 300},
};

static const struct field crop[] = {
    {0, 4, 4294967295u}, {0, 4, 10000000}, {0, 2, 1000}, {0, 2, 1000}, {0, 2, 1000}, {0, 2, 1000}, {0, 2, 10000},
    {0, 2, 1000}, {0, 2, 1000}, {0, 2, 1000}, {0, 2, 1000}, {0, 2, 1000},
};

#define KINDS 8

static const struct {
    const struct field *fields;
    uint32_t count;
} kinds[KINDS + 1] = {
    {0, 0}, {conversion, 15}, {stock, 5}, {harvest, 5}, {parameters, 6}, {abandoned, 7}, {savanna, 14}, {soil, 9}, {crop, 12},
};

/* The last kind of each edition. */
#define EDITIONS 3
static const uint32_t last_kind[EDITIONS + 1] = {0, 4, KINDS, KINDS};

static uint32_t two(const uint8_t *p) { return p[0] | (uint32_t)p[1] << 8; }
static uint32_t four(const uint8_t *p) { return two(p) | two(p + 2) << 16; }

static uint32_t number(const uint8_t *p, uint32_t width) {
    return width == 1 ? p[0] : width == 2 ? two(p) : four(p);
}

static int stray(const uint8_t *p, uint32_t n) {
    uint8_t bits = 0;
    for (uint32_t i = 0; i < n; i++) bits |= p[i];
    return bits != 0;
}

static int stray_record(const uint8_t *p, uint32_t kind) {
    uint32_t at = 0;
    for (uint32_t i = 0; i < kinds[kind].count; i++) {
        const struct field *f = &kinds[kind].fields[i];
        if (stray(p + at, f->zeros)) return 1;
        at += f->zeros + f->width;
    }
    return stray(p + at, 40 - at);
}

static int above(const uint8_t *p, uint32_t kind) {
    uint32_t at = 0;
    for (uint32_t i = 0; i < kinds[kind].count; i++) {
        const struct field *f = &kinds[kind].fields[i];
        if (number(p + at + f->zeros, f->width) > f->limit) return 1;
        at += f->zeros + f->width;
    }
    return 0;
}

/* Where a return may end, in each edition. */
static int bad_end(const uint8_t *bytes, uint32_t n, uint32_t b) {
    uint32_t kind = bytes[512 * b], last = b + 1 == n, seen = 0;
    if (two(bytes + 6) == 1) return (kind == 4) != last;
    if (kind == 4) return !last && bytes[512 * (b + 1)] < 5;
    if (kind < 4) return last;
    for (uint32_t a = 0; a < b; a++) seen |= bytes[512 * a] == 4;
    return !seen;
}

static int bad_block(const uint8_t *bytes, uint32_t n, uint32_t b) {
    const uint8_t *p = bytes + 512 * b;
    uint32_t kind = p[0], count = p[1], before = 0;
    if (b > 0 && kind < p[-512]) return 1;
    if (bad_end(bytes, n, b)) return 1;
    for (uint32_t a = 0; a < b; a++) before += bytes[512 * a] == kind;
    if (before >= 3 || count < 1 || count > 12 || (kind == 4 && count != 1)) return 1;
    if (b + 1 < n && p[512] == kind && count != 12) return 1;
    if (before == 2 && count > 8) return 1;
    for (uint32_t r = 0; r < 12; r++)
        if (r < count ? stray_record(p + 8 + 40 * r, kind) : stray(p + 8 + 40 * r, 40)) return 1;
    return stray(p + 488, 20);
}

static int broken(const uint8_t *bytes, uint32_t n, uint32_t rule, uint32_t b, uint32_t r) {
    const uint8_t *p = bytes + 512 * b + 8 + 40 * r;
    uint32_t kind = bytes[512 * b];
    (void)n;
    switch (rule) {
    case 5:
        if (kind == 4) return 0;
        if (r > 0) return four(p) <= four(p - 40);
        return b > 0 && bytes[512 * (b - 1)] == kind && four(p) <= four(bytes + 512 * (b - 1) + 448);
    case 6:
        return above(p, kind);
    case 14:
        return kind == 2 && p[4] == 1 && two(bytes + 6) == 3;
    default:
        return kind == 1 && two(p + 12) + two(p + 18) + two(p + 32) > 1000;
    }
}

/* Before less after, or 0 where there is more after. */
static uint32_t difference(const uint8_t *p) { return two(p) > two(p + 2) ? two(p) - two(p + 2) : 0; }

/* More wood cleared than used: L above 100 K. */
static int cleared_above_used(const uint8_t *bytes, uint32_t n) {
    uint64_t k = 0, l = 0;
    for (uint32_t b = 0; b < n; b++)
        for (uint32_t r = 0; r < bytes[512 * b + 1]; r++) {
            const uint8_t *p = bytes + 512 * b + 8 + 40 * r;
            if (bytes[512 * b] == 1) l += (uint64_t)four(p + 4) * difference(p + 8) * two(p + 18);
            if (bytes[512 * b] == 3) k += (uint64_t)four(p + 4) * two(p + 8) + 1000 * ((uint64_t)four(p + 12) + four(p + 16));
        }
    return l > 100 * k;
}

/* The place of the first row of the lowest soil type whose two area sums differ, or -1. */
static int32_t uneven_soil(const uint8_t *bytes, uint32_t n) {
    uint32_t types[32], places[32], count = 0;
    int64_t more[32];
    int32_t lowest = -1;
    for (uint32_t b = 0; b < n; b++)
        for (uint32_t r = 0; bytes[512 * b] == 7 && r < bytes[512 * b + 1]; r++) {
            const uint8_t *p = bytes + 512 * b + 8 + 40 * r;
            uint32_t i = 0;
            while (i < count && types[i] != two(p + 6)) i++;
            if (i == count) {
                types[i] = two(p + 6);
                places[i] = 12 * b + r;
                more[i] = 0;
                count++;
            }
            more[i] += (int64_t)four(p + 8) - four(p + 12);
        }
    for (uint32_t i = 0; i < count; i++)
        if (more[i] != 0 && (lowest < 0 || types[i] < types[lowest])) lowest = (int32_t)i;
    return lowest < 0 ? -1 : (int32_t)places[lowest];
}

/* 0 with the edition, the counts and the number of scattered trees, or 1,000 times the number plus the place. */
uint32_t plain_judge(const uint8_t *bytes, size_t length, uint32_t counts[KINDS + 2]) {
    static const uint32_t rules[] = {5, 6, 14, 7};
    if (length == 0 || length > 11264 || length % 512 != 0) return 1000;
    uint32_t n = (uint32_t)(length / 512);
    for (uint32_t b = 0; b < n; b++) {
        const uint8_t *p = bytes + 512 * b;
        uint32_t sum = 0;
        for (uint32_t i = 0; i < 508; i++) sum += (i + 1) * p[i];
        if (four(p + 508) != sum) return 2000 + b;
    }
    for (uint32_t b = 0; b < n; b++) {
        const uint8_t *p = bytes + 512 * b;
        uint32_t edition = two(p + 6);
        if (edition < 1 || edition > EDITIONS || edition != two(bytes + 6)) return 3000 + b;
        if (p[0] < 1 || p[0] > last_kind[edition] || two(p + 2) != b || two(p + 4) != n) return 3000 + b;
    }
    for (uint32_t b = 0; b < n; b++)
        if (bad_block(bytes, n, b)) return 4000 + b;
    for (uint32_t i = 0; i < sizeof rules / sizeof *rules; i++)
        for (uint32_t b = 0; b < n; b++)
            for (uint32_t r = 0; r < bytes[512 * b + 1]; r++)
                if (broken(bytes, n, rules[i], b, r)) return 1000 * rules[i] + 12 * b + r;
    if (cleared_above_used(bytes, n)) return 12000;
    int32_t uneven = uneven_soil(bytes, n);
    if (uneven >= 0) return 13000 + (uint32_t)uneven;
    memset(counts, 0, (KINDS + 2) * sizeof *counts);
    counts[0] = two(bytes + 6);
    for (uint32_t b = 0; b < n; b++) {
        counts[bytes[512 * b]] += bytes[512 * b + 1];
        for (uint32_t r = 0; bytes[512 * b] == 2 && r < bytes[512 * b + 1]; r++) counts[KINDS + 1] += bytes[512 * b + 8 + 40 * r + 4] == 1;
    }
    return 0;
}

uint32_t plain_subtotal(const uint8_t *bytes, size_t length, uint32_t code, double *room) {
    uint32_t counts[KINDS + 2];
    uint32_t answer = plain_judge(bytes, length, counts);
    if (answer) return answer;
    if (code > 2) return 11000;
    double sum = 0;
    for (uint32_t i = 0; i < counts[1]; i++) {
        const uint8_t *p = bytes + 512 * (i / 12) + 8 + 40 * (i % 12);
        if (code == 2) {
            sum += (double)four(p + 24) * difference(p + 28) * two(p + 32) * 1000 * two(p + 34);
        } else {
            const uint8_t *q = p + 12 + 6 * code;
            sum += (double)four(p + 4) * difference(p + 8) * two(q) * two(q + 2) * two(q + 4);
        }
    }
    *room = sum;
    return 0;
}

/* Rows of all kinds, kind after kind, as the blocks have them. The room is long enough for any return. */
uint32_t plain_read(const uint8_t *bytes, size_t length, uint32_t *rows, uint32_t counts[KINDS + 2]) {
    uint32_t answer = plain_judge(bytes, length, counts);
    if (answer) return answer;
    for (uint32_t b = 0; 512 * b < length; b++) {
        uint32_t kind = bytes[512 * b];
        for (uint32_t r = 0; r < bytes[512 * b + 1]; r++) {
            const uint8_t *p = bytes + 512 * b + 8 + 40 * r;
            for (uint32_t i = 0; i < kinds[kind].count; i++) {
                const struct field *f = &kinds[kind].fields[i];
                p += f->zeros;
                *rows++ = number(p, f->width);
                p += f->width;
            }
        }
    }
    return 0;
}
