/* The three carbon subtotals of a return, each exact and as the library's double, and whether the two agree; and the five masses of its cleared biomass. */
#ifndef CHART_FIGURES_H
#define CHART_FIGURES_H

#include "files.h"
#include "niloferq.h"
#include <inttypes.h>

__extension__ typedef unsigned __int128 whole;

/* The largest subtotal is 3.2 x 10^20, below 2^69. What reaches 2^70 is broken; below it every product here fits 128 bits. */
#define LIMIT_POWER 70

static const char *const names[3] = {"onsite", "offsite", "decay"};
static const int places[3] = {8, 9, 11}; /* of the three among the figures, in the header's order */
enum { MASSES = 5, FIRST_MASS = 28 };    /* the five masses, and the place of the first, behind which the others stand */

struct verdict {
    bool holds;
    bool too_large; /* the exact total reaches 2^70: then nothing else here means anything */
    bool is_whole;  /* the double is a whole number from 0 to below 2^70; otherwise value and distance are 0 and mean nothing */
    whole value, distance, allowed;
};

struct figures {
    uint32_t n; /* conversion rows */
    uint32_t rows[NILOFERQ_ROWS_ROOM]; /* the rows of all kinds, of which those of conversion are the first n */
    whole exact[3];
    uint64_t bits[3]; /* of the doubles */
    struct verdict verdict[3];
    whole masses[MASSES]; /* exact, in 10^-9 kt */
};

/* A return and where it came from. Where two versions of it are compared, its role is "old" or "new", and otherwise NULL. */
struct version {
    const char *role, *path;
    struct stat file;
    struct figures figures;
};

/* ---- the comparison ---- */

/* A double's value from its bits. False where it isn't a whole number from 0 to below 2^70. */
static bool take_apart(uint64_t bits, whole *value) {
    *value = 0;
    if (bits == 0) return true;
    unsigned exponent = (unsigned)(bits >> 52); /* with the sign as bit 11 */
    uint64_t digits = (bits & ((UINT64_C(1) << 52) - 1)) | UINT64_C(1) << 52;
    if (exponent < 1023) return false;                /* above 0 and below 1 */
    if (exponent >= 1023 + LIMIT_POWER) return false; /* too large, infinite, no number, or with a minus sign */
    unsigned after_point = exponent < 1075 ? 1075 - exponent : 0;
    if (digits & ((UINT64_C(1) << after_point) - 1)) return false; /* a fraction */
    *value = exponent < 1075 ? digits >> after_point : (whole)digits << (exponent - 1075);
    return true;
}

/* Holds where |double - exact| * 2^53 <= (n + 2) * exact. A row's product is rounded at most twice (its first three factors stay
 * below 2^53) and a sum of n rows n - 1 times, each by at most one part in 2^53; n + 2 leaves room for errors upon errors. */
static struct verdict compare(whole exact, uint64_t bits, uint32_t n) {
    struct verdict v = {0};
    v.too_large = exact >> LIMIT_POWER != 0;
    if (v.too_large) return v;
    whole right = ((whole)n + 2) * exact; /* below 2^103 */
    v.allowed = right >> 53;              /* the largest whole distance that holds */
    v.is_whole = take_apart(bits, &v.value);
    if (!v.is_whole) return v;
    v.distance = v.value > exact ? v.value - exact : exact - v.value;
    v.holds = v.distance << 53 <= right; /* left side below 2^123 */
    return v;
}

/* ---- numbers as text ---- */

struct text {
    char s[64];
};

/* value / 10^places exactly, without zeros at the end of the decimals; commas between thousands if grouped. */
static struct text number(whole value, unsigned places, bool grouped) {
    struct text t;
    char *p = t.s + sizeof t.s; /* written from the end: 39 digits, 12 commas and a point fit */
    *--p = 0;
    bool any = false;
    for (unsigned i = 0; i < places; i++, value /= 10) {
        any = any || value % 10;
        if (any) *--p = (char)('0' + (int)(value % 10));
    }
    if (any) *--p = '.';
    for (unsigned i = 0; i == 0 || value; i++, value /= 10) {
        if (grouped && i && i % 3 == 0) *--p = ',';
        *--p = (char)('0' + (int)(value % 10));
    }
    memmove(t.s, p, (size_t)(t.s + sizeof t.s - p));
    return t;
}

static struct text plain(whole value) { return number(value, 0, false); }

/* The double for a reader: as a whole number, or, where it is none, as C prints it. */
static struct text shown(struct verdict v, uint64_t bits) {
    if (v.is_whole) return plain(v.value);
    struct text t;
    double d;
    memcpy(&d, &bits, sizeof d);
    snprintf(t.s, sizeof t.s, "%.17g", d);
    return t;
}

/* ---- from the return to the figures ---- */

/* A figure that is never below zero, as every mass and every subtotal of carbon is. */
static whole size_of(const uint64_t *numbers, int place) { return (whole)numbers[3 * place + 1] << 64 | numbers[3 * place + 2]; }

/* Asks the library for the rows, the exact totals and the doubles. The answer is the library's: 0, or its refusal. */
static uint32_t gather(const uint8_t *bytes, size_t length, struct figures *f) {
    uint32_t counts[NILOFERQ_COUNTS];
    uint32_t answer = niloferq_read(bytes, length, f->rows, NILOFERQ_ROWS_ROOM, counts, NILOFERQ_COUNTS);
    if (answer) return answer;
    f->n = counts[1]; /* kind 1 is conversion */
    uint64_t numbers[NILOFERQ_FIGURES_ROOM]; /* three for each figure: sign, upper and lower word */
    answer = niloferq_figures(bytes, length, numbers, NILOFERQ_FIGURES_ROOM);
    for (int i = 0; i < MASSES && !answer; i++) f->masses[i] = size_of(numbers, FIRST_MASS + i);
    for (uint32_t code = 0; code < 3 && !answer; code++) {
        f->exact[code] = size_of(numbers, places[code]);
        uint8_t room[8];
        answer = niloferq_subtotal(bytes, length, code, room, sizeof room);
        f->bits[code] = 0;
        for (int i = 0; i < 8 && !answer; i++) f->bits[code] |= (uint64_t)room[i] << 8 * i;
    }
    return answer;
}

/* The front of a line on standard error, which says of two versions which is meant. */
static void begin_line(const struct version *v) {
    fprintf(stderr, "chart: ");
    if (v->role) fprintf(stderr, "the %s return, %s: ", v->role, v->path);
}

/* Compares all three and says on standard error which are off. True where none is. */
static bool examine(struct version *version) {
    struct figures *f = &version->figures;
    bool good = true;
    for (int i = 0; i < 3; i++) {
        struct verdict v = f->verdict[i] = compare(f->exact[i], f->bits[i], f->n);
        if (v.holds) continue;
        good = false;
        begin_line(version);
        if (v.too_large) {
            fprintf(stderr, "the exact total of %s, %s, is not below 2^%d\n", names[i], plain(f->exact[i]).s, LIMIT_POWER);
            continue;
        }
        fprintf(stderr, "%s is off: exact %s, double %s, ", names[i], plain(f->exact[i]).s, shown(v, f->bits[i]).s);
        if (v.is_whole) fprintf(stderr, "distance %s, allowed %s\n", plain(v.distance).s, plain(v.allowed).s);
        else fprintf(stderr, "which is no whole number from 0 to below 2^%d; allowed distance %s\n", LIMIT_POWER, plain(v.allowed).s);
    }
    return good;
}

static void print_check(FILE *out, const struct figures *f) {
    for (int i = 0; i < 3; i++) {
        struct verdict v = f->verdict[i];
        fprintf(out, "%s exact %s double %s distance %s allowed %s\n", names[i], plain(f->exact[i]).s, shown(v, f->bits[i]).s,
                v.is_whole ? plain(v.distance).s : "none", plain(v.allowed).s);
    }
}

#endif
