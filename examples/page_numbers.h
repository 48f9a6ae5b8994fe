/* The exact numbers of the page, and how they are written: as decimals with nothing rounded off. */
#ifndef PAGE_NUMBERS_H
#define PAGE_NUMBERS_H

#pragma GCC diagnostic push
#pragma GCC diagnostic ignored "-Wunused-function" /* of the chart's headers the page takes the numbers and the comparisons, not the drawing */
#include "chart_matter.h"
#pragma GCC diagnostic pop

__extension__ typedef __int128 amount; /* with a sign. The largest here, a gas of crops before it is divided, is below 10^33 */

/* over / (under x 10^places), where under is 1, 3 or 7: what a rounded figure is made of. */
struct ratio {
    amount over;
    unsigned under, places;
};

static whole size_without_sign(amount a) { return a < 0 ? (whole)-a : (whole)a; }

static amount ten_to(unsigned places) {
    amount ten = 1;
    while (places--) ten *= 10;
    return ten;
}

/* To the nearest whole number, a half to the even neighbour, as the sheets round. */
static amount rounded(struct ratio r) {
    whole by = r.under * (whole)ten_to(r.places), n = size_without_sign(r.over), near = n / by, rest = 2 * (n % by);
    if (rest > by || (rest == by && near % 2)) near++;
    return r.over < 0 ? -(amount)near : (amount)near;
}

/* Writes digits that are done. A browser may break the line behind a comma and behind every third decimal, which it does in
 * print alone, and there in wide tables. */
static void put_digits(FILE *out, bool minus, const char *digits) {
    const char *point = strchr(digits, '.');
    if (minus) fputs("\u2212", out);
    for (const char *p = digits; *p; p++) {
        bool third = point && p > point + 3 && (p - point) % 3 == 1;
        if (third) fputs("<wbr/>", out);
        fputc(*p, out);
        if (*p == ',') fputs("<wbr/>", out);
    }
}

static void put_amount(FILE *out, amount value, unsigned places) {
    put_digits(out, value < 0, number(size_without_sign(value), places, true).s);
}

/* The digits that repeat for ever where rest is divided by under: one digit for 3, six for 7. */
static void repeat_digits(unsigned rest, unsigned under, char *period) {
    for (int i = 0; i < (under == 3 ? 1 : 6); i++, *period = 0) {
        rest *= 10;
        *period++ = (char)('0' + rest / under);
        rest %= under;
    }
}

/* Takes back the decimals that are already the period's: .33(3) is .(3), and .51(428571) is .5(142857). The answer is how many decimals are left. */
static unsigned shorten(const char *decimals, unsigned count, char *period) {
    size_t last = strlen(period) - 1;
    for (; count && decimals[count - 1] == period[last]; count--) {
        char digit = period[last];
        memmove(period + 1, period, last);
        period[0] = digit;
    }
    return count;
}

/* Exactly: digits that repeat without end stand once, in brackets. */
static void put_ratio(FILE *out, struct ratio r) {
    whole n = size_without_sign(r.over), all = n / r.under, one = (whole)ten_to(r.places);
    char decimals[32] = "", period[8], digits[128];
    if (n % r.under == 0) {
        put_digits(out, r.over < 0, number(all, r.places, true).s);
        return;
    }
    whole behind = all % one;
    for (unsigned i = r.places; i-- > 0; behind /= 10) decimals[i] = (char)('0' + (int)(behind % 10));
    repeat_digits((unsigned)(n % r.under), r.under, period);
    decimals[shorten(decimals, r.places, period)] = 0;
    snprintf(digits, sizeof digits, "%s.%s(%s)", number(all / one, 0, true).s, decimals, period);
    put_digits(out, r.over < 0, digits);
}

#endif
