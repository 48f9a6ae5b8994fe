/* Tries the comparison and the pictures of examples/chart.c: chart_test DAY.return DIRECTORY, an empty one for its own files.
 * Prints a line per part with its number of cases. Status 0 only if all of them hold. */
#include "chart_test.h"
#include <dirent.h>
#include <sys/resource.h>

/* ---- what a good return has to do ---- */

static bool contains_totals(const char *text, const whole exact[3]) {
    static const char *const elements[3] = {"onsite", "offsite", "decay"};
    for (int i = 0; i < 3; i++) {
        char wanted[160];
        snprintf(wanted, sizeof wanted, "<title>%s %s</title>", elements[i], number(exact[i], 0, false).s);
        if (!strstr(text, wanted)) return false;
        snprintf(wanted, sizeof wanted, ">%s kt C</text>", number(exact[i], 12, true).s);
        if (!strstr(text, wanted)) return false;
        snprintf(wanted, sizeof wanted, ">%s x 10<", number(exact[i], 0, true).s);
        if (!strstr(text, wanted)) return false;
    }
    char sum[160];
    snprintf(sum, sizeof sum, "<title>sum %s</title>", number(exact[0] + exact[1] + exact[2], 0, false).s);
    return strstr(text, sum) != NULL;
}

/* Passes the comparison, with the totals that the rows give; the picture has them and is closed. */
static void must_pass(row *rows, uint32_t n, uint32_t edition, const char *what, unsigned long which, bool picture) {
    static struct bytes r;
    static struct version v = {.path = "a & b.return"};
    struct figures *f = &v.figures;
    make(&r, rows, n, in_edition(edition, which));
    if (gather(r.b, r.length, f) != 0) {
        must(false, what, which);
        return;
    }
    must(examine(&v), what, which);
    must(f->n == n, "number of conversion rows", which);
    whole exact[3] = {0};
    for (int c = 0; c < 3; c++) {
        for (uint32_t i = 0; i < n; i++) exact[c] += part(rows[i], c);
        must(exact[c] == f->exact[c], "exact total as the rows give it", which);
        must(f->verdict[c].holds, what, which);
    }
    if (!picture) return;
    char *text = NULL;
    size_t size = 0;
    FILE *memory = open_memstream(&text, &size);
    draw_one(memory, &v, which % 2 ? "North & South <2024>" : NULL);
    fclose(memory);
    must(contains_totals(text, exact), "the picture has the three totals", which);
    must(size > 7 && strcmp(text + size - 7, "</svg>\n") == 0 && strstr(text, "a &#38; b.return"), "the picture is whole", which);
    must((strstr(text, ">North &#38; South &#60;2024&#62;</text>") != NULL) == which % 2, "its title where one is given", which);
    free(text);
}

/* ---- the parts ---- */

static char *directory, picture_path[512], return_path[512];

static void the_day(char *day) {
    static char text[65536];
    static const uint32_t day_row[FIELDS] = {7, 200, 1000, 100, 400, 900, 500, 200, 900, 500, 300, 1000, 100, 300, 500};
    whole exact[3] = {UINT64_C(32400000000000), UINT64_C(16200000000000), UINT64_C(40500000000000)};
    for (int c = 0; c < 3; c++) must(part(day_row, c) == exact[c], "the day's row gives the paper's total", (unsigned long)c);
    must(run(day, picture_path) == 0 && caught[0] == 0, "the day is drawn", 0);
    must(slurp(picture_path, text, sizeof text) && contains_totals(text, exact), "the day's picture has the three totals", 0);
    must(strstr(text, ">32.4 kt C<") && strstr(text, ">16.2 kt C<") && strstr(text, ">40.5 kt C<") && strstr(text, ">89.1 kt C<") &&
         strstr(text, ">32,400,000,000,000 x 10<") && strstr(text, ">16,200,000,000,000 x 10<") && strstr(text, ">40,500,000,000,000 x 10<") &&
         strstr(text, ">89,100,000,000,000 x 10<") && strstr(text, "conversion rows: 1<") && strstr(text, "Carbon in kt C"), "the day's picture in words", 0);
    must(!strstr(text, "double"), "the day's picture in words of the desk", 0);
    unlink(picture_path);
    printf("1. the day of the paper: 1 return passes, its picture has the three exact totals\n");
}

static void good_returns(void) {
    static row rows[ROWS];
    unsigned long limits = 0, random = 0;
    static const int fractions[4][3] = {{1000, 0, 0}, {0, 1000, 0}, {0, 0, 1000}, {334, 333, 333}};
    for (uint32_t n = 0; n <= ROWS; n++)
        for (int kind = 0; kind < 6; kind++) {
            for (uint32_t i = 0; i < n; i++) {
                uint32_t big[FIELDS] = {i, 1000000, 10000, 0, 0, 1000, 1000, 0, 1000, 1000, 1000000, 10000, 0, 0, 1000};
                for (int k = 0; k < 3 && kind < 4; k++) big[k == 2 ? 13 : 4 + 3 * k] = (uint32_t)fractions[kind][k];
                for (int k = 1; k < FIELDS && kind >= 4; k++) big[k] = kind == 5 && k != 3 && k != 12; /* all zero, or the least parts */
                memcpy(rows[i], big, sizeof big);
            }
            for (uint32_t edition = 1; edition <= NILOFERQ_EDITIONS; edition++, limits++)
                must_pass(rows, n, edition, "a return at the limits passes", limits, true);
        }
    for (; random < 6000; random++) {
        uint32_t n = from_to(0, ROWS), id = 0;
        for (uint32_t i = 0; i < n; i++) random_row(rows[i], id += from_to(1, 1000));
        if (random % 3 == 1)
            for (uint32_t i = 0; i < n; i++) sharp_row(rows[i], i);
        must_pass(rows, n, 1 + (uint32_t)(random / 30 % NILOFERQ_EDITIONS), "a random good return passes", random, random % 10 == 0);
    }
    printf("2. good returns: %lu at the limits and %lu random ones pass, in each edition\n", limits, random);
}

/* Around each distance where the comparison turns: the last that may pass does, the next doesn't, on both sides. */
static void turning_points(void) {
    unsigned long cases = 0;
    for (int k = 0; k < 4000; k++) {
        whole exact = (whole)draw64() << 5;
        exact >>= from_to(0, 68);
        if (exact > (whole)32 * UINT64_C(10000000000000000000)) exact >>= 2;
        uint32_t n = from_to(0, ROWS);
        double d = (double)exact; /* some double nearby; then the total is moved, not the double */
        uint64_t bits;
        memcpy(&bits, &d, sizeof bits);
        whole value = (whole)d;
        for (int up = 0; up < 2; up++) {
            whole far = 0, step = (whole)1 << 30; /* the largest distance that the rule in the paper's words lets pass */
            for (; step; step >>= 1) {
                whole try = far + step, e = up ? value + try : value - try;
                if ((up || try <= value) && try * ((whole)1 << 53) <= (n + 2) * e) far = try;
            }
            whole e = up ? value + far : value - far;
            must(compare(e, bits, n).holds, "the last distance allowed passes", cases);
            must(compare(e, bits, n).distance == far && compare(e, bits, n).value == value, "distance and value", cases);
            if (up || far < value) must(!compare(up ? e + 1 : e - 1, bits, n).holds, "the next distance is stopped", cases);
            cases++;
        }
    }
    printf("2. turning points: %lu, the last distance allowed passes and the next is stopped\n", cases);
}

/* A row whose part of the one subtotal is near the wanted size and whose other two parts are zero. */
static void small_row(uint32_t *r, int code, whole wanted) {
    uint32_t f[5] = {1, 1, 1, 1, 1}, most[5] = {1000000, 10000, 1000, 1000, 1000};
    whole rest = wanted;
    if (code == 2) rest /= 1000, f[3] = 1000, most[3] = 1;
    for (int i = 4; i >= 0; i--) { /* each field takes a share; the area takes what is left */
        whole top = rest < most[i] ? rest : most[i];
        if (top < 1) top = 1;
        uint32_t got = i == 0 ? (uint32_t)top : from_to((uint32_t)(top + 1) / 2, (uint32_t)top);
        if (code == 2 && i == 3) continue;
        f[i] = got;
        rest /= got;
    }
    memset(r + 1, 0, sizeof(row) - sizeof *r);
    if (code == 2) r[10] = f[0], r[11] = f[1], r[13] = f[2], r[14] = f[4];
    else r[1] = f[0], r[2] = f[1], memcpy(r + 4 + 3 * code, f + 2, 3 * sizeof *f);
}

/* The doubles of the return without one small row, against the exact totals of the whole return. */
static void missing_row(void) {
    static row rows[ROWS], fewer[ROWS];
    static struct bytes full, less;
    static struct figures f;
    unsigned long cases = 0, stopped = 0, two_per_cent = 0, named = 0, drawn = 0, whole_runs = 0, of_each[3] = {0};
    for (unsigned long k = 0; k < 6000; k++) {
        int code = (int)(k % 3);
        uint32_t n = from_to(2, ROWS), small = from_to(0, n - 1);
        whole total = 0;
        for (uint32_t i = 0; i < n; i++) {
            do random_row(rows[i], i * 1000 + 7);
            while (part(rows[i], code) < UINT64_C(10000000000000000)); /* large enough that 10^-12 of it is a whole number */
            if (i != small) total += part(rows[i], code);
        }
        /* mostly 10^-12 of the subtotal; every fourth from 2 x 10^-14 to 2 x 10^-4 of it */
        whole share = k % 4 ? UINT64_C(1000000000000) : UINT64_C(50000000000000);
        for (uint32_t tens = k % 4 ? 0 : from_to(0, 10); tens; tens--) share /= 10;
        small_row(rows[small], code, total / share + 1);
        whole gone = part(rows[small], code);
        if (gone * UINT64_C(100000000000000) < total) continue; /* decay moves in steps of 1,000 */
        memcpy(fewer, rows, sizeof rows);
        memmove(fewer[small], fewer[small + 1 < ROWS ? small + 1 : small], (n - 1 - small) * sizeof(row));
        struct besides more = in_edition(1 + (uint32_t)(k / 12 % NILOFERQ_EDITIONS), k);
        make(&full, rows, n, more);
        make(&less, fewer, n - 1, more);
        cases++;
        of_each[code]++;
        other_doubles = &less;
        must(gone > 0 && gather(full.b, full.length, &f) == 0, "a return with a small row is good", k);
        int off = 0;
        for (int c = 0; c < 3; c++) {
            struct verdict v = compare(f.exact[c], f.bits[c], f.n);
            if (!v.holds) off |= 1 << c;
            if (c == code && v.is_whole && v.distance * 50 <= f.exact[c]) two_per_cent++;
        }
        stopped += (off & 1 << code) != 0;
        named += off == 1 << code;
        if (k % 20 == 0 || k < 30) { /* the whole program */
            spill(return_path, &full);
            int status = run(return_path, picture_path);
            char wanted[32];
            snprintf(wanted, sizeof wanted, "chart: %s is off: ", names[code]);
            must(status == 1 && strncmp(caught, wanted, strlen(wanted)) == 0, "the program stops and names the subtotal", k);
            must(strstr(caught, "nothing is drawn") != NULL, "the program says that it draws nothing", k);
            const char *once = strstr(caught, " is off: ");
            must(once && !strstr(once + 1, " is off: "), "the program names no other subtotal", k);
            if (access(picture_path, F_OK) == 0) drawn++;
            other_doubles = NULL; /* with its own doubles the same return is drawn */
            must(run(return_path, picture_path) == 0 && unlink(picture_path) == 0, "the whole return is drawn", k);
            unlink(return_path);
            whole_runs++;
        }
        other_doubles = NULL;
    }
    must(stopped == cases, "every missing row is stopped", cases - stopped);
    must(named == cases, "the right subtotal and no other is named", cases - named);
    must(two_per_cent == cases, "two per cent would have let every one pass", cases - two_per_cent);
    must(drawn == 0, "nothing is drawn", drawn);
    must(cases >= 5000 && of_each[0] > 1500 && of_each[1] > 1500 && of_each[2] > 1500, "enough cases of each subtotal", cases);
    printf("3. one small row missing from the doubles: %lu cases (%lu on site, %lu off site, %lu decay), %lu stopped, %lu with the right "
           "subtotal named; a tolerance of two per cent would have let %lu pass; %lu whole runs drew %lu pictures\n",
           cases, of_each[0], of_each[1], of_each[2], stopped, named, two_per_cent, whole_runs, drawn);
}

static void broken_doubles(void) {
    static row rows[ROWS];
    static struct bytes r;
    static struct figures f;
    unsigned long flips = 0, harmless = 0, others = 0, patterns = 0;
    static const uint64_t never[] = {UINT64_C(0x8000000000000000), /* minus zero */ UINT64_C(0x7ff0000000000000), /* infinite */
        UINT64_C(0xfff0000000000000), UINT64_C(0x7ff8000000000000), /* no number */ UINT64_C(0x7ff0000000000001), UINT64_C(0xffffffffffffffff),
        UINT64_C(0x7fffffffffffffff), 1, /* the least above zero */ UINT64_C(0x000fffffffffffff), UINT64_C(0x3fe0000000000000), /* a half */
        UINT64_C(0x3fefffffffffffff), UINT64_C(0x3ff8000000000000), /* one and a half */ UINT64_C(0x4450000000000000), /* 2^70 */
        UINT64_C(0x47e0000000000000), /* 2^127 */ UINT64_C(0x47f0000000000000), UINT64_C(0x7fefffffffffffff)};
    for (unsigned long k = 0; k < 1000; k++) {
        uint32_t n = from_to(0, ROWS);
        for (uint32_t i = 0; i < n; i++) random_row(rows[i], i);
        make(&r, rows, n, in_edition(1, k));
        must(gather(r.b, r.length, &f) == 0, "a random return is good", k);
        for (int c = 0; c < 3; c++) {
            whole exact = f.exact[c], allowed = (n + 2) * exact >> 53;
            for (int bit = 0; bit < 64; bit++) {
                uint64_t bits = f.bits[c] ^ UINT64_C(1) << bit;
                double d;
                memcpy(&d, &bits, sizeof d);
                /* the compiler's own way from a double to a whole number, against the program's */
                bool in_range = d >= 0 && d < 0x1p70 && bits >> 63 == 0;
                whole value = in_range ? (whole)d : 0, distance = value > exact ? value - exact : exact - value;
                bool may_pass = in_range && (double)value == d && distance <= allowed;
                must(compare(exact, bits, n).holds == may_pass, "one bit flipped", k);
                if (may_pass) harmless++;
                else flips++;
            }
            for (size_t i = 0; i < sizeof never / sizeof *never; i++, others++)
                must(!compare(exact, never[i], n).holds, "a broken double is stopped", (unsigned long)i);
            must(!compare(exact, f.bits[c] | UINT64_C(1) << 63, n).holds, "a negative double is stopped", k);
            others++;
            if (exact && exact < UINT64_C(1) << 50) { /* a fraction beside the right whole number */
                double d = (double)exact + 0.25;
                uint64_t bits;
                memcpy(&bits, &d, sizeof bits);
                must(!compare(exact, bits, n).holds, "a fraction is stopped", k);
                others++;
            }
            for (int i = 0; i < 20; i++, patterns++) {
                struct verdict v = compare(exact, draw64(), n);
                must(!v.holds || v.distance <= allowed, "a random pattern", k);
            }
        }
    }
    must(compare((whole)1 << 70, UINT64_C(0x4450000000000000), 32).holds == false, "a total of 2^70 is stopped", 0);
    must(compare((whole)1 << 70, 0, 32).too_large && !compare(((whole)1 << 70) - 1, 0, 32).too_large, "2^70 is too large, and it alone", 0);
    must(compare(~(whole)0, 0, 32).holds == false, "a total of 2^128 - 1 is stopped", 0);
    must(flips > 100000 && harmless > 100, "enough flipped bits on both sides", flips);
    printf("4. broken doubles: %lu with one bit flipped and %lu others (minus sign, fraction, infinite, no number, too large) are stopped, "
           "%lu flips within the allowed distance pass; %lu random patterns\n", flips, others, harmless, patterns);
}

/* Files that can't be read or written, and refused returns: the message, the status, and nothing left behind. */
static void messages(char *day) {
    static struct bytes r;
    static row rows[ROWS];
    char missing[600], pipe[600], before[16];
    snprintf(missing, sizeof missing, "%s/none", picture_path);
    must(run(missing) == 1 && strncmp(caught, "chart: cannot read ", 19) == 0, "a file that isn't there", 0);
    must(run(day, missing) == 1 && strncmp(caught, "chart: cannot write ", 20) == 0, "a place that isn't there", 0);
    must(run(directory) == 1 && strncmp(caught, "chart: cannot read ", 19) == 0, "a directory to read", 0);
    must(run(day, directory) == 1 && strstr(caught, "not an ordinary file"), "a directory to write", 0);
    snprintf(pipe, sizeof pipe, "%s/pipe", directory); /* stands for devices too, which a rename would destroy */
    must(mkfifo(pipe, 0600) == 0 && run(day, pipe) == 1 && strstr(caught, "not an ordinary file"), "a pipe to write", 0);
    unlink(pipe);
    must(run(day, picture_path, "more") == 2 && strncmp(caught, "usage: ", 7) == 0, "too many words", 0);
    must(run("--check") == 2 && strncmp(caught, "usage: ", 7) == 0, "too few words", 0);
    must(run("--title", "North") == 2 && strncmp(caught, "usage: ", 7) == 0, "a title and no file", 0);
    make(&r, rows, 0, in_edition(1, 0));
    spill(return_path, &r);
    must(run(return_path, return_path) == 1 && strstr(caught, "the return itself"), "the return is not written over", 0);
    r.b[508] ^= 1;
    spill(return_path, &r);
    must(run(return_path, picture_path) == 1 && strcmp(caught, "refused 2 0\n") == 0, "a wrong check", 0);
    must(run("--check", return_path) == 1 && strcmp(caught, "refused 2 0\n") == 0, "a wrong check, compared", 0);
    r.length = 511;
    spill(return_path, &r);
    must(run(return_path, picture_path) == 1 && strcmp(caught, "refused 1 0\n") == 0, "511 bytes", 0);
    must(access(picture_path, F_OK) != 0, "no picture of a refused return", 0);
    unlink(return_path);
    /* a disk that is full after 1,000 bytes: the older picture stays as it was */
    struct bytes older = {.b = "older", .length = 5};
    spill(picture_path, &older);
    struct rlimit limit, small;
    getrlimit(RLIMIT_FSIZE, &limit);
    small = limit;
    small.rlim_cur = 1000;
    setrlimit(RLIMIT_FSIZE, &small);
    must(run(day, picture_path) == 1 && strncmp(caught, "chart: cannot write ", 20) == 0, "a full disk", 0);
    setrlimit(RLIMIT_FSIZE, &limit);
    must(slurp(picture_path, before, sizeof before) == 5 && strcmp(before, "older") == 0, "the older picture is untouched", 0);
    must(run(day, picture_path) == 0 && slurp(picture_path, before, sizeof before) == 15, "an older picture is replaced", 0);
    unlink(picture_path);
    int left = 0;
    DIR *list = opendir(directory);
    while (list && readdir(list)) left++;
    must(list && left == 2, "nothing but . and .. is left in the directory", (unsigned long)left);
    if (list) closedir(list);
    printf("5. messages: 14 runs end with the right words and status, and leave nothing behind\n");
}

int main(int count, char **words) {
    if (count != 3) {
        fprintf(stderr, "usage: chart_test DAY.return DIRECTORY\n");
        return 2;
    }
    directory = words[2];
    snprintf(picture_path, sizeof picture_path, "%s/picture.svg", words[2]);
    snprintf(return_path, sizeof return_path, "%s/one.return", words[2]);
    the_day(words[1]);
    good_returns();
    turning_points();
    missing_row();
    broken_doubles();
    messages(words[1]);
    if (failures) printf("FAILED: %lu in all\n", failures);
    return failures ? 1 : 0;
}
