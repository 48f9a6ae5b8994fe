/* Tries examples/chart.c --matter, where the cleared biomass went: chart_matter_test DAY.return DIRECTORY, an empty one for its own files.
 * Prints a line per part with its number of cases. Status 0 only if all of them hold. */
#include "chart_test.h"

/* ---- the five parts of rows, and what the picture must have of them ---- */

static const char *const elements[5] = {"oxidised_onsite", "charcoal_onsite", "oxidised_offsite", "charcoal_offsite", "unburned"};

/* What the five come to, by the request, without the library. */
static void add_parts(whole parts[5], const uint32_t *r) {
    whole cleared = (whole)r[1] * counted(r[2], r[3]);
    parts[0] += cleared * r[4] * r[5];
    parts[1] += cleared * r[4] * (1000 - r[5]);
    parts[2] += cleared * r[7] * r[8];
    parts[3] += cleared * r[7] * (1000 - r[8]);
    parts[4] += cleared * (1000 - r[4] - r[7]) * 1000;
}

/* The next words between > and < behind this one; the answer is where they end, or NULL. */
static const char *words_behind(const char *from, const char *element, char *words, size_t room) {
    const char *at = strstr(from, element), *begin = at ? strchr(at, '>') : NULL, *end = begin ? strchr(begin, '<') : NULL;
    if (!end || (size_t)(end - begin) > room) return NULL;
    memcpy(words, begin + 1, (size_t)(end - begin - 1));
    words[end - begin - 1] = 0;
    return end;
}

/* A share as it is printed is the nearest hundredth of a per cent, the even one of two that are as near; or says on which side of the ends it is. */
static void share_must_be(const char *said, whole part, whole all, unsigned long which) {
    unsigned per_cent = 0, hundredths = 0;
    char decimals[8] = "", rest[8] = "";
    if (all == 0) must(strcmp(said, "none") == 0, "a share of nothing", which);
    else if (strcmp(said, "below 0.01 %") == 0) must(part != 0 && part * 20000 <= all, "a share below the least", which);
    else if (strcmp(said, "above 99.99 %") == 0) must(part != all && (all - part) * 20000 <= all, "a share above the most", which);
    else {
        bool whole_one = sscanf(said, "%u%7[ %%]", &per_cent, rest) == 2, broken = sscanf(said, "%u.%2[0-9]%7[ %%]", &per_cent, decimals, rest) == 3;
        for (size_t i = 0; i < 2; i++) hundredths = 10 * hundredths + (decimals[0] && i < strlen(decimals) ? (unsigned)(decimals[i] - '0') : 0);
        must((whole_one || broken) && strcmp(rest, " %") == 0, "a share in per cent", which);
        whole share = 100 * per_cent + hundredths, a = share * all, b = part * 10000, apart = a < b ? b - a : a - b;
        must(2 * apart < all || (2 * apart == all && share % 2 == 0), "the nearest share", which);
        must((share == 0) == (part == 0) && (share == 10000) == (part == all), "none and all are said of none and all alone", which);
    }
}

/* The parts of the bar stand side by side, end where their shares end, to a unit, and fill it; and every total and share is there. */
static void picture_must_show(const char *text, const whole parts[5], unsigned long which) {
    whole all = 0, before = 0;
    unsigned at = 40;
    char wanted[160], share[64];
    const char *shares = strstr(text, ">Share<");
    for (int i = 0; i < 5; i++) all += parts[i];
    for (int i = 0; i < 5; i++) {
        unsigned x = 0, width = 0;
        snprintf(wanted, sizeof wanted, "<title>%s %s</title>\n", elements[i], number(parts[i], 0, false).s);
        const char *found = strstr(text, wanted);
        must(found && sscanf(found + strlen(wanted), "<rect x=\"%u\" y=\"156\" width=\"%u\" height=\"44\"", &x, &width) == 2, "each part with its total",
             which);
        must(x == at, "a part begins where the one before it ends", which);
        at += width, before += parts[i];
        if (all) must((at - 40) * all <= 900 * before && 900 * before < (at - 40 + 1) * all, "a part ends where its share ends", which);
        snprintf(wanted, sizeof wanted, ">%s kt</text>", number(parts[i], 9, true).s);
        must(strstr(text, wanted) != NULL, "its total in kt", which);
        snprintf(wanted, sizeof wanted, ">%s x 10<", number(parts[i], 0, true).s);
        must(strstr(text, wanted) != NULL, "its total as `sheets` has it", which);
        shares = shares ? words_behind(shares, "<text x=\"640\"", share, sizeof share) : NULL;
        must(shares != NULL, "its share", which);
        if (shares) share_must_be(share, parts[i], all, which);
    }
    must(at == (all ? 940 : 40), "the parts fill the bar", which);
    snprintf(wanted, sizeof wanted, "<title>sum %s</title>", number(all, 0, false).s);
    must(strstr(text, wanted) != NULL, "the whole", which);
    must((strstr(text, ">no biomass was cleared</text>") != NULL) == (all == 0), "a whole of nothing is said", which);
    const char *end = strstr(text, "</svg>\n");
    must(end && end[7] == 0 && strstr(text, " role=\"img\" aria-labelledby=\"title desc\">\n<title id=\"title\">Where the cleared biomass went"),
         "the picture is whole and has a title", which);
}

/* ---- the parts ---- */

static char *directory, picture_path[512], return_path[512];

static void must_draw(row *rows, uint32_t n, uint32_t edition, const char *what, unsigned long which) {
    static struct bytes r;
    static struct version v = {.path = "a & b.return"};
    whole parts[5] = {0}, sum = 0;
    make(&r, rows, n, in_edition(edition, which));
    must(gather(r.b, r.length, &v.figures) == 0 && adds_up(&v), what, which);
    for (uint32_t i = 0; i < n; i++) {
        add_parts(parts, rows[i]);
        sum += (whole)rows[i][1] * counted(rows[i][2], rows[i][3]);
    }
    for (int i = 0; i < 5; i++) must(v.figures.masses[i] == parts[i], "the masses as the rows give them", which);
    must(all_masses(&v.figures) == 1000000 * sum, "together they are the biomass", which);
    char *text = NULL;
    size_t size = 0;
    FILE *memory = open_memstream(&text, &size);
    draw_masses(memory, &v, which % 2 ? "North & South <2024>" : NULL);
    fclose(memory);
    picture_must_show(text, parts, which);
    must(strstr(text, "a &#38; b.return; conversion rows: ") != NULL, "its file", which);
    must((strstr(text, ">North &#38; South &#60;2024&#62;</text>") && strstr(text, "went: North &#38; South &#60;2024&#62;</title>")) == which % 2,
         "its title where one is given", which);
    free(text);
}

static void many_returns(void) {
    static row rows[ROWS];
    static const uint32_t fractions[7][2] = {{0, 0}, {1000, 0}, {0, 1000}, {500, 500}, {1, 0}, {0, 1}, {333, 334}}, oxidised[4] = {0, 1, 500, 1000};
    unsigned long ends = 0, random = 0;
    for (uint32_t n = 0; n <= ROWS; n += n < 2 ? 1 : 10)
        for (int f = 0; f < 7; f++)
            for (int o = 0; o < 16; o++, ends++) {
                for (uint32_t i = 0; i < n; i++) {
                    const uint32_t most = ends % 2, *on_off = fractions[f];
                    const row r = {i, most ? 1000000 : 1, most ? 10000 : 1, 0, on_off[0], oxidised[o % 4], 1000, on_off[1], oxidised[o / 4], 1000};
                    memcpy(rows[i], r, sizeof r);
                }
                must_draw(rows, n, 1 + (uint32_t)(ends % NILOFERQ_EDITIONS), "a return at its ends is drawn", ends);
            }
    for (; random < 3000; random++) {
        uint32_t n = from_to(0, ROWS);
        for (uint32_t i = 0; i < n; i++) random_row(rows[i], i);
        if (random % 7 == 0) /* all of them thinner */
            for (uint32_t i = 0; i < n; i++) rows[i][3] = 10000;
        must_draw(rows, n, 1 + (uint32_t)(random % NILOFERQ_EDITIONS), "a random return is drawn", random);
    }
    printf("10. cleared biomass: %lu returns at their ends and %lu random ones, the five parts as the rows give them; in the picture they add up to the "
           "whole\n", ends, random);
}

/* Shares that are halves, or next to nothing and to all: out of a whole of 20,000 a part of 1 is half of a hundredth of a per cent. */
static void shares(void) {
    unsigned long cases = 0;
    static const whole wholes[] = {1, 3, 7, 10000, 20000, 60000, 999983, UINT64_C(320000000000000000)};
    for (size_t w = 0; w < sizeof wholes / sizeof *wholes; w++)
        for (whole part = 0; part <= 40 && part <= wholes[w]; part++, cases += 2) {
            share_must_be(share_of(part, wholes[w]).s, part, wholes[w], cases);
            share_must_be(share_of(wholes[w] - part, wholes[w]).s, wholes[w] - part, wholes[w], cases + 1);
        }
    must(strcmp(share_of(1, 20000).s, "below 0.01 %") == 0 && strcmp(share_of(3, 20000).s, "0.02 %") == 0 && strcmp(share_of(5, 20000).s, "0.02 %") == 0 &&
         strcmp(share_of(19999, 20000).s, "above 99.99 %") == 0 && strcmp(share_of(1, 3).s, "33.33 %") == 0 && strcmp(share_of(1, 2).s, "50 %") == 0 &&
         strcmp(share_of(0, 3).s, "0 %") == 0 && strcmp(share_of(3, 3).s, "100 %") == 0 && strcmp(share_of(0, 0).s, "none") == 0, "shares by hand", 0);
    printf("10. shares: %lu, each the nearest hundredth of a per cent\n", cases);
}

/* The day's return as it is, and in edition 3 with scattered trees. */
static void take_day(const char *day, struct bytes *r) {
    static char text[NILOFERQ_RETURN_ROOM + 1];
    r->length = slurp(day, text, sizeof text);
    memcpy(r->b, text, r->length);
}
static void put_trees(struct bytes *r) {
    r->b[512 + 12] = 1;
    for (size_t at = 0; at < r->length; at += 512) {
        uint32_t check = 0;
        r->b[at + 6] = 3;
        for (uint32_t i = 0; i < 508; i++) check += (i + 1) * r->b[at + i];
        for (int i = 0; i < 4; i++) r->b[at + 508 + (size_t)i] = (uint8_t)(check >> 8 * i);
    }
}

static void whole_runs(char *day) {
    static char text[65536], again[65536];
    const whole parts[5] = {UINT64_C(64800000000), UINT64_C(7200000000), UINT64_C(32400000000), UINT64_C(3600000000), UINT64_C(72000000000)};
    must(run("--matter", day, picture_path) == 0 && caught[0] == 0 && printed[0] == 0 && slurp(picture_path, text, sizeof text), "the day is drawn", 0);
    picture_must_show(text, parts, 0);
    static const char *const words[] = {">64.8 kt<", ">7.2 kt<", ">32.4 kt<", ">3.6 kt<", ">72 kt<", ">180 kt<", ">36 %<", ">4 %<", ">18 %<", ">2 %<", ">40 %<",
        "<desc id=\"desc\">Of 180 kt of dry matter: Oxidised on site 64.8 kt, 36 %; Charcoal on site 7.2 kt, 4 %; "};
    for (size_t i = 0; i < sizeof words / sizeof *words; i++) must(strstr(text, words[i]) != NULL, "the day's picture in words", (unsigned long)i);
    must(run("--matter", day) == 0 && strcmp(printed, text) == 0, "the same picture on standard output", 0);
    must(run("--title", "North", "--matter", day) == 0 && strstr(printed, ">North</text>") && strcpy(again, printed), "with a title", 0);
    must(run("--matter", "--title", "North", day) == 0 && strcmp(printed, again) == 0, "in either order", 0);
    unlink(picture_path);
    must(run("--matter") == 2 && run("--matter", day, picture_path, "more") == 2 && run("--matter", "--compare", day, day) == 2 &&
         run("--compare", "--matter", day, day) == 2 && strncmp(caught, "usage: ", 7) == 0, "wrong use", 0);
    must(access(picture_path, F_OK) != 0, "and no picture of it", 0);
}

/* Refused returns, and figures that cannot be: nothing is drawn. */
static void nothing_drawn(const char *day) {
    static struct bytes r, other;
    static row rows[ROWS];
    take_day(day, &r);
    spill(return_path, &r);
    must(run("--matter", return_path, return_path) == 1 && strstr(caught, "the return itself"), "the return is not written over", 0);
    random_row(rows[0], 7);
    rows[0][1] = 201, rows[0][2] = 1000, rows[0][3] = 100; /* more biomass than the day's */
    make(&other, rows, 1, in_edition(1, 0));
    other_rows = &other;
    const char *broken = "chart: BROKEN: the five masses are not the biomass of the conversion rows, 180900000000 of 10^-9 kt: oxidised_onsite 64800000000 ";
    must(run("--matter", return_path, picture_path) == 1 && strncmp(caught, broken, strlen(broken)) == 0 && strstr(caught, "\nchart: nothing is drawn\n"),
         "masses that are not the rows'", 0);
    other_rows = NULL;
    r.b[508] ^= 1;
    spill(return_path, &r);
    must(run("--matter", return_path, picture_path) == 1 && strcmp(caught, "refused 2 0\n") == 0, "a wrong check", 0);
    r.b[508] ^= 1;
    put_trees(&r);
    spill(return_path, &r);
    must(run("--matter", return_path, picture_path) == 1 && strcmp(caught, "refused 14 12\n") == 0, "scattered trees in edition 3", 0);
    must(run("--matter", return_path) == 1 && strcmp(caught, "refused 14 12\n") == 0 && printed[0] == 0, "and on standard output", 0);
    must(access(picture_path, F_OK) != 0 && unlink(return_path) == 0 && rmdir(directory) == 0, "nothing is left in the directory", 0);
}

/* Masses that are off by one, or so large that their sum wraps, are noticed. */
static void broken_masses(void) {
    static struct version v;
    static const whole parts[5] = {UINT64_C(64800000000), UINT64_C(7200000000), UINT64_C(32400000000), UINT64_C(3600000000), UINT64_C(72000000000)};
    static const uint32_t day_row[FIELDS] = {7, 200, 1000, 100, 400, 900, 500, 200, 900, 500, 300, 1000, 100, 300, 500};
    memcpy(v.figures.rows, day_row, sizeof day_row);
    v.figures.n = 1;
    for (int k = 0; k <= 15; k++) {
        memcpy(v.figures.masses, parts, sizeof parts);
        if (k < 15) v.figures.masses[k / 3] += k % 3 == 0 ? 1 : k % 3 == 1 ? ~(whole)0 : (whole)1 << 127; /* one more, one less, far too much */
        FILE *said = tmpfile();
        int before = turn(stderr, said);
        bool good = adds_up(&v);
        turn_back(stderr, said, before, caught, sizeof caught);
        must(good == (k == 15) && (strstr(caught, "chart: BROKEN: ") != NULL) == (k < 15), "a mass that is off", (unsigned long)k);
    }
}

int main(int count, char **words) {
    if (count != 3) {
        fprintf(stderr, "usage: chart_matter_test DAY.return DIRECTORY\n");
        return 2;
    }
    directory = words[2];
    snprintf(picture_path, sizeof picture_path, "%s/picture.svg", words[2]);
    snprintf(return_path, sizeof return_path, "%s/one.return", words[2]);
    many_returns();
    shares();
    broken_masses();
    whole_runs(words[1]);
    nothing_drawn(words[1]);
    printf("11. cleared biomass: %lu runs, drawn, wrongly used, refused, and with masses that cannot be\n", runs);
    if (failures) printf("FAILED: %lu in all\n", failures);
    return failures ? 1 : 0;
}
