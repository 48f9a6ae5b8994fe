/* Two versions of a return, made of rows, and what the chart's lines and its picture must have of them. */
#ifndef CHART_TEST_PAIRS_H
#define CHART_TEST_PAIRS_H

#include "chart_test.h"

static const row limits = {0, 1000000, 10000, 10000, 1000, 1000, 1000, 1000, 1000, 1000, 1000000, 10000, 10000, 1000, 1000};

static bool is_after(int field) { return field == 3 || field == 12; }

/* How far a field of a row may still go towards more cleared: the on-site, off-site and decay fractions add up to at most 1,000. */
static uint32_t room_for_more(const uint32_t *r, int field) {
    if (is_after(field)) return r[field];
    uint32_t room = limits[field] - r[field], left = 1000 - r[4] - r[7] - r[13];
    bool shared = field == 4 || field == 7 || field == 13;
    return shared && left < room ? left : room;
}

static uint32_t room_for_less(const uint32_t *r, int field) { return is_after(field) ? limits[field] - r[field] : r[field]; }

static void clear_more(uint32_t *r, int field, uint32_t by) { r[field] = is_after(field) ? r[field] - by : r[field] + by; }
static void clear_less(uint32_t *r, int field, uint32_t by) { r[field] = is_after(field) ? r[field] + by : r[field] - by; }

/* Two versions as rows, with the same ids until a test changes them, and as returns. */
static struct {
    row rows[ROWS];
    uint32_t n;
    struct bytes bytes;
} old, new;
static struct version both[2] = {{.role = "old", .path = "a & b.return"}, {.role = "new", .path = "c.return"}};

/* Rows with a free id behind each. */
static void draw_old(uint32_t least) {
    bool sharp = draw64() % 3 == 0;
    old.n = from_to(least, ROWS);
    for (uint32_t i = 0, id = 0; i < old.n; i++, id += from_to(2, 1000)) {
        if (sharp) sharp_row(old.rows[i], id);
        else random_row(old.rows[i], id);
    }
}

static void copy_to_new(void) {
    memcpy(new.rows, old.rows, sizeof old.rows);
    new.n = old.n;
}

/* Every field of every row goes so far towards more cleared, in an order that differs. */
static void raise_all(uint32_t (*how_far)(uint32_t room)) {
    for (uint32_t i = 0; i < new.n; i++)
        for (int k = 0, from = (int)from_to(1, FIELDS - 1); k < FIELDS - 1; k++) {
            int field = 1 + (from + k) % (FIELDS - 1);
            clear_more(new.rows[i], field, how_far(room_for_more(new.rows[i], field)));
        }
}
static uint32_t all_of_it(uint32_t room) { return room; }
static uint32_t at_most_one(uint32_t room) { return room && draw64() % 2; }

/* Makes returns of both, in editions and with other kinds that differ, and has the chart compare them. */
static struct finding compare_made(unsigned long which) {
    make(&old.bytes, old.rows, old.n, in_edition(1 + (uint32_t)(draw64() % NILOFERQ_EDITIONS), which));
    make(&new.bytes, new.rows, new.n, in_edition(1 + (uint32_t)(draw64() % NILOFERQ_EDITIONS), (unsigned long)draw64() % 1000));
    must(gather(old.bytes.b, old.bytes.length, &both[0].figures) == 0 && examine(&both[0]), "the old return is good", which);
    must(gather(new.bytes.b, new.bytes.length, &both[1].figures) == 0 && examine(&both[1]), "the new return is good", which);
    return find_less(&both[0].figures, &both[1].figures);
}

static double drawn(int k, int code) {
    double d;
    memcpy(&d, &both[k].figures.bits[code], sizeof d);
    return d;
}

/* ---- what is printed and drawn of a pair ---- */

static const char *const elements[3] = {"onsite", "offsite", "decay"};

static whole total(row *rows, uint32_t n, int code) {
    whole sum = 0;
    for (uint32_t i = 0; i < n; i++) sum += part(rows[i], code);
    return sum;
}

static char text[65536];
static void catch_text(struct finding found, bool picture, const char *title) {
    char *made = NULL;
    size_t size = 0;
    FILE *memory = open_memstream(&made, &size);
    if (picture) draw_pair(memory, both, found, title);
    else print_pair(memory, both, found);
    fclose(memory);
    must(size < sizeof text, "the test's own room", size);
    snprintf(text, sizeof text, "%s", made);
    free(made);
}

/* The line that begins with these two words has this number, in both units. */
static bool has_line(const char *name, const char *which, const char *sign, whole size) {
    char wanted[200];
    snprintf(wanted, sizeof wanted, "%s%s x 10^-12 kt C = %s%s kt C", sign, number(size, 0, false).s, sign, number(size, 12, false).s);
    for (const char *line = text; line && *line; line = strchr(line, '\n'), line += line != NULL) {
        char first[20], second[20];
        int at = 0;
        if (sscanf(line, "%19s %19s %n", first, second, &at) != 2 || strcmp(first, name) != 0 || strcmp(second, which) != 0) continue;
        return strncmp(line + at, wanted, strlen(wanted)) == 0 && line[(size_t)at + strlen(wanted)] == '\n';
    }
    return false;
}

/* The lines have the totals that the rows give and their differences; the finding is the last line. */
static void lines_must_say(struct finding found, unsigned long which) {
    catch_text(found, false, NULL);
    for (int c = 0; c < 3; c++) {
        whole a = total(old.rows, old.n, c), b = total(new.rows, new.n, c);
        must(has_line(elements[c], "old", "", a) && has_line(elements[c], "new", "", b), "both totals in the lines", which);
        must(has_line(elements[c], "difference", b < a ? "-" : b > a ? "+" : "", b < a ? a - b : b - a), "the difference in the lines", which);
    }
    bool yes = strstr(text, "\nas much cleared or more: yes, in every conversion row; so none of the three is lower\n") != NULL;
    must(yes == (found.what == AS_MUCH_OR_MORE), "the lines say whether as much is cleared", which);
}

/* Where this text ends in the picture, from a place on; NULL where it is not, or where there is no such place. */
static const char *behind(const char *from, const char *wanted) {
    const char *found = from ? strstr(from, wanted) : NULL;
    return found ? found + strlen(wanted) : NULL;
}

/* The picture has both numbers under this name, the old one first, each as that, in kt C and as a whole number. */
static bool picture_has(const char *name, whole older, whole newer) {
    char wanted[160];
    snprintf(wanted, sizeof wanted, "<title>%s old %s new %s</title>\n", name, number(older, 0, false).s, number(newer, 0, false).s);
    const char *at = behind(text, wanted);
    for (int k = 0; k < 2; k++) {
        whole exact = k ? newer : older;
        at = behind(at, k ? ">new</text>\n" : ">old</text>\n");
        snprintf(wanted, sizeof wanted, ">%s kt C</text>\n", number(exact, 12, true).s);
        at = behind(at, wanted);
        snprintf(wanted, sizeof wanted, ">%s x 10<", number(exact, 0, true).s);
        at = behind(at, wanted);
    }
    return at != NULL;
}

/* The lengths of the six bars, old and new by turns, in hundredths. */
static int read_bars(unsigned long lengths[6]) {
    int count = 0;
    for (const char *at = text; (at = strstr(at, "<rect x=\"180\" ")); at++) {
        unsigned long units, hundredths;
        if (sscanf(at, "<rect x=\"180\" y=\"%*d\" width=\"%lu.%lu\" height=\"36\"", &units, &hundredths) != 2) continue;
        if (count < 6) lengths[count] = 100 * units + hundredths;
        count++;
    }
    return count;
}

/* The six bars are as long as their doubles are large, to a hundredth, beside the longest, which takes most of the axis of 44,000 hundredths; a bar that
 * would be shorter than 200 has 200, and zero has none. So a bar is never lower than another without a lower double. */
static void bars_must_fit(unsigned long which) {
    unsigned long bars[6] = {0};
    must(read_bars(bars) == 6, "six bars", which);
    int most = 0;
    for (int i = 1; i < 6; i++)
        if (drawn(i % 2, i / 2) > drawn(most % 2, most / 2)) most = i;
    double large = drawn(most % 2, most / 2), longest = (double)bars[most];
    must(bars[most] <= 44000 && (large == 0 || bars[most] > 30000), "the longest bar takes most of the axis", which);
    for (int i = 0; i < 6; i++) {
        double d = drawn(i % 2, i / 2), due = large == 0 ? 0 : d / large * longest;
        if (d != 0 && due < 201) must(bars[i] >= 200 && bars[i] <= 201, "a thin bar", which);
        else must((double)bars[i] > due - 1.01 && (double)bars[i] < due + 1.01 && (bars[i] == 0) == (d == 0), "a bar to scale", which);
    }
    for (int c = 0; c < 3; c++) {
        must(drawn(1, c) < drawn(0, c) || bars[2 * c] <= bars[2 * c + 1], "no lower bar without a lower double", which);
        must(drawn(0, c) < drawn(1, c) || bars[2 * c + 1] <= bars[2 * c], "no higher bar without a higher double", which);
    }
}

/* The picture has all totals and sums, a legend, and its title where one is given; and it is whole. */
static void picture_must_show(struct finding found, unsigned long which) {
    whole sums[2] = {0};
    catch_text(found, true, which % 2 ? "North & South <2024>" : NULL);
    for (int c = 0; c < 3; c++) {
        whole a = total(old.rows, old.n, c), b = total(new.rows, new.n, c);
        must(picture_has(elements[c], a, b), "both totals in the picture", which);
        sums[0] += a, sums[1] += b;
    }
    must(picture_has("sum", sums[0], sums[1]), "both sums in the picture", which);
    bars_must_fit(which);
    bool yes = strstr(text, ">As much cleared or more in the new return: yes, in every conversion row; so none of the three is lower.</text>") != NULL;
    bool no = strstr(text, ">As much cleared or more in the new return: no, ") != NULL;
    must(yes != no && yes == (found.what == AS_MUCH_OR_MORE), "the picture says whether as much is cleared", which);
    must(strstr(text, ">old: a &#38; b.return; conversion rows: ") && strstr(text, ">new: c.return; conversion rows: "), "the legend", which);
    must((strstr(text, ">North &#38; South &#60;2024&#62;</text>") != NULL) == which % 2, "its title where one is given", which);
    must(strcmp(text + strlen(text) - 7, "</svg>\n") == 0, "the picture is whole", which);
}

#endif
