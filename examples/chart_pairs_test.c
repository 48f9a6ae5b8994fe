/* Tries examples/chart.c on two versions of a return: chart_pairs_test DIRECTORY, an empty one for its own files.
 * Prints a line per part with its number of cases. Status 0 only if all of them hold. */
#include "chart_test_pairs.h"

/* ---- the parts ---- */

static unsigned long higher, same;

/* As much is cleared or more, so none of the three is lower: not the exact totals, not the doubles, not the bars. */
static void never_lower(const char *what, unsigned long which) {
    struct finding found = compare_made(which);
    must(found.what == AS_MUCH_OR_MORE, what, which);
    for (int c = 0; c < 3; c++) {
        whole a = both[0].figures.exact[c], b = both[1].figures.exact[c];
        must(a <= b, "no exact total is lower", which);
        must(drawn(0, c) <= drawn(1, c), "no double is lower", which);
        if (a < b) higher++;
        else same++;
    }
    must(none_lower(both), "none is called lower", which);
    lines_must_say(found, which);
    if (which % 3 == 0) picture_must_show(found, which);
}

/* One field of one row goes towards more cleared, by 1, as far as it can, or by some of it. */
static void raised_by_itself(int field, unsigned long which) {
    uint32_t *r, room;
    do {
        draw_old(1);
        copy_to_new();
        r = new.rows[from_to(0, new.n - 1)], room = room_for_more(r, field);
    } while (room == 0);
    clear_more(r, field, which % 3 == 0 ? 1 : which % 3 == 1 ? room : from_to(1, room));
    never_lower("one field raised", which);
}

/* The old return's rows are thinner in one period or in both: after is above before by 1, or by more. */
static void make_thinner(void) {
    for (uint32_t i = 0; i < old.n; i++)
        for (int before = 2; before < FIELDS; before += 9) { /* 2 and 11, each with its after behind it */
            if (draw64() % 3 == 0) continue;
            uint32_t *r = old.rows[i] + before;
            r[0] = from_to(0, 9999);
            r[1] = draw64() % 2 ? r[0] + 1 : from_to(r[0] + 1, 10000);
        }
}

static void raised(void) {
    unsigned long single = 0, many = 0, ends = 0, thinner = 0;
    for (int field = 1; field < FIELDS; field++)
        for (unsigned long k = 0; k < 100; k++, single++) raised_by_itself(field, k);
    for (; many < 400; many++) {
        draw_old(0);
        copy_to_new();
        raise_all(many % 2 ? up_to : at_most_one);
        never_lower("many fields raised", many);
    }
    for (; ends < 200; ends++) {
        draw_old(0);
        if (ends % 3 == 0) /* from nothing, with the densities after at their limits */
            for (uint32_t i = 0; i < old.n; i++)
                for (int field = 1; field < FIELDS; field++) old.rows[i][field] = is_after(field) ? limits[field] : 0;
        copy_to_new();
        raise_all(all_of_it);
        if (ends % 5 == 0) memcpy(old.rows, new.rows, sizeof old.rows); /* both there */
        never_lower("raised to the limits", ends);
    }
    for (; thinner < 400; thinner++) {
        draw_old(1);
        make_thinner();
        copy_to_new();
        raise_all(thinner % 2 ? up_to : at_most_one);
        never_lower("thinner periods raised", thinner);
    }
    must(higher > 1000 && same > 1000, "enough subtotals that rise and that stay", higher);
    printf("6. as much cleared or more: %lu pairs with one field raised, %lu with many, %lu to the limits, %lu with thinner periods; of their "
           "subtotals %lu are higher, %lu the same and none lower, exact, as doubles and as bars\n", single, many, ends, thinner, higher, same);
}

/* The place and the field are named, and what stands there in both, as the last line. */
static void must_name(struct finding found, uint32_t at, int field, unsigned long which) {
    char wanted[200];
    must(found.what == LESS && found.row == at && found.field == (uint32_t)field, "the first row and field with less cleared", which);
    lines_must_say(found, which);
    snprintf(wanted, sizeof wanted, "\nas much cleared or more: no, id %u (block %u, row %u): %s is %u in the old return and %u in the new one%s\n",
             old.rows[at][0], at / 12, at % 12, conversion_fields[field].name, old.rows[at][field], new.rows[at][field],
             is_after(field) ? ", so more was left" : "");
    must(strstr(text, wanted) != NULL, "their names in the lines", which);
    if (which % 3 == 0) picture_must_show(found, which);
}

static unsigned long falls(void) {
    unsigned long count = 0;
    for (int c = 0; c < 3; c++) count += both[1].figures.exact[c] < both[0].figures.exact[c];
    return count;
}

/* From this field of this row on, all have less cleared in the new return, as far as that can be. */
static void lower_behind(uint32_t at, int field) {
    for (; at < new.n; at++, field = 1)
        for (; field < FIELDS; field++) {
            new.rows[at][field] = old.rows[at][field];
            clear_less(new.rows[at], field, room_for_less(old.rows[at], field));
        }
}

/* A field lowered by itself, or among others raised; every second time with all behind it lowered too, which are not named. */
static void lowered_by_itself(int field, unsigned long which) {
    uint32_t at, room;
    do {
        draw_old(1);
        at = from_to(0, old.n - 1), room = room_for_less(old.rows[at], field);
    } while (room == 0);
    copy_to_new();
    if (which % 4 > 1) raise_all(up_to);
    if (which % 2) lower_behind(at, field);
    new.rows[at][field] = old.rows[at][field];
    clear_less(new.rows[at], field, which % 3 == 0 ? 1 : which % 3 == 1 ? room : from_to(1, room));
    must_name(compare_made(which), at, field, which);
}

static void lowered(void) {
    unsigned long cases = 0, lower = 0;
    for (int field = 1; field < FIELDS; field++)
        for (unsigned long k = 0; k < 40; k++, cases++) {
            lowered_by_itself(field, k);
            lower += falls() != 0;
        }
    must(lower > 100, "enough pairs with a lower subtotal", lower);
    printf("7. one field with less cleared: %lu pairs, each names its row and field; a subtotal is lower in %lu of them\n", cases, lower);
}

/* Both ids of the first place where they differ, or that a row is missing there, whatever the fields are. */
static void must_name_ids(uint32_t at, unsigned long which) {
    char ids[2][60], wanted[300];
    struct finding found = compare_made(which);
    must(found.what == OTHER_IDS && found.row == at, "the first place with other ids", which);
    for (int k = 0; k < 2; k++) {
        bool there = at < (k ? new.n : old.n);
        if (there) snprintf(ids[k], sizeof ids[k], "id %u in the %s return", k ? new.rows[at][0] : old.rows[at][0], both[k].role);
        else snprintf(ids[k], sizeof ids[k], "no row in the %s return", both[k].role);
    }
    lines_must_say(found, which);
    snprintf(wanted, sizeof wanted, "\nas much cleared or more: no, the conversion ids differ: block %u, row %u: %s, %s\n", at / 12, at % 12, ids[0], ids[1]);
    must(strstr(text, wanted) != NULL, "both ids in the lines", which);
    if (which % 3 == 0) picture_must_show(found, which);
}

static void other_ids(void) {
    unsigned long cases = 0;
    for (; cases < 400; cases++) {
        draw_old(1);
        copy_to_new();
        uint32_t at = from_to(0, old.n - 1);
        if (cases % 5 == 0) raise_all(up_to);
        if (cases % 5 == 1) memset(new.rows[at] + 1, 0, sizeof(row) - sizeof new.rows[at][0]);
        if (cases % 4 == 0) new.rows[at][0]++;
        if (cases % 4 == 1) new.n = at;
        if (cases % 4 == 2) old.n = at;
        if (cases % 4 == 3) memmove(new.rows + at, new.rows + at + 1, (--new.n - at) * sizeof(row)); /* a row is left out */
        must_name_ids(at, cases);
    }
    printf("8. other conversion ids, or another number of rows: %lu pairs, each names the first place\n", cases);
}

/* ---- whole runs ---- */

static char old_path[512], new_path[512], picture_path[512], link_path[512];

static bool untouched(const char *path, const struct bytes *r) {
    static char read[NILOFERQ_RETURN_ROOM + 2];
    return slurp(path, read, sizeof read) == r->length && memcmp(read, r->b, r->length) == 0;
}

static bool nothing_made(void) { return printed[0] == 0 && access(picture_path, F_OK) != 0; }

static bool said_first(const char *wanted) { return strncmp(caught, wanted, strlen(wanted)) == 0; }

/* A return of one row, and a newer one with more area, or with less. */
static void spill_pair(uint32_t old_area, uint32_t new_area) {
    static const row day = {7, 200, 1000, 100, 400, 900, 500, 200, 900, 500, 300, 1000, 100, 300, 500};
    old.n = 1;
    memcpy(old.rows[0], day, sizeof day);
    copy_to_new();
    old.rows[0][1] = old_area, new.rows[0][1] = new_area;
    compare_made(0);
    spill(old_path, &old.bytes);
    spill(new_path, &new.bytes);
}

static void good_runs(void) {
    spill_pair(200, 250);
    must(run("--compare", old_path, new_path, picture_path) == 0 && caught[0] == 0 && printed[0] == 0, "a pair is drawn", 0);
    must(slurp(picture_path, text, sizeof text) && unlink(picture_path) == 0, "its picture", 0);
    must(picture_has("sum", UINT64_C(89100000000000), UINT64_C(101250000000000)), "both sums in its picture", 0);
    must(run("--title", "North", "--compare", old_path, new_path) == 0 && strstr(printed, ">North</text>"), "a pair to standard output", 0);
    must(run("--compare", "--title", "North", old_path, new_path, "-") == 0 && strstr(printed, ">North</text>"), "the words in the other order", 0);
    must(run("--compare", old_path, old_path) == 0 && strstr(printed, old_path), "a return and itself, by its whole path", 0);
    must(run("--check", old_path, new_path) == 0 && caught[0] == 0, "a pair is compared", 0);
    must(strstr(printed, "= +8.1 kt C\n") && strstr(printed, ": yes, "), "its lines", 0);
    must(run("--check", new_path, old_path) == 0 && caught[0] == 0, "and back", 0);
    must(strstr(printed, "= -8.1 kt C\n") && strstr(printed, ": no, id 7 "), "its lines back", 0);
    must(untouched(old_path, &old.bytes) && untouched(new_path, &new.bytes), "both are as they were", 0);
}

static void must_not_write(char *picture, const char *why, unsigned long which) {
    must(run("--compare", old_path, new_path, picture) == 1 && strncmp(caught, "chart: cannot write ", 20) == 0 && strstr(caught, why), why, which);
    must(untouched(old_path, &old.bytes) && untouched(new_path, &new.bytes), "both are as they were", which);
}

/* Neither return is written over, by its own name, by a hard link or by a symbolic one. */
static void never_over_either(void) {
    char *paths[2] = {old_path, new_path};
    for (unsigned long k = 0; k < 2; k++) {
        must_not_write(paths[k], "it is the return itself", k);
        must(link(paths[k], link_path) == 0, "the test's own link", k);
        must_not_write(link_path, "it is the return itself", k);
        unlink(link_path);
        must(symlink(strrchr(paths[k], '/') + 1, link_path) == 0, "the test's own link", k);
        must_not_write(link_path, "not an ordinary file", k);
        must(run("--compare", link_path, link_path, paths[k]) == 1 && strstr(caught, "it is the return itself"), "the return behind a link", k);
        must(untouched(paths[k], k ? &new.bytes : &old.bytes), "it is as it was", k);
        unlink(link_path);
    }
}

static void refused_runs(void) {
    char old_said[600], new_said[600], both_said[1200];
    snprintf(old_said, sizeof old_said, "chart: the old return, %s: refused 2 0\n", old_path);
    snprintf(new_said, sizeof new_said, "chart: the new return, %s: refused 1 0\n", new_path);
    snprintf(both_said, sizeof both_said, "%s%s", old_said, new_said);
    for (unsigned long k = 0; k < 6; k++) {
        char *way = k % 2 ? "--check" : "--compare";
        struct bytes bad_old = old.bytes, bad_new = new.bytes;
        if (k / 2 != 1) bad_old.b[508] ^= 1;
        if (k / 2 != 0) bad_new.length = 511;
        spill(old_path, &bad_old);
        spill(new_path, &bad_new);
        must(run(way, old_path, new_path, k % 2 ? NULL : picture_path) == 1 && nothing_made(), "nothing is made of a refused return", k);
        must(strcmp(caught, k / 2 == 0 ? old_said : k / 2 == 1 ? new_said : both_said) == 0, "which of the two is refused", k);
    }
    spill(old_path, &old.bytes);
    unlink(new_path);
    must(run("--compare", old_path, new_path, picture_path) == 1 && nothing_made(), "a file that isn't there", 0);
    must(strncmp(caught, "chart: cannot read ", 19) == 0 && strstr(caught, new_path), "its name", 0);
    spill(new_path, &new.bytes);
}

static void wrong_uses(void) {
    must(run("--compare", old_path) == 2 && nothing_made(), "one return to compare", 0);
    must(run("--compare", old_path, new_path, picture_path, "more") == 2 && nothing_made(), "too many words", 0);
    must(run("--check", old_path, new_path, picture_path) == 2 && nothing_made(), "a picture of a comparison", 0);
    must(run("--compare", "-", "-", picture_path) == 2 && nothing_made(), "standard input twice, drawn", 0);
    must(run("--check", "-", "-") == 2 && nothing_made() && strncmp(caught, "usage: ", 7) == 0, "standard input twice, compared", 0);
}

/* Figures that cannot be: doubles of the other return, and a lower total from rows that are said to be the same. */
static void broken_runs(void) {
    char off[600];
    snprintf(off, sizeof off, "chart: the new return, %s: onsite is off: exact 40500000000000, double 32400000000000, ", new_path);
    spill_pair(200, 250);
    other_doubles = &old.bytes;
    must(run("--compare", old_path, new_path, picture_path) == 1 && said_first(off) && nothing_made(), "a double that is off, drawn", 0);
    must(strstr(caught, "\nchart: nothing is drawn\n") != NULL, "and says so", 0);
    must(run("--check", old_path, new_path) == 1 && said_first(off) && strstr(printed, "onsite  new  "), "a double that is off, compared", 0);
    must(!strstr(caught, "BROKEN"), "which is no lower one", 0);
    other_doubles = NULL;
    spill_pair(250, 200);
    other_rows = &old.bytes;
    const char *broken = "chart: BROKEN: onsite is lower though as much is cleared or more: exact 40500000000000, then 32400000000000; double ";
    must(run("--compare", old_path, new_path, picture_path) == 1 && said_first(broken) && nothing_made(), "a lower total, drawn", 0);
    must(strstr(caught, "\nchart: nothing is drawn\n") != NULL, "and says so", 0);
    must(run("--check", old_path, new_path) == 1 && said_first(broken) && strstr(printed, "= -8.1 kt C\n"), "a lower total, compared", 0);
    must(strstr(caught, "BROKEN: offsite") && !strstr(caught, "BROKEN: decay"), "each that is lower, and no other", 0);
    other_rows = NULL;
}

/* An exact total alone that is lower is called so, and a double alone. */
static void lower_alone(void) {
    for (unsigned long k = 0; k < 2; k++) {
        spill_pair(200, 200);
        must(none_lower(both), "the same is not lower", k);
        if (k) both[1].figures.verdict[2].value--;
        else both[1].figures.exact[2]--;
        FILE *said = tmpfile();
        int before = turn(stderr, said);
        bool good = none_lower(both);
        turn_back(stderr, said, before, caught, sizeof caught);
        must(!good && strstr(caught, "BROKEN: decay is lower") && strstr(caught, " 40500000000000, then 40499999999999"), "a lower one alone", k);
    }
}

int main(int count, char **words) {
    if (count != 2) {
        fprintf(stderr, "usage: chart_pairs_test DIRECTORY\n");
        return 2;
    }
    snprintf(old_path, sizeof old_path, "%s/old.return", words[1]);
    snprintf(new_path, sizeof new_path, "%s/new.return", words[1]);
    snprintf(picture_path, sizeof picture_path, "%s/picture.svg", words[1]);
    snprintf(link_path, sizeof link_path, "%s/link", words[1]);
    raised();
    lowered();
    other_ids();
    good_runs();
    never_over_either();
    refused_runs();
    wrong_uses();
    broken_runs();
    lower_alone();
    must(unlink(old_path) == 0 && unlink(new_path) == 0 && rmdir(words[1]) == 0, "nothing is left in the directory", 0);
    printf("9. two returns: %lu runs, drawn and compared, over neither of the two, refused, wrongly used, and with figures that cannot be\n", runs);
    if (failures) printf("FAILED: %lu in all\n", failures);
    return failures ? 1 : 0;
}
