/* The numbers of table 5-2's countries and zones, which the library takes, from words, and what to say of a word that is none. Nothing here needs
 * the library. */
#ifndef TABLE52_FIND_H
#define TABLE52_FIND_H

#include "table52_names.h"
#include <stdio.h>
#include <stdlib.h>
#include <string.h>

/* What a word may name: a country or a zone. */
struct sort {
    const char *word;
    uint32_t size;
    const char *const *names;
    const struct other_name *other_names;
};
static const struct sort COUNTRY = {"country", NILOFERQ_COUNTRIES, COUNTRY_NAMES, OTHER_COUNTRY_NAMES};
static const struct sort ZONE = {"zone", NILOFERQ_ZONES, ZONE_NAMES, OTHER_ZONE_NAMES};

/* Characters, in two bytes of UTF-8, that are read as a plain letter; an accent that stands by itself behind its letter is left out. */
static const struct {
    const char *bytes;
    char plain;
} ACCENTED[] = {
    {"á", 'a'}, {"é", 'e'}, {"í", 'i'}, {"ó", 'o'}, {"ú", 'u'}, {"ü", 'u'}, {"ñ", 'n'}, {"\u0301", 0},
    {"ô", 'o'}, {"Ô", 'o'},
    {"Á", 'a'}, {"É", 'e'}, {"Í", 'i'}, {"Ó", 'o'}, {"Ú", 'u'}, {"Ü", 'u'}, {"Ñ", 'n'}, {"\u0303", 0}, {"\u0308", 0},
};

/* The first character of a name, or 0 where it does not count; the answer is where the next one begins. */
static const char *take_character(const char *name, char *taken) {
    for (size_t i = 0; i < sizeof ACCENTED / sizeof *ACCENTED; i++)
        if (strncmp(name, ACCENTED[i].bytes, 2) == 0) {
            *taken = ACCENTED[i].plain;
            return name + 2;
        }
    *taken = *name;
    if (strchr(" .-", *name)) *taken = 0;
    if ('A' <= *name && *name <= 'Z') *taken = (char)(*name - 'A' + 'a');
    return name + 1;
}

/* The next character of a name that counts, in small letters and without an accent; 0 at its end. */
static char next_character(const char **name) {
    char taken = 0;
    while (taken == 0 && **name != 0) *name = take_character(*name, &taken);
    return taken;
}

static int same_name(const char *one, const char *other) {
    char a, b;
    do {
        a = next_character(&one);
        b = next_character(&other);
    } while (a == b && a != 0);
    return a == b;
}

static int is_number(const char *word) {
    size_t digits = strspn(word, "0123456789");
    return digits != 0 && word[digits] == 0;
}

/* The number that a word is or names. One that names nothing, or is too large for the library, is the largest: off the table as well. */
static uint32_t number_of(const struct sort *sort, const char *word) {
    if (is_number(word)) {
        unsigned long n = strtoul(word, NULL, 10);
        return n < UINT32_MAX ? (uint32_t)n : UINT32_MAX;
    }
    for (uint32_t n = 0; n < sort->size; n++)
        if (same_name(word, sort->names[n])) return n;
    for (const struct other_name *other = sort->other_names; other->name; other++)
        if (same_name(word, other->name)) return other->number;
    return UINT32_MAX;
}

/* ---- near names ---- */

enum { LONGEST_WORD = 40 }; /* a longer one is near no name */

/* The characters of a name that count; how many, or LONGEST_WORD + 1 where there are more than LONGEST_WORD. */
static size_t fold(const char *name, char folded[LONGEST_WORD + 1]) {
    size_t length = 0;
    for (char c; (c = next_character(&name)) != 0; folded[length++] = c)
        if (length == LONGEST_WORD) return LONGEST_WORD + 1;
    folded[length] = 0;
    return length;
}

/* How many letters have to be put in, left out or changed to make the one of the other. */
static size_t distance(const char *one, const char *other) {
    size_t row[LONGEST_WORD + 1], across = strlen(other);
    for (size_t j = 0; j <= across; j++) row[j] = j;
    for (size_t i = 1; one[i - 1]; i++) {
        size_t corner = row[0];
        row[0] = i;
        for (size_t j = 1; j <= across; j++) {
            size_t best = corner + (one[i - 1] != other[j - 1]);
            if (row[j] + 1 < best) best = row[j] + 1;
            if (row[j - 1] + 1 < best) best = row[j - 1] + 1;
            corner = row[j];
            row[j] = best;
        }
    }
    return row[across];
}

/* How near a word is to a name: the letters in which they differ, 0 where the word is a part of the name; or more than LONGEST_WORD where it is not near. */
static size_t nearness(const char *word, const char *name) {
    char a[LONGEST_WORD + 1], b[LONGEST_WORD + 1];
    size_t length = fold(word, a);
    if (length < 3 || LONGEST_WORD < length || LONGEST_WORD < fold(name, b)) return LONGEST_WORD + 1;
    if (3 < length && strstr(b, a)) return 0;
    size_t letters = distance(a, b), most = length < 5 ? 1 : length < 9 ? 2 : 3;
    return letters <= most ? letters : LONGEST_WORD + 1;
}

/* Of one country or zone the name that is nearest to a word; NULL where none is near. */
static const char *nearest_name(const struct sort *sort, uint32_t n, const char *word) {
    const char *nearest = NULL;
    size_t best = nearness(word, sort->names[n]);
    if (best <= LONGEST_WORD) nearest = sort->names[n];
    for (const struct other_name *other = sort->other_names; other->name; other++) {
        if (other->number != n) continue;
        size_t near = nearness(word, other->name);
        if (near < best) best = near, nearest = other->name;
    }
    return nearest;
}

/* Says of a word that is off the table what is the matter; the answer is the program's status. */
static int say_off(const struct sort *sort, const char *word) {
    if (is_number(word)) {
        fprintf(stderr, "table52: %s %s is off the table, which has 0 to %u\n", sort->word, word, sort->size - 1);
        return 1;
    }
    fprintf(stderr, "table52: no %s is called '%s'; ", sort->word, word);
    int said = 0;
    for (uint32_t n = 0; n < sort->size; n++) {
        const char *near = nearest_name(sort, n, word);
        if (near) fprintf(stderr, "%s%s", said++ ? ", " : "near it: ", near);
    }
    fprintf(stderr, "%sdocs/TABLE52.csv has the names\n", said ? "; " : "");
    return 1;
}

#endif
