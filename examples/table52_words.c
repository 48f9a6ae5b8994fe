/* Tests the words that are meant for table52, without the library: table52_words COUNTRY [ZONE]. Status 0: both are on the table. 1: one is not, and it
 * says which, as table52 does. So examples/table52 can tell before the minutes that proving the library takes. */
#include "table52_find.h"

int main(int count, char **words) {
    if (count > 1 && number_of(&COUNTRY, words[1]) >= COUNTRY.size) return say_off(&COUNTRY, words[1]);
    if (count > 2 && number_of(&ZONE, words[2]) >= ZONE.size) return say_off(&ZONE, words[2]);
    return 0;
}
