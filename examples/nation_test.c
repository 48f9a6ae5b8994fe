/* Prints niloferq_nation's text of a file, to be held against what the program prints. */
#include "niloferq.h"
#include <stdio.h>
#include <stdlib.h>

int main(int count, char **words) {
    /* a byte more than the most that a run looks at */
    const size_t most = (size_t)NILOFERQ_MOST_RETURNS * NILOFERQ_RETURN_ROOM + 1;
    uint8_t *bytes = malloc(most), room[NILOFERQ_NATION_ROOM];
    FILE *file = count == 2 ? fopen(words[1], "rb") : NULL;
    if (!file || !bytes) return 2;
    size_t length = fread(bytes, 1, most, file), size = niloferq_nation(bytes, length, room, sizeof room);
    return ferror(file) || fwrite(room, 1, size, stdout) != size || fflush(stdout);
}
