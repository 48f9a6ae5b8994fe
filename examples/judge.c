/* Judges a return: judge FILE, where - is standard input. Prints the edition, the row counts and how many of the stock rows are
 * scattered trees, or the refusal's number and place. Status 0: printed. 1: the file was not read, or the line not
 * written. 2: wrong use. */
#define _POSIX_C_SOURCE 200809L
#include "files.h"
#include "niloferq.h"

/* one byte more than the longest return, so that a longer file is refused for its length */
static uint8_t bytes[NILOFERQ_RETURN_ROOM + 1];

int main(int count, char **words) {
    if (count != 2) {
        fprintf(stderr, "usage: judge FILE\n");
        return 2;
    }
    FILE *file = open_input(words[1]);
    size_t length = file ? fread(bytes, 1, sizeof bytes, file) : 0;
    if (!file || ferror(file)) {
        fprintf(stderr, "judge: cannot read %s: %s\n", words[1], strerror(errno));
        return 1;
    }
    fclose(file);
    uint32_t counts[NILOFERQ_COUNTS];
    uint32_t answer = niloferq_judge(bytes, length, counts, NILOFERQ_COUNTS);
    if (answer != 0)
        printf("refused %u %u\n", answer / 1000, answer % 1000);
    else
        printf("accepted: edition %u, conversion %u, stock %u, harvest %u, parameters %u, abandoned %u, savanna %u, soil %u, crop %u, "
               "scattered %u\n",
               counts[0], counts[1], counts[2], counts[3], counts[4], counts[5], counts[6], counts[7], counts[8], counts[NILOFERQ_SCATTERED]);
    if (fflush(stdout) != 0) {
        fprintf(stderr, "judge: cannot write standard output: %s\n", strerror(errno));
        return 1;
    }
    return 0;
}
