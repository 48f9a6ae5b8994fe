/* Prints the adding sheet of a block: adding FILE BLOCK. From offset 507 down to 0 a line with the offset, its byte, the running sum of the
 * bytes and the total of the running sums; then the check that this gives and the one that stands in the block. docs/ADDING.md says how a
 * clerk reads it. Status 0: printed, whatever the check is. 1: the block was not read, or the sheet not written. 2: wrong use. */
#define _POSIX_C_SOURCE 200809L
#include "files.h"
#include <stdint.h>

enum { BLOCK = 512, CHECK = 508 };

/* A block's number: digits alone, and no more than its two bytes in the header can hold; or -1. */
static long number(const char *word) {
    size_t digits = strspn(word, "0123456789");
    if (digits == 0 || word[digits] != 0)
        return -1;
    errno = 0;
    long n = strtol(word, NULL, 10);
    return errno == 0 && n <= 65535 ? n : -1;
}

/* Block n of the file, which is read block by block, so that a pipe will do; or why it can't be had. */
static const char *read_block(FILE *file, long n, uint8_t *block) {
    for (long b = 0; b <= n; b++)
        if (fread(block, 1, BLOCK, file) != BLOCK)
            return ferror(file) ? strerror(errno) : "no such block of 512 bytes";
    return NULL;
}

/* The steps of form::check_due, a line for each. */
static uint32_t print_sheet(const uint8_t *block) {
    uint32_t running = 0, total = 0;
    printf("%6s %5s %8s %10s\n", "offset", "byte", "running", "total");
    for (int offset = CHECK; 0 < offset;) {
        offset -= 1;
        running += block[offset];
        total += running;
        printf("%6d %5u %8u %10u\n", offset, block[offset], running, total);
    }
    return total;
}

static uint32_t stored_check(const uint8_t *block) {
    return block[CHECK] | (uint32_t)block[CHECK + 1] << 8 | (uint32_t)block[CHECK + 2] << 16 | (uint32_t)block[CHECK + 3] << 24;
}

int main(int count, char **words) {
    long n = count == 3 ? number(words[2]) : -1;
    if (n < 0) {
        fprintf(stderr, "usage: adding FILE BLOCK, where BLOCK is a number from 0 to 65535\n");
        return 2;
    }
    FILE *file = open_input(words[1]);
    uint8_t block[BLOCK];
    const char *wrong = file ? read_block(file, n, block) : strerror(errno);
    if (file) fclose(file);
    if (wrong) {
        fprintf(stderr, "adding: cannot read block %ld of %s: %s\n", n, words[1], wrong);
        return 1;
    }
    uint32_t computed = print_sheet(block), stored = stored_check(block);
    printf("computed check %u\nstored check   %u%s\n", computed, stored, computed == stored ? "" : ", which is wrong");
    if (fflush(stdout) != 0) {
        fprintf(stderr, "adding: cannot write standard output: %s\n", strerror(errno));
        return 1;
    }
    return 0;
}
