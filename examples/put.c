/* Puts a number into a block of a return and the block's check right: put [--added] FILE BLOCK OFFSET VALUE WIDTH. Prints what stood there before and
 * what stands there now, and the same of the check. A block whose check was wrong before is refused, unless --added says that its adding sheet was
 * kept: some byte of it may be damaged, and a right check would hide that. The file is written whole under another name and then renamed.
 * Status 0: put in. 1: the file is as it was. 2: wrong use. docs/EXPLAIN.md says which number goes where. */
#define _XOPEN_SOURCE 700
#include "files.h"
#include <fcntl.h>
#include <signal.h>
#include <stdint.h>

enum { BLOCK = 512, CHECK = 508 };

static int say_usage(void) {
    fprintf(stderr, "usage: put [--added] FILE BLOCK OFFSET VALUE WIDTH\n"
                    "BLOCK is a number from 0 to 65535; WIDTH 1, 2 or 4 bytes; VALUE fits them; OFFSET and WIDTH end at 508 or before, or are the check, 508 4\n");
    return 2;
}

static int trouble(const char *what, const char *path, const char *why) {
    fprintf(stderr, "put: cannot %s %s: %s\n", what, path, why);
    return 1;
}

/* A word of digits alone, at most most; or -1. */
static int64_t number(const char *word, int64_t most) {
    size_t digits = strspn(word, "0123456789");
    if (digits == 0 || word[digits] != 0) return -1;
    errno = 0;
    long long n = strtoll(word, NULL, 10);
    return errno == 0 && n <= most ? n : -1;
}

/* The lowest byte first, as everywhere in a return. */
static uint32_t get(const uint8_t *at, int width) {
    uint32_t value = 0;
    for (int i = 0; i < width; i++) value |= (uint32_t)at[i] << 8 * i;
    return value;
}

static void put(uint8_t *at, uint32_t value, int width) {
    for (int i = 0; i < width; i++) at[i] = (uint8_t)(value >> 8 * i);
}

/* The check that a block's bytes come to, by the two sums of docs/ADDING.md. */
static uint32_t check_due(const uint8_t *block) {
    uint32_t running = 0, total = 0;
    for (int offset = CHECK; 0 < offset--;) total += running += block[offset];
    return total;
}

struct change {
    int64_t block, offset, value, width;
    bool added;
    char said[160]; /* the lines to be printed */
};

/* The change in a block, and the lines that say it. The answer is the status: nothing is changed where it is not 0. */
static int change_block(uint8_t *block, struct change *c) {
    uint32_t check = get(block + CHECK, 4), due = check_due(block);
    if (check != due && !c->added) {
        fprintf(stderr,
                "put: the check of block %ld was wrong before: it is %u, and the bytes come to %u. A byte may be damaged: keep the adding sheet first "
                "(docs/ADDING.md), then say --added\n", (long)c->block, check, due);
        return 1;
    }
    if (c->offset == CHECK && c->value != due) {
        fprintf(stderr, "put: the bytes of block %ld come to the check %u, not %ld\n", (long)c->block, due, (long)c->value);
        return 1;
    }
    uint32_t before = get(block + c->offset, (int)c->width);
    put(block + c->offset, (uint32_t)c->value, (int)c->width);
    put(block + CHECK, check_due(block), 4);
    snprintf(c->said, sizeof c->said, "before %u\nnow %ld\ncheck_before %u\ncheck_now %u\n", before, (long)c->value, check, get(block + CHECK, 4));
    return 0;
}

/* All bytes of an ordinary file that may be written, for free; or NULL, and why. */
static uint8_t *read_file(const char *path, struct stat *about, const char **why) {
    int file = open(path, O_RDONLY | O_NONBLOCK); /* so that a pipe does not hold it up */
    uint8_t *bytes = NULL;
    *why = NULL;
    if (file < 0 || fstat(file, about) != 0) *why = strerror(errno);
    else if (!S_ISREG(about->st_mode)) *why = "it is not an ordinary file";
    else if (access(path, W_OK) != 0) *why = strerror(errno);
    else if (!(bytes = malloc((size_t)about->st_size + 1))) *why = "no memory";
    for (size_t got = 0; !*why && got < (size_t)about->st_size;) {
        ssize_t more = read(file, bytes + got, (size_t)about->st_size - got);
        if (more <= 0) *why = more < 0 ? strerror(errno) : "it became shorter";
        else got += (size_t)more;
    }
    if (file >= 0) close(file);
    if (!*why) return bytes;
    free(bytes);
    return NULL;
}

/* Writes the bytes beside the file, says what was changed, and only then renames: where one of these fails, the file is as it was. */
static int change_file(const char *path, uint8_t *bytes, const struct stat *about, struct change *c) {
    if (about->st_size / BLOCK <= c->block) {
        fprintf(stderr, "put: cannot read block %ld of %s: no such block of 512 bytes\n", (long)c->block, path);
        return 1;
    }
    int status = change_block(bytes + BLOCK * c->block, c);
    if (status) return status;
    char *part = part_name(path);
    if (!part) return trouble("write", path, "no memory");
    int why = write_part(part, bytes, (size_t)about->st_size, about);
    if (why) status = trouble("write", path, strerror(why));
    else if (fputs(c->said, stdout) < 0 || fflush(stdout) != 0) {
        status = trouble("write", "standard output", strerror(errno));
        unlink(part);
    } else if ((why = rename_part(part, path))) status = trouble("write", path, strerror(why));
    free(part);
    return status;
}

int main(int count, char **words) {
    struct change c = {.added = count > 1 && strcmp(words[1], "--added") == 0};
    if (c.added) words++, count--;
    if (count != 6) return say_usage();
    c.block = number(words[2], 65535), c.offset = number(words[3], CHECK), c.width = number(words[5], 4);
    c.value = number(words[4], UINT32_MAX);
    bool fits = (c.width == 1 || c.width == 2 || c.width == 4) && c.value >= 0 && c.value >> 8 * c.width == 0;
    bool stands = c.offset >= 0 && (c.offset + c.width <= CHECK || (c.offset == CHECK && c.width == 4));
    if (c.block < 0 || !fits || !stands) return say_usage();
    signal(SIGPIPE, SIG_IGN); /* a write that fails is to be reported, not to end the program between two steps */
    signal(SIGXFSZ, SIG_IGN);
    signal(SIGINT, SIG_IGN); /* it is done at once */
    signal(SIGTERM, SIG_IGN);
    signal(SIGHUP, SIG_IGN);

    char *path = realpath(words[1], NULL); /* of a symlink the file is changed, and the link stays */
    struct stat about;
    const char *why = NULL;
    uint8_t *bytes = path ? read_file(path, &about, &why) : NULL;
    int status = bytes ? change_file(path, bytes, &about, &c) : trouble("change", words[1], why ? why : strerror(errno));
    free(bytes);
    free(path);
    return status;
}
