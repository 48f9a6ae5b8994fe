/* Writes the worksheets of a return as a page for a browser and for paper, one file of HTML, to standard output; or the national table of a file of returns.
 *     page [--title TEXT] FILE             a return; TEXT is the page's heading
 *     page [--title TEXT] --nation FILE    returns end to end, as `nation` takes them
 * All numbers are the library's, or columns of single rows that are held against the library's totals. Status 0: the page is written; of a refused return
 * it explains the refusal. 1: it is not, or it is of a part of the nation alone: an input not read, an output not written, a sum that does not hold, a
 * national run that was stopped. 2: wrong use. */
#define _POSIX_C_SOURCE 200809L
#include "page_nation.h"
#include <signal.h>

struct asked {
    bool nation;
    const char *title, *path;
};

/* What the words ask for. False where they are wrong use. */
static bool understand(char **word, char **end, struct asked *a) {
    for (int turn = 0; turn < 2 && word < end; turn++) { /* in either order */
        if (strcmp(*word, "--title") == 0 && end - word > 1) a->title = word[1], word += 2;
        else if (strcmp(*word, "--nation") == 0) a->nation = true, word++;
    }
    a->path = word < end ? *word : NULL;
    return end - word == 1 && (strcmp(*word, "-") == 0 || **word != '-');
}

static int trouble(const char *what, const char *path, const char *why) {
    fprintf(stderr, "page: cannot %s %s: %s\n", what, path, why);
    return 1;
}

/* Reads at most so many bytes. False where the file can't be read. */
static bool read_file(const char *path, uint8_t *bytes, size_t room, size_t *length) {
    FILE *file = open_input(path);
    if (!file) return false;
    *length = fread(bytes, 1, room, file);
    bool bad = ferror(file);
    int why = errno;
    fclose(file);
    errno = why;
    return !bad;
}

/* The page, into memory, so that it is written whole or not at all. The answer is the status so far. */
static int make_page(FILE *out, const struct asked *a, const uint8_t *bytes, size_t length) {
    static struct taken one;
    static struct nation nation;
    if (!a->nation) {
        take_return(&one, bytes, length);
        put_return(out, &one, a->title, a->path);
        return 0;
    }
    take_nation(&nation, bytes, length);
    put_nation(out, &nation, a->title, a->path);
    if (!*nation.stop || broken) return 0;
    fputs("page: ", stderr);
    put_stop(stderr, &nation);
    fputc('\n', stderr);
    return 1;
}

int main(int count, char **words) {
    struct asked asked = {0};
    if (!understand(words + 1, words + count, &asked)) {
        fprintf(stderr, "usage: page [--title TEXT] FILE\n       page [--title TEXT] --nation FILE\n");
        return 2;
    }
    signal(SIGPIPE, SIG_IGN); /* a write that fails is to be reported */
    signal(SIGXFSZ, SIG_IGN);

    /* one byte more than the longest, so that a longer return is refused for its length, and a longer nation for its many returns */
    size_t room = (asked.nation ? NILOFERQ_MOST_RETURNS : 1) * (size_t)NILOFERQ_RETURN_ROOM + 1, length = 0, size = 0;
    uint8_t *bytes = malloc(room);
    char *text = NULL;
    FILE *memory = open_memstream(&text, &size);
    if (!bytes || !memory) return trouble("make", "the page", "no memory");
    if (!read_file(asked.path, bytes, room, &length)) return trouble("read", asked.path, strerror(errno));
    int status = make_page(memory, &asked, bytes, length);
    if (fclose(memory) != 0) return trouble("make", "the page", strerror(errno));
    if (broken) {
        fprintf(stderr, "page: no page is made. It is proved that this cannot be: do not use these figures, and send the file to the makers of Niloferq\n");
        return 1;
    }
    if (fwrite(text, 1, size, stdout) != size || fflush(stdout) != 0) return trouble("write", "standard output", strerror(errno));
    free(text);
    free(bytes);
    return status;
}
