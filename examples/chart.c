/* Draws the three carbon subtotals of a return as bars, an SVG picture; or those of two versions of a return side by side; or where its cleared biomass went.
 *     chart [--title TEXT] FILE [PICTURE]                 to standard output, or to the file PICTURE; TEXT is a line above the bars
 *     chart [--title TEXT] --compare OLD NEW [PICTURE]    the same of two
 *     chart [--title TEXT] --matter FILE [PICTURE]        one bar in five parts, which add up to the whole
 *     chart --check FILE                                  the comparison only, a line per subtotal: name, exact, double, distance, allowed
 *     chart --check OLD NEW                               of two: both exact totals, their difference, and whether as much is cleared or more
 * Before it draws, each double is held against the exact total, both as whole numbers of 10^-12 kt C; and the five parts against the rows. Status 0: done.
 * 1: a return is refused, a double is off, or a file can't be read or written; nothing is drawn. 2: wrong use. */
#define _POSIX_C_SOURCE 200809L
#include "chart_matter.h"
#include <signal.h>

/* ---- the words ---- */

struct asked {
    bool check, matter;
    const char *title;
    int returns; /* one or two */
    char **paths;
    const char *picture; /* NULL is standard output */
};

/* What the words ask for. False where they are wrong use. */
static bool understand(char **word, char **end, struct asked *a) {
    bool pair = false;
    a->check = word < end && strcmp(*word, "--check") == 0;
    if (a->check) word++;
    for (int turn = 0; turn < 2 && !a->check && word < end; turn++) { /* in either order */
        if (strcmp(*word, "--title") == 0 && end - word > 1) a->title = word[1], word += 2;
        else if (strcmp(*word, "--compare") == 0) pair = true, word++;
        else if (strcmp(*word, "--matter") == 0) a->matter = true, word++;
    }
    if (pair && a->matter) return false;
    if (a->check && end - word == 2) pair = true;
    a->returns = pair ? 2 : 1;
    a->paths = word;
    long pictures = end - word - a->returns;
    if (pictures != 0 && (a->check || pictures != 1)) return false;
    if (pictures && strcmp(end[-1], "-") != 0) a->picture = end[-1];
    return !pair || strcmp(word[0], "-") != 0 || strcmp(word[1], "-") != 0; /* standard input is one return at most */
}

static int say_usage(void) {
    fprintf(stderr, "usage: chart [--title TEXT] FILE [PICTURE]\n       chart [--title TEXT] --compare OLD NEW [PICTURE]\n"
                    "       chart [--title TEXT] --matter FILE [PICTURE]\n       chart --check FILE\n       chart --check OLD NEW\n");
    return 2;
}

/* ---- files ---- */

static int trouble(const char *what, const char *path, const char *why) {
    fprintf(stderr, "chart: cannot %s %s: %s\n", what, path, why);
    return 1;
}

/* Reads a return and asks for its figures. The answer is the program's status. */
static int take(struct version *v) {
    static uint8_t bytes[NILOFERQ_RETURN_ROOM + 1]; /* one byte more than the longest return, so that a longer file is refused for its length */
    FILE *file = open_input(v->path);
    if (!file) return trouble("read", v->path, strerror(errno));
    size_t length = fread(bytes, 1, sizeof bytes, file);
    bool bad = ferror(file) || fstat(fileno(file), &v->file) != 0;
    if (bad) return trouble("read", v->path, strerror(errno));
    fclose(file);
    uint32_t answer = gather(bytes, length, &v->figures);
    if (!answer) return 0;
    if (v->role) begin_line(v);
    fprintf(stderr, "refused %" PRIu32 " %" PRIu32 "\n", answer / 1000, answer % 1000);
    return 1;
}

/* Writes the whole text under another name in the same place and renames it, so that the picture is there whole or not at all. */
static int save(const char *text, size_t size, const char *path, const struct version *versions, int returns) {
    struct stat there;
    if (lstat(path, &there) == 0) {
        if (!S_ISREG(there.st_mode)) return trouble("write", path, "it is there and is not an ordinary file");
        for (int i = 0; i < returns; i++)
            if (there.st_dev == versions[i].file.st_dev && there.st_ino == versions[i].file.st_ino)
                return trouble("write", path, "it is the return itself");
    }
    char *part = part_name(path);
    if (!part) return trouble("write", path, "no memory");
    int why = write_part(part, text, size, NULL);
    if (!why) why = rename_part(part, path);
    free(part);
    return why ? trouble("write", path, strerror(why)) : 0;
}

/* ---- all of it ---- */

/* The lines or the picture that were asked for. */
static void put_answer(FILE *out, const struct asked *a, const struct version *versions, struct finding found) {
    bool pair = a->returns == 2;
    if (a->check && pair) print_pair(out, versions, found);
    else if (a->check) print_check(out, &versions->figures);
    else if (pair) draw_pair(out, versions, found, a->title);
    else if (a->matter) draw_masses(out, versions, a->title);
    else draw_one(out, versions, a->title);
}

/* Makes them whole, and then hands them over. The answer is the program's status. */
static int hand_over(const struct asked *a, const struct version *versions, struct finding found) {
    char *text = NULL;
    size_t size = 0;
    FILE *memory = open_memstream(&text, &size);
    if (!memory) return trouble("make", "the picture", strerror(errno));
    put_answer(memory, a, versions, found);
    if (fclose(memory) != 0) return trouble("make", "the picture", strerror(errno));
    int status = 0;
    if (a->picture) status = save(text, size, a->picture, versions, a->returns);
    else if (fwrite(text, 1, size, stdout) != size || fflush(stdout) != 0) status = trouble("write", "standard output", strerror(errno));
    free(text);
    return status;
}

int main(int count, char **words) {
    static const char *const roles[2] = {"old", "new"};
    static struct version versions[2];
    struct asked asked = {0};
    if (!understand(words + 1, words + count, &asked)) return say_usage();
    signal(SIGPIPE, SIG_IGN); /* a write that fails is to be reported and cleaned up after, not to end the program */
    signal(SIGXFSZ, SIG_IGN);

    int status = 0;
    for (int i = 0; i < asked.returns; i++) {
        versions[i].role = asked.returns == 2 ? roles[i] : NULL;
        versions[i].path = asked.paths[i];
        status |= take(&versions[i]);
    }
    if (status) return status;
    bool good = true;
    for (int i = 0; i < asked.returns; i++) good = (asked.matter ? adds_up(&versions[i]) : examine(&versions[i])) && good;
    struct finding found = {0};
    if (asked.returns == 2) {
        found = find_less(&versions[0].figures, &versions[1].figures);
        if (found.what == AS_MUCH_OR_MORE) good = none_lower(versions) && good;
    }
    if (!good && !asked.check) {
        fprintf(stderr, "chart: nothing is drawn\n");
        return 1;
    }
    status = hand_over(&asked, versions, found);
    return status ? status : good ? 0 : 1;
}
