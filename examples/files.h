/* What the programs of examples/ share: an input that may be standard input, and a file that is written whole or not at all.
 * A program that reads it has _POSIX_C_SOURCE 200809L. */
#ifndef FILES_H
#define FILES_H

#include <errno.h>
#include <stdbool.h>
#include <stdio.h>
#include <stdlib.h>
#include <string.h>
#include <sys/stat.h>
#include <unistd.h>

/* The file of this name, or standard input for -; or NULL. */
static inline FILE *open_input(const char *path) { return strcmp(path, "-") == 0 ? stdin : fopen(path, "rb"); }

/* A name beside path that no other program takes, for malloc's free; or NULL. */
static inline char *part_name(const char *path) {
    size_t room = strlen(path) + 32;
    char *part = malloc(room);
    if (part) snprintf(part, room, "%s.%ld.part", path, (long)getpid());
    return part;
}

/* Writes all bytes to a new file of this name, with the owner and the permissions of another where one is given. 0, or errno, and then there is no
 * such file. */
static inline int write_part(const char *part, const void *bytes, size_t size, const struct stat *like) {
    FILE *file = fopen(part, "wbx"); /* x: never a file that is there */
    if (!file) return errno;
    bool done = fwrite(bytes, 1, size, file) == size && fflush(file) == 0;
    if (done && like) {
        bool own = like->st_uid == geteuid() && like->st_gid == getegid();
        if (!own && fchown(fileno(file), like->st_uid, like->st_gid) != 0) errno = 0; /* only root may: then it is the writer's own */
        done = fchmod(fileno(file), like->st_mode & 0777) == 0;
    }
    done = done && fsync(fileno(file)) == 0;
    int why = errno;
    if (fclose(file) != 0 && done) done = false, why = errno;
    if (!done) unlink(part);
    return done ? 0 : why;
}

/* Gives a written part its name, in place of what stood there. 0, or errno, and then the part is gone and what stood there stays. */
static inline int rename_part(const char *part, const char *path) {
    if (rename(part, path) == 0) return 0;
    int why = errno;
    unlink(part);
    return why;
}

#endif
