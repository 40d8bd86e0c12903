/* How libunibilium.so.4 finds and reads the file of an entry. This is not proved; test.c tests each call.
 *
 * All bytes are read that an entry may have, 32768. A name of a terminal leads to no other folder, and no path is longer than the
 * system takes.
 */
#define _GNU_SOURCE
#include <errno.h>
#include <fcntl.h>
#include <limits.h>
#include <stdio.h>
#include <stdlib.h>
#include <string.h>
#include <sys/stat.h>
#include <unibilium.h>
#include <unistd.h>

#include "ti.h"

const char *const unibi_terminfo_dirs =
    "/etc/terminfo:/lib/terminfo:/usr/share/terminfo:/usr/lib/terminfo:/usr/local/share/terminfo:/usr/local/lib/terminfo";

unibi_term *unibi_from_fd(int file) {
    char bytes[TI_MOST_BYTES];
    size_t length = 0;
    while (length < sizeof bytes) {
        ssize_t got = read(file, bytes + length, sizeof bytes - length);
        if (got == 0)
            break;
        if (got > 0)
            length += (size_t)got;
        else if (errno != EINTR)
            return NULL;
    }
    return unibi_from_mem(bytes, length);
}

unibi_term *unibi_from_fp(FILE *file) {
    char bytes[TI_MOST_BYTES];
    size_t length;
    if (file == NULL) {
        errno = EBADF;
        return NULL;
    }
    length = fread(bytes, 1, sizeof bytes, file);
    return ferror(file) ? NULL : unibi_from_mem(bytes, length);
}

static unibi_term *from_opened(int file) {
    unibi_term *term = unibi_from_fd(file);
    int fault = errno;
    close(file);
    errno = fault;
    return term;
}

unibi_term *unibi_from_file(const char *path) {
    int file;
    if (path == NULL) {
        errno = ENOENT;
        return NULL;
    }
    file = open(path, O_RDONLY | O_CLOEXEC | O_NOCTTY);
    return file < 0 ? NULL : from_opened(file);
}

/* A path, which is as long as what was put in, even if that did not fit. */
typedef struct {
    char bytes[PATH_MAX];
    size_t length;
} path;

static void put_path(path *to, const char *text, size_t length) {
    if (to->length < sizeof to->bytes && length < sizeof to->bytes - to->length)
        memcpy(to->bytes + to->length, text, length);
    else
        length = sizeof to->bytes;
    to->length += length;
}

/* Opens a file that was found by the name of a terminal. A pipe or a device, which may never end, is no entry. */
static unibi_term *from_path(path *at) {
    struct stat about;
    int file;
    if (at->length >= sizeof at->bytes) {
        errno = ENAMETOOLONG;
        return NULL;
    }
    at->bytes[at->length] = 0;
    if ((file = open(at->bytes, O_RDONLY | O_CLOEXEC | O_NOCTTY | O_NONBLOCK)) < 0)
        return NULL;
    if (fstat(file, &about) != 0 || !S_ISREG(about.st_mode)) {
        close(file);
        errno = EINVAL;
        return NULL;
    }
    return from_opened(file);
}

/* Looks for a terminal below a directory: in the one of its first letter, or of the number of that in hexadecimal. */
static unibi_term *from_directory(const char *directory, size_t length, const char *below, const char *name) {
    static const char digits[] = "0123456789abcdef";
    const unsigned char first = (unsigned char)name[0];
    const char number[2] = {digits[first >> 4], digits[first & 15]};
    unibi_term *term = NULL;
    path at;
    for (int wide = 0; wide < 2 && term == NULL; wide++) {
        at.length = 0;
        put_path(&at, directory, length);
        put_path(&at, below, strlen(below));
        put_path(&at, "/", 1);
        put_path(&at, wide ? number : name, wide ? 2 : 1);
        put_path(&at, "/", 1);
        put_path(&at, name, strlen(name));
        term = from_path(&at);
        if (term == NULL && errno != ENOENT)
            break;
    }
    return term;
}

/* Looks below directories that are separated by colons. Only a file that is not there leads to the next. */
static unibi_term *from_directories(const char *directories, const char *name) {
    for (size_t length; *directories != 0; directories += length + (directories[length] == ':')) {
        unibi_term *term;
        length = strcspn(directories, ":");
        if (length > 0 && ((term = from_directory(directories, length, "", name)) != NULL || errno != ENOENT))
            return term;
    }
    errno = ENOENT;
    return NULL;
}

/* The name of a terminal is one file name: it is not empty, not hidden and leads nowhere else. */
unibi_term *unibi_from_term(const char *name) {
    const char *place;
    unibi_term *term;
    if (name == NULL || name[0] == 0 || name[0] == '.' || strnlen(name, NAME_MAX + 1) > NAME_MAX || strchr(name, '/') != NULL) {
        errno = EINVAL;
        return NULL;
    }
    /* In a program with more rights than its user has, what the user set is not looked at. */
    if ((place = secure_getenv("TERMINFO")) != NULL && (term = from_directory(place, strlen(place), "", name)) != NULL)
        return term;
    if ((place = secure_getenv("HOME")) != NULL
        && ((term = from_directory(place, strlen(place), "/.terminfo", name)) != NULL || errno != ENOENT))
        return term;
    place = secure_getenv("TERMINFO_DIRS");
    return from_directories(place != NULL ? place : unibi_terminfo_dirs, name);
}

unibi_term *unibi_from_env(void) {
    const char *name = getenv("TERM");
    if (name == NULL) {
        errno = ENOENT;
        return NULL;
    }
    return unibi_from_term(name);
}
