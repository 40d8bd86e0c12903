/* Prints the file of a terminal's entry, as ncurses finds it: find [NAME]
 *
 * The library opens bytes, and its caller finds the file. open_entry below does so for NAME, or TERM, and can be copied. It looks
 * below TERMINFO, ~/.terminfo, the directories of TERMINFO_DIRS, where an empty one means /etc/terminfo, and those of the
 * system; in each below the first letter of the name or, as on macOS, its number. The status is 1 if there is no such file.
 *
 *     cc -o find find.c
 */
#define _POSIX_C_SOURCE 200112L /* for snprintf */
#include <stdio.h>
#include <stdlib.h>
#include <string.h>

/* Where ncurses of most systems has its entries. Yours prints them by infocmp -D. */
static const char SYSTEM[] = "/etc/terminfo:/lib/terminfo:/usr/share/terminfo:/usr/local/share/terminfo";

/* Opens the entry of a name below a directory, of whose name so many bytes count, and writes its path; NULL if none is there. */
static FILE *open_below(const char *directory, int length, const char *name, char *path, size_t room) {
    FILE *file = NULL;
    int size = snprintf(path, room, "%.*s/%c/%s", length, directory, *name, name);
    if (size > 0 && (size_t)size < room)
        file = fopen(path, "rb");
    if (file != NULL)
        return file;
    size = snprintf(path, room, "%.*s/%02x/%s", length, directory, (unsigned)(unsigned char)*name, name);
    return size > 0 && (size_t)size < room ? fopen(path, "rb") : NULL;
}

/* The same below each directory of a list with colons. */
static FILE *open_listed(const char *list, const char *name, char *path, size_t room) {
    FILE *file = NULL;
    while (file == NULL) {
        size_t length = strcspn(list, ":");
        if (length > 0)
            file = open_below(list, (int)length, name, path, room);
        else
            file = open_below(SYSTEM, (int)strcspn(SYSTEM, ":"), name, path, room);
        if (list[length] == 0)
            break;
        list += length + 1;
    }
    return file;
}

/* Opens the entry of a name, and writes its path; NULL if there is none. A name must not lead out of the directories. */
static FILE *open_entry(const char *name, char *path, size_t room) {
    const char *own = getenv("TERMINFO"), *home = getenv("HOME"), *listed = getenv("TERMINFO_DIRS");
    char below_home[4096];
    FILE *file = NULL;
    if (*name == 0 || *name == '.' || strchr(name, '/') != NULL)
        return NULL;
    if (own != NULL && *own != 0)
        file = open_below(own, (int)strlen(own), name, path, room);
    if (file == NULL && home != NULL && snprintf(below_home, sizeof below_home, "%s/.terminfo", home) < (int)sizeof below_home)
        file = open_below(below_home, (int)strlen(below_home), name, path, room);
    if (file == NULL && listed != NULL && *listed != 0)
        file = open_listed(listed, name, path, room);
    return file != NULL ? file : open_listed(SYSTEM, name, path, room);
}

int main(int argc, char **argv) {
    char path[4096];
    const char *name = argc > 1 ? argv[1] : getenv("TERM");
    FILE *file = name != NULL ? open_entry(name, path, sizeof path) : NULL;
    if (file == NULL) {
        fprintf(stderr, "find: there is no entry of %s\n", name != NULL ? name : "TERM, which is not set");
        return 1;
    }
    fclose(file);
    puts(path);
    return 0;
}
