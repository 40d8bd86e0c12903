/* What the program calls of the system on aarch64, for which the toolchain has no C library: the heap, the arguments, the environment,
 * errno, and opening a directory. Each does what the comment beside its declaration in the toolchain says. No proof covers it;
 * c/os_test.c tests each function.
 */
#define _GNU_SOURCE
#include <errno.h>
#include <fcntl.h>
#include <stdbool.h>
#include <stddef.h>
#include <stdlib.h>
#include <sys/types.h>
#include <unistd.h>

/* Memory that was tried to get: whether it is there, and where. */
struct tried {
    bool ok;
    void *p;
};

struct tried rattle_alloc(size_t size, size_t alignment);
struct tried rattle_realloc(void *p, size_t kept, size_t size, size_t alignment);
void rattle_dealloc(void *p);
ssize_t rattle_arg(size_t index, char *out, size_t room);
ssize_t rattle_env(const char *name, char *out, size_t room);
ssize_t rattle_env_at(size_t index, char *out, size_t room);
int rattle_errno(void);
void rattle_set_errno(int error);
int rattle_open_dir_at(int directory, const char *name);

/* ---- the heap. An alignment is at most 16, as malloc has it. */

/* What a refused block points to, since no pointer may be null. */
static char nothing;

static struct tried tried_at(void *p) {
    struct tried got = {p != NULL, p != NULL ? p : &nothing};
    return got;
}

struct tried rattle_alloc(size_t size, size_t alignment) {
    return tried_at(malloc(size > 0 ? size : alignment));
}

struct tried rattle_realloc(void *p, size_t kept, size_t size, size_t alignment) {
    (void)kept;
    return tried_at(realloc(p, size > 0 ? size : alignment));
}

void rattle_dealloc(void *p) {
    free(p);
}

/* ---- arguments and environment */

static size_t count;
static char **arguments;

/* The loader passes both to each constructor. */
__attribute__((constructor)) static void keep(int argc, char **argv) {
    count = (size_t)argc;
    arguments = argv;
}

/* Puts a text without its NUL, and returns its length; or -2 if the room is smaller, which is full then. */
static ssize_t put(const char *text, char *out, size_t room) {
    size_t length = 0;
    for (; text[length] != 0; length++) {
        if (length == room)
            return -2;
        out[length] = text[length];
    }
    return (ssize_t)length;
}

/* Puts an argument; -1 if there is none with the index. */
ssize_t rattle_arg(size_t index, char *out, size_t room) {
    return index < count ? put(arguments[index], out, room) : -1;
}

/* Puts the value of a variable; -1 if there is none with the name. */
ssize_t rattle_env(const char *name, char *out, size_t room) {
    const char *value = getenv(name);
    return value != NULL ? put(value, out, room) : -1;
}

/* Puts an entry of the environment, such as HOME=x; -1 if there is none with the index. */
ssize_t rattle_env_at(size_t index, char *out, size_t room) {
    size_t at = 0;
    if (environ == NULL)
        return -1;
    while (at < index && environ[at] != NULL)
        at++;
    return environ[at] != NULL ? put(environ[at], out, room) : -1;
}

/* ---- errors and directories */

int rattle_errno(void) {
    return errno;
}

void rattle_set_errno(int error) {
    errno = error;
}

/* Opens a directory below another, and no link to one; -1 if there is none. */
int rattle_open_dir_at(int directory, const char *name) {
    return openat(directory, name, O_RDONLY | O_DIRECTORY | O_NOFOLLOW | O_CLOEXEC);
}
