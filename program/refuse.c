/* Refuses calls by which a program takes memory. With this in LD_PRELOAD the calls from the one whose number TI_FIRST has to that of
 * TI_LAST get none, counted from 1 when the program starts. At its end it writes their count to the file that TI_COUNTED names. */
#include <errno.h>
#include <stdio.h>
#include <stdlib.h>

/* The C library's own, by the names that it keeps for this. */
void *__libc_malloc(size_t size);
void *__libc_calloc(size_t count, size_t size);
void *__libc_realloc(void *old, size_t size);

static long first, last, calls;
static int is_counting;

static long number_in(const char *name) {
    const char *word = getenv(name);
    return word == NULL ? 0 : atol(word);
}

__attribute__((constructor)) static void start(void) {
    first = number_in("TI_FIRST");
    last = number_in("TI_LAST");
    is_counting = 1;
}

__attribute__((destructor)) static void finish(void) {
    const char *name = getenv("TI_COUNTED");
    FILE *file = NULL;
    is_counting = 0;
    if (name != NULL)
        file = fopen(name, "w");
    if (file == NULL)
        return;
    fprintf(file, "%ld\n", calls);
    fclose(file);
}

static int is_refused(void) {
    if (!is_counting)
        return 0;
    ++calls;
    if (calls < first || calls > last)
        return 0;
    errno = ENOMEM;
    return 1;
}

void *malloc(size_t size) {
    return is_refused() ? NULL : __libc_malloc(size);
}

void *calloc(size_t count, size_t size) {
    return is_refused() ? NULL : __libc_calloc(count, size);
}

void *realloc(void *old, size_t size) {
    return is_refused() ? NULL : __libc_realloc(old, size);
}
