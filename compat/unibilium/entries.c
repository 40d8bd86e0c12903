/* Prints all that the library of unibilium.h says of the entries whose paths are in the lines of its input, what their strings
 * with parameters expand to, and the sum of what is written again. It is run with both libraries, and must print the same. Each
 * entry has a process of its own, as some stop Debian's library. */
#define _GNU_SOURCE
#include <stdio.h>
#include <stdlib.h>
#include <string.h>
#include <sys/wait.h>
#include <unibilium.h>
#include <unistd.h>

static void put(const char *kind, const char *name, const char *text) {
    printf(" %s %s=", kind, name);
    for (; *text != 0; text++)
        printf(*text > 32 && *text < 127 ? "%c" : "\\%03o", (unsigned char)*text);
    puts("");
}

/* Expands a string over numbers that are not 0, but over a text where it takes one, so that no %c makes a NUL. */
static void put_run(const char *name, const char *string) {
    static char out[70000], text[] = "text";
    unibi_var_t param[9];
    size_t size;
    for (int i = 0; i < 9; i++) {
        char taken[8];
        sprintf(taken, "%%p%d%%", i + 1);
        const char *at = strstr(string, taken);
        param[i] = at != NULL && (at[4] == 's' || at[4] == 'l') ? unibi_var_from_str(text) : unibi_var_from_num(2 * i + 3);
    }
    size = unibi_run(string, param, out, sizeof out - 1);
    out[size < sizeof out ? size : 0] = 0;
    put("run", name, out);
}

static void put_text(const char *name, const char *text) {
    if (text == NULL)
        return;
    put("text", name, text);
    if (strstr(text, "%p") != NULL)
        put_run(name, text);
}

static void put_dump(const unibi_term *term) {
    static char bytes[70000];
    size_t size = unibi_dump(term, bytes, sizeof bytes);
    unsigned long sum = 5381;
    for (size_t i = 0; i < size && i < sizeof bytes; i++)
        sum = sum * 33 + (unsigned char)bytes[i];
    printf(" written %zu %lx\n", size, sum);
}

static void put_entry(const unibi_term *term) {
    put("name", "", unibi_get_name(term));
    for (const char **alias = unibi_get_aliases(term); *alias != NULL; alias++)
        put("alias", "", *alias);
    for (int i = unibi_boolean_begin_ + 1; i < unibi_boolean_end_; i++)
        if (unibi_get_bool(term, (enum unibi_boolean)i))
            printf(" flag %s %s\n", unibi_name_bool((enum unibi_boolean)i), unibi_short_name_bool((enum unibi_boolean)i));
    for (int i = unibi_numeric_begin_ + 1; i < unibi_numeric_end_; i++)
        if (unibi_get_num(term, (enum unibi_numeric)i) != -1)
            printf(" number %s %s %d\n", unibi_name_num((enum unibi_numeric)i), unibi_short_name_num((enum unibi_numeric)i),
                   unibi_get_num(term, (enum unibi_numeric)i));
    for (int i = unibi_string_begin_ + 1; i < unibi_string_end_; i++)
        put_text(unibi_name_str((enum unibi_string)i), unibi_get_str(term, (enum unibi_string)i));
    for (size_t i = 0; i < unibi_count_ext_bool(term); i++)
        printf(" own flag %s %d\n", unibi_get_ext_bool_name(term, i), unibi_get_ext_bool(term, i));
    for (size_t i = 0; i < unibi_count_ext_num(term); i++)
        printf(" own number %s %d\n", unibi_get_ext_num_name(term, i), unibi_get_ext_num(term, i));
    for (size_t i = 0; i < unibi_count_ext_str(term); i++) {
        printf(" own text %s %d\n", unibi_get_ext_str_name(term, i), unibi_get_ext_str(term, i) != NULL);
        put_text(unibi_get_ext_str_name(term, i), unibi_get_ext_str(term, i));
    }
    put_dump(term);
}

static void put_names(void) {
    for (int i = unibi_boolean_begin_ + 1; i < unibi_boolean_end_; i++)
        printf("%s %s\n", unibi_name_bool((enum unibi_boolean)i), unibi_short_name_bool((enum unibi_boolean)i));
    for (int i = unibi_numeric_begin_ + 1; i < unibi_numeric_end_; i++)
        printf("%s %s\n", unibi_name_num((enum unibi_numeric)i), unibi_short_name_num((enum unibi_numeric)i));
    for (int i = unibi_string_begin_ + 1; i < unibi_string_end_; i++)
        printf("%s %s\n", unibi_name_str((enum unibi_string)i), unibi_short_name_str((enum unibi_string)i));
    puts(unibi_terminfo_dirs);
}

static void put_file(const char *path) {
    unibi_term *term = unibi_from_file(path);
    if (term == NULL) {
        puts(" none");
        return;
    }
    put_entry(term);
    unibi_destroy(term);
}

int main(void) {
    char path[4096];
    put_names();
    while (fgets(path, sizeof path, stdin) != NULL) {
        int status = 0;
        path[strcspn(path, "\n")] = 0;
        printf("entry %s\n", path);
        fflush(stdout);
        if (fork() == 0) {
            put_file(path);
            fflush(stdout);
            _exit(0);
        }
        wait(&status);
        if (status != 0)
            puts(" stopped");
    }
    return 0;
}
