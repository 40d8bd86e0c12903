/* Stands in for a file of ncurses 6.4, so that what make puts there can be tried: all that read.c needs, and a program that prints
 * what it reads of a file. */
#include <stdbool.h>
#include <stdint.h>
#include <stdio.h>
#include <stdlib.h>
#include <string.h>

#define NCURSES_EXPORT(type) type
#define NCURSES_SBOOL signed char
#define NCURSES_INT2 int
#define BOOLCOUNT 44
#define NUMCOUNT 39
#define STRCOUNT 414
#define ABSENT_NUMERIC (-1)
#define ABSENT_STRING (char *)0
#define CANCELLED_STRING (char *)(-1)
#define TGETENT_YES 1
#define TGETENT_NO 0
#define UShort(count) ((unsigned short)(count))
#define typeCalloc(type, count) (type *)calloc(count, sizeof(type))

typedef struct {
    char *term_names, *str_table;
    NCURSES_SBOOL *Booleans;
    NCURSES_INT2 *Numbers;
    char **Strings, **ext_Names;
    unsigned short num_Booleans, num_Numbers, num_Strings, ext_Booleans, ext_Numbers, ext_Strings;
} TERMTYPE2;

static int _nc_user_definable = 1;

static void
_nc_free_termtype2(TERMTYPE2 *ptr)
{
    free(ptr->str_table);
    free(ptr->Booleans);
    free(ptr->Numbers);
    free(ptr->Strings);
    free(ptr->ext_Names);
}

NCURSES_EXPORT(int)
_nc_read_termtype(TERMTYPE2 *ptr, char *buffer, int limit)
{
    (void)ptr;
    (void)buffer;
    (void)limit;
    return TGETENT_NO;
}

static void
show(char *bytes, int length)
{
    TERMTYPE2 found;
    if (_nc_read_termtype(&found, bytes, length) != TGETENT_YES) {
        puts("none");
        return;
    }
    printf("%s: am %d, colors %d, cup %s, cols %d, ", found.term_names, found.Booleans[1], found.Numbers[13], found.Strings[10] + 1, found.Numbers[0]);
    printf("%d+%d+%d, own %d+%d+%d", found.num_Booleans, found.num_Numbers, found.num_Strings, found.ext_Booleans, found.ext_Numbers, found.ext_Strings);
    printf(" %s\n", found.ext_Names != NULL ? found.ext_Names[0] : "-");
    _nc_free_termtype2(&found);
}

int
main(int count, char **words)
{
    static char bytes[40000];
    FILE *file = count > 1 ? fopen(words[1], "rb") : NULL;
    int length = file == NULL ? 0 : (int)fread(bytes, 1, sizeof bytes - 100, file);
    show(bytes, length);
    show(bytes, length + 9);
    show(bytes, length - 1);
    show(bytes, 0);
    show(bytes, -1);
    _nc_user_definable = 0;
    show(bytes, length);
    return file == NULL || fclose(file) != 0;
}
