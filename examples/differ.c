/* Prints the names of the capabilities in which two entries differ: differ ENTRY-FILE ENTRY-FILE
 *
 *     cc -o differ differ.c $(pkg-config --cflags --libs ti)
 */
#include <stdio.h>
#include <string.h>

#include <ti.h>

static unsigned char files[2][TI_MOST_BYTES + 1];
static ti_view views[2];

/* Opens the entry of a file; 0 if it is refused, and that is said. */
static int open_file(const char *path, int number) {
    FILE *input = fopen(path, "rb");
    size_t length = input != NULL ? fread(files[number], 1, sizeof files[number], input) : 0;
    uint32_t fault = ti_open(files[number], length, &views[number]);
    if (fault != TI_DONE)
        fprintf(stderr, "differ: %s: %s\n", path, input != NULL ? ti_reason(fault) : "it cannot be read");
    if (input != NULL)
        fclose(input);
    return fault == TI_DONE;
}

/* Whether an entry has the capability of a name, and its value. */
static int has(int number, ti_bytes name, ti_value *value) {
    if (ti_view_find(&views[number], name.bytes, name.length, value) != TI_DONE)
        return 0;
    return value->kind == TI_FLAG ? value->number == 1 : value->number >= 0;
}

static void compare(ti_bytes name) {
    ti_value values[2];
    int first = has(0, name, &values[0]), second = has(1, name, &values[1]);
    int alike = first == second
        && (!first || (values[0].kind == values[1].kind && values[0].number == values[1].number
                       && values[0].text.length == values[1].text.length
                       && memcmp(values[0].text.bytes, values[1].text.bytes, values[0].text.length) == 0));
    if (!alike)
        printf("%.*s\n", (int)name.length, (const char *)name.bytes);
}

int main(int argc, char **argv) {
    ti_bytes name;
    ti_value value, other;
    uint32_t kind;
    size_t index;
    int number;
    if (argc != 3 || !open_file(argv[1], 0) || !open_file(argv[2], 1))
        return 2;
    for (kind = TI_FLAG; kind <= TI_TEXT; kind++)
        for (index = 0; ti_name(kind, index, &name) == TI_DONE; index++)
            compare(name);
    for (number = 0; number < 2; number++)
        for (kind = TI_FLAG; kind <= TI_TEXT; kind++)
            for (index = 0; ti_view_extended(&views[number], kind, index, &name, &value) == TI_DONE; index++)
                if (number == 0 || !has(0, name, &other))
                    compare(name);
    return 0;
}
