/* Says what is wrong with a file that is no compiled entry, and where; its status is 1 then: refuse FILE
 *
 *     cc -o refuse refuse.c $(pkg-config --cflags --libs ti)
 */
#include <stdio.h>

#include <ti.h>

/* One byte more than an entry can have, so that a longer file is refused. */
static unsigned char file[TI_MOST_BYTES + 1];

int main(int argc, char **argv) {
    ti_view view;
    uint32_t fault;
    FILE *input = argc == 2 ? fopen(argv[1], "rb") : NULL;
    if (input == NULL)
        return 2;
    fault = ti_open(file, fread(file, 1, sizeof file, input), &view);
    if (fault == TI_DONE)
        return 0;
    printf("%s: byte %lu: %s\n", argv[1], (unsigned long)view.counts.place, ti_reason(fault));
    return 1;
}
