/* Moves the cursor of the terminal whose entry is a file, to a row and a column counted from 0: move ENTRY-FILE ROW COLUMN
 *
 *     cc -o move move.c $(pkg-config --cflags --libs ti)
 */
#include <stdio.h>
#include <stdlib.h>

#include <ti.h>

static unsigned char file[TI_MOST_BYTES + 1], out[4096];

static int fail(const char *what, const char *why) {
    fprintf(stderr, "move: %s: %s\n", what, why);
    return 1;
}

int main(int argc, char **argv) {
    ti_terminal terminal = ti_terminal_at(0);
    ti_parameter at[2];
    ti_view view;
    ti_bytes cup;
    ti_sent sent;
    uint32_t fault;
    FILE *input = argc == 4 ? fopen(argv[1], "rb") : NULL;
    if (input == NULL)
        return fail("call it as", "move ENTRY-FILE ROW COLUMN");
    at[0] = ti_number((int32_t)strtol(argv[2], NULL, 10));
    at[1] = ti_number((int32_t)strtol(argv[3], NULL, 10));
    fault = ti_open(file, fread(file, 1, sizeof file, input), &view);
    if (fault != TI_DONE)
        return fail(argv[1], ti_reason(fault));
    if (ti_view_text(&view, TI_CURSOR_ADDRESS, &cup) != 0)
        return fail(argv[1], "this terminal cannot move its cursor");
    fault = ti_send(cup.bytes, cup.length, at, 2, &terminal, out, sizeof out, &sent);
    if (fault != TI_DONE)
        return fail("cup", ti_reason(fault));
    return fwrite(out, 1, sent.length, stdout) == sent.length && fflush(stdout) == 0 ? 0 : fail("output", "failed");
}
