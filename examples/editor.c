/* Draws a page on the terminal's other screen, as an editor does, and comes back: editor ENTRY-FILE
 *
 * examples/find.c finds the file of TERM.
 *
 *     cc -o editor editor.c $(pkg-config --cflags --libs ti)
 */
#include <stdio.h>
#include <stdlib.h>

#include <ti.h>

enum { WRONG_CALL = 2, REFUSED = 4 };

static unsigned char file[TI_MOST_BYTES + 1], out[65536];
static ti_view view;
static ti_terminal terminal;

static int fail(int status, const char *what, const char *why) {
    fprintf(stderr, "editor: %s: %s\n", what, why);
    return status;
}

/* Sends a string of the entry by its name, with two numbers; nothing if the terminal lacks it. */
static void send_text(const char *name, int first, int second) {
    ti_parameter numbers[2];
    ti_value value;
    ti_sent sent;
    uint32_t fault;
    if (ti_view_find_name(&view, name, &value) != TI_DONE || value.kind != TI_TEXT || value.number != 0)
        return;
    numbers[0] = ti_number(first);
    numbers[1] = ti_number(second);
    fault = ti_send(value.text.bytes, value.text.length, numbers, 2, &terminal, out, sizeof out, &sent);
    if (fault != TI_DONE)
        exit(fail(REFUSED, name, ti_reason(fault)));
    fwrite(out, 1, sent.length, stdout);
}

/* Writes words at a row, in a colour if there are colours. */
static void write_line(int row, int color, const char *words) {
    send_text("cup", row, 2);
    if (ti_view_number(&view, TI_MAX_COLORS) > color)
        send_text("setaf", color, 0);
    fputs(words, stdout);
    send_text("op", 0, 0);
}

int main(int argc, char **argv) {
    FILE *input = argc == 2 ? fopen(argv[1], "rb") : NULL;
    size_t length;
    uint32_t fault;
    if (input == NULL)
        return fail(WRONG_CALL, "call it as", "editor ENTRY-FILE");
    length = fread(file, 1, sizeof file, input);
    fclose(input);
    fault = ti_open(file, length, &view);
    if (fault != TI_DONE)
        return fail(REFUSED, argv[1], ti_reason(fault));
    terminal = ti_terminal_at(0); /* a terminal of today needs no padding: at the rate 0 marks vanish */
    send_text("smcup", 0, 0);
    send_text("clear", 0, 0);
    write_line(1, 2, "A green line,");
    send_text("Smulx", 3, 0); /* a user-defined name: a curly line below, if the entry has it */
    write_line(2, 1, "a red one, and Enter ends it.");
    send_text("sgr0", 0, 0);
    fflush(stdout);
    (void)getchar();
    send_text("rmcup", 0, 0);
    return fflush(stdout) == 0 ? 0 : fail(REFUSED, "output", "failed");
}
