/* Prints what libvterm hands out: for each line of hexadecimal bytes a line with a field for UTF-8, and one for bytes. */

#include <stdio.h>
#include <stdlib.h>
#include <string.h>
#include <vterm.h>

static void hex(const char *bytes, size_t len)
{
    for (size_t at = 0; at < len; at++)
        printf("%02x", (unsigned char)bytes[at]);
}

static int control(unsigned char byte, void *user)
{
    printf("C/%02x ", byte);
    return 1;
}

static int escape(const char *bytes, size_t len, void *user)
{
    printf("E/");
    hex(bytes, len - 1);
    printf("/");
    hex(bytes + len - 1, 1);
    printf(" ");
    return 1;
}

static int csi(const char *leader, const long args[], int count, const char *intermediates, char command, void *user)
{
    printf("S/");
    if (leader)
        hex(leader, strlen(leader));
    printf("/");
    for (int at = 0; at < count; at++)
        if (CSI_ARG_IS_MISSING(args[at]))
            printf("%s", at ? ";" : "");
        else
            printf("%s%ld", at ? ";" : "", (long)CSI_ARG(args[at]));
    printf("/");
    if (intermediates)
        hex(intermediates, strlen(intermediates));
    printf("/%02x ", command);
    return 1;
}

static int osc(const char *bytes, size_t len, void *user)
{
    printf("O/");
    hex(bytes, len);
    printf(" ");
    return 1;
}

static int dcs(const char *bytes, size_t len, void *user)
{
    printf("D/");
    hex(bytes, len);
    printf(" ");
    return 1;
}

int main(void)
{
    static const VTermParserCallbacks calls = { .control = control, .escape = escape, .csi = csi, .osc = osc, .dcs = dcs };
    static char line[4096], bytes[2048];
    while (fgets(line, sizeof line, stdin)) {
        size_t len = strcspn(line, "\n") / 2;
        for (size_t at = 0; at < len; at++) {
            unsigned byte;
            sscanf(line + 2 * at, "%2x", &byte);
            bytes[at] = (char)byte;
        }
        for (int is_utf8 = 1; is_utf8 >= 0; is_utf8--) {
            VTerm *terminal = vterm_new(25, 80);
            vterm_set_utf8(terminal, is_utf8);
            vterm_parser_set_callbacks(terminal, &calls, NULL);
            vterm_input_write(terminal, bytes, len);
            vterm_free(terminal);
            printf(is_utf8 ? "\t" : "\n");
        }
    }
    return 0;
}
