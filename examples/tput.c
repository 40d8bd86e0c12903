/* Writes what a string of an entry sends, as tput does: tput ENTRY-FILE NAME [PARAM..]
 * A parameter that the capability takes as a string is one, and another has to be a decimal number of 32 bits. The status is 2 for a
 * wrong call, 3 if the file can't be read or the output can't be written, and 4 if the entry, its string or the parameters are refused.
 *
 *     cc -o tput tput.c $(pkg-config --cflags --libs ti)
 */
#include <errno.h>
#include <stdio.h>
#include <stdlib.h>
#include <string.h>

#include <ti.h>

enum { WRONG_CALL = 2, FAILED = 3, REFUSED = 4, ROOM = 65536 };

/* One byte more than an entry can have, so that a longer file is refused. */
static unsigned char file[TI_MOST_BYTES + 1], out[ROOM], padded[ROOM];

static int fail(int status, const char *what, const char *why) {
    fprintf(stderr, "tput: %s: %s\n", what, why);
    return status;
}

static int refuse(const char *what, uint32_t fault) {
    ti_bytes word = {(const unsigned char *)"", 0};
    ti_word(fault, &word);
    fprintf(stderr, "tput: %s: %s\n", what, (const char *)word.bytes);
    return REFUSED;
}

/* The parameter of a word, by its place from 0; 0 if the capability takes a number there, and the word is none. */
static int parameter(const char *word, int place, const ti_limits *limits, ti_parameter *parameter) {
    char *end;
    long number = strtol(word, &end, 10);
    int is_number = (*word == '-' || (*word >= '0' && *word <= '9')) && end != word && *end == 0 && number >= INT32_MIN && number <= INT32_MAX;
    int is_text = (limits->texts >> place & 1) != 0, is_named = (limits->named >> place & 1) != 0;
    *parameter = is_number && !is_text ? ti_number((int32_t)number) : ti_text(word, strlen(word));
    return is_number || is_text || !is_named;
}

int main(int argc, char **argv) {
    ti_parameter parameters[TI_MOST_PARAMETERS];
    ti_padding no_line = ti_padding_at(0); /* with it padding vanishes */
    ti_vars vars = {{0}};
    ti_view view;
    ti_value value;
    ti_limits limits;
    ti_run run;
    uint32_t fault;
    size_t length;
    FILE *input;
    int i;
    if (argc < 3 || argc > 3 + TI_MOST_PARAMETERS)
        return fail(WRONG_CALL, "call it as", "tput ENTRY-FILE NAME [PARAM..]");
    input = fopen(argv[1], "rb");
    if (input == NULL)
        return fail(FAILED, argv[1], strerror(errno));
    length = fread(file, 1, sizeof file, input);
    if (ferror(input))
        return fail(FAILED, argv[1], strerror(errno));
    fault = ti_open(file, length, &view);
    if (fault != TI_DONE)
        return refuse(argv[1], fault);
    fault = ti_view_find(&view, (const unsigned char *)argv[2], strlen(argv[2]), &value);
    if (fault != TI_DONE || value.kind != TI_TEXT || value.number != 0)
        return refuse(argv[2], TI_NOT_NAMED);
    fault = ti_check(value.text.bytes, value.text.length, 0, &limits);
    if (fault != TI_DONE)
        return refuse(argv[2], fault);
    for (i = 0; i < argc - 3; i++)
        if (!parameter(argv[i + 3], i, &limits, &parameters[i])) {
            fprintf(stderr, "tput: parameter %d of %s: no 32-bit number\n", i + 1, argv[2]);
            return WRONG_CALL;
        }
    fault = ti_expand(value.text.bytes, value.text.length, parameters, (size_t)(argc - 3), &vars, out, ROOM, &run);
    if (fault == TI_DONE)
        fault = ti_pad(out, run.written, &no_line, padded, ROOM, &length);
    if (fault != TI_DONE)
        return refuse(argv[2], fault);
    return fwrite(padded, 1, length, stdout) == length && fflush(stdout) == 0 ? 0 : FAILED;
}
