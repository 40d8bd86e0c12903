/* Stands in for the calls of ncurses' libtinfo by which programs expand and pad capabilities: with this in LD_PRELOAD they do both
 * by libti. If TI_CALLS names a file, each process appends a line to it at its first call. */
#include <stdarg.h>
#include <stdint.h>
#include <stdio.h>
#include <stdlib.h>
#include <string.h>

#include "ti.h"

enum { PARAMETERS = 9, FEW_BYTES = 256 };

/* ncurses' SCREEN. */
struct screen;

char *tparm(const char *capability, ...);
char *tiparm(const char *capability, ...);
char *_nc_tiparm(int expected, const char *capability, ...);
char *tgoto(const char *capability, int column, int row);
int tputs(const char *text, int lines, int (*put)(int));
int tputs_sp(struct screen *screen, const char *text, int lines, int (*put)(struct screen *, int));

/* What libtinfo has: all of it is weak, since this is also loaded into programs without libtinfo. */
extern struct screen *SP __attribute__((weak));
extern short ospeed __attribute__((weak));
extern char PC __attribute__((weak));
int tigetflag(const char *name) __attribute__((weak));
int tigetnum(const char *name) __attribute__((weak));
char *tigetstr(const char *name) __attribute__((weak));

/* Bytes of the heap that grow as they have to. */
typedef struct {
    unsigned char *bytes;
    size_t room;
} buffer;

static ti_vars variables;
static buffer output, padded;

static void tell_call(void) {
    static int is_told;
    const char *name = is_told ? NULL : getenv("TI_CALLS");
    FILE *file = name == NULL ? NULL : fopen(name, "a");
    is_told = 1;
    if (file == NULL)
        return;
    fputs("called\n", file);
    fclose(file);
}

/* The end of the escape after a '%'. */
static const char *after_escape(const char *at) {
    if (*at == '\'' && at[1] != 0 && at[2] == '\'')
        return at + 3;
    if (*at == '{')
        return at + strcspn(at, "}");
    if (*at == ':')
        at += 1 + strspn(at + 1, "-+# 0");
    at += strspn(at, "# 0123456789.");
    return *at == 0 ? at : at + 1;
}

/* The parameters that are used as texts, a bit each: those that %s or %l takes at once. */
static unsigned texts_in(const char *capability) {
    unsigned texts = 0, last = 0;
    const char *at = capability;
    while ((at = strchr(at, '%')) != NULL) {
        if (at[1] == 'p' && at[2] >= '1' && at[2] <= '9') {
            last = 1u << (at[2] - '1');
            at += 3;
            continue;
        }
        at = after_escape(at + 1);
        if (at[-1] == 's' || at[-1] == 'l')
            texts |= last;
        last = 0;
    }
    return texts;
}

static int make_room(buffer *buffer, size_t room) {
    unsigned char *more = room <= buffer->room ? buffer->bytes : (unsigned char *)realloc(buffer->bytes, room);
    if (more == NULL)
        return 0;
    if (buffer->room < room)
        buffer->room = room;
    buffer->bytes = more;
    return 1;
}

static uint32_t expand_into(const char *capability, const ti_parameter *parameters, ti_run *run) {
    return ti_expand((const unsigned char *)capability, strlen(capability), parameters, PARAMETERS, &variables, output.bytes,
                     output.room - 1, run);
}

static char *expand(const char *capability, const ti_parameter *parameters) {
    ti_run run;
    uint32_t fault;
    tell_call();
    /* ncurses starts the variables a to z anew in each call. */
    memset(variables.values, 0, 26 * sizeof variables.values[0]);
    if (!make_room(&output, FEW_BYTES))
        return NULL;
    fault = expand_into(capability, parameters, &run);
    if (fault == TI_OUT_TOO_SMALL && make_room(&output, run.place + 1))
        fault = expand_into(capability, parameters, &run);
    if (fault != TI_DONE)
        return NULL;
    output.bytes[run.written] = 0;
    return (char *)output.bytes;
}

/* The first so many parameters of a list; a number is a long, as for tparm, or an int. */
static void take(ti_parameter *parameters, int count, unsigned texts, int is_long, va_list list) {
    for (int i = 0; i < PARAMETERS; i++) {
        if (i >= count) {
            parameters[i] = ti_number(0);
        } else if (texts >> i & 1) {
            const char *text = va_arg(list, const char *);
            parameters[i] = ti_text(text, text == NULL ? 0 : strlen(text));
        } else {
            parameters[i] = ti_number(is_long ? (int32_t)va_arg(list, long) : va_arg(list, int));
        }
    }
}

/* As many parameters as the capability names: no more were handed in. */
static int count_in(const char *capability) {
    int count = 0;
    for (const char *at = capability; (at = strstr(at, "%p")) != NULL; at += 2)
        if (at[2] >= '1' && at[2] <= '9' && at[2] - '0' > count)
            count = at[2] - '0';
    return count;
}

char *tparm(const char *capability, ...) {
    ti_parameter parameters[PARAMETERS];
    va_list list;
    if (capability == NULL)
        return NULL;
    va_start(list, capability);
    take(parameters, count_in(capability), texts_in(capability), 1, list);
    va_end(list);
    return expand(capability, parameters);
}

char *tiparm(const char *capability, ...) {
    ti_parameter parameters[PARAMETERS];
    va_list list;
    if (capability == NULL)
        return NULL;
    va_start(list, capability);
    take(parameters, count_in(capability), texts_in(capability), 0, list);
    va_end(list);
    return expand(capability, parameters);
}

char *_nc_tiparm(int expected, const char *capability, ...) {
    ti_parameter parameters[PARAMETERS];
    va_list list;
    int count;
    if (capability == NULL)
        return NULL;
    count = count_in(capability);
    va_start(list, capability);
    take(parameters, count < expected ? count : expected, texts_in(capability), 0, list);
    va_end(list);
    return expand(capability, parameters);
}

char *tgoto(const char *capability, int column, int row) {
    ti_parameter parameters[PARAMETERS] = {{{0}, 0, 0}};
    if (capability == NULL)
        return NULL;
    parameters[0] = ti_number(row);
    parameters[1] = ti_number(column);
    return expand(capability, parameters);
}

/* ---- padding */

/* The bytes per second of the line. ncurses counts nine bits for a byte. */
static uint32_t line_rate(void) {
    static const uint32_t bauds[] = {0, 50, 75, 110, 134, 150, 200, 300, 600, 1200, 1800, 2400, 4800, 9600, 19200, 38400};
    return &ospeed != NULL && ospeed > 0 && (size_t)ospeed < sizeof bauds / sizeof bauds[0] ? bauds[ospeed] / 9 : 0;
}

static int has_flag(const char *name) {
    return tigetflag != NULL && tigetflag(name) > 0;
}

static int is_text(const char *text, const char *name) {
    return tigetstr != NULL && text == tigetstr(name);
}

/* How ncurses pads a text. Programs count the pad bytes too, to choose the cheapest motion, so the rate is that of the line. A
 * terminal without a pad byte takes none. Of a screen all marks are padded in the bell and the flash; in other texts those
 * without a / need a line without flow control, which is as fast as pb says. Without a screen all marks are padded. */
static ti_padding padding_of(const struct screen *screen, const char *text, int lines) {
    ti_padding padding = ti_padding_at(has_flag("npc") ? 0 : line_rate());
    padding.pad = &PC != NULL ? (uint8_t)PC : 0;
    padding.affected_lines = lines < 0 ? 0 : lines > TI_MOST_AFFECTED_LINES ? TI_MOST_AFFECTED_LINES : (uint32_t)lines;
    if (screen != NULL && !is_text(text, "bel") && !is_text(text, "flash")) {
        int least = tigetnum != NULL ? tigetnum("pb") : -1;
        padding.xon = has_flag("xon") || least == 0 || (least > 0 && padding.rate * 9 < (uint32_t)least);
    }
    return padding;
}

/* Pads a text, and returns how many bytes are to be sent, or -1. tigetstr returns (char *)-1 for the name of no string, and
 * programs such as clear(1) hand that to tputs. */
static long pad(const struct screen *screen, const char *text, int lines) {
    ti_padding padding;
    size_t length;
    uint32_t fault;
    tell_call();
    if (text == NULL || text == (const char *)-1)
        return -1;
    padding = padding_of(screen, text, lines);
    fault = ti_pad((const unsigned char *)text, strlen(text), &padding, padded.bytes, padded.room, &length);
    if (fault == TI_OUT_TOO_SMALL && make_room(&padded, length))
        fault = ti_pad((const unsigned char *)text, strlen(text), &padding, padded.bytes, padded.room, &length);
    return fault == TI_DONE ? (long)length : -1;
}

int tputs(const char *text, int lines, int (*put)(int)) {
    long length = pad(&SP != NULL ? SP : NULL, text, lines);
    for (long i = 0; i < length; i++)
        put(padded.bytes[i]);
    return length < 0 ? -1 : 0;
}

/* What libncurses calls, and what libtinfo calls of its own accord. */
int tputs_sp(struct screen *screen, const char *text, int lines, int (*put)(struct screen *, int)) {
    long length = pad(screen, text, lines);
    for (long i = 0; i < length; i++)
        put(screen, padded.bytes[i]);
    return length < 0 ? -1 : 0;
}
