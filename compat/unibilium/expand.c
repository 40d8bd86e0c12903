/* How libunibilium.so.4 expands strings. This layer is not proved; test.c tests each call. The expansion of the library is proved.
 *
 * A mark of padding is looked for in what comes out.
 */
#include <limits.h>
#include <stdbool.h>
#include <stdio.h>
#include <stdlib.h>
#include <string.h>
#include <unibilium.h>

#include "ti.h"

enum { LETTERS = 26, PARAMETERS = TI_MOST_PARAMETERS, FEW_BYTES = 512 };

unibi_var_t unibi_var_from_num(int number) {
    unibi_var_t var = {number, NULL};
    return var;
}

unibi_var_t unibi_var_from_str(char *text) {
    unibi_var_t var = {INT_MIN, text};
    return var;
}

int unibi_num_from_var(unibi_var_t var) {
    return var.p_ != NULL ? INT_MIN : var.i_;
}

const char *unibi_str_from_var(unibi_var_t var) {
    return var.p_ != NULL ? var.p_ : "";
}

/* Expands into the room, or if that may be too small into memory of the heap, which the caller must free. NULL, and nothing is
 * written, if the library refuses the string or there is no memory. */
static char *expand(const char *string, const unibi_var_t param[PARAMETERS], ti_vars *vars, char *room, size_t size, size_t *length) {
    ti_parameter parameters[PARAMETERS];
    const unsigned char *bytes = (const unsigned char *)string;
    const size_t given = strlen(string);
    char *out = room;
    ti_run run;
    uint32_t fault;
    for (size_t i = 0; i < PARAMETERS; i++)
        parameters[i] = param[i].p_ != NULL ? ti_text(param[i].p_, strlen(param[i].p_)) : ti_number(param[i].i_);
    fault = ti_expand(bytes, given, parameters, PARAMETERS, vars, (unsigned char *)room, size, &run);
    if (fault == TI_OUT_TOO_SMALL && (out = malloc(run.place)) != NULL)
        fault = ti_expand(bytes, given, parameters, PARAMETERS, vars, (unsigned char *)out, run.place, &run);
    if (fault != TI_DONE) {
        if (out != room)
            free(out);
        return NULL;
    }
    *length = run.written;
    return out;
}

static bool is_digit(char c) {
    return c >= '0' && c <= '9';
}

/* A mark of padding: its delay in tenths of milliseconds, and whether a * and a / stand in it. */
typedef struct {
    size_t tenths;
    int scales, is_forced;
} delay;

/* The end of the mark that starts at a dollar sign, or NULL if there is none. */
static const char *end_of_mark(const char *at, const char *end, delay *found) {
    *found = (delay){0, 0, 0};
    if (end - at < 4 || at[1] != '<' || (!is_digit(at[2]) && !(at[2] == '.' && is_digit(at[3]))))
        return NULL;
    for (at += 2; at < end && is_digit(*at); at++)
        found->tenths = found->tenths * 10 + (size_t)(*at - '0');
    found->tenths *= 10;
    if (at < end && *at == '.')
        at++;
    if (at < end && is_digit(*at))
        found->tenths += (size_t)(*at++ - '0');
    for (; at < end && (*at == '*' || *at == '/'); at++)
        *(*at == '*' ? &found->scales : &found->is_forced) = 1;
    return at < end && *at == '>' ? at + 1 : NULL;
}

/* The next mark from a place on, with its end, or the end of the bytes. */
static const char *next_mark(const char *at, const char *end, const char **after, delay *found) {
    for (; at < end && (at = memchr(at, '$', (size_t)(end - at))) != NULL; at++)
        if ((*after = end_of_mark(at, end, found)) != NULL)
            return at;
    return *after = end;
}

/* The variables of the library are numbers. Only a string with %P or %g looks at them. */
static void take_variables(ti_vars *vars, const unibi_var_t dynamic[LETTERS], const unibi_var_t fixed[LETTERS]) {
    for (size_t i = 0; i < LETTERS; i++) {
        vars->values[i] = unibi_num_from_var(dynamic[i]);
        vars->values[LETTERS + i] = unibi_num_from_var(fixed[i]);
    }
}

static void give_variable(unibi_var_t *var, int32_t value) {
    if (value != unibi_num_from_var(*var))
        *var = unibi_var_from_num(value);
}

/* A string that the library refuses writes nothing; unibilium skips what it does not know. */
void unibi_format(unibi_var_t dynamic[LETTERS], unibi_var_t fixed[LETTERS], const char *string, unibi_var_t param[PARAMETERS],
                  void (*out)(void *, const char *, size_t), void *to, void (*pad)(void *, size_t, int, int), void *pad_to) {
    ti_vars vars = {{0}};
    char few[FEW_BYTES], *bytes;
    const char *at, *end, *mark, *after;
    size_t length;
    delay found;
    if (string == NULL || param == NULL || out == NULL || dynamic == NULL || fixed == NULL)
        return;
    take_variables(&vars, dynamic, fixed);
    if ((bytes = expand(string, param, &vars, few, sizeof few, &length)) == NULL)
        return;
    end = bytes + length;
    for (at = bytes; at < end; at = after) {
        mark = next_mark(at, end, &after, &found);
        if (mark > at)
            out(to, at, (size_t)(mark - at));
        if (mark < end && pad != NULL)
            pad(pad_to, found.tenths, found.scales, found.is_forced);
    }
    for (size_t i = 0; i < LETTERS; i++) {
        give_variable(&dynamic[i], vars.values[i]);
        give_variable(&fixed[i], vars.values[LETTERS + i]);
    }
    if (bytes != few)
        free(bytes);
}

/* Drops the marks of padding of some bytes, and returns how many are left. */
static size_t drop_marks(char *bytes, size_t length) {
    const char *at = bytes, *end = bytes + length, *mark, *after;
    delay found;
    char *to = bytes;
    for (; at < end; at = after) {
        mark = next_mark(at, end, &after, &found);
        if (to != at)
            memmove(to, at, (size_t)(mark - at));
        to += mark - at;
    }
    return (size_t)(to - bytes);
}

/* The buffer is also the room of the expansion if it is surely large enough. */
size_t unibi_run(const char *string, unibi_var_t param[PARAMETERS], char *out, size_t size) {
    ti_vars vars = {{0}};
    char few[FEW_BYTES], *room = size > FEW_BYTES ? out : few, *bytes;
    size_t length;
    if (string == NULL || param == NULL || (out == NULL && size > 0))
        return 0;
    bytes = expand(string, param, &vars, room, size > FEW_BYTES ? size : sizeof few, &length);
    if (bytes == NULL)
        return 0;
    length = drop_marks(bytes, length);
    if (bytes != out && size > 0)
        memcpy(out, bytes, length < size ? length : size);
    if (bytes != room)
        free(bytes);
    return length;
}
