/* How libunibilium.so.4 writes an entry: what it says is put into arrays, and the library, which is proved, writes these. This layer is
 * not proved; test.c tests that what is written reads back as the same.
 */
#include <errno.h>
#include <stdbool.h>
#include <stdint.h>
#include <stdlib.h>
#include <string.h>
#include <unibilium.h>

#include "ti.h"

enum {
    FLAGS = unibi_boolean_end_ - unibi_boolean_begin_ - 1,
    NUMBERS = unibi_numeric_end_ - unibi_numeric_begin_ - 1,
    TEXTS = unibi_string_end_ - unibi_string_begin_ - 1,
    /* The greatest number of two bytes. */
    MOST = 32767
};

/* An entry as ti_encode takes it. */
typedef struct {
    ti_arrays arrays;
    ti_counts counts;
    void *own; /* what the arrays and the names point to */
} content;

static ti_bytes bytes_of(const char *text) {
    ti_bytes bytes = {(const unsigned char *)text, text != NULL ? strlen(text) : 0};
    return bytes;
}

/* ---- memory */

static size_t names_length(const unibi_term *term) {
    size_t length = strlen(unibi_get_name(term));
    for (const char **alias = unibi_get_aliases(term); alias != NULL && *alias != NULL; alias++)
        length += strlen(*alias) + 1;
    return length;
}

/* Takes one piece of memory for the arrays and the names, and divides it. */
static bool take_room(const unibi_term *term, content *to) {
    ti_arrays *arrays = &to->arrays;
    ti_counts *counts = &to->counts;
    *to = (content){.counts = {.number_bits = 16}};
    counts->extended_flags = unibi_count_ext_bool(term);
    counts->extended_numbers = unibi_count_ext_num(term);
    counts->extended_texts = unibi_count_ext_str(term);
    counts->names.length = names_length(term);
    arrays->flag_room = FLAGS + counts->extended_flags;
    arrays->number_room = NUMBERS + counts->extended_numbers;
    arrays->text_room = TEXTS + counts->extended_texts;
    arrays->name_room = counts->extended_flags + counts->extended_numbers + counts->extended_texts;
    to->own = malloc(arrays->text_room * sizeof *arrays->texts + arrays->name_room * sizeof *arrays->names
                     + arrays->number_room * sizeof *arrays->numbers + arrays->flag_room + counts->names.length);
    if (to->own == NULL)
        return false;
    arrays->texts = to->own;
    arrays->names = (ti_bytes *)(arrays->texts + arrays->text_room);
    arrays->numbers = (int32_t *)(arrays->names + arrays->name_room);
    arrays->flags = (int8_t *)(arrays->numbers + arrays->number_room);
    counts->names.bytes = (unsigned char *)arrays->flags + arrays->flag_room;
    return true;
}

/* ---- what an entry says: its standard capabilities up to the last that says something, and after them the extended ones */

/* The aliases, each with a | after it, and the name. */
static void put_names(const unibi_term *term, content *to) {
    char *end = (char *)to->counts.names.bytes;
    for (const char **alias = unibi_get_aliases(term); alias != NULL && *alias != NULL; alias++) {
        size_t length = strlen(*alias);
        memcpy(end, *alias, length);
        end[length] = '|';
        end += length + 1;
    }
    memcpy(end, unibi_get_name(term), strlen(unibi_get_name(term)));
}

static void put_flags(const unibi_term *term, content *to) {
    int8_t *flags = to->arrays.flags;
    size_t count = 0;
    for (size_t i = 0; i < FLAGS; i++)
        if ((flags[i] = (int8_t)unibi_get_bool(term, (enum unibi_boolean)(unibi_boolean_begin_ + 1 + i))) != 0)
            count = i + 1;
    to->counts.flags = count;
    for (size_t i = 0; i < to->counts.extended_flags; i++)
        flags[count + i] = (int8_t)unibi_get_ext_bool(term, i);
}

/* A number below 0 is absent, and one that two bytes do not hold makes all of them wider. */
static int32_t taken_number(int number, content *to) {
    if (number > MOST)
        to->counts.number_bits = 32;
    return number < 0 ? TI_ABSENT : number;
}

static void put_numbers(const unibi_term *term, content *to) {
    int32_t *numbers = to->arrays.numbers;
    size_t count = 0;
    for (size_t i = 0; i < NUMBERS; i++)
        if ((numbers[i] = taken_number(unibi_get_num(term, (enum unibi_numeric)(unibi_numeric_begin_ + 1 + i)), to)) != TI_ABSENT)
            count = i + 1;
    to->counts.numbers = count;
    for (size_t i = 0; i < to->counts.extended_numbers; i++)
        numbers[count + i] = taken_number(unibi_get_ext_num(term, i), to);
}

static void put_text(ti_text_item *to, const char *text) {
    to->text = bytes_of(text);
    to->mark = text != NULL ? 0 : TI_ABSENT;
}

static void put_texts(const unibi_term *term, content *to) {
    ti_text_item *texts = to->arrays.texts;
    size_t count = 0;
    for (size_t i = 0; i < TEXTS; i++) {
        put_text(&texts[i], unibi_get_str(term, (enum unibi_string)(unibi_string_begin_ + 1 + i)));
        if (texts[i].mark == 0)
            count = i + 1;
    }
    to->counts.texts = count;
    for (size_t i = 0; i < to->counts.extended_texts; i++)
        put_text(&texts[count + i], unibi_get_ext_str(term, i));
}

/* The extended names. Whether all are there. */
static bool put_extended_names(const unibi_term *term, content *to) {
    ti_bytes *next = to->arrays.names;
    for (size_t i = 0; i < to->counts.extended_flags; i++)
        *next++ = bytes_of(unibi_get_ext_bool_name(term, i));
    for (size_t i = 0; i < to->counts.extended_numbers; i++)
        *next++ = bytes_of(unibi_get_ext_num_name(term, i));
    for (size_t i = 0; i < to->counts.extended_texts; i++)
        *next++ = bytes_of(unibi_get_ext_str_name(term, i));
    for (size_t i = 0; i < to->arrays.name_room; i++)
        if (to->arrays.names[i].bytes == NULL)
            return false;
    return true;
}

static uint32_t put_entry(const unibi_term *term, content *to, char *bytes, size_t room, size_t *length) {
    put_names(term, to);
    put_flags(term, to);
    put_numbers(term, to);
    put_texts(term, to);
    if (!put_extended_names(term, to))
        return TI_BAD_NAME;
    return ti_encode(&to->arrays, &to->counts, to->counts.number_bits, (unsigned char *)bytes, bytes != NULL ? room : 0, length);
}

size_t unibi_dump(const unibi_term *term, char *bytes, size_t room) {
    content all;
    size_t length = 0;
    uint32_t fault;
    if (term == NULL || unibi_get_name(term) == NULL) {
        errno = EINVAL;
        return SIZE_MAX;
    }
    if (!take_room(term, &all))
        return SIZE_MAX;
    fault = put_entry(term, &all, bytes, room, &length);
    free(all.own);
    if (fault == TI_OUT_TOO_SMALL)
        errno = EFAULT;
    else if (fault != TI_DONE) {
        errno = EINVAL;
        length = SIZE_MAX;
    }
    return length;
}
