/* The entry of a terminal, for libunibilium.so.4. This layer is not proved; test.c tests each call.
 *
 * The library, which is proved, opens an entry. What it says is looked up in its bytes when it is asked for, and only what is set
 * afterwards is kept beside. As in unibilium, names and strings that are set or added stay the caller's.
 */
#include <errno.h>
#include <stdbool.h>
#include <stdint.h>
#include <stdlib.h>
#include <string.h>
#include <unibilium.h>

#include "long_names.h"
#include "ti.h"

enum {
    FLAGS = unibi_boolean_end_ - unibi_boolean_begin_ - 1,
    NUMBERS = unibi_numeric_end_ - unibi_numeric_begin_ - 1,
    TEXTS = unibi_string_end_ - unibi_string_begin_ - 1,
    /* Where the bits of each kind start among those that say what was set. */
    FIRST_NUMBER = FLAGS,
    FIRST_TEXT = FLAGS + NUMBERS,
    ALL = FLAGS + NUMBERS + TEXTS,
    KINDS = 3,
    HEADER = 12
};

_Static_assert(FLAGS == 44 && NUMBERS == 39 && TEXTS == 414, "the standard capabilities of ti_names.h");
_Static_assert(sizeof flag_names / sizeof flag_names[0] == FLAGS, "a name for each");
_Static_assert(sizeof number_names / sizeof number_names[0] == NUMBERS, "a name for each");
_Static_assert(sizeof text_names / sizeof text_names[0] == TEXTS, "a name for each");

/* An extended capability. */
typedef struct {
    const char *name;
    const char *text;
    int number;
} item;

/* The extended capabilities of a kind, once one of them was changed. Until then the entry has them, and there is room for them. */
typedef struct {
    item *items;
    size_t used, room;
    bool is_changed, is_of_heap;
} list;

struct unibi_term {
    ti_view view;
    const char *name;
    const char **aliases;
    void *own; /* what the name, the aliases and the lists point to at first */
    uint64_t set[(ALL + 63) / 64];
    int numbers[NUMBERS];
    const char *texts[TEXTS];
    unsigned char flags[FLAGS];
    list lists[KINDS]; /* by TI_FLAG, TI_NUMBER and TI_TEXT */
    unsigned char bytes[]; /* the entry; a NUL ends each of its texts and names */
};

/* ---- from bytes */

static size_t count_of(const unibi_term *term, uint32_t kind) {
    const ti_counts *counts = &term->view.counts;
    return kind == TI_FLAG ? counts->extended_flags : kind == TI_NUMBER ? counts->extended_numbers : counts->extended_texts;
}

static size_t bars_in(ti_bytes names) {
    const unsigned char *end = names.bytes + names.length, *at = names.bytes;
    size_t bars = 0;
    for (; (at = memchr(at, '|', (size_t)(end - at))) != NULL; at++)
        bars++;
    return bars;
}

/* Divides the names of an entry: the last is the name, those before are the aliases. They need room for a pointer each, and for
 * their bytes. */
static void divide_names(unibi_term *term, const char **aliases, char *bytes) {
    ti_bytes names = term->view.counts.names;
    memcpy(bytes, names.bytes, names.length);
    bytes[names.length] = 0;
    term->aliases = aliases;
    for (char *bar; (bar = strchr(bytes, '|')) != NULL; bytes = bar + 1) {
        *bar = 0;
        *aliases++ = bytes;
    }
    *aliases = NULL;
    term->name = bytes;
}

/* Takes all memory that the capabilities of an entry can need, so that no call that sets one can fail. */
static bool take_room(unibi_term *term) {
    ti_bytes names = term->view.counts.names;
    size_t pointers = bars_in(names) + 1, items = 0;
    item *next;
    for (uint32_t kind = 0; kind < KINDS; kind++)
        items += count_of(term, kind);
    next = malloc(items * sizeof *next + pointers * sizeof *term->aliases + names.length + 1);
    if (next == NULL)
        return false;
    term->own = next;
    for (uint32_t kind = 0; kind < KINDS; kind++) {
        size_t count = count_of(term, kind);
        term->lists[kind] = (list){next, count, count, false, false};
        next += count;
    }
    divide_names(term, (const char **)next, (char *)((const char **)next + pointers));
    return true;
}

/* Opens the bytes of a terminal. What follows an entry is ignored. */
static uint32_t open_bytes(unibi_term *term, size_t length) {
    uint32_t fault = ti_open(term->bytes, length, &term->view);
    return fault == TI_TRAILING ? ti_open(term->bytes, term->view.counts.place, &term->view) : fault;
}

unibi_term *unibi_from_mem(const char *bytes, size_t length) {
    unibi_term *term;
    uint32_t fault;
    if (bytes == NULL || length < HEADER) {
        errno = EFAULT;
        return NULL;
    }
    /* No entry has more. */
    if (length > TI_MOST_BYTES)
        length = TI_MOST_BYTES;
    if ((term = malloc(sizeof *term + length)) == NULL)
        return NULL;
    memcpy(term->bytes, bytes, length);
    fault = open_bytes(term, length);
    if (fault != TI_DONE) {
        free(term);
        errno = fault == TI_TRUNCATED ? EFAULT : EINVAL;
        return NULL;
    }
    if (!take_room(term)) {
        free(term);
        return NULL;
    }
    memset(term->set, 0, sizeof term->set);
    return term;
}

unibi_term *unibi_dummy(void) {
    static const char entry[] = "\x1a\x01\x1e\0\0\0\0\0\0\0\0\0null|unibilium dummy terminal";
    return unibi_from_mem(entry, sizeof entry);
}

void unibi_destroy(unibi_term *term) {
    if (term == NULL)
        return;
    for (uint32_t kind = 0; kind < KINDS; kind++)
        if (term->lists[kind].is_of_heap)
            free(term->lists[kind].items);
    free(term->own);
    free(term);
}

/* ---- standard capabilities. A wrong index is above the last: below the first, the difference has gone round. */

static size_t flag_at(enum unibi_boolean index) {
    return (size_t)index - unibi_boolean_begin_ - 1;
}

static size_t number_at(enum unibi_numeric index) {
    return (size_t)index - unibi_numeric_begin_ - 1;
}

static size_t text_at(enum unibi_string index) {
    return (size_t)index - unibi_string_begin_ - 1;
}

static bool was_set(const unibi_term *term, size_t bit) {
    return term->set[bit / 64] >> bit % 64 & 1;
}

static void mark_set(unibi_term *term, size_t bit) {
    term->set[bit / 64] |= (uint64_t)1 << bit % 64;
}

const char *unibi_get_name(const unibi_term *term) {
    return term != NULL ? term->name : NULL;
}

void unibi_set_name(unibi_term *term, const char *name) {
    if (term != NULL)
        term->name = name;
}

const char **unibi_get_aliases(const unibi_term *term) {
    return term != NULL ? term->aliases : NULL;
}

void unibi_set_aliases(unibi_term *term, const char **aliases) {
    if (term != NULL)
        term->aliases = aliases;
}

int unibi_get_bool(const unibi_term *term, enum unibi_boolean index) {
    size_t at = flag_at(index);
    if (term == NULL || at >= FLAGS)
        return -1;
    return was_set(term, at) ? term->flags[at] : ti_view_flag(&term->view, at) == 1;
}

void unibi_set_bool(unibi_term *term, enum unibi_boolean index, int value) {
    size_t at = flag_at(index);
    if (term == NULL || at >= FLAGS)
        return;
    term->flags[at] = value != 0;
    mark_set(term, at);
}

int unibi_get_num(const unibi_term *term, enum unibi_numeric index) {
    size_t at = number_at(index);
    int32_t number;
    if (term == NULL || at >= NUMBERS)
        return -2;
    if (was_set(term, FIRST_NUMBER + at))
        return term->numbers[at];
    number = ti_view_number(&term->view, at);
    return number >= 0 ? number : -1;
}

void unibi_set_num(unibi_term *term, enum unibi_numeric index, int value) {
    size_t at = number_at(index);
    if (term == NULL || at >= NUMBERS)
        return;
    term->numbers[at] = value;
    mark_set(term, FIRST_NUMBER + at);
}

const char *unibi_get_str(const unibi_term *term, enum unibi_string index) {
    size_t at = text_at(index);
    ti_bytes text;
    if (term == NULL || at >= TEXTS)
        return NULL;
    if (was_set(term, FIRST_TEXT + at))
        return term->texts[at];
    return ti_view_text(&term->view, at, &text) == 0 ? (const char *)text.bytes : NULL;
}

void unibi_set_str(unibi_term *term, enum unibi_string index, const char *value) {
    size_t at = text_at(index);
    if (term == NULL || at >= TEXTS)
        return;
    term->texts[at] = value;
    mark_set(term, FIRST_TEXT + at);
}

/* ---- names */

static const char *short_name(uint32_t kind, size_t at) {
    ti_bytes name;
    return ti_name(kind, at, &name) == TI_DONE ? (const char *)name.bytes : NULL;
}

const char *unibi_name_bool(enum unibi_boolean index) {
    size_t at = flag_at(index);
    return at < FLAGS ? flag_names[at] : NULL;
}

const char *unibi_short_name_bool(enum unibi_boolean index) {
    return short_name(TI_FLAG, flag_at(index));
}

const char *unibi_name_num(enum unibi_numeric index) {
    size_t at = number_at(index);
    return at < NUMBERS ? number_names[at] : NULL;
}

const char *unibi_short_name_num(enum unibi_numeric index) {
    return short_name(TI_NUMBER, number_at(index));
}

const char *unibi_name_str(enum unibi_string index) {
    size_t at = text_at(index);
    return at < TEXTS ? text_names[at] : NULL;
}

const char *unibi_short_name_str(enum unibi_string index) {
    return short_name(TI_TEXT, text_at(index));
}

/* ---- extended capabilities */

static size_t count_items(const unibi_term *term, uint32_t kind) {
    return term != NULL ? term->lists[kind].used : 0;
}

/* The extended capability of a kind at an index, which is below the count. */
static item item_at(const unibi_term *term, uint32_t kind, size_t index) {
    item found = {NULL, NULL, 0};
    ti_bytes name;
    ti_value value;
    if (term->lists[kind].is_changed)
        return term->lists[kind].items[index];
    if (ti_view_extended(&term->view, kind, index, &name, &value) != TI_DONE)
        return found;
    found.name = (const char *)name.bytes;
    found.text = kind == TI_TEXT && value.number == 0 ? (const char *)value.text.bytes : NULL;
    found.number = kind == TI_FLAG ? value.number == 1 : value.number < 0 ? -1 : value.number;
    return found;
}

/* The extended capability to change, after the others of its kind were taken from the entry; NULL if there is none. */
static item *item_to_change(unibi_term *term, uint32_t kind, size_t index) {
    list *all;
    if (index >= count_items(term, kind))
        return NULL;
    all = &term->lists[kind];
    if (!all->is_changed)
        for (size_t i = 0; i < all->used; i++)
            all->items[i] = item_at(term, kind, i);
    all->is_changed = true;
    return &all->items[index];
}

/* Makes room for one more. */
static bool make_room(list *all) {
    item *more;
    if (all->used < all->room)
        return true;
    more = realloc(all->is_of_heap ? all->items : NULL, (all->room * 2 + 8) * sizeof *more);
    if (more == NULL)
        return false;
    if (!all->is_of_heap && all->used > 0)
        memcpy(more, all->items, all->used * sizeof *more);
    all->items = more;
    all->room = all->room * 2 + 8;
    all->is_of_heap = true;
    return true;
}

static size_t add_item(unibi_term *term, uint32_t kind, item added) {
    list *all;
    if (term == NULL)
        return SIZE_MAX;
    all = &term->lists[kind];
    (void)item_to_change(term, kind, 0);
    if (!make_room(all))
        return SIZE_MAX;
    all->is_changed = true;
    all->items[all->used] = added;
    return all->used++;
}

static void delete_item(unibi_term *term, uint32_t kind, size_t index) {
    item *at = item_to_change(term, kind, index);
    if (at != NULL)
        memmove(at, at + 1, (--term->lists[kind].used - index) * sizeof *at);
}

static const char *name_of(const unibi_term *term, uint32_t kind, size_t index) {
    return index < count_items(term, kind) ? item_at(term, kind, index).name : NULL;
}

static void set_name_of(unibi_term *term, uint32_t kind, size_t index, const char *name) {
    item *at = item_to_change(term, kind, index);
    if (at != NULL)
        at->name = name;
}

static void set_number_of(unibi_term *term, uint32_t kind, size_t index, int number) {
    item *at = item_to_change(term, kind, index);
    if (at != NULL)
        at->number = number;
}

size_t unibi_count_ext_bool(const unibi_term *term) {
    return count_items(term, TI_FLAG);
}

size_t unibi_count_ext_num(const unibi_term *term) {
    return count_items(term, TI_NUMBER);
}

size_t unibi_count_ext_str(const unibi_term *term) {
    return count_items(term, TI_TEXT);
}

int unibi_get_ext_bool(const unibi_term *term, size_t index) {
    return index < count_items(term, TI_FLAG) ? item_at(term, TI_FLAG, index).number : -1;
}

int unibi_get_ext_num(const unibi_term *term, size_t index) {
    return index < count_items(term, TI_NUMBER) ? item_at(term, TI_NUMBER, index).number : -2;
}

const char *unibi_get_ext_str(const unibi_term *term, size_t index) {
    return index < count_items(term, TI_TEXT) ? item_at(term, TI_TEXT, index).text : NULL;
}

void unibi_set_ext_bool(unibi_term *term, size_t index, int value) {
    set_number_of(term, TI_FLAG, index, value != 0);
}

void unibi_set_ext_num(unibi_term *term, size_t index, int value) {
    set_number_of(term, TI_NUMBER, index, value);
}

void unibi_set_ext_str(unibi_term *term, size_t index, const char *value) {
    item *at = item_to_change(term, TI_TEXT, index);
    if (at != NULL)
        at->text = value;
}

const char *unibi_get_ext_bool_name(const unibi_term *term, size_t index) {
    return name_of(term, TI_FLAG, index);
}

const char *unibi_get_ext_num_name(const unibi_term *term, size_t index) {
    return name_of(term, TI_NUMBER, index);
}

const char *unibi_get_ext_str_name(const unibi_term *term, size_t index) {
    return name_of(term, TI_TEXT, index);
}

void unibi_set_ext_bool_name(unibi_term *term, size_t index, const char *name) {
    set_name_of(term, TI_FLAG, index, name);
}

void unibi_set_ext_num_name(unibi_term *term, size_t index, const char *name) {
    set_name_of(term, TI_NUMBER, index, name);
}

void unibi_set_ext_str_name(unibi_term *term, size_t index, const char *name) {
    set_name_of(term, TI_TEXT, index, name);
}

size_t unibi_add_ext_bool(unibi_term *term, const char *name, int value) {
    return add_item(term, TI_FLAG, (item){name, NULL, value != 0});
}

size_t unibi_add_ext_num(unibi_term *term, const char *name, int value) {
    return add_item(term, TI_NUMBER, (item){name, NULL, value});
}

size_t unibi_add_ext_str(unibi_term *term, const char *name, const char *value) {
    return add_item(term, TI_TEXT, (item){name, value, 0});
}

void unibi_del_ext_bool(unibi_term *term, size_t index) {
    delete_item(term, TI_FLAG, index);
}

void unibi_del_ext_num(unibi_term *term, size_t index) {
    delete_item(term, TI_NUMBER, index);
}

void unibi_del_ext_str(unibi_term *term, size_t index) {
    delete_item(term, TI_TEXT, index);
}
