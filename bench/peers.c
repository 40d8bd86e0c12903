/* The same work done by this library from C and by other libraries, for bench/run.
 *
 *     peers WORK ROUNDS TURNS GROUP < LIST
 *
 * reads the list that crates/ti_bench reads, and prints `GROUP WORK ITEMS NANOSECONDS`, the processor time of all rounds. In
 * each round it does the work on each item of the group so many turns in a row. The work `output` prints what `tiparm` makes
 * of each capability, in hex, a line each. Work with `_needed` in its name passes the parameters that a capability names, the
 * other nine; `call` makes nine and calls nothing. Names are looked up in the entry LOOKED_UP of the list. Built with
 * -DUNIBILIUM it knows that library's calls too. */
#include "ti.h"

#include <curses.h>
#include <stdio.h>
#include <stdlib.h>
#include <string.h>
#include <term.h>
#include <time.h>
#ifdef UNIBILIUM
#include <unibilium.h>
#endif

enum { MOST_ITEMS = 4096, LONGEST_LINE = 1 << 17, MOST_NUMBERS = 9, ROOM = 4096, MOST_CAPABILITIES = 16384 };

#define LOOKED_UP "xterm-256color"

struct compiled {
    enum { NEW, KEPT, NOT_KEPT } state;
    ti_kept kept;
};

struct item {
    char *bytes;
    size_t length;
    int numbers[MOST_NUMBERS];
    int needed;
    struct compiled *compiled;
};

static struct item items[MOST_ITEMS], looked_up;
static size_t count;

/* The greatest parameter that a capability names. */
static int needed_by(const struct item *item) {
    int most = 0;
    for (size_t i = 0; i + 2 < item->length; i++) {
        const char *byte = item->bytes + i;
        if (byte[0] == '%' && byte[1] == 'p' && byte[2] >= '1' && byte[2] <= '9' && byte[2] - '0' > most) most = byte[2] - '0';
    }
    return most;
}

/* What equal bytes before are compiled into, or room for it. */
static struct compiled *compiled_for(const struct item *item) {
    for (const struct item *other = items; other < item; other++)
        if (other->length == item->length && memcmp(other->bytes, item->bytes, item->length) == 0) return other->compiled;
    return calloc(1, sizeof(struct compiled));
}

static void read_item(struct item *item, char *hex) {
    item->length = strlen(hex) / 2;
    item->bytes = calloc(item->length + 1, 1);
    for (size_t i = 0; i < item->length; i++) {
        unsigned byte;
        sscanf(hex + 2 * i, "%2x", &byte);
        item->bytes[i] = (char)byte;
    }
    for (int i = 0; i < MOST_NUMBERS; i++) {
        char *word = strtok(NULL, " \n");
        item->numbers[i] = word ? atoi(word) : 0;
    }
    item->needed = needed_by(item);
}

static void read_items(const char *group) {
    static char line[LONGEST_LINE];
    while (fgets(line, sizeof line, stdin) && count < MOST_ITEMS) {
        char *word = strtok(line, " \n"), *name = strtok(NULL, " \n"), *hex = strtok(NULL, " \n");
        if (!word || !hex) continue;
        if (strcmp(word, group) == 0) {
            read_item(&items[count], hex);
            items[count].compiled = compiled_for(&items[count]);
            count++;
        }
        else if (strcmp(word, "entry") == 0 && strcmp(name, LOOKED_UP) == 0) read_item(&looked_up, hex);
    }
}

static char *by_tiparm(const struct item *item) {
    const int *n = item->numbers;
    return tiparm(item->bytes, n[0], n[1], n[2], n[3], n[4], n[5], n[6], n[7], n[8]);
}

static char *by_tparm(const struct item *item) {
    const int *n = item->numbers;
    return tparm(item->bytes, (long)n[0], (long)n[1], (long)n[2], (long)n[3], (long)n[4], (long)n[5], (long)n[6],
                 (long)n[7], (long)n[8]);
}

/* `tiparm` with the parameters that a capability names. */
static char *by_tiparm_needed(const struct item *item) {
    const int *n = item->numbers;
    switch (item->needed) {
    case 0: return tiparm(item->bytes);
    case 1: return tiparm(item->bytes, n[0]);
    case 2: return tiparm(item->bytes, n[0], n[1]);
    case 3: return tiparm(item->bytes, n[0], n[1], n[2]);
    case 4: return tiparm(item->bytes, n[0], n[1], n[2], n[3]);
    default: return by_tiparm(item);
    }
}

static size_t run_tiparm(const struct item *item) { return by_tiparm(item) != NULL; }

static size_t run_tiparm_needed(const struct item *item) { return by_tiparm_needed(item) != NULL; }

static size_t run_tparm(const struct item *item) { return by_tparm(item) != NULL; }

static size_t expand_with(const struct item *item, int passed) {
    static ti_vars vars;
    static unsigned char out[ROOM];
    ti_parameter parameters[MOST_NUMBERS];
    ti_run run;
    for (int k = 0; k < passed; k++) parameters[k] = ti_number(item->numbers[k]);
    return ti_expand((const unsigned char *)item->bytes, item->length, parameters, (size_t)passed, &vars, out, sizeof out, &run)
           == TI_DONE;
}

static size_t run_ti_expand(const struct item *item) { return expand_with(item, MOST_NUMBERS); }

static size_t run_ti_expand_needed(const struct item *item) { return expand_with(item, item->needed); }

static size_t run_ti_compile(const struct item *item) {
    static ti_kept kept;
    size_t place;
    return 1 + (ti_compile((const unsigned char *)item->bytes, item->length, &kept, &place) == TI_DONE);
}

/* Whether the capability is compiled; it is, unless it does not fit. */
static int is_kept(const struct item *item) {
    struct compiled *c = item->compiled;
    size_t place;
    if (c->state == NEW)
        c->state = ti_compile((const unsigned char *)item->bytes, item->length, &c->kept, &place) == TI_DONE ? KEPT : NOT_KEPT;
    return c->state == KEPT;
}

/* A capability that does not fit is expanded from its bytes. */
static size_t expand_kept_with(const struct item *item, int passed) {
    static ti_vars vars;
    static unsigned char out[ROOM];
    struct compiled *c = item->compiled;
    size_t written;
    if (!is_kept(item)) return expand_with(item, passed);
    return ti_expand_kept(&c->kept, item->numbers, (size_t)passed, &vars, out, sizeof out, &written) == TI_DONE;
}

static size_t run_ti_expand_kept(const struct item *item) { return expand_kept_with(item, MOST_NUMBERS); }

static size_t run_ti_expand_kept_needed(const struct item *item) { return expand_kept_with(item, item->needed); }

/* What a terminal gets of a capability, over the parameters that it names, at the rate 0. */
static size_t run_ti_send_needed(const struct item *item) {
    static ti_terminal terminal;
    static unsigned char out[2 * ROOM];
    ti_parameter parameters[MOST_NUMBERS];
    ti_sent sent;
    for (int k = 0; k < item->needed; k++) parameters[k] = ti_number(item->numbers[k]);
    return ti_send((const unsigned char *)item->bytes, item->length, parameters, (size_t)item->needed, &terminal, out, sizeof out, &sent)
           == TI_DONE;
}

/* The same of a compiled capability, or of its bytes if it does not fit. */
static size_t run_ti_send_kept_needed(const struct item *item) {
    static ti_terminal terminal;
    static unsigned char out[2 * ROOM];
    ti_sent sent;
    if (!is_kept(item)) return run_ti_send_needed(item);
    return ti_send_kept(&item->compiled->kept, item->numbers, (size_t)item->needed, &terminal, out, sizeof out, &sent) == TI_DONE;
}

/* What each expansion of nine parameters costs before the call. */
static size_t run_call(const struct item *item) {
    ti_parameter parameters[MOST_NUMBERS];
    for (int k = 0; k < MOST_NUMBERS; k++) parameters[k] = ti_number(item->numbers[k]);
    __asm__ volatile("" : : "r"(parameters) : "memory");
    return 1;
}

static size_t run_ti_find(const struct item *item) {
    uint32_t kind;
    size_t index;
    return 1 + (ti_find((const unsigned char *)item->bytes, item->length, &kind, &index) == TI_DONE);
}

static size_t run_ti_view_find(const struct item *item) {
    static ti_view view;
    static int is_open;
    ti_value value;
    if (!is_open) is_open = ti_open((const unsigned char *)looked_up.bytes, looked_up.length, &view) == TI_DONE;
    return (size_t)is_open + (ti_view_find(&view, (const unsigned char *)item->bytes, item->length, &value) == TI_DONE);
}

static size_t run_tigetstr(const struct item *item) { return 1 + (tigetstr(item->bytes) != NULL); }

static size_t run_ti_read(const struct item *item) {
    static int8_t flags[MOST_CAPABILITIES];
    static int32_t numbers[MOST_CAPABILITIES];
    static ti_text_item texts[MOST_CAPABILITIES];
    static ti_bytes names[MOST_CAPABILITIES];
    ti_arrays arrays = {flags, MOST_CAPABILITIES, numbers, MOST_CAPABILITIES, texts, MOST_CAPABILITIES, names, MOST_CAPABILITIES};
    ti_counts counts;
    return ti_read((const unsigned char *)item->bytes, item->length, &arrays, &counts) == TI_DONE;
}

static size_t run_ti_open(const struct item *item) {
    ti_view view;
    return ti_open((const unsigned char *)item->bytes, item->length, &view) == TI_DONE;
}

/* What an editor asks of an entry. */
static size_t run_ti_open_six(const struct item *item) {
    static const size_t texts[] = {TI_CURSOR_ADDRESS, TI_CLEAR_SCREEN, TI_SET_A_FOREGROUND, TI_SET_ATTRIBUTES,
                                   TI_ENTER_CA_MODE, TI_CLR_EOL};
    ti_view view;
    ti_bytes text;
    size_t found = ti_open((const unsigned char *)item->bytes, item->length, &view) == TI_DONE;
    for (size_t i = 0; i < sizeof texts / sizeof *texts; i++) found += ti_view_text(&view, texts[i], &text) == 0;
    return found;
}

static size_t run_ti_open_by_name(const struct item *item) {
    static const char *const names[] = {"cup", "clear", "setaf", "sgr", "smcup", "el"};
    ti_view view;
    ti_value value;
    size_t found = ti_open((const unsigned char *)item->bytes, item->length, &view) == TI_DONE;
    for (size_t i = 0; i < sizeof names / sizeof *names; i++)
        found += ti_view_find(&view, (const unsigned char *)names[i], strlen(names[i]), &value) == TI_DONE;
    return found;
}

#ifdef UNIBILIUM
static size_t run_unibi_run(const struct item *item) {
    static char out[ROOM];
    unibi_var_t parameters[MOST_NUMBERS];
    for (int k = 0; k < MOST_NUMBERS; k++) parameters[k] = unibi_var_from_num(item->numbers[k]);
    return unibi_run(item->bytes, parameters, out, sizeof out);
}

static size_t run_unibi_from_mem(const struct item *item) {
    unibi_term *entry = unibi_from_mem(item->bytes, item->length);
    if (entry) unibi_destroy(entry);
    return entry != NULL;
}

static size_t run_unibi_six(const struct item *item) {
    static const enum unibi_string texts[] = {unibi_cursor_address, unibi_clear_screen, unibi_set_a_foreground,
                                              unibi_set_attributes, unibi_enter_ca_mode, unibi_clr_eol};
    unibi_term *entry = unibi_from_mem(item->bytes, item->length);
    size_t found = 1;
    for (size_t i = 0; entry && i < sizeof texts / sizeof *texts; i++) found += unibi_get_str(entry, texts[i]) != NULL;
    if (entry) unibi_destroy(entry);
    return entry ? found : 0;
}
#endif

static const struct {
    const char *name;
    size_t (*run)(const struct item *item);
} works[] = {
    {"ti_expand", run_ti_expand},
    {"ti_expand_needed", run_ti_expand_needed},
    {"ti_compile", run_ti_compile},
    {"ti_expand_kept", run_ti_expand_kept},
    {"ti_expand_kept_needed", run_ti_expand_kept_needed},
    {"ti_send_needed", run_ti_send_needed},
    {"ti_send_kept_needed", run_ti_send_kept_needed},
    {"call", run_call},
    {"ti_find", run_ti_find},
    {"ti_view_find", run_ti_view_find},
    {"ti_read", run_ti_read},
    {"ti_open", run_ti_open},
    {"ti_open+6_texts", run_ti_open_six},
    {"ti_open+6_names", run_ti_open_by_name},
    {"tiparm", run_tiparm},
    {"tiparm_needed", run_tiparm_needed},
    {"tigetstr", run_tigetstr},
    {"tparm", run_tparm},
#ifdef UNIBILIUM
    {"unibi_run", run_unibi_run},
    {"unibi_from_mem", run_unibi_from_mem},
    {"unibi+6_texts", run_unibi_six},
#endif
};

static int print_outputs(void) {
    for (size_t i = 0; i < count; i++) {
        const char *output = by_tiparm(&items[i]);
        for (const char *p = output ? output : ""; *p; p++) printf("%02x", (unsigned char)*p);
        putchar('\n');
    }
    return 0;
}

int main(int argc, char **argv) {
    int error;
    if (argc != 5 || setupterm("xterm-256color", 1, &error) != OK) return 2;
    read_items(argv[4]);
    if (strcmp(argv[1], "output") == 0) return print_outputs();
    for (size_t i = 0; i < sizeof works / sizeof *works; i++) {
        if (strcmp(argv[1], works[i].name) != 0) continue;
        struct timespec from, to;
        size_t total = 0;
        clock_gettime(CLOCK_PROCESS_CPUTIME_ID, &from);
        for (long round = atol(argv[2]); round > 0; round--)
            for (size_t k = 0; k < count; k++)
                for (long turn = atol(argv[3]); turn > 0; turn--) total += works[i].run(&items[k]);
        clock_gettime(CLOCK_PROCESS_CPUTIME_ID, &to);
        long long all = (to.tv_sec - from.tv_sec) * 1000000000LL + (to.tv_nsec - from.tv_nsec);
        printf("%s %s %zu %lld\n", argv[4], argv[1], count, all);
        return total == 0 && count != 0;
    }
    return 2;
}
