/* What a program does at its start, so many times: it opens the entry of xterm-256color by its name, takes 30 strings and expands
 * five of them. After the word `mem` it takes the entry from memory instead, which is read once, and does nothing else.
 *
 *     start TIMES [mem]
 */
#include <stdio.h>
#include <stdlib.h>
#include <string.h>
#include <unibilium.h>

static const enum unibi_string strings[30] = {
    unibi_cursor_address, unibi_clear_screen, unibi_clr_eol, unibi_clr_eos, unibi_enter_ca_mode, unibi_exit_ca_mode,
    unibi_exit_attribute_mode, unibi_enter_bold_mode, unibi_enter_underline_mode, unibi_exit_underline_mode, unibi_enter_reverse_mode,
    unibi_set_a_foreground, unibi_set_a_background, unibi_change_scroll_region, unibi_parm_ich, unibi_parm_dch, unibi_parm_insert_line,
    unibi_parm_delete_line, unibi_parm_up_cursor, unibi_parm_down_cursor, unibi_parm_right_cursor, unibi_parm_left_cursor,
    unibi_cursor_home, unibi_cursor_invisible, unibi_cursor_normal, unibi_key_up, unibi_key_down, unibi_key_left, unibi_key_right,
    unibi_erase_chars,
};
static const int calls[5][3] = {{0, 4, 9}, {11, 5, 0}, {12, 200, 0}, {13, 1, 20}, {18, 3, 0}};

static size_t start(void) {
    unibi_term *term = unibi_from_term("xterm-256color");
    const char *found[30];
    char out[256];
    size_t sum = 0;
    if (term == NULL)
        exit(1);
    for (int i = 0; i < 30; i++) {
        found[i] = unibi_get_str(term, strings[i]);
        sum += found[i] != NULL ? (unsigned char)found[i][0] : 0;
    }
    for (int i = 0; i < 5; i++) {
        unibi_var_t param[9] = {unibi_var_from_num(calls[i][1]), unibi_var_from_num(calls[i][2])};
        sum += unibi_run(found[calls[i][0]], param, out, sizeof out);
    }
    unibi_destroy(term);
    return sum;
}

static char bytes[4096];
static size_t length;

/* The entry, as the library itself writes it. */
static void take_bytes(void) {
    unibi_term *term = unibi_from_term("xterm-256color");
    if (term == NULL)
        exit(1);
    length = unibi_dump(term, bytes, sizeof bytes);
    unibi_destroy(term);
}

int main(int count, char **words) {
    int is_of_memory = count > 2;
    size_t sum = 0;
    if (is_of_memory)
        take_bytes();
    for (int i = count > 1 ? atoi(words[1]) : 1; i > 0; i--) {
        if (is_of_memory) {
            unibi_term *term = unibi_from_mem(bytes, length);
            sum += term != NULL;
            unibi_destroy(term);
        } else {
            sum += start();
        }
    }
    printf("%zu\n", sum);
    return 0;
}
