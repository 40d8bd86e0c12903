/* Tests each call of unibilium.h. It is linked with the drop-in, and with Debian's library, which must pass too:
 *
 *     test FOLDER ENTRY [peer]
 *
 * FOLDER is empty, and ENTRY is the compiled entry of linux. With `peer` it leaves out what Debian's library does not survive: null
 * pointers, wrong indices, memory that is refused, entries of more than 4096 bytes and divisions that overflow. The closing
 * line is 'unibilium: N passed, M failed'.
 */
#define _GNU_SOURCE
#include <errno.h>
#include <fcntl.h>
#include <limits.h>
#include <stdbool.h>
#include <stdint.h>
#include <stdio.h>
#include <stdlib.h>
#include <string.h>
#include <sys/stat.h>
#include <unibilium.h>
#include <unistd.h>

static int passed, failed;
static bool is_peer;

#define CHECK(holds) check(holds, #holds, __LINE__)

static void check(bool holds, const char *what, int line) {
    if (holds)
        passed++;
    else {
        failed++;
        printf("unibilium: line %d: %s\n", line, what);
    }
}

static bool is(const char *text, const char *wanted) {
    return text == NULL || wanted == NULL ? text == wanted : strcmp(text, wanted) == 0;
}

/* ---- memory that is refused. The linker leads all calls of malloc, realloc and free here, but not in the shared libraries. */

static long until_refused = -1, held;

void *__real_malloc(size_t size) __attribute__((weak));
void *__real_realloc(void *p, size_t size) __attribute__((weak));
void __real_free(void *p) __attribute__((weak));
void *__wrap_malloc(size_t size);
void *__wrap_realloc(void *p, size_t size);
void __wrap_free(void *p);

static bool is_refused(void) {
    if (until_refused < 0 || until_refused-- > 0)
        return false;
    errno = ENOMEM;
    return true;
}

void *__wrap_malloc(size_t size) {
    void *p = is_refused() ? NULL : __real_malloc(size);
    held += p != NULL;
    return p;
}

void *__wrap_realloc(void *p, size_t size) {
    void *more = is_refused() ? NULL : __real_realloc(p, size);
    held += p == NULL && more != NULL;
    return more;
}

void __wrap_free(void *p) {
    held -= p != NULL;
    __real_free(p);
}

/* ---- entries */

static char bytes[40000];
static size_t length;

static void read_entry(const char *path) {
    FILE *file = fopen(path, "rb");
    length = file == NULL ? 0 : fread(bytes, 1, sizeof bytes, file);
    if (file != NULL)
        fclose(file);
    CHECK(length > 1000);
}

static void write_file(const char *path, const char *data, size_t size) {
    FILE *file = fopen(path, "wb");
    CHECK(file != NULL && fwrite(data, 1, size, file) == size && fclose(file) == 0);
}

/* An entry with extended capabilities of all kinds. */
static unibi_term *own_entry(void) {
    unibi_term *term = unibi_dummy();
    CHECK(unibi_add_ext_bool(term, "AX", 1) == 0 && unibi_add_ext_bool(term, "XF", 0) == 1);
    CHECK(unibi_add_ext_num(term, "U8", 1) == 0 && unibi_add_ext_num(term, "XN", 70000) == 1);
    CHECK(unibi_add_ext_str(term, "Ms", "one") == 0 && unibi_add_ext_str(term, "Se", NULL) == 1 && unibi_add_ext_str(term, "Ss", "") == 2);
    unibi_set_bool(term, unibi_back_color_erase, 7);
    unibi_set_num(term, unibi_columns, 80);
    unibi_set_str(term, unibi_bell, "\a");
    unibi_set_str(term, unibi_box_chars_1, "box");
    return term;
}

static void check_own_entry(const unibi_term *term) {
    CHECK(unibi_get_bool(term, unibi_back_color_erase) == 1 && unibi_get_bool(term, unibi_auto_left_margin) == 0);
    CHECK(unibi_get_num(term, unibi_columns) == 80 && unibi_get_num(term, unibi_lines) == -1);
    CHECK(is(unibi_get_str(term, unibi_bell), "\a") && is(unibi_get_str(term, unibi_box_chars_1), "box"));
    CHECK(unibi_get_str(term, unibi_back_tab) == NULL);
    CHECK(unibi_count_ext_bool(term) == 2 && unibi_count_ext_num(term) == 2 && unibi_count_ext_str(term) == 3);
    CHECK(unibi_get_ext_bool(term, 0) == 1 && unibi_get_ext_bool(term, 1) == 0);
    CHECK(is(unibi_get_ext_bool_name(term, 0), "AX") && is(unibi_get_ext_bool_name(term, 1), "XF"));
    CHECK(unibi_get_ext_num(term, 0) == 1 && unibi_get_ext_num(term, 1) == 70000);
    CHECK(is(unibi_get_ext_num_name(term, 0), "U8") && is(unibi_get_ext_num_name(term, 1), "XN"));
    CHECK(is(unibi_get_ext_str(term, 0), "one") && unibi_get_ext_str(term, 1) == NULL && is(unibi_get_ext_str(term, 2), ""));
    CHECK(is(unibi_get_ext_str_name(term, 0), "Ms") && is(unibi_get_ext_str_name(term, 2), "Ss"));
}

/* ---- the calls */

static void test_dummy(void) {
    unibi_term *term = unibi_dummy();
    const char **aliases = unibi_get_aliases(term);
    CHECK(is(unibi_get_name(term), "unibilium dummy terminal") && is(aliases[0], "null") && aliases[1] == NULL);
    for (int i = unibi_boolean_begin_ + 1; i < unibi_boolean_end_; i++)
        CHECK(unibi_get_bool(term, (enum unibi_boolean)i) == 0);
    for (int i = unibi_numeric_begin_ + 1; i < unibi_numeric_end_; i++)
        CHECK(unibi_get_num(term, (enum unibi_numeric)i) == -1);
    for (int i = unibi_string_begin_ + 1; i < unibi_string_end_; i++)
        CHECK(unibi_get_str(term, (enum unibi_string)i) == NULL);
    CHECK(unibi_count_ext_bool(term) + unibi_count_ext_num(term) + unibi_count_ext_str(term) == 0);
    unibi_destroy(term);
}

/* The values of linux are those of infocmp. */
static void test_entry(void) {
    unibi_term *term = unibi_from_mem(bytes, length);
    const char **aliases = unibi_get_aliases(term);
    CHECK(is(unibi_get_name(term), "Linux console") && is(aliases[0], "linux") && aliases[1] == NULL);
    CHECK(unibi_get_bool(term, unibi_auto_right_margin) == 1 && unibi_get_bool(term, unibi_hard_copy) == 0);
    CHECK(unibi_get_num(term, unibi_max_colors) == 8 && unibi_get_num(term, unibi_columns) == -1);
    CHECK(is(unibi_get_str(term, unibi_cursor_address), "\33[%i%p1%d;%p2%dH") && unibi_get_str(term, unibi_hangup) == NULL);
    CHECK(unibi_count_ext_bool(term) > 0 && unibi_count_ext_str(term) > 0 && unibi_get_ext_str_name(term, 0) != NULL);
    unibi_destroy(term);
}

/* What is set is kept as it was handed in, and the rest of the entry stays. */
static void test_setting(void) {
    static const char *others[] = {"a", "b", NULL};
    static const char name[] = "a name", text[] = "a text";
    unibi_term *term = unibi_from_mem(bytes, length);
    unibi_set_name(term, name);
    unibi_set_aliases(term, others);
    CHECK(unibi_get_name(term) == name && unibi_get_aliases(term) == others);
    unibi_set_bool(term, unibi_auto_right_margin, 0);
    unibi_set_bool(term, unibi_return_does_clr_eol, 3);
    CHECK(unibi_get_bool(term, unibi_auto_right_margin) == 0 && unibi_get_bool(term, unibi_return_does_clr_eol) == 1);
    unibi_set_num(term, unibi_columns, 132);
    unibi_set_num(term, unibi_number_of_function_keys, -7);
    CHECK(unibi_get_num(term, unibi_columns) == 132 && unibi_get_num(term, unibi_number_of_function_keys) == -7);
    unibi_set_str(term, unibi_cursor_address, text);
    unibi_set_str(term, unibi_bell, NULL);
    CHECK(unibi_get_str(term, unibi_cursor_address) == text && unibi_get_str(term, unibi_bell) == NULL);
    CHECK(is(unibi_get_str(term, unibi_carriage_return), "\r") && unibi_get_num(term, unibi_max_colors) == 8);
    unibi_destroy(term);
}

static void test_extended(void) {
    unibi_term *term = own_entry(), *other = unibi_from_mem(bytes, length);
    size_t count = unibi_count_ext_str(other);
    const char *second = unibi_get_ext_str_name(other, 1);
    check_own_entry(term);
    unibi_set_ext_bool(term, 0, 0);
    unibi_set_ext_bool_name(term, 0, "BX");
    unibi_set_ext_num(term, 1, -5);
    unibi_set_ext_num_name(term, 1, "NX");
    unibi_set_ext_str(term, 1, "two");
    unibi_set_ext_str_name(term, 1, "SX");
    CHECK(unibi_get_ext_bool(term, 0) == 0 && is(unibi_get_ext_bool_name(term, 0), "BX"));
    CHECK(unibi_get_ext_num(term, 1) == -5 && is(unibi_get_ext_num_name(term, 1), "NX"));
    CHECK(is(unibi_get_ext_str(term, 1), "two") && is(unibi_get_ext_str_name(term, 1), "SX"));
    unibi_del_ext_bool(term, 0);
    unibi_del_ext_num(term, 0);
    unibi_del_ext_str(term, 2);
    CHECK(unibi_count_ext_bool(term) == 1 && is(unibi_get_ext_bool_name(term, 0), "XF"));
    CHECK(unibi_count_ext_num(term) == 1 && is(unibi_get_ext_num_name(term, 0), "NX"));
    CHECK(unibi_count_ext_str(term) == 2 && is(unibi_get_ext_str(term, 0), "one"));
    for (int i = 0; i < 1000; i++)
        CHECK(unibi_add_ext_str(term, "more", "text") == (size_t)i + 2);
    CHECK(is(unibi_get_ext_str(term, 1), "two") && is(unibi_get_ext_str(term, 1001), "text"));
    /* The last of a list of each length is deleted, also of one that is full. */
    for (size_t i = 0; i < 40; i++) {
        CHECK(unibi_add_ext_num(term, "more", 7) == i + 1);
        unibi_del_ext_num(term, i + 1);
        CHECK(unibi_add_ext_num(term, "again", 8) == i + 1);
    }
    /* Of an entry that was read the others stay. */
    unibi_del_ext_str(other, 0);
    CHECK(unibi_count_ext_str(other) == count - 1 && unibi_get_ext_str_name(other, 0) == second);
    CHECK(unibi_add_ext_str(other, "added", "text") == count - 1 && unibi_add_ext_str(other, "added", "more") == count);
    CHECK(is(unibi_get_ext_str(other, count), "more") && unibi_get_ext_str_name(other, 0) == second);
    unibi_destroy(term);
    unibi_destroy(other);
}

static void test_names(void) {
    CHECK(is(unibi_name_bool(unibi_auto_left_margin), "auto_left_margin") && is(unibi_short_name_bool(unibi_auto_left_margin), "bw"));
    CHECK(is(unibi_name_bool(unibi_return_does_clr_eol), "return_does_clr_eol") && is(unibi_short_name_bool(unibi_return_does_clr_eol), "OTxr"));
    CHECK(is(unibi_name_num(unibi_columns), "columns") && is(unibi_short_name_num(unibi_columns), "cols"));
    CHECK(is(unibi_name_str(unibi_cursor_address), "cursor_address") && is(unibi_short_name_str(unibi_cursor_address), "cup"));
    CHECK(is(unibi_name_str(unibi_box_chars_1), "box_chars_1") && is(unibi_short_name_str(unibi_box_chars_1), "box1"));
    CHECK(strncmp(unibi_terminfo_dirs, "/etc/terminfo:", 14) == 0);
}

/* What is written reads back as the same, and is as long as was said. */
static void test_dump(void) {
    static char dumped[40000], again[40000];
    unibi_term *term = own_entry(), *back;
    size_t size = unibi_dump(term, NULL, 0);
    CHECK(size > 100 && size < sizeof dumped && errno == EFAULT);
    memset(dumped, 'x', sizeof dumped);
    errno = 0;
    CHECK(unibi_dump(term, dumped, size - 1) == size && errno == EFAULT && dumped[0] == 'x');
    CHECK(unibi_dump(term, dumped, size) == size && dumped[size] == 'x' && memcmp(dumped, "\36\2", 2) == 0);
    back = unibi_from_mem(dumped, size);
    check_own_entry(back);
    CHECK(is(unibi_get_name(back), "unibilium dummy terminal") && is(unibi_get_aliases(back)[0], "null"));
    CHECK(unibi_dump(back, again, sizeof again) == size && memcmp(dumped, again, size) == 0);
    unibi_set_ext_num(back, 1, 7);
    CHECK(unibi_dump(back, again, sizeof again) < size && memcmp(again, "\32\1", 2) == 0);
    memset(again, 'y', 33000);
    again[33000] = 0;
    unibi_set_str(term, unibi_bell, again);
    errno = 0;
    CHECK(unibi_dump(term, dumped, sizeof dumped) == SIZE_MAX && errno == EINVAL);
    unibi_destroy(back);
    unibi_destroy(term);
}

/* The bytes are those of term(5): a header, names, booleans, numbers, offsets of strings, and these. */
static void test_bytes(void) {
    static const char wanted[] = "\32\1" "\36\0" "\2\0" "\3\0" "\2\0" "\2\0" "null|unibilium dummy terminal\0" "\0\1"
                                 "\377\377\377\377\30\0" "\377\377\0\0" "\a";
    static char dumped[40000];
    unibi_term *term = unibi_dummy();
    unibi_set_bool(term, unibi_auto_right_margin, 1);
    unibi_set_num(term, unibi_lines, 24);
    unibi_set_str(term, unibi_bell, "\a");
    CHECK(unibi_dump(term, dumped, sizeof dumped) == sizeof wanted && memcmp(dumped, wanted, sizeof wanted) == 0);
    CHECK(unibi_dump(term, dumped, sizeof wanted) == sizeof wanted);
    errno = 0;
    CHECK(unibi_dump(term, NULL, 0) == sizeof wanted && errno == EFAULT);
    unibi_set_num(term, unibi_lines, 32767);
    CHECK(unibi_dump(term, dumped, sizeof dumped) == sizeof wanted && memcmp(dumped, "\32\1", 2) == 0);
    unibi_set_num(term, unibi_lines, 32768);
    CHECK(unibi_dump(term, dumped, sizeof dumped) == sizeof wanted + 6 && memcmp(dumped, "\36\2", 2) == 0);
    unibi_destroy(term);
}

static void test_faults(void) {
    errno = 0;
    CHECK(unibi_from_mem(bytes, 11) == NULL && errno == EFAULT);
    for (size_t i = 12; i < length - 10; i += 97) {
        /* Cut before the extended part it is shorter than its header says, and in that part too. */
        unibi_term *term = unibi_from_mem(bytes, i);
        CHECK(term == NULL ? errno == EFAULT : unibi_count_ext_str(term) == 0);
        if (term != NULL)
            unibi_destroy(term);
    }
    CHECK(unibi_from_mem("\0\0\0\0\0\0\0\0\0\0\0\0", 12) == NULL && errno == EINVAL);
    CHECK(unibi_from_file("no such file") == NULL && errno == ENOENT);
    CHECK(unibi_from_fd(-1) == NULL && errno == EBADF);
}

/* ---- files */

static char folder[PATH_MAX];

static const char *in_folder(const char *name) {
    static char path[2 * PATH_MAX];
    snprintf(path, sizeof path, "%s/%s", folder, name);
    return path;
}

/* Whether a terminal is found by its name, and is the entry of linux. */
static bool is_found(unibi_term *term) {
    bool found = term != NULL && unibi_get_num(term, unibi_max_colors) == 8;
    if (term != NULL)
        unibi_destroy(term);
    return found;
}

static void test_files(void) {
    int file;
    FILE *stream;
    write_file(in_folder("entry"), bytes, length);
    CHECK(is_found(unibi_from_file(in_folder("entry"))));
    file = open(in_folder("entry"), O_RDONLY);
    CHECK(is_found(unibi_from_fd(file)) && lseek(file, 0, SEEK_CUR) > 0 && close(file) == 0);
    stream = fopen(in_folder("entry"), "rb");
    CHECK(is_found(unibi_from_fp(stream)) && fclose(stream) == 0);
    /* What follows an entry is ignored. */
    memset(bytes + length, 0, 9);
    CHECK(is_found(unibi_from_mem(bytes, length + 9)));
}

/* The lowest number that no open file has. */
static int next_file(void) {
    int file = dup(0);
    close(file);
    return file;
}

static void test_search(void) {
    static char long_name[5001];
    const int next = next_file();
    memset(long_name, 'x', 5000);
    mkdir(in_folder("x"), 0755);
    mkdir(in_folder("78"), 0755);
    mkdir(in_folder(".terminfo"), 0755);
    mkdir(in_folder(".terminfo/h"), 0755);
    write_file(in_folder("x/xone"), bytes, length);
    write_file(in_folder("78/xtwo"), bytes, length);
    write_file(in_folder(".terminfo/h/home"), bytes, length);
    write_file(in_folder("x/xbad"), "no entry", 8);
    write_file(in_folder("78/xbad"), bytes, length);
    setenv("TERMINFO", folder, 1);
    setenv("HOME", in_folder("nowhere"), 1);
    CHECK(is_found(unibi_from_term("xone")) && is_found(unibi_from_term("xtwo")) && unibi_from_term("xthree") == NULL);
    CHECK(unibi_from_term("xbad") == NULL);
    setenv("TERM", "xtwo", 1);
    CHECK(is_found(unibi_from_env()));
    unsetenv("TERMINFO");
    setenv("TERMINFO_DIRS", in_folder("nowhere"), 1);
    errno = 0;
    CHECK(unibi_from_env() == NULL && errno == ENOENT);
    setenv("TERMINFO_DIRS", "", 1);
    CHECK(unibi_from_env() == NULL && errno == ENOENT);
    setenv("HOME", folder, 1);
    CHECK(is_found(unibi_from_term("home")));
    char both[4 * PATH_MAX];
    snprintf(both, sizeof both, ":%s::%s:", in_folder("nowhere"), folder);
    setenv("TERMINFO_DIRS", both, 1);
    CHECK(is_found(unibi_from_term("xone")));
    unsetenv("TERMINFO_DIRS");
    CHECK(unibi_from_term("no such terminal") == NULL && errno == ENOENT);
    unsetenv("TERM");
    CHECK(unibi_from_env() == NULL && errno == ENOENT);
    /* A name leads to no other folder. */
    setenv("TERMINFO", in_folder("x"), 1);
    const char *hostile[] = {"", ".", "..", "../x/xone", "./xone", "/xone", "x/xone", "x/../x/xone", ".hidden"};
    for (size_t i = 0; i < sizeof hostile / sizeof hostile[0]; i++) {
        setenv("TERM", hostile[i], 1);
        errno = 0;
        CHECK(unibi_from_term(hostile[i]) == NULL && errno == EINVAL);
        CHECK(unibi_from_env() == NULL && errno == EINVAL);
    }
    setenv("TERM", long_name, 1);
    CHECK(unibi_from_term(long_name) == NULL && unibi_from_env() == NULL);
    setenv("TERMINFO", long_name, 1);
    setenv("HOME", in_folder("nowhere"), 1);
    setenv("TERMINFO_DIRS", folder, 1);
    CHECK(is_found(unibi_from_term("xone")));
    unsetenv("TERMINFO");
    unsetenv("TERMINFO_DIRS");
    setenv("HOME", long_name, 1);
    CHECK(unibi_from_term("xone") == NULL);
    setenv("HOME", folder, 1);
    CHECK(next_file() == next);
}

/* ---- expansion */

static char out[4096], log_of_calls[4096];

static void on_out(void *to, const char *text, size_t size) {
    strcat(strncat(to, text, size), "|");
}

static void on_pad(void *to, size_t tenths, int scales, int is_forced) {
    sprintf((char *)to + strlen(to), "<%zu,%d,%d>|", tenths, scales != 0, is_forced != 0);
}

static const char *run(const char *string, int one, int two) {
    unibi_var_t param[9] = {unibi_var_from_num(one), unibi_var_from_num(two)};
    size_t size = unibi_run(string, param, out, sizeof out - 1);
    out[size < sizeof out ? size : 0] = 0;
    return out;
}

static void test_run(void) {
    static char text[] = "text", long_text[2001];
    unibi_var_t param[9] = {unibi_var_from_str(text)};
    unibi_var_t number = unibi_var_from_num(-3), string = unibi_var_from_str(text);
    CHECK(unibi_num_from_var(number) == -3 && is(unibi_str_from_var(string), "text"));
    CHECK(is(run("\33[%i%p1%d;%p2%dH", 4, 9), "\33[5;10H") && is(run("%%", 0, 0), "%") && is(run("", 0, 0), ""));
    CHECK(is(run("%?%p1%t%{1}%d%e%{2}%d%;", 1, 0), "1") && is(run("%?%p1%t%{1}%d%e%{2}%d%;", 0, 0), "2"));
    CHECK(is(run("a$<5>b$<3*/>c", 0, 0), "abc") && is(run("a$<b$", 0, 0), "a$<b$"));
    CHECK(is(run("%p1%:-5d|%p2%02x", 7, 10), "7    |0a"));
    /* The length is that of the whole, and no more is written than there is room for. */
    memset(out, 'x', sizeof out);
    CHECK(unibi_run("abc%p1%s", param, out, 5) == 7 && memcmp(out, "abctexx", 7) == 0);
    CHECK(unibi_run("abc", param, NULL, 0) == 3);
    memset(long_text, 'l', 2000);
    param[0] = unibi_var_from_str(long_text);
    CHECK(unibi_run("%p1%s", param, out, 10) == 2000 && out[9] == 'l' && out[10] == 'x');
    CHECK(unibi_run("%p1%s%p1%s", param, out, sizeof out) == 4000);
}

static void test_format(void) {
    static char long_text[2001];
    unibi_var_t dynamic[26] = {{0, NULL}}, fixed[26] = {{0, NULL}}, param[9] = {unibi_var_from_num(5)};
    unibi_format(dynamic, fixed, "a$<5>b$<1.5*/>%p1%d$<2/>%p1%PzX%p1%{1}%+%PA", param, on_out, log_of_calls, on_pad, log_of_calls);
    /* The pieces between delays may come in any number of calls. */
    CHECK(strstr(log_of_calls, "a|<50,0,0>|b|<15,1,1>|5|<20,0,1>|") != NULL && strchr(log_of_calls, 'X') != NULL);
    CHECK(unibi_num_from_var(dynamic[25]) == 5 && unibi_num_from_var(fixed[0]) == 6 && unibi_num_from_var(dynamic[0]) == 0);
    log_of_calls[0] = 0;
    unibi_format(dynamic, fixed, "%gz%d;%gA%d$<9>", param, on_out, log_of_calls, NULL, NULL);
    CHECK(strpbrk(log_of_calls, "<>$9") == NULL && strchr(log_of_calls, '5') != NULL && strchr(log_of_calls, '6') != NULL);
    memset(long_text, 'l', 2000);
    param[0] = unibi_var_from_str(long_text);
    log_of_calls[0] = 0;
    unibi_format(dynamic, fixed, "%p1%s", param, on_out, log_of_calls, NULL, NULL);
    CHECK(strlen(log_of_calls) > 2000 && strstr(log_of_calls, "|l") == NULL);
}

/* ---- what Debian's library does not survive */

static void test_arithmetic(void) {
    CHECK(is(run("%p1%{0}%/%d", 7, 0), "0") && is(run("%p1%{0}%m%d", 7, 0), "0"));
    CHECK(run("%p1%p2%/%d", INT_MIN, -1) != NULL && is(run("%p1%p2%m%d", INT_MIN, -1), "0"));
}

static void test_null(void) {
    unibi_term *term = unibi_from_mem(bytes, length);
    unibi_var_t param[9] = {{0, NULL}}, vars[26] = {{0, NULL}};
    CHECK(unibi_from_mem(NULL, 100) == NULL && unibi_from_file(NULL) == NULL && unibi_from_fp(NULL) == NULL && unibi_from_term(NULL) == NULL);
    CHECK(unibi_get_name(NULL) == NULL && unibi_get_aliases(NULL) == NULL && unibi_dump(NULL, out, 10) == SIZE_MAX);
    CHECK(unibi_get_bool(NULL, unibi_hard_copy) == -1 && unibi_get_num(NULL, unibi_columns) == -2 && unibi_get_str(NULL, unibi_bell) == NULL);
    CHECK(unibi_count_ext_bool(NULL) == 0 && unibi_count_ext_num(NULL) == 0 && unibi_count_ext_str(NULL) == 0);
    CHECK(unibi_get_ext_bool(NULL, 0) == -1 && unibi_get_ext_num(NULL, 0) == -2 && unibi_get_ext_str(NULL, 0) == NULL);
    CHECK(unibi_get_ext_bool_name(NULL, 0) == NULL && unibi_get_ext_num_name(NULL, 0) == NULL && unibi_get_ext_str_name(NULL, 0) == NULL);
    CHECK(unibi_add_ext_bool(NULL, "a", 1) == SIZE_MAX && unibi_add_ext_num(NULL, "a", 1) == SIZE_MAX && unibi_add_ext_str(NULL, "a", "") == SIZE_MAX);
    unibi_set_name(NULL, "a");
    unibi_set_aliases(NULL, NULL);
    unibi_set_bool(NULL, unibi_hard_copy, 1);
    unibi_set_num(NULL, unibi_columns, 1);
    unibi_set_str(NULL, unibi_bell, "");
    unibi_set_ext_bool(NULL, 0, 1);
    unibi_set_ext_num(NULL, 0, 1);
    unibi_set_ext_str(NULL, 0, "");
    unibi_set_ext_bool_name(NULL, 0, "a");
    unibi_set_ext_num_name(NULL, 0, "a");
    unibi_set_ext_str_name(NULL, 0, "a");
    unibi_del_ext_bool(NULL, 0);
    unibi_del_ext_num(NULL, 0);
    unibi_del_ext_str(NULL, 0);
    unibi_destroy(NULL);
    CHECK(unibi_run(NULL, param, out, 5) == 0 && unibi_run("a", NULL, out, 5) == 0 && unibi_run("a", param, NULL, 5) == 0);
    log_of_calls[0] = 0;
    unibi_format(vars, vars, NULL, param, on_out, log_of_calls, NULL, NULL);
    unibi_format(NULL, vars, "a", param, on_out, log_of_calls, NULL, NULL);
    unibi_format(vars, vars, "a", param, NULL, log_of_calls, NULL, NULL);
    CHECK(log_of_calls[0] == 0 && is(unibi_str_from_var(unibi_var_from_str(NULL)), ""));
    unibi_set_aliases(term, NULL);
    CHECK(unibi_dump(term, NULL, 0) < length);
    errno = 0;
    CHECK(unibi_dump(term, NULL, sizeof out) < length && errno == EFAULT);
    unibi_set_ext_str_name(term, 0, NULL);
    CHECK(unibi_dump(term, NULL, 0) == SIZE_MAX && errno == EINVAL);
    unibi_set_ext_str_name(term, 0, "S");
    unibi_set_name(term, NULL);
    CHECK(unibi_dump(term, NULL, 0) == SIZE_MAX && errno == EINVAL);
    unibi_destroy(term);
}

static void test_indices(void) {
    const long wrong[] = {-1, 0, unibi_boolean_begin_, unibi_string_end_, INT_MAX};
    unibi_term *term = own_entry();
    for (size_t i = 0; i < sizeof wrong / sizeof wrong[0]; i++) {
        enum unibi_boolean flag = (enum unibi_boolean)wrong[i];
        enum unibi_numeric number = (enum unibi_numeric)wrong[i];
        enum unibi_string text = (enum unibi_string)wrong[i];
        size_t at = (size_t)wrong[i] + 3;
        unibi_set_bool(term, flag, 1);
        unibi_set_num(term, number, 1);
        unibi_set_str(term, text, "wrong");
        CHECK(unibi_get_bool(term, flag) == -1 && unibi_get_num(term, number) == -2 && unibi_get_str(term, text) == NULL);
        CHECK(unibi_name_bool(flag) == NULL && unibi_name_num(number) == NULL && unibi_name_str(text) == NULL);
        CHECK(unibi_short_name_bool(flag) == NULL && unibi_short_name_num(number) == NULL && unibi_short_name_str(text) == NULL);
        unibi_set_ext_bool(term, at, 1);
        unibi_set_ext_num(term, at, 1);
        unibi_set_ext_str(term, at, "wrong");
        unibi_set_ext_bool_name(term, at, "wrong");
        unibi_set_ext_num_name(term, at, "wrong");
        unibi_set_ext_str_name(term, at, "wrong");
        if (at > 2) {
            unibi_del_ext_bool(term, at);
            unibi_del_ext_num(term, at);
            unibi_del_ext_str(term, at);
            CHECK(unibi_get_ext_bool(term, at) == -1 && unibi_get_ext_num(term, at) == -2 && unibi_get_ext_str(term, at) == NULL);
            CHECK(unibi_get_ext_bool_name(term, at) == NULL && unibi_get_ext_num_name(term, at) == NULL && unibi_get_ext_str_name(term, at) == NULL);
        }
    }
    unibi_set_ext_str(term, 2, "");
    unibi_set_ext_str_name(term, 2, "Ss");
    check_own_entry(term);
    unibi_destroy(term);
}

/* What is cancelled is said to be absent, and a boolean to be false. */
static void test_cancelled(void) {
    static const char entry[] = "\32\1" "\2\0" "\2\0" "\1\0" "\1\0" "\0\0" "t\0" "\376\1" "\376\377" "\376\377"
                                "\1\0" "\1\0" "\1\0" "\3\0" "\6\0" "\376\0" "\376\377" "\376\377" "\0\0" "\2\0" "\4\0" "F\0N\0S";
    unibi_term *term = unibi_from_mem(entry, sizeof entry);
    CHECK(term != NULL && unibi_get_bool(term, unibi_auto_left_margin) == 0 && unibi_get_bool(term, unibi_auto_right_margin) == 1);
    CHECK(unibi_get_num(term, unibi_columns) == -1 && unibi_get_str(term, unibi_back_tab) == NULL);
    CHECK(unibi_get_ext_bool(term, 0) == 0 && unibi_get_ext_num(term, 0) == -1 && unibi_get_ext_str(term, 0) == NULL);
    CHECK(is(unibi_get_ext_bool_name(term, 0), "F") && is(unibi_get_ext_num_name(term, 0), "N") && is(unibi_get_ext_str_name(term, 0), "S"));
    unibi_destroy(term);
}

/* An entry of more than 4096 bytes, files that are no regular ones, and a name that is longer than those of files. */
static void test_sizes(void) {
    static char dumped[40000], text[301], name[257];
    unibi_term *term = unibi_from_mem(bytes, length), *back;
    size_t count = unibi_count_ext_str(term), size;
    memset(text, 't', 300);
    for (int i = 0; i < 60; i++)
        unibi_add_ext_str(term, "XX", text);
    size = unibi_dump(term, dumped, sizeof dumped);
    CHECK(size > 4 * 4096 && size < 32768);
    write_file(in_folder("x/xlarge"), dumped, size);
    setenv("TERMINFO", folder, 1);
    back = unibi_from_term("xlarge");
    CHECK(back != NULL && unibi_count_ext_str(back) == count + 60 && is(unibi_get_ext_str(back, count + 59), text));
    unibi_destroy(back);
    memset(dumped + size, 0, sizeof dumped - size);
    back = unibi_from_mem(dumped, sizeof dumped);
    CHECK(back != NULL && unibi_count_ext_str(back) == count + 60);
    unibi_destroy(back);
    unibi_destroy(term);
    mkdir(in_folder(".terminfo/x"), 0755);
    CHECK(mkfifo(in_folder(".terminfo/x/xpipe"), 0644) == 0 && unibi_from_term("xpipe") == NULL && errno == EINVAL);
    mkdir(in_folder("x/xfolder"), 0755);
    CHECK(unibi_from_term("xfolder") == NULL && unibi_from_file(in_folder("x/xfolder")) == NULL);
    memset(name, 'x', 256);
    CHECK(unibi_from_term(name) == NULL && errno == EINVAL);
    unsetenv("TERMINFO");
}

static void test_refused(void) {
    static char text[700];
    unibi_var_t param[9] = {unibi_var_from_str(text)};
    memset(text, 't', sizeof text - 1);
    if (__real_malloc == NULL)
        return;
    for (long step = 0; step < 2; step++) {
        errno = 0;
        until_refused = step;
        CHECK(unibi_from_mem(bytes, length) == NULL && errno == ENOMEM);
        until_refused = step;
        CHECK(unibi_dummy() == NULL);
        until_refused = step;
        CHECK(unibi_from_file(in_folder("entry")) == NULL && errno == ENOMEM);
    }
    unibi_term *term = unibi_from_mem(bytes, length), *other = own_entry();
    size_t count = unibi_count_ext_str(term);
    const char *first = unibi_get_ext_str_name(term, 0);
    until_refused = 0;
    CHECK(unibi_add_ext_str(term, "more", "text") == SIZE_MAX);
    until_refused = 0;
    CHECK(unibi_add_ext_bool(term, "more", 1) == SIZE_MAX);
    until_refused = 0;
    CHECK(unibi_add_ext_num(term, "more", 1) == SIZE_MAX && unibi_count_ext_str(term) == count && unibi_get_ext_str_name(term, 0) == first);
    /* No call that sets needs memory. */
    until_refused = 0;
    unibi_set_str(term, unibi_bell, "bell");
    unibi_set_ext_str(term, 0, "set");
    unibi_del_ext_str(term, 1);
    CHECK(is(unibi_get_str(term, unibi_bell), "bell") && is(unibi_get_ext_str(term, 0), "set") && unibi_count_ext_str(term) == count - 1);
    errno = 0;
    CHECK(unibi_dump(term, out, sizeof out) == SIZE_MAX && errno == ENOMEM);
    until_refused = 0;
    CHECK(unibi_run("%p1%s", param, out, 5) == 0);
    until_refused = -1;
    check_own_entry(other);
    unibi_destroy(term);
    unibi_destroy(other);
}

int main(int count, char **words) {
    if (count < 3)
        return 2;
    is_peer = count > 3;
    snprintf(folder, sizeof folder, "%s", words[1]);
    read_entry(words[2]);
    test_dummy();
    test_entry();
    test_setting();
    test_extended();
    test_names();
    test_dump();
    test_bytes();
    test_faults();
    test_files();
    test_search();
    test_run();
    test_format();
    if (!is_peer) {
        test_arithmetic();
        test_null();
        test_indices();
        test_cancelled();
        test_sizes();
        test_refused();
        CHECK(held == 0);
    }
    printf("unibilium: %d passed, %d failed\n", passed, failed);
    return failed != 0;
}
