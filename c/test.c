/* Tests each call of include/ti.h. The values are from terminfo(5), ncurses' term.h, and from hand. */
#define _DEFAULT_SOURCE

#include "../include/ti.h"

#include <stdio.h>
#include <stdlib.h>
#include <string.h>
#include <sys/mman.h>
#include <unistd.h>

#define E "\033"
#define ROOM 256

static int passed, failed;

static void expect(int holds, const char *words) {
    if (holds) {
        passed++;
        return;
    }
    failed++;
    printf("c: failed: %s\n", words);
}

/* A copy of exactly so many bytes, so that a tool that watches memory sees a read past the end. */
static unsigned char *copy_of(const void *bytes, size_t length) {
    unsigned char *copy = (unsigned char *)malloc(length ? length : 1);
    if (copy == NULL) exit(2);
    if (length) memcpy(copy, bytes, length);
    return copy;
}

/* So many bytes were filled with this one before a call, and the call wrote none of them. */
#define UNWRITTEN '~'

static int are_unwritten(const void *at, size_t size) {
    const unsigned char *bytes = (const unsigned char *)at;
    for (size_t i = 0; i < size; i++) {
        if (bytes[i] != UNWRITTEN) return 0;
    }
    return 1;
}

/* ---- expansions */

static ti_vars vars;
static unsigned char out[ROOM];
static ti_run run;

static uint32_t expand(const char *text, const ti_parameter *parameters, size_t count, size_t room) {
    size_t length = strlen(text);
    unsigned char *capability = copy_of(text, length);
    unsigned char *own = copy_of(out, room);
    uint32_t answer = ti_expand(capability, length, parameters, count, &vars, own, room, &run);
    memcpy(out, own, room);
    free(own);
    free(capability);
    return answer;
}

static int is_output(const char *bytes, size_t length) {
    return run.written == length && memcmp(out, bytes, length) == 0 && out[length] == '~';
}

/* One expansion with new variables: the output and the counts, and that the room after it and the place are as they were. */
static void writes(const char *text, const ti_parameter *parameters, size_t count, const char *wanted) {
    memset(&vars, 0, sizeof vars);
    memset(out, '~', sizeof out);
    memset(&run, UNWRITTEN, sizeof run);
    uint32_t answer = expand(text, parameters, count, sizeof out);
    expect(answer == TI_DONE && is_output(wanted, strlen(wanted)), text);
    expect(run.ran + run.passed <= strlen(text) && run.peak <= 32, "counts are written");
    expect(are_unwritten(&run.place, sizeof run.place), "no place after an expansion");
}

static void writes_for(const char *text, int32_t first, int32_t second, const char *wanted) {
    ti_parameter parameters[2];
    parameters[0] = ti_number(first);
    parameters[1] = ti_number(second);
    writes(text, parameters, 2, wanted);
}

static void writes_for_text(const char *text, const char *first, const char *wanted) {
    ti_parameter parameters[2];
    parameters[0] = ti_text(first, strlen(first));
    parameters[1] = ti_number(5);
    writes(text, parameters, 2, wanted);
}

static void counts(const char *words, size_t ran, size_t passed_over, size_t peak) {
    expect(run.ran == ran && run.passed == passed_over && run.peak == peak, words);
}

static const char *const CUP = E "[%i%p1%d;%p2%dH";
static const char *const SETAF =
    E "[%?%p1%{8}%<%t3%p1%d%e%p1%{16}%<%t9%p1%{8}%-%d%e38;5;%p1%d%;m";

static void test_expansions(void) {
    writes_for(CUP, 4, 9, E "[5;10H");
    counts("counts of cup", 9, 0, 1);
    writes_for(SETAF, 1, 0, E "[31m");
    counts("counts of setaf, 1", 13, 17, 2);
    writes_for(SETAF, 9, 0, E "[91m");
    counts("counts of setaf, 9", 20, 10, 2);
    writes_for(SETAF, 200, 0, E "[38;5;200m");
    counts("counts of setaf, 200", 22, 8, 2);
    writes_for("%?%p1%t%?%p2%tA%eB%;%eC", 0, 1, "C");
    counts("counts of a part in a part, passed over", 5, 7, 1);
    writes_for("%?%p1%t%?%p2%tA%eB%;%eC", 1, 0, "B");
    counts("counts of a part in a part, taken", 10, 2, 1);
    writes_for("%p1%{0}%/%d", 7, 0, "0");
    writes_for("%p1%p2%/%d", INT32_MIN, -1, "-2147483648");
    writes_for("%i%p1%d", INT32_MAX, 0, "-2147483648");
    writes_for("%?%p1%t%'%'%c%%e%eX%;", 1, 0, "%%e");
    writes_for(E "[%i%d;%dR", 0, 0, E "[0;0R");
    writes_for("%p1%c", 0, 0, "\200");
    writes_for("%p1%c", 65, 0, "A");
    writes_for("%p1%x", -1, 0, "ffffffff");
    writes_for("%p1%#o", 8, 0, "010");
    writes_for("%p1%03d", -5, 0, "-05");
    writes_for("%p1%:+d", 5, 0, "+5");
    writes_for("$<5/>%p2%d", 0, 3, "$<5/>3");
    writes_for_text("%p1%:-6s|", "abc", "abc   |");
    writes_for_text("%p1%.2s", "abc", "ab");
    writes_for_text("%p1%l%d", "abc", "3");
    writes_for_text("%i%p1%s%p2%d", "a", "a6");
}

static void test_parameters(void) {
    ti_parameter nine[10];
    for (int i = 0; i < 10; i++) nine[i] = ti_number(i + 1);
    writes("%p1%d%p2%d%p3%d%p4%d%p5%d%p6%d%p7%d%p8%d%p9%d", nine, 9, "123456789");
    writes("%p1%d%p4%d", nine, 3, "10");
    writes("%p1%d%p9%d", NULL, 0, "00");
    nine[0] = ti_text(NULL, 0);
    writes("%p1%s|%p1%l%d", nine, 1, "|0");
    nine[0] = ti_text("\0z", 2);
    writes("%p1%l%d", nine, 1, "2");
    nine[0].is_text = 255;
    writes("%p1%l%d", nine, 1, "2");
}

static void test_variables(void) {
    writes_for("%p1%PA%gA%gA%*%d", 12, 0, "144");
    expect(vars.values[26] == 12, "A stands after z");
    memset(out, '~', sizeof out);
    expect(expand("%gA%d", NULL, 0, ROOM) == TI_DONE && is_output("12", 2), "a variable lasts");
    writes("%gA%d", NULL, 0, "0");
    memset(&vars, 0, sizeof vars);
    vars.values[0] = 3;
    vars.values[51] = INT32_MIN;
    expect(expand("%ga%d%gZ%d", NULL, 0, ROOM) == TI_DONE, "variables of the caller");
    expect(run.written == 12 && memcmp(out, "3-2147483648", 12) == 0, "a is the first variable, Z the last");
}

/* An expansion that returns a fault: the variables, the output and the counts are as they were. */
static void has_fault(const char *text, const ti_parameter *parameters, size_t count, size_t room, uint32_t fault) {
    ti_vars before;
    for (int i = 0; i < 52; i++) vars.values[i] = i + 1;
    before = vars;
    memset(out, UNWRITTEN, sizeof out);
    memset(&run, UNWRITTEN, sizeof run);
    expect(expand(text, parameters, count, room) == fault, text);
    expect(memcmp(&before, &vars, sizeof vars) == 0, "variables are kept after a fault");
    expect(are_unwritten(out, sizeof out), "the output is kept after a fault");
    expect(are_unwritten(&run, offsetof(ti_run, place)), "counts are kept after a fault");
}

static void faults(const char *text, const ti_parameter *parameters, size_t count, size_t room, uint32_t fault,
                   size_t place) {
    has_fault(text, parameters, count, room, fault);
    expect(run.place == place, text);
}

/* The order of the faults: parameters, the capability, a text, the room. */
static void test_order_of_faults(void) {
    char *text = (char *)calloc(32768, 1);
    if (text == NULL) exit(2);
    ti_parameter ten[10];
    for (int i = 0; i < 10; i++) ten[i] = ti_number(i);
    ten[1] = ti_text(text, 32768);
    const char *const capabilities[] = {"%p1%d", "%p1%k"};
    for (int i = 0; i < 2; i++) {
        has_fault(capabilities[i], ten, 10, 0, TI_TOO_MANY_PARAMETERS);
        expect(are_unwritten(&run.place, sizeof run.place), "no place of too many parameters");
    }
    faults("%p1%k", ten, 9, 0, TI_UNKNOWN_ESCAPE, 3);
    faults("%p1%d", ten, 9, 0, TI_TEXT_TOO_LONG, 2);
    ten[1] = ti_number(1);
    faults("%p1%k", ten, 9, 0, TI_UNKNOWN_ESCAPE, 3);
    faults("%p1%d", ten, 9, 0, TI_OUT_TOO_SMALL, 11);
    free(text);
}

static void test_expansion_faults(void) {
    ti_parameter parameters[9];
    for (int i = 0; i < 9; i++) parameters[i] = ti_number(i);
    faults(CUP, parameters, 2, 25, TI_OUT_TOO_SMALL, 26);
    faults(CUP, parameters, 2, 0, TI_OUT_TOO_SMALL, 26);
    faults("%p1%Pa%t", parameters, 1, ROOM, TI_STRAY_THEN, 6);
    unsigned char *text = copy_of("", 0);
    free(text);
    text = (unsigned char *)calloc(32768, 1);
    if (text == NULL) exit(2);
    parameters[1] = ti_text(text, 32768);
    faults(CUP, parameters, 2, ROOM, TI_TEXT_TOO_LONG, 2);
    parameters[1] = ti_number(0);
    parameters[8] = ti_text(text, 32768);
    faults(CUP, parameters, 9, ROOM, TI_TEXT_TOO_LONG, 9);
    parameters[8] = ti_text(text, 32767);
    expect(expand(CUP, parameters, 9, 26) == TI_DONE, "the longest text, and room for the bound");
    free(text);
}

/* ---- compiled capabilities */

/* So many times a text of two or three bytes. */
static char *many(const char *text, size_t times) {
    size_t length = strlen(text);
    char *all = (char *)malloc(times * length + 2);
    if (all == NULL) exit(2);
    for (size_t i = 0; i < times; i++) memcpy(all + i * length, text, length);
    all[times * length] = 0;
    return all;
}

static ti_kept compiled;

static uint32_t compile(const unsigned char *bytes, size_t length, size_t *place) {
    memset(&compiled, UNWRITTEN, sizeof compiled);
    return ti_compile(bytes, length, &compiled, place);
}

/* Where random numbers come from, and of how many random cases one is tried. TI_DRAW, the seed of a draw, sets both. */
static uint64_t state = 88172645463325252u;
static int one_of = 1;

static void draw(void) {
    const char *seed = getenv("TI_DRAW");
    if (!seed || !*seed) return;
    for (const char *at = seed; *at; at++) state = state * 31 + (unsigned char)*at;
    state |= 1;
    one_of = 50;
    printf("c: random cases: one of %d, seed %s\n", one_of, seed);
}

/* How many of so many random cases are tried. */
static int some_of(int cases) { return cases / one_of; }

/* Numbers that look random, the same in each run. */
static uint32_t next_random(void) {
    state ^= state << 13;
    state ^= state >> 7;
    state ^= state << 17;
    return (uint32_t)(state >> 32);
}

static int32_t random_number(void) {
    uint32_t number = next_random();
    switch (next_random() % 4) {
    case 0: return (int32_t)(number % 300);
    case 1: return -(int32_t)(number % 300);
    case 2: return (int32_t)(number % 2 ? INT32_MAX : INT32_MIN);
    default: return (int32_t)(number >> 1) - (int32_t)(number & 1);
    }
}

/* Whether a compiled capability does what its bytes do: for random numbers, variables and counts of parameters. */
static int is_same_expansion(const unsigned char *bytes, size_t length) {
    int32_t numbers[9];
    ti_parameter parameters[9];
    ti_vars compiled_vars;
    unsigned char compiled_out[ROOM];
    size_t count = next_random() % 10, written = 987654321;
    for (size_t i = 0; i < 9; i++) parameters[i] = ti_number(numbers[i] = random_number());
    for (size_t i = 0; i < 52; i++) vars.values[i] = compiled_vars.values[i] = random_number();
    uint32_t answer = ti_expand(bytes, length, parameters, count, &vars, out, ROOM, &run);
    if (answer == TI_OUT_TOO_SMALL) {
        return ti_expand_kept(&compiled, numbers, count, &compiled_vars, compiled_out, ROOM, &written) == TI_OUT_TOO_SMALL;
    }
    return answer == TI_DONE && ti_expand_kept(&compiled, numbers, count, &compiled_vars, compiled_out, ROOM, &written) == TI_DONE
           && written == run.written && memcmp(out, compiled_out, written) == 0
           && memcmp(&vars, &compiled_vars, sizeof vars) == 0;
}

/* Whether a text is sent as its expansion and its padding in turn have it: for random numbers, variables, rates and rooms. */
static int is_same_sending(const unsigned char *bytes, size_t length) {
    ti_parameter parameters[9];
    ti_terminal terminal = ti_terminal_at(next_random() % 2 ? 2000 : 0);
    ti_sent sent;
    unsigned char padded[ROOM], own[ROOM];
    size_t count = next_random() % 10, room = next_random() % 4 ? ROOM : next_random() % 64, long_as = 0;
    for (size_t i = 0; i < 9; i++) parameters[i] = ti_number(next_random() % 4 ? random_number() : '$');
    for (size_t i = 0; i < 52; i++) vars.values[i] = terminal.vars.values[i] = random_number();
    ti_vars before = vars;
    uint32_t due = ti_expand(bytes, length, parameters, count, &vars, out, room, &run);
    size_t place = run.place;
    if (due == TI_DONE) {
        due = ti_pad(out, run.written, &terminal.padding, padded, room - run.written, &long_as);
        place = due == TI_OUT_TOO_SMALL ? run.written + long_as : long_as;
    }
    if (ti_send(bytes, length, parameters, count, &terminal, own, room, &sent) != due) return 0;
    if (due != TI_DONE) return sent.place == place && memcmp(&before, &terminal.vars, sizeof before) == 0;
    return sent.length == long_as && memcmp(own, padded, long_as) == 0 && memcmp(&vars, &terminal.vars, sizeof vars) == 0;
}

/* Whether a compiled capability is sent as its bytes are: for random numbers, variables, rates and rooms. */
static int is_same_kept_sending(const unsigned char *bytes, size_t length) {
    int32_t numbers[10];
    ti_parameter parameters[10];
    ti_terminal terminal = ti_terminal_at(next_random() % 2 ? 2000 : 0);
    ti_sent sent = {11, 12}, own_sent = {11, 12};
    unsigned char own[ROOM];
    size_t count = next_random() % 50 ? next_random() % 10 : 10, room = next_random() % 4 ? ROOM : next_random() % 64;
    for (size_t i = 0; i < 10; i++) parameters[i] = ti_number(numbers[i] = next_random() % 4 ? random_number() : '$');
    for (size_t i = 0; i < 52; i++) terminal.vars.values[i] = random_number();
    if (next_random() % 50 == 0) terminal.padding.rate = 1000001;
    terminal.padding.xon = next_random() % 4 == 0;
    ti_terminal kept_terminal = terminal;
    uint32_t answer = ti_send(bytes, length, parameters, count, &terminal, out, room, &sent);
    return ti_send_kept(&compiled, numbers, count, &kept_terminal, own, room, &own_sent) == answer && sent.length == own_sent.length
           && sent.place == own_sent.place && (answer != TI_DONE || memcmp(out, own, sent.length) == 0)
           && memcmp(&terminal.vars, &kept_terminal.vars, sizeof terminal.vars) == 0
           && memcmp(&terminal.padding, &kept_terminal.padding, offsetof(ti_padding, pad) + 1) == 0;
}

static void compiles(const char *text) {
    size_t place = 7, length = strlen(text);
    unsigned char *bytes = copy_of(text, length);
    expect(compile(bytes, length, &place) == TI_DONE && place == 7, text);
    for (int i = 0; i < 20; i++) expect(is_same_expansion(bytes, length), text);
    for (int i = 0; i < 20; i++) expect(is_same_kept_sending(bytes, length), text);
    free(bytes);
}

/* A text that is made of tokens. */
typedef struct {
    char text[4096];
    size_t length;
} made_text;

static void add(made_text *made, const char *token) {
    size_t length = strlen(token);
    if (made->length + length > sizeof made->text) return;
    memcpy(made->text + made->length, token, length);
    made->length += length;
}

static void add_random_token(made_text *made) {
    static const char *const tokens[] = {"a", ";", "[", "$", "<1>", "$<2>", "$<1*/>",
                                         "%%", "%i", "%p1", "%p2", "%p3", "%p9", "%d", "%d", "%c", "%02x", "%:-5d",
                                         "%+", "%-", "%*", "%/", "%m", "%&", "%|", "%^", "%=", "%>", "%<", "%A", "%O", "%!", "%~",
                                         "%{32}", "%'x'", "%Pa", "%ga", "%PZ", "%gZ", "%#o", "%X", "%s", "%p", "%;"};
    add(made, tokens[next_random() % (sizeof tokens / sizeof *tokens - (next_random() % 64 ? 3 : 0))]);
}

static void add_random_part(made_text *made, uint32_t tokens, int level);

static void add_random_test(made_text *made, int level) {
    static const char *const tests[] = {"%p1", "%p2", "%ga", "%p1%{8}%<", "%p3%{0}%=", "%p2%p1%>", "%p1%{1}%+", "", "%i%p1%!"};
    if (next_random() % 8 == 0) add_random_part(made, next_random() % 4, level);
    add(made, tests[next_random() % (sizeof tests / sizeof *tests)]);
    add(made, "%t");
}

/* A conditional; an end is missing at times. */
static void add_random_conditional(made_text *made, int level) {
    add(made, "%?");
    add_random_test(made, level);
    add_random_part(made, next_random() % 4, level);
    while (next_random() % 3 == 0) {
        add(made, "%e");
        add_random_test(made, level);
        add_random_part(made, next_random() % 4, level);
    }
    if (next_random() % 2) {
        add(made, "%e");
        add_random_part(made, next_random() % 4, level);
    }
    if (next_random() % 16) add(made, "%;");
}

/* So many random tokens, some of them conditionals up to a level. */
static void add_random_part(made_text *made, uint32_t tokens, int level) {
    for (uint32_t i = 0; i < tokens; i++) {
        if (level > 0 && next_random() % 6 == 0) {
            add_random_conditional(made, level - 1);
        } else {
            add_random_token(made);
        }
    }
}

/* Capabilities of random tokens: 100000 expansions of those that are compiled, and the faults of the others. */
static void test_random_capabilities(int level, const char *words) {
    int same = 1, sent_same = 1, kept_same = 1, refused = 1, expansions = 0;
    while (expansions < some_of(100000)) {
        made_text made = {"", 0};
        size_t place = 7;
        add_random_part(&made, next_random() % 40, level);
        const unsigned char *bytes = (const unsigned char *)made.text;
        uint32_t answer = compile(bytes, made.length, &place);
        for (int i = 0; i < 20; i++) sent_same &= is_same_sending(bytes, made.length);
        if (answer == TI_DONE) {
            int counts = level == 0 || strstr(made.text, "%?") != NULL;
            for (int i = 0; i < 20; i++) same &= is_same_expansion(bytes, made.length);
            for (int i = 0; i < 20; i++) kept_same &= is_same_kept_sending(bytes, made.length);
            expansions += counts ? 20 : 0;
        } else if (answer != TI_DOES_NOT_FIT) {
            refused &= ti_expand(bytes, made.length, NULL, 0, &vars, out, ROOM, &run) == answer && run.place == place;
        }
    }
    expect(same, words);
    expect(sent_same, "what is sent is the expansion, padded");
    expect(kept_same, "what is compiled is sent as its bytes are");
    expect(refused, "those that are refused have the fault of an expansion, and its place");
}

static void not_compiled(const char *text, uint32_t fault, size_t told) {
    size_t place = 7, length = strlen(text);
    unsigned char *bytes = copy_of(text, length);
    expect(compile(bytes, length, &place) == fault && place == told, text);
    expect(are_unwritten(&compiled, sizeof compiled), "nothing is compiled");
    free(bytes);
}

static void test_compiled(void) {
    compiles("");
    compiles(CUP);
    compiles(E "[%i%p1%d;%p2%dr");
    compiles(E "=%p1%' '%+%c%p2%{32}%+%c");
    compiles("%%%p1%%%p2%d%%");
    compiles("%p1%02x%p2%:-6d|%p3%#o%p4%X%p5%.3d%p6%:+d% d");
    compiles("%p1%Pa%ga%p2%+%PA%gA%d%gz%d");
    compiles("%p1%p2%-%p3%*%p4%/%p5%m%d%p1%!%p2%~%&%p3%|%p4%^%d");
    compiles("%p1%p2%=%p3%p4%>%A%p5%p6%<%O%d%c%d");
    compiles("%p1%p2%p3%p4%p5%p6%p7%p8%+%+%+%+%+%+%+%d");
    compiles("%i%i%p1%d%p2%d%p3%d");
    compiles(SETAF);
    compiles(E "[%?%p1%{8}%<%t3%p1%d%e%p1%{16}%<%t9%p1%{8}%-%d%e38;5;%p1%d%;m");
    compiles(E "[0%?%p6%t;1%;%?%p2%t;4%;%?%p1%p3%|%t;7%;%?%p4%t;5%;%?%p7%t;8%;m%?%p9%t\016%e\017%;");
    compiles("%?%p1%t%?%p2%t1%e%?%p3%t2%e3%;%;4%e%?%p2%t5%e6%;7%;8");
    compiles("%?%?%p1%t%p2%e%p3%;%ta%eb%;%?%p1%{0}%=%tc");
    compiles("%?%p1%{1}%=%ta%e%p1%{2}%=%tb%e%p1%{3}%=%tc%ed%;");
    compiles("%?%p1%ta%?%p2%tb");
    compiles("%?%p1%ta%?%p2%tb%ec%?%p3%td%;e%;f%eg%?%p4%th%;%;i");
    char *text = many("%?%p1%t", 32);
    compiles(text);
    free(text);
    text = many("%e%p1%ta", 20);
    memcpy(text, "%?", 2);
    compiles(text);
    free(text);
}

/* What a compiled capability writes if its tests go in each way, by hand. */
static void test_compiled_conditionals(void) {
    static const struct {
        const char *text, *outputs[4];
    } all[] = {
        {"%?%p1%ta%eb%;c%?%p2%td%;e", {"bce", "ace", "bcde", "acde"}},
        {"%?%p1%t%?%p2%ta%eb%;%ec%;d", {"cd", "bd", "cd", "ad"}},
        {"%?%p1%ta%e%p2%tb%ec%;d", {"cd", "ad", "bd", "ad"}},
        {"%?%p1%t%?%p2%t%e%;a%e%?%p2%tb%;%;c", {"c", "ac", "bc", "ac"}},
        {"%?%?%p1%t%p2%e%{1}%;%ta%eb", {"a", "b", "a", "a"}},
        {"%?%p1%ta%?%p2%tb", {"", "a", "", "ab"}},
    };
    size_t place, written;
    for (size_t i = 0; i < sizeof all / sizeof *all; i++)
        for (int j = 0; j < 4; j++) {
            int32_t numbers[2] = {j % 2, j / 2};
            const char *wanted = all[i].outputs[j];
            expect(compile((const unsigned char *)all[i].text, strlen(all[i].text), &place) == TI_DONE
                       && ti_expand_kept(&compiled, numbers, 2, NULL, out, ROOM, &written) == TI_DONE && written == strlen(wanted)
                       && memcmp(out, wanted, written) == 0, all[i].text);
        }
}

static void test_not_compiled(void) {
    not_compiled("%p1%s", TI_DOES_NOT_FIT, 7);
    not_compiled("%p1%l%d", TI_DOES_NOT_FIT, 7);
    not_compiled("%?%p1%ta%e%p2%s%;", TI_DOES_NOT_FIT, 7);
    not_compiled("%?%p1%p2%p3%p4%p5%p6%p7%p8%p9%ta%;", TI_DOES_NOT_FIT, 7);
    not_compiled("%p1%p2%p3%p4%p5%p6%p7%p8%p9", TI_DOES_NOT_FIT, 7);
    not_compiled("ab%k", TI_UNKNOWN_ESCAPE, 2);
    not_compiled("%p1%d%", TI_CUT_SHORT, 5);
    not_compiled("a%t", TI_STRAY_THEN, 1);
    char *text = many("%i", 97);
    not_compiled(text, TI_DOES_NOT_FIT, 7);
    text[2 * 96] = 0;
    compiles(text);
    free(text);
    text = many("%i", 32768);
    not_compiled(text, TI_TOO_LONG, 32767);
    free(text);
}

static void test_compiled_faults(void) {
    int32_t numbers[10] = {0, 1, 2, 3, 4, 5, 6, 7, 8, 9};
    size_t place = 7, written = 5;
    ti_vars before;
    expect(compile((const unsigned char *)CUP, strlen(CUP), &place) == TI_DONE && compiled.bound == 26, "the bound of cup");
    for (int i = 0; i < 52; i++) vars.values[i] = i + 1;
    before = vars;
    memset(out, UNWRITTEN, sizeof out);
    expect(ti_expand_kept(&compiled, numbers, 10, &vars, out, ROOM, &written) == TI_TOO_MANY_PARAMETERS, "ten parameters");
    expect(ti_expand_kept(&compiled, numbers, 10, &vars, out, 0, &written) == TI_TOO_MANY_PARAMETERS, "ten, and no room");
    expect(ti_expand_kept(&compiled, numbers, 2, &vars, out, 25, &written) == TI_OUT_TOO_SMALL, "one byte less than the bound");
    expect(memcmp(&before, &vars, sizeof vars) == 0 && are_unwritten(out, sizeof out) && written == 5, "nothing is written");
    expect(ti_expand_kept(&compiled, numbers, 2, &vars, out, 26, &written) == TI_DONE && written == 6, "as many as the bound");
    expect(memcmp(out, E "[1;2H", 6) == 0 && are_unwritten(out + 26, sizeof out - 26), "and no byte more is written");
    expect(compiled.marked == 0, "cup has no mark of padding");
    ti_kept copy = compiled;
    memset(&compiled, UNWRITTEN, sizeof compiled);
    expect(ti_expand_kept(&copy, NULL, 0, &vars, out, 26, &written) == TI_DONE && written == 6, "a copy is one too");
    expect(memcmp(out, E "[1;1H", 6) == 0, "missing parameters are 0");
    expect(copy.varied == 0 && ti_expand_kept(&copy, numbers, 2, NULL, out, 26, &written) == TI_DONE && written == 6
               && memcmp(out, E "[1;2H", 6) == 0, "cup needs no variables");
    expect(ti_expand_kept(&copy, numbers, 2, NULL, out, 25, &written) == TI_OUT_TOO_SMALL, "one byte less, and no variables");
    expect(ti_expand_kept_alone(&copy, NULL, 0, out, 26, &written) == TI_DONE && memcmp(out, E "[1;1H", 6) == 0, "nor does it by its own call");
    compile((const unsigned char *)"%p1%Pa", 6, &place);
    written = 5;
    memset(out, UNWRITTEN, sizeof out);
    expect(compiled.varied == 1 && ti_expand_kept(&compiled, numbers, 2, NULL, out, ROOM, &written) == TI_NO_VARIABLES, "%Pa needs them");
    expect(ti_expand_kept(&compiled, numbers, 10, NULL, out, ROOM, &written) == TI_TOO_MANY_PARAMETERS, "ten, and no variables");
    expect(are_unwritten(out, sizeof out) && written == 5, "nothing is written without variables");
    compile((const unsigned char *)"%gA%d", 5, &place);
    expect(compiled.varied == 1 && ti_expand_kept(&compiled, numbers, 2, NULL, out, 0, &written) == TI_NO_VARIABLES, "%gA needs them");
    expect(compile((const unsigned char *)"%%Pa%%gb", 8, &place) == TI_DONE && compiled.varied == 0, "no variable");
    expect(compile((const unsigned char *)"%p1%d$<5>", 9, &place) == TI_DONE && compiled.marked == 1, "a mark of padding");
    expect(compile((const unsigned char *)"$%p1%d<$", 8, &place) == TI_DONE && compiled.marked == 0, "no mark of padding");
}

/* The end of a page, after which there is none that may be written. */
static unsigned char *page_end(void) {
    size_t size = (size_t)sysconf(_SC_PAGESIZE);
    void *pages = mmap(NULL, 2 * size, PROT_READ | PROT_WRITE, MAP_PRIVATE | MAP_ANONYMOUS, -1, 0);
    if (pages == MAP_FAILED) exit(2);
    unsigned char *end = (unsigned char *)pages + size;
    if (mprotect(end, size, PROT_NONE) != 0) exit(2);
    return end;
}

/* Steps that nobody compiled write nothing past the room, and no more counts than the room has. The room ends where its memory
 * or its page does, so that a tool that watches memory sees more, and a run without one ends. */
static void test_forged(void) {
    static const char *const texts[] = {"", CUP, "%p1%02x%p2%d", "0123456789012345678901234567890123456789"};
    unsigned char *end = page_end();
    for (int i = 0; i < some_of(40000); i++) {
        size_t room = next_random() % 40, written = 0, length;
        int32_t numbers[9];
        const char *text = texts[next_random() % 4];
        unsigned char *copy = copy_of(out, room), *own = i % 4 < 2 ? copy : end - room, *bytes;
        length = strlen(text);
        bytes = copy_of(text, length);
        compiled.bytes.bytes = bytes;
        compiled.bytes.length = length;
        compiled.bound = next_random() % 40;
        compiled.varied = next_random() % 2;
        compiled.count = next_random() % 8 ? next_random() % 100 : UINT32_MAX;
        for (int j = 0; j < 96; j++) {
            compiled.steps[j].kind = (uint8_t)(next_random() % (i % 2 ? 31 : 256));
            compiled.steps[j].small = (uint8_t)(next_random() % (i % 3 ? 20 : 256));
            compiled.steps[j].place = (uint16_t)(next_random() % (i % 5 ? 40 : 65536));
            compiled.steps[j].number = random_number();
        }
        for (int j = 0; j < 9; j++) numbers[j] = random_number();
        ti_vars *given = next_random() % 2 ? &vars : NULL;
        uint32_t answer = ti_expand_kept(&compiled, numbers, 9, given, own, room, &written);
        if (given == NULL && compiled.varied ? answer != TI_NO_VARIABLES || written != 0
                                             : answer != (room < compiled.bound ? TI_OUT_TOO_SMALL : TI_DONE) || written > room) {
            expect(0, "forged steps keep to the room");
        }
        ti_terminal terminal = ti_terminal_at(next_random() % 2 ? 2000 : 0), before = terminal;
        ti_sent sent = {0, 0};
        answer = ti_send_kept(&compiled, numbers, 9, &terminal, own, room, &sent);
        if (room < compiled.bound ? answer != TI_OUT_TOO_SMALL || sent.place != compiled.bound
                                  : answer != TI_DONE && answer != TI_OUT_TOO_SMALL && answer != TI_TOO_MUCH)
            expect(0, "forged steps are sent or not");
        if (sent.length > room || (answer != TI_DONE && memcmp(&before.vars, &terminal.vars, sizeof before.vars) != 0))
            expect(0, "forged steps that are sent keep to the room");
        free(copy);
        free(bytes);
    }
    munmap(end - sysconf(_SC_PAGESIZE), 2 * (size_t)sysconf(_SC_PAGESIZE));
    expect(1, "forged steps");
}

/* ---- checks */

static ti_limits limits;

static uint32_t check(const char *text, size_t length, uint16_t longest) {
    unsigned char *capability = copy_of(text, length);
    uint32_t answer = ti_check(capability, length, longest, &limits);
    free(capability);
    return answer;
}

static void needs(const char *text, uint16_t longest, size_t depth, size_t nest, uint64_t bound) {
    memset(&limits, UNWRITTEN, sizeof limits);
    uint32_t answer = check(text, strlen(text), longest);
    expect(answer == TI_DONE && limits.depth == depth && limits.nest == nest && limits.bound == bound, text);
    expect(are_unwritten(&limits.place, sizeof limits.place), "no place of a capability");
}

/* The masks of the parameters that it names, and that it takes as texts. */
static void takes(const char *text, uint16_t named, uint16_t texts) {
    memset(&limits, UNWRITTEN, sizeof limits);
    uint32_t answer = check(text, strlen(text), 0);
    expect(answer == TI_DONE && limits.named == named && limits.texts == texts, text);
}

static void refused(const char *text, uint32_t fault, size_t place) {
    memset(&limits, UNWRITTEN, sizeof limits);
    uint32_t answer = check(text, strlen(text), 0);
    expect(answer == fault && limits.place == place, text);
    expect(are_unwritten(&limits, offsetof(ti_limits, place)), "limits are kept after a refusal");
    expect(are_unwritten(&limits.named, sizeof limits.named + sizeof limits.texts), "and the masks");
}

static void test_checks(void) {
    needs(CUP, 0, 1, 0, 26);
    needs(SETAF, 0, 2, 1, 19);
    needs("", 0, 0, 0, 0);
    needs("%?%p1%t%?%p2%tA%eB%;%eC", 0, 1, 2, 1);
    needs("%?%p1%tabc%ed%;", 0, 1, 1, 3);
    needs("%p1%s", 0, 1, 0, 0);
    needs("%p1%s", 32767, 1, 0, 32767);
    needs("%p1%.2s%p1%:-6s", 100, 1, 0, 102);
    takes("", 0, 0);
    takes(CUP, 0x3, 0);
    takes(E "]52;%p1%s;%p2%s" "\a", 0x3, 0x3);
    takes("%p1%p2%d%s", 0x3, 0x1);
    takes("%p2%l%d", 0x2, 0x2);
    takes("%?%p1%t%p2%e%p3%;%s", 0x7, 0x6);
    takes("%p9%PA%gA%s", 0x100, 0);
    expect(ti_check(NULL, 0, 0, &limits) == TI_DONE && limits.bound == 0, "no bytes, and a null pointer");
    expect(ti_expand(NULL, 0, NULL, 0, &vars, NULL, 0, &run) == TI_DONE && run.written == 0 && run.ran == 0,
           "an expansion of no bytes into no room");
}

static void test_refusals(void) {
    refused("ab%", TI_CUT_SHORT, 2);
    refused("%30", TI_CUT_SHORT, 0);
    refused(E "[?%[;0123456789]c", TI_UNKNOWN_ESCAPE, 3);
    refused("%p0", TI_BAD_PARAMETER, 0);
    refused("%P1", TI_BAD_VARIABLE, 0);
    refused("%'ab", TI_BAD_CONSTANT, 0);
    refused("%{2147483648", TI_BAD_CONSTANT, 0);
    refused("%p1%256d", TI_BAD_FORMAT, 3);
    refused("%300", TI_BAD_FORMAT, 0);
    refused("%t", TI_STRAY_THEN, 0);
    refused("%e", TI_STRAY_ELSE, 0);
    refused("%;", TI_STRAY_END, 0);
    refused("%?%p1%;", TI_NO_THEN, 5);
    refused("%?%p1", TI_NO_THEN, 5);
}

static void test_limits(void) {
    char *text = many("%?", 33);
    refused(text, TI_NEST_TOO_DEEP, 64);
    free(text);
    text = many("%p1", 33);
    refused(text, TI_STACK_TOO_DEEP, 96);
    text[96] = 0;
    needs(text, 0, 32, 0, 0);
    memset(out, '~', sizeof out);
    expect(expand(text, NULL, 0, 1) == TI_DONE && run.peak == 32 && run.written == 0, "a stack of 32 values");
    free(text);
    text = many("%s", 16384);
    text[32766] = 'x';
    text[32767] = 0;
    needs(text, 0, 0, 0, 1);
    needs(text, 32767, 0, 0, 536821762);
    expect(expand(text, NULL, 0, 1) == TI_DONE && out[0] == 'x' && run.ran == 16384, "the longest capability");
    text[32767] = 'x';
    text[32768] = 0;
    refused(text, TI_TOO_LONG, 32767);
    free(text);
}

/* ---- entries */

#define WORD(n) (n) & 255, ((n) >> 8) & 255

/* By hand from term(5): the flags yes, no and cancelled; the numbers 80, absent and cancelled; the texts abc, absent,
 * cancelled and one of no byte. The extended part: the flag F, missing; the number N, 7; the texts S1, xyz, and S2,
 * cancelled. The names stand after the value xyz, and their offsets are counted from there. */
static const unsigned char ENTRY[] = {
    0x1a, 0x01, WORD(7), WORD(3), WORD(3), WORD(4), WORD(5),
    't', '|', 't', 'e', 's', 't', 0,
    1, 0, 254,
    WORD(80), WORD(0xffff), WORD(0xfffe),
    WORD(0), WORD(0xffff), WORD(0xfffe), WORD(4),
    'a', 'b', 'c', 0, 0,
    0,
    WORD(1), WORD(1), WORD(2), WORD(5), WORD(14),
    255, 0,
    WORD(7),
    WORD(0), WORD(0xfffe),
    WORD(0), WORD(2), WORD(4), WORD(7),
    'x', 'y', 'z', 0, 'F', 0, 'N', 0, 'S', '1', 0, 'S', '2', 0
};
enum { TABLE_END = 41 };

/* Numbers of 32 bits (70000, cancelled), and no text. */
static const unsigned char WIDE[] = {
    0x1e, 0x02, WORD(2), WORD(1), WORD(2), WORD(0), WORD(0),
    'w', 0,
    0,
    0,
    WORD(4464), WORD(1), WORD(0xfffe), WORD(0xffff)
};

static const size_t EXACT[4] = {4, 4, 6, 4};
static const size_t AMPLE[4] = {6, 5, 9, 7};

/* A reading of a copy of the bytes into arrays of their own, each of exactly the length that the call is told. */
struct reading {
    unsigned char *bytes;
    size_t length;
    int8_t *flags;
    int32_t *numbers;
    ti_text_item *texts;
    ti_bytes *names;
    ti_counts counts;
    uint32_t answer;
};

static void *room_of(size_t size) {
    void *room = malloc(size ? size : 1);
    if (room == NULL) exit(2);
    memset(room, '~', size);
    return room;
}

static struct reading read_into(const unsigned char *bytes, size_t length, const size_t *rooms) {
    struct reading own;
    own.bytes = copy_of(bytes, length);
    own.length = length;
    own.flags = (int8_t *)room_of(rooms[0] * sizeof *own.flags);
    own.numbers = (int32_t *)room_of(rooms[1] * sizeof *own.numbers);
    own.texts = (ti_text_item *)room_of(rooms[2] * sizeof *own.texts);
    own.names = (ti_bytes *)room_of(rooms[3] * sizeof *own.names);
    memset(&own.counts, UNWRITTEN, sizeof own.counts);
    ti_arrays arrays = {own.flags, rooms[0], own.numbers, rooms[1], own.texts, rooms[2], own.names, rooms[3]};
    ti_arrays before = arrays;
    own.answer = ti_read(own.bytes, length, &arrays, &own.counts);
    expect(memcmp(&arrays, &before, sizeof arrays) == 0, "the arrays stay where they are");
    return own;
}

static void release(struct reading *own) {
    free(own->bytes);
    free(own->flags);
    free(own->numbers);
    free(own->texts);
    free(own->names);
}

/* No element of an array was written from one on. */
static int is_kept(const void *room, size_t size, size_t from, size_t to) {
    return are_unwritten((const unsigned char *)room + from * size, (to - from) * size);
}

static int are_kept(const struct reading *own, const size_t *from, const size_t *rooms) {
    return is_kept(own->flags, sizeof *own->flags, from[0], rooms[0])
        && is_kept(own->numbers, sizeof *own->numbers, from[1], rooms[1])
        && is_kept(own->texts, sizeof *own->texts, from[2], rooms[2])
        && is_kept(own->names, sizeof *own->names, from[3], rooms[3]);
}

static const size_t NONE[4] = {0, 0, 0, 0};

/* The bytes are these, and lie in the entry's own. */
static int is_lent(const struct reading *own, ti_bytes bytes, const char *wanted) {
    return bytes.length == strlen(wanted) && memcmp(bytes.bytes, wanted, bytes.length) == 0
        && own->bytes <= bytes.bytes && bytes.bytes + bytes.length <= own->bytes + own->length;
}

static int has_text(const struct reading *own, size_t index, const char *wanted) {
    return own->texts[index].mark == 0 && is_lent(own, own->texts[index].text, wanted);
}

static int has_mark(const struct reading *own, size_t index, int8_t mark) {
    return own->texts[index].mark == mark && own->texts[index].text.length == 0;
}

static int has_no_place(const struct reading *own) {
    return are_unwritten(&own->counts.place, sizeof own->counts.place);
}

/* Of the entry the place alone was written. */
static int has_place(const struct reading *own, size_t place) {
    size_t end = offsetof(ti_counts, number_bits) + sizeof own->counts.number_bits;
    return own->counts.place == place && are_unwritten(&own->counts, end);
}

static int has_counts(const struct reading *own) {
    const ti_counts *counts = &own->counts;
    return is_lent(own, counts->names, "t|test") && counts->flags == 3 && counts->numbers == 3 && counts->texts == 4
        && counts->extended_flags == 1 && counts->extended_numbers == 1 && counts->extended_texts == 2
        && counts->number_bits == 16;
}

static void test_reading(void) {
    const size_t *rooms[2] = {EXACT, AMPLE};
    for (int i = 0; i < 2; i++) {
        struct reading own = read_into(ENTRY, sizeof ENTRY, rooms[i]);
        expect(own.answer == TI_DONE && has_counts(&own), "the counts of an entry");
        expect(has_no_place(&own), "no place of an entry");
        expect(own.flags[0] == 1 && own.flags[1] == 0 && own.flags[2] == TI_CANCELLED && own.flags[3] == TI_ABSENT,
               "flags, and an extended one");
        expect(own.numbers[0] == 80 && own.numbers[1] == TI_ABSENT && own.numbers[2] == TI_CANCELLED
               && own.numbers[3] == 7, "numbers, and an extended one");
        expect(has_text(&own, 0, "abc") && has_mark(&own, 1, TI_ABSENT) && has_mark(&own, 2, TI_CANCELLED)
               && has_text(&own, 3, ""), "texts");
        expect(has_text(&own, 4, "xyz") && has_mark(&own, 5, TI_CANCELLED), "extended texts");
        expect(is_lent(&own, own.names[0], "F") && is_lent(&own, own.names[1], "N") && is_lent(&own, own.names[2], "S1")
               && is_lent(&own, own.names[3], "S2"), "extended names");
        expect(are_kept(&own, EXACT, rooms[i]), "the rest of the arrays is kept");
        release(&own);
    }
    struct reading own = read_into(WIDE, sizeof WIDE, AMPLE);
    expect(own.answer == TI_DONE && own.counts.number_bits == 32 && own.counts.texts == 0, "a wide entry");
    expect(own.flags[0] == 0 && own.numbers[0] == 70000 && own.numbers[1] == TI_CANCELLED, "numbers of 32 bits");
    release(&own);
}

static void test_rooms(void) {
    for (int i = 0; i < 4; i++) {
        size_t rooms[4] = {4, 4, 6, 4};
        rooms[i]--;
        struct reading own = read_into(ENTRY, sizeof ENTRY, rooms);
        expect(own.answer == TI_ROOM_TOO_SMALL && has_counts(&own), "an array one too short, and the counts");
        expect(has_no_place(&own), "no place of an array that is too short");
        expect(are_kept(&own, NONE, rooms), "arrays are kept if one is too short");
        release(&own);
    }
    ti_counts counts;
    ti_arrays none = {NULL, 0, NULL, 0, NULL, 0, NULL, 0};
    expect(ti_read(ENTRY, sizeof ENTRY, &none, &counts) == TI_ROOM_TOO_SMALL
           && counts.texts == 4 && counts.extended_texts == 2, "no room, and null pointers");
    static const unsigned char bare[] = {0x1a, 0x01, WORD(2), WORD(0), WORD(0), WORD(0), WORD(0), 'b', 0};
    expect(ti_read(bare, sizeof bare, &none, &counts) == TI_DONE && counts.names.length == 1,
           "an entry that needs no room");
    expect(ti_read(NULL, 0, &none, &counts) == TI_TRUNCATED && counts.place == 0,
           "no bytes, and null pointers");
}

/* The entry with one byte changed is refused. */
static void refused_with(size_t at, unsigned char byte, uint32_t fault, size_t place, const char *words) {
    unsigned char bytes[sizeof ENTRY];
    memcpy(bytes, ENTRY, sizeof ENTRY);
    bytes[at] = byte;
    struct reading own = read_into(bytes, sizeof ENTRY, AMPLE);
    expect(own.answer == fault && has_place(&own, place), words);
    expect(are_kept(&own, NONE, AMPLE), "arrays are kept if an entry is refused");
    release(&own);
}

static void test_entry_faults(void) {
    refused_with(0, 0x1b, TI_BAD_MAGIC, 0, "BadMagic");
    refused_with(5, 0x80, TI_BAD_HEADER, 4, "BadHeader");
    refused_with(9, 0x7f, TI_HEADER_TOO_BIG, 0, "HeaderTooBig");
    refused_with(13, 0, TI_BAD_NAMES, 13, "BadNames");
    refused_with(20, 2, TI_BAD_FLAG, 20, "BadFlag");
    refused_with(TABLE_END, 1, TI_BAD_PAD, TABLE_END, "BadPad");
    refused_with(26, 0xfd, TI_BAD_NUMBER, 26, "BadNumber");
    refused_with(28, 5, TI_BAD_OFFSET, 28, "BadOffset");
    refused_with(40, 'd', TI_UNTERMINATED, 34, "Unterminated");
    refused_with(43, 0x80, TI_BAD_EXTENDED_HEADER, 42, "BadExtendedHeader");
    refused_with(47, 0x7f, TI_EXTENDED_TOO_BIG, 42, "ExtendedTooBig");
    refused_with(60, 10, TI_BAD_EXTENDED_NAME, 60, "BadExtendedName");
    refused_with(50, 13, TI_UNTERMINATED, 66, "an extended table one too short");
    unsigned char longer[sizeof ENTRY + 1];
    memcpy(longer, ENTRY, sizeof ENTRY);
    longer[sizeof ENTRY] = 0;
    struct reading own = read_into(longer, sizeof longer, AMPLE);
    expect(own.answer == TI_TRAILING && has_place(&own, sizeof ENTRY), "Trailing");
    release(&own);
}

/* Whatever the bytes are, the answer is 0, a fault of an entry, or that there is too little room. */
static void test_broken_entries(void) {
    for (size_t length = 0; length < sizeof ENTRY; length++) {
        struct reading own = read_into(ENTRY, length, AMPLE);
        int whole = length == TABLE_END;
        expect(whole ? own.answer == TI_DONE : own.answer == TI_TRUNCATED && has_place(&own, length), "a cut entry");
        release(&own);
    }
    unsigned char bytes[sizeof ENTRY];
    memcpy(bytes, ENTRY, sizeof ENTRY);
    int known = 1;
    for (size_t at = 0; at < sizeof ENTRY; at++) {
        for (int byte = 0; byte < 256; byte++) {
            bytes[at] = (unsigned char)byte;
            struct reading own = read_into(bytes, sizeof ENTRY, AMPLE);
            known = known && (own.answer <= TI_TRAILING || own.answer == TI_ROOM_TOO_SMALL);
            release(&own);
        }
        bytes[at] = ENTRY[at];
    }
    expect(known, "one changed byte");
}

/* Nothing is read of what a call fills: memory that was never written serves, as a tool that watches memory sees. */
static void test_fresh_memory(void) {
    int8_t *flags = (int8_t *)malloc(4 * sizeof *flags);
    int32_t *numbers = (int32_t *)malloc(4 * sizeof *numbers);
    ti_text_item *texts = (ti_text_item *)malloc(6 * sizeof *texts);
    ti_bytes *names = (ti_bytes *)malloc(4 * sizeof *names);
    unsigned char *room = (unsigned char *)malloc(26);
    ti_counts *counts = (ti_counts *)malloc(sizeof *counts);
    ti_limits *needed = (ti_limits *)malloc(sizeof *needed);
    ti_run *went = (ti_run *)malloc(sizeof *went);
    if (!flags || !numbers || !texts || !names || !room || !counts || !needed || !went) exit(2);
    const unsigned char *cup = (const unsigned char *)CUP;
    ti_arrays arrays = {flags, 4, numbers, 4, texts, 6, names, 4};
    expect(ti_read(ENTRY, sizeof ENTRY, &arrays, counts) == TI_DONE
           && counts->texts == 4 && texts[5].mark == TI_CANCELLED && names[3].length == 2, "an entry into fresh memory");
    expect(ti_check(cup, strlen(CUP), 0, needed) == TI_DONE && needed->bound == 26, "limits into fresh memory");
    memset(&vars, 0, sizeof vars);
    expect(ti_expand(cup, strlen(CUP), NULL, 0, &vars, room, 26, went) == TI_DONE && went->written == 6
           && memcmp(room, E "[1;1H", 6) == 0, "an expansion into fresh memory");
    free(flags);
    free(numbers);
    free(texts);
    free(names);
    free(room);
    free(counts);
    free(needed);
    free(went);
}

/* ---- writing entries */

static unsigned char *written;
static size_t written_length;

/* Writes what a reading has into a room of exactly so many bytes. */
static uint32_t encode(const struct reading *own, const size_t *rooms, uint32_t bits, size_t room) {
    ti_arrays arrays = {own->flags, rooms[0], own->numbers, rooms[1], own->texts, rooms[2], own->names, rooms[3]};
    memset(&written_length, UNWRITTEN, sizeof written_length);
    written = (unsigned char *)room_of(room);
    return ti_encode(&arrays, &own->counts, bits, written, room, &written_length);
}

/* It is written as these bytes, and the rest of the room is as it was. */
static void encodes(const struct reading *own, uint32_t bits, const unsigned char *wanted, size_t length, const char *words) {
    for (size_t more = 0; more < 3; more++) {
        expect(encode(own, EXACT, bits, length + more) == TI_DONE && written_length == length
               && memcmp(written, wanted, length) == 0 && are_unwritten(written + length, more), words);
        free(written);
    }
}

static void not_encoded(const struct reading *own, const size_t *rooms, uint32_t bits, uint32_t fault, const char *words) {
    size_t fresh;
    memset(&fresh, UNWRITTEN, sizeof fresh);
    expect(encode(own, rooms, bits, 8) == fault && written_length == fresh && are_unwritten(written, 8), words);
    free(written);
}

static void test_encoding(void) {
    struct reading own = read_into(ENTRY, sizeof ENTRY, EXACT);
    encodes(&own, 16, ENTRY, sizeof ENTRY, "an entry is written as it was read");
    expect(encode(&own, EXACT, 16, sizeof ENTRY - 1) == TI_OUT_TOO_SMALL && written_length == sizeof ENTRY
           && are_unwritten(written, sizeof ENTRY - 1), "a room that is one byte too small");
    free(written);
    expect(encode(&own, EXACT, 32, sizeof ENTRY + 8) == TI_DONE && written_length == sizeof ENTRY + 8, "four wider numbers");
    struct reading wide = read_into(written, written_length, EXACT);
    expect(wide.answer == TI_DONE && wide.counts.number_bits == 32 && memcmp(wide.flags, own.flags, 4) == 0
           && memcmp(wide.numbers, own.numbers, 4 * sizeof *own.numbers) == 0 && has_text(&wide, 0, "abc")
           && has_mark(&wide, 2, TI_CANCELLED) && is_lent(&wide, wide.names[3], "S2"), "the same items with wider numbers");
    release(&wide);
    free(written);
    for (int i = 0; i < 4; i++) {
        size_t rooms[4] = {4, 4, 6, 4};
        rooms[i]--;
        not_encoded(&own, rooms, 16, TI_ROOM_TOO_SMALL, "fewer elements than the counts say");
    }
    own.flags[0] = 7;
    encodes(&own, 16, ENTRY, sizeof ENTRY, "a boolean of another number is 1");
    release(&own);
    own = read_into(WIDE, sizeof WIDE, EXACT);
    encodes(&own, 32, WIDE, sizeof WIDE, "a wide entry is written as it was read");
    not_encoded(&own, EXACT, 16, TI_NUMBER_OUT_OF_RANGE, "a number that 16 bits do not hold");
    release(&own);
}

static void test_encode_faults(void) {
    static unsigned char much[TI_MOST_BYTES];
    memset(much, 'a', sizeof much);
    struct reading own = read_into(ENTRY, sizeof ENTRY, EXACT);
    own.texts[0].text.bytes = much;
    own.texts[0].text.length = sizeof much;
    not_encoded(&own, EXACT, 16, TI_TOO_MANY_OR_LONG, "more than 32768 bytes");
    own.numbers[3] = -3;
    not_encoded(&own, EXACT, 16, TI_NUMBER_OUT_OF_RANGE, "a number below -2 goes first");
    own.texts[4].text.bytes = (const unsigned char *)"x\0z";
    not_encoded(&own, EXACT, 16, TI_NUL_IN_TEXT, "a NUL in a string goes before it");
    own.names[2].bytes = (const unsigned char *)"S";
    not_encoded(&own, EXACT, 16, TI_BAD_NAME, "a NUL in a name goes first of all");
    own.counts.names.length = 0;
    not_encoded(&own, EXACT, 16, TI_BAD_NAME, "no names");
    own.counts.flags = SIZE_MAX;
    not_encoded(&own, EXACT, 16, TI_ROOM_TOO_SMALL, "counts whose sum no size holds");
    release(&own);
    ti_counts counts;
    ti_arrays none = {NULL, 0, NULL, 0, NULL, 0, NULL, 0};
    memset(&counts, 0, sizeof counts);
    counts.names.bytes = (const unsigned char *)"b";
    counts.names.length = 1;
    expect(ti_encode(&none, &counts, 16, NULL, 0, &written_length) == TI_OUT_TOO_SMALL && written_length == 14,
           "no arrays, no room, and null pointers");
}

/* ---- views */

static ti_view view;
static ti_value value;
static unsigned char *opened;

static uint32_t open_copy(const unsigned char *bytes, size_t length) {
    memset(&view, UNWRITTEN, sizeof view);
    opened = copy_of(bytes, length);
    return ti_open(opened, length, &view);
}

static void close_copy(void) {
    free(opened);
}

static int is_text(ti_bytes text, const char *wanted) {
    return text.length == strlen(wanted) && memcmp(text.bytes, wanted, text.length) == 0;
}

/* A standard text that is there, and one that is not. */
static void shows(size_t index, int8_t mark, const char *wanted) {
    ti_bytes text;
    memset(&text, UNWRITTEN, sizeof text);
    expect(ti_view_text(&view, index, &text) == mark, "a text's mark");
    expect(mark == 0 ? is_text(text, wanted) : are_unwritten(&text, sizeof text), "a text's bytes");
}

static void is_found(const char *name, uint32_t kind, int32_t number, const char *text) {
    memset(&value, UNWRITTEN, sizeof value);
    expect(ti_view_find(&view, (const unsigned char *)name, strlen(name), &value) == TI_DONE, name);
    ti_value named;
    memset(&named, UNWRITTEN, sizeof named);
    expect(ti_view_find_name(&view, name, &named) == TI_DONE && memcmp(&named, &value, sizeof value) == 0, "the same by a string");
    expect(value.kind == kind && value.number == number && is_text(value.text, text), name);
}

static void is_not_found(const char *name) {
    memset(&value, UNWRITTEN, sizeof value);
    expect(ti_view_find(&view, (const unsigned char *)name, strlen(name), &value) == TI_NOT_NAMED, name);
    expect(are_unwritten(&value, sizeof value), "no value of what is not found");
}

static void has_extended(uint32_t kind, size_t index, const char *wanted, int32_t number, const char *text) {
    ti_bytes name;
    expect(ti_view_extended(&view, kind, index, &name, &value) == TI_DONE && is_text(name, wanted), wanted);
    expect(value.kind == kind && value.number == number && is_text(value.text, text), wanted);
}

static void has_no_extended(uint32_t kind, size_t index) {
    ti_bytes name;
    memset(&name, UNWRITTEN, sizeof name);
    memset(&value, UNWRITTEN, sizeof value);
    expect(ti_view_extended(&view, kind, index, &name, &value) == TI_NOT_NAMED, "no extended capability");
    expect(are_unwritten(&name, sizeof name) && are_unwritten(&value, sizeof value), "nothing of it is written");
}

static void lists(size_t place, const char *wanted, uint32_t in_extended, uint32_t kind, int32_t number, const char *text) {
    ti_bytes name;
    uint32_t extended = UNWRITTEN;
    expect(ti_view_item(&view, place, &name, &extended, &value) == TI_DONE, wanted);
    expect(is_text(name, wanted) && extended == in_extended, wanted);
    expect(value.kind == kind && value.number == number && is_text(value.text, text), wanted);
}

static void lists_no_more(size_t place) {
    ti_bytes name;
    uint32_t extended = UNWRITTEN;
    memset(&name, UNWRITTEN, sizeof name);
    memset(&value, UNWRITTEN, sizeof value);
    expect(ti_view_item(&view, place, &name, &extended, &value) == TI_NOT_NAMED, "the end of the list");
    expect(are_unwritten(&name, sizeof name) && are_unwritten(&value, sizeof value) && extended == UNWRITTEN, "nothing of it is written");
}

static void test_views(void) {
    expect(open_copy(ENTRY, sizeof ENTRY) == TI_DONE, "an entry is opened");
    expect(is_text(view.counts.names, "t|test") && view.counts.flags == 3 && view.counts.extended_texts == 2, "its counts");
    expect(are_unwritten(&view.counts.place, sizeof view.counts.place), "no place of an entry that is opened");
    expect(ti_view_flag(&view, 0) == 1 && ti_view_flag(&view, 1) == 0 && ti_view_flag(&view, 2) == TI_CANCELLED, "flags");
    expect(ti_view_flag(&view, 3) == 0 && ti_view_flag(&view, SIZE_MAX) == 0, "a flag that the entry is too short for");
    expect(ti_view_number(&view, 0) == 80 && ti_view_number(&view, 1) == TI_ABSENT, "numbers");
    expect(ti_view_number(&view, 2) == TI_CANCELLED && ti_view_number(&view, 3) == TI_ABSENT, "numbers that are not there");
    shows(0, 0, "abc");
    shows(1, TI_ABSENT, "");
    shows(2, TI_CANCELLED, "");
    shows(3, 0, "");
    shows(4, TI_ABSENT, "");
    close_copy();
}

static void test_view_items(void) {
    expect(open_copy(ENTRY, sizeof ENTRY) == TI_DONE, "an entry to list");
    lists(0, "bw", 0, TI_FLAG, 1, "");
    lists(1, "am", 0, TI_FLAG, 0, "");
    lists(2, "xsb", 0, TI_FLAG, TI_CANCELLED, "");
    lists(3, "cols", 0, TI_NUMBER, 80, "");
    lists(5, "lines", 0, TI_NUMBER, TI_CANCELLED, "");
    lists(6, "cbt", 0, TI_TEXT, 0, "abc");
    lists(7, "bel", 0, TI_TEXT, TI_ABSENT, "");
    lists(9, "csr", 0, TI_TEXT, 0, "");
    lists(10, "F", 1, TI_FLAG, TI_ABSENT, "");
    lists(11, "N", 1, TI_NUMBER, 7, "");
    lists(12, "S1", 1, TI_TEXT, 0, "xyz");
    lists(13, "S2", 1, TI_TEXT, TI_CANCELLED, "");
    lists_no_more(14);
    lists_no_more(SIZE_MAX);
    close_copy();
}

static void test_view_names(void) {
    expect(open_copy(ENTRY, sizeof ENTRY) == TI_DONE, "an entry is opened");
    is_found("bw", TI_FLAG, 1, "");
    is_found("auto_left_margin", TI_FLAG, 1, "");
    is_found("cols", TI_NUMBER, 80, "");
    is_found("columns", TI_NUMBER, 80, "");
    is_found("cbt", TI_TEXT, 0, "abc");
    is_found("back_tab", TI_TEXT, 0, "abc");
    is_found("cup", TI_TEXT, TI_ABSENT, "");
    is_found("F", TI_FLAG, -1, "");
    is_found("N", TI_NUMBER, 7, "");
    is_found("S1", TI_TEXT, 0, "xyz");
    is_found("S2", TI_TEXT, TI_CANCELLED, "");
    is_not_found("S3");
    is_not_found("");
    is_not_found("\377");
    has_extended(TI_FLAG, 0, "F", -1, "");
    has_extended(TI_NUMBER, 0, "N", 7, "");
    has_extended(TI_TEXT, 1, "S2", TI_CANCELLED, "");
    has_no_extended(TI_FLAG, 1);
    has_no_extended(TI_TEXT, 2);
    has_no_extended(TI_TEXT + 1, 0);
    close_copy();
}

static void test_view_faults(void) {
    for (size_t length = 0; length < sizeof ENTRY; length++) {
        if (length == TABLE_END) continue;
        expect(open_copy(ENTRY, length) == TI_TRUNCATED && view.counts.place == length, "an entry that is cut short");
        expect(are_unwritten(&view, offsetof(ti_view, counts.place)), "nothing before the place is written");
        expect(are_unwritten(&view.bytes, sizeof view - offsetof(ti_view, bytes)), "nor after it");
        close_copy();
    }
}

/* Any numbers in a view, over any bytes, are safe: a tool that watches memory sees each read past the end. */
static void test_any_view(void) {
    unsigned long seed = 1;
    for (size_t round = 0; round < (size_t)some_of(20000); round++) {
        size_t length = round % (sizeof ENTRY + 1);
        unsigned char *bytes = copy_of(ENTRY, length);
        for (size_t i = 0; i < 3 && length != 0; i++) {
            seed = seed * 6364136223846793005UL + 1442695040888963407UL;
            bytes[(seed >> 33) % length] = (unsigned char)(seed >> 55);
        }
        memset(&view, (int)(seed >> 40), sizeof view);
        view.bytes.bytes = bytes;
        view.bytes.length = length;
        view.base = round % 3 ? (size_t)(seed >> 50) : view.base;
        for (size_t index = 0; index < 6; index++) {
            ti_bytes text = {bytes, 0};
            value.text = text;
            ti_view_flag(&view, index);
            ti_view_number(&view, index);
            ti_view_text(&view, index, &text);
            int inside = text.length == 0 || (text.bytes >= bytes && text.bytes + text.length <= bytes + length);
            ti_view_extended(&view, (uint32_t)(index % 3), index / 3, &text, &value);
            ti_bytes name = {bytes, 0};
            uint32_t extended = 0;
            ti_view_item(&view, index, &name, &extended, &value);
            inside = inside && (!extended || name.length == 0 || (name.bytes >= bytes && name.bytes + name.length <= bytes + length));
            inside = inside && (text.length == 0 || (text.bytes >= bytes && text.bytes + text.length <= bytes + length));
            if (!inside) expect(0, "a text or a name outside the bytes");
        }
        ti_view_find(&view, (const unsigned char *)"S2", 2, &value);
        free(bytes);
    }
    expect(1, "any view");
}

/* ---- names and the version */

/* After the bytes there is a NUL, and none is in them, so %s prints them. */
static int ends_with_nul(ti_bytes text) {
    return text.bytes[text.length] == 0 && strlen((const char *)text.bytes) == text.length;
}

static void named(uint32_t kind, size_t index, const char *wanted) {
    ti_bytes name = {NULL, 0};
    uint32_t answer = ti_name(kind, index, &name);
    expect(answer == TI_DONE && name.length == strlen(wanted) && memcmp(name.bytes, wanted, name.length) == 0, wanted);
}

static void not_named(uint32_t kind, size_t index, const char *words) {
    ti_bytes name = {out, 7};
    expect(ti_name(kind, index, &name) == TI_NOT_NAMED && name.bytes == out && name.length == 7, words);
}

static void test_names(void) {
    named(0, 0, "bw");
    named(0, 28, "bce");
    named(0, 43, "OTxr");
    named(1, 0, "cols");
    named(1, 15, "ncv");
    named(1, 38, "OTkn");
    named(2, 0, "cbt");
    named(2, 9, "cmdch");
    named(2, 10, "cup");
    named(2, 360, "setab");
    named(2, 413, "box1");
    not_named(0, 44, "a flag after the last");
    not_named(1, 39, "a number after the last");
    not_named(2, 414, "a text after the last");
    not_named(2, SIZE_MAX, "the greatest index");
    not_named(3, 0, "a kind that is none");
    not_named(UINT32_MAX, 0, "the greatest kind");
}

static void test_ends_of_names(void) {
    size_t count = 0, ended = 0;
    for (uint32_t kind = TI_FLAG; kind <= TI_TEXT; kind++) {
        ti_bytes name = {NULL, 0};
        for (size_t i = 0; ti_name(kind, i, &name) == TI_DONE; i++) {
            count++;
            ended += ends_with_nul(name) ? 1 : 0;
        }
    }
    expect(count == 44 + 39 + 414 && ended == count, "a NUL stands after each name");
}

/* ---- the way back: a name's kind and index */

static uint32_t found_kind;
static size_t found_index;

static uint32_t find(const char *name, size_t length) {
    unsigned char *own = copy_of(name, length);
    found_kind = 77;
    found_index = 88;
    uint32_t answer = ti_find(own, length, &found_kind, &found_index);
    free(own);
    return answer;
}

static void found(const char *name, uint32_t kind, size_t index) {
    expect(find(name, strlen(name)) == TI_DONE && found_kind == kind && found_index == index, name);
}

static void not_found(const char *name, size_t length, const char *words) {
    expect(find(name, length) == TI_NOT_NAMED && found_kind == 77 && found_index == 88, words);
}

static void test_finding(void) {
    found("bw", 0, 0);
    found("bce", 0, 28);
    found("OTxr", 0, 43);
    found("cols", 1, 0);
    found("ncv", 1, 15);
    found("OTkn", 1, 38);
    found("cbt", 2, 0);
    found("cmdch", 2, 9);
    found("cup", 2, 10);
    found("setab", 2, 360);
    found("box1", 2, 413);
    not_found("zz", 2, "a name that no capability has");
    not_found("cu", 2, "the front of a name");
    not_found("cup", 4, "a name with its NUL");
    not_found("CUP", 3, "a name in capitals");
    not_found("\377", 1, "bytes that are no text");
    not_found("", 0, "no byte");
    expect(ti_find(NULL, 0, &found_kind, &found_index) == TI_NOT_NAMED, "no byte, and a null pointer");
}

/* ---- the words of faults */

static const struct {
    uint32_t number;
    const char *word;
} WORDS[] = {
    {TI_TRUNCATED, "Truncated"},
    {TI_BAD_MAGIC, "BadMagic"},
    {TI_BAD_HEADER, "BadHeader"},
    {TI_HEADER_TOO_BIG, "HeaderTooBig"},
    {TI_BAD_NAMES, "BadNames"},
    {TI_BAD_FLAG, "BadFlag"},
    {TI_BAD_PAD, "BadPad"},
    {TI_BAD_NUMBER, "BadNumber"},
    {TI_BAD_OFFSET, "BadOffset"},
    {TI_UNTERMINATED, "Unterminated"},
    {TI_BAD_EXTENDED_HEADER, "BadExtendedHeader"},
    {TI_EXTENDED_TOO_BIG, "ExtendedTooBig"},
    {TI_BAD_EXTENDED_NAME, "BadExtendedName"},
    {TI_TRAILING, "Trailing"},
    {TI_TOO_LONG, "TooLong"},
    {TI_CUT_SHORT, "CutShort"},
    {TI_UNKNOWN_ESCAPE, "UnknownEscape"},
    {TI_BAD_PARAMETER, "BadParameter"},
    {TI_BAD_VARIABLE, "BadVariable"},
    {TI_BAD_CONSTANT, "BadConstant"},
    {TI_BAD_FORMAT, "BadFormat"},
    {TI_STRAY_THEN, "StrayThen"},
    {TI_STRAY_ELSE, "StrayElse"},
    {TI_STRAY_END, "StrayEnd"},
    {TI_NO_THEN, "NoThen"},
    {TI_NEST_TOO_DEEP, "NestTooDeep"},
    {TI_STACK_TOO_DEEP, "StackTooDeep"},
    {TI_TOO_MANY_PARAMETERS, "TooManyParameters"},
    {TI_TEXT_TOO_LONG, "TextTooLong"},
    {TI_OUT_TOO_SMALL, "OutTooSmall"},
    {TI_DOES_NOT_FIT, "DoesNotFit"},
    {TI_NO_VARIABLES, "NoVariables"},
    {TI_BAD_PADDING, "BadPadding"},
    {TI_TOO_MUCH, "TooMuch"},
    {TI_NOT_NAMED, "NotNamed"},
    {TI_ROOM_TOO_SMALL, "RoomTooSmall"},
    {TI_BAD_NAME, "BadName"},
    {TI_NUL_IN_TEXT, "NulInText"},
    {TI_NUMBER_OUT_OF_RANGE, "NumberOutOfRange"},
    {TI_TOO_MANY_OR_LONG, "TooManyOrLong"},
};

static void test_words(void) {
    size_t count = sizeof WORDS / sizeof *WORDS;
    for (size_t i = 0; i < count; i++) {
        ti_bytes word = {NULL, 0};
        uint32_t answer = ti_word(WORDS[i].number, &word);
        expect(answer == TI_DONE && word.length == strlen(WORDS[i].word)
                   && memcmp(word.bytes, WORDS[i].word, word.length) == 0 && ends_with_nul(word),
               WORDS[i].word);
    }
    size_t known = 0;
    for (uint32_t number = 0; number < 1000; number++) {
        ti_bytes word = {out, 7};
        if (ti_word(number, &word) == TI_DONE) known++;
        else if (word.bytes != out || word.length != 7) known = 1000;
    }
    expect(known == count, "no other number has a word, and then the word is kept");
    ti_bytes word = {out, 7};
    expect(ti_word(TI_DONE, &word) == TI_NOT_NAMED, "done is no fault");
    expect(ti_word(206, &word) == TI_NOT_NAMED, "no call returns 206");
    expect(ti_word(UINT32_MAX, &word) == TI_NOT_NAMED, "the greatest number");
}

/* ---- the sentences of faults */

static int is_message(uint32_t number, const char *sentence) {
    ti_bytes message = {NULL, 0};
    return ti_message(number, &message) == TI_DONE && message.length == strlen(sentence)
        && memcmp(message.bytes, sentence, message.length) == 0 && strcmp(ti_reason(number), sentence) == 0;
}

static void test_messages(void) {
    size_t count = sizeof WORDS / sizeof *WORDS;
    for (size_t i = 0; i < count; i++) {
        ti_bytes message = {NULL, 0}, other = {NULL, 0};
        expect(ti_message(WORDS[i].number, &message) == TI_DONE && message.length > 15 && ends_with_nul(message)
                   && message.bytes[message.length - 1] != '.' && strlen((const char *)message.bytes) == message.length,
               WORDS[i].word);
        for (size_t j = 0; j < i; j++) {
            expect(ti_message(WORDS[j].number, &other) == TI_DONE && strcmp((const char *)other.bytes, (const char *)message.bytes) != 0,
                   "each fault has a sentence of its own");
        }
    }
    for (uint32_t number = 0; number < 1000; number++) {
        ti_bytes word = {out, 7}, message = {out, 7};
        int same = ti_word(number, &word) == ti_message(number, &message);
        expect(same && (word.bytes != out || (message.bytes == out && message.length == 7)), "a sentence for each word");
        expect((word.bytes == out) == (*ti_reason(number) == 0), "a reason for each word");
    }
    expect(is_message(TI_BAD_MAGIC, "the first two bytes are those of no compiled entry"), "an entry's sentence");
    expect(is_message(TI_BAD_PARAMETER, "%p is followed by no digit of 1 to 9"), "a capability's sentence");
    expect(is_message(TI_TOO_MANY_PARAMETERS, "there are more than nine parameters"), "a call's sentence");
    ti_bytes message = {out, 7};
    expect(ti_message(UINT32_MAX, &message) == TI_NOT_NAMED && message.bytes == out, "the greatest number");
}

/* ---- padding */

static size_t padded;

static uint32_t pad_text(const char *text, size_t length, ti_padding padding, size_t room) {
    unsigned char *own_text = copy_of(text, length);
    unsigned char *own = copy_of(out, room);
    padded = 987654321;
    uint32_t answer = ti_pad(own_text, length, &padding, own, room, &padded);
    memcpy(out, own, room);
    free(own);
    free(own_text);
    return answer;
}

static ti_padding padding_of(uint32_t rate, uint32_t lines, uint8_t xon, uint8_t pad) {
    ti_padding padding;
    padding.rate = rate;
    padding.affected_lines = lines;
    padding.xon = xon;
    padding.pad = pad;
    return padding;
}

/* The padded text: what stands before its pad bytes, how many there are, and what stands after them. */
static void pads(const char *text, ti_padding padding, const char *before, size_t count, const char *after) {
    memset(out, '~', sizeof out);
    uint32_t answer = pad_text(text, strlen(text), padding, sizeof out);
    size_t start = strlen(before), length = start + count + strlen(after);
    size_t same = 0;
    while (same < count && out[start + same] == padding.pad) same++;
    expect(answer == TI_DONE && padded == length && memcmp(out, before, start) == 0 && same == count
               && memcmp(out + start + count, after, strlen(after)) == 0 && out[length] == '~',
           text);
}

static void test_padding(void) {
    pads(E "[H$<5*/>", padding_of(960, 2, 1, 0), E "[H", 10, "");
    pads("$<5>", padding_of(960, 1, 0, 0), "", 5, "");
    pads("$<5>", padding_of(960, 1, 1, 0), "", 0, "");
    pads("$<5>", padding_of(960, 1, 255, 0), "", 0, "");
    pads("a$<5>b", padding_of(960, 1, 0, 127), "a", 5, "b");
    pads("a$<5>b", padding_of(0, 1, 0, 127), "a", 0, "b");
    pads("$<1.55>", padding_of(9600, 1, 0, 0), "", 15, "");
    pads("$<x>$<100000>$", padding_of(960, 1, 0, 0), "$<x>$<100000>$", 0, "");
    pads("", padding_of(1000000, 65535, 0, 0), "", 0, "");
    padded = 7;
    ti_padding padding = padding_of(960, 1, 0, 0);
    expect(ti_pad(NULL, 0, &padding, NULL, 0, &padded) == TI_DONE && padded == 0, "no text into no room");
}

static void pad_fault(const char *text, ti_padding padding, size_t room, uint32_t fault, size_t told,
                      const char *words) {
    memset(out, '~', sizeof out);
    expect(pad_text(text, strlen(text), padding, room) == fault && padded == told, words);
    size_t kept = 0;
    while (kept < ROOM && out[kept] == '~') kept++;
    expect(kept == ROOM, "the room is kept");
}

static void test_padding_faults(void) {
    ti_padding padding = padding_of(1000, 1, 0, 0), greatest = padding_of(1000000, 65535, 0, 0);
    pad_fault("ab$<3>c", padding, 5, TI_OUT_TOO_SMALL, 6, "a room that is too small by one byte");
    pad_fault("ab$<3>c", padding, 0, TI_OUT_TOO_SMALL, 6, "no room");
    pads("ab$<3>c", padding, "ab", 3, "c");
    pad_fault("a", padding_of(1000001, 1, 0, 0), ROOM, TI_BAD_PADDING, 987654321, "a rate above the greatest");
    pad_fault("a", padding_of(1, 65536, 0, 0), ROOM, TI_BAD_PADDING, 987654321, "more lines than the most");
    pad_fault("a$<99999*>", greatest, ROOM, TI_TOO_MUCH, 6553434465001, "the longest delay");
    char *text = many("a", 75);
    memcpy(text, "$<67108.8>", 10);
    pad_fault(text, greatest, ROOM, TI_TOO_MUCH, 67108865, "one byte above the limit");
    text[74] = 0;
    pad_fault(text, greatest, ROOM, TI_OUT_TOO_SMALL, 67108864, "the longest padded text");
    free(text);
    text = many("$<99999*>", 2814900);
    pad_fault(text, greatest, ROOM, TI_TOO_MUCH, SIZE_MAX, "a length above the greatest size");
    free(text);
}

/* ---- sending */

static ti_terminal terminal;
static ti_sent sent;

static uint32_t send_text(const char *text, const ti_parameter *parameters, size_t count, size_t room) {
    size_t length = strlen(text);
    unsigned char *capability = copy_of(text, length);
    unsigned char *own = copy_of(out, room);
    memset(&sent, UNWRITTEN, sizeof sent);
    uint32_t answer = ti_send(capability, length, parameters, count, &terminal, own, room, &sent);
    memcpy(out, own, room);
    free(own);
    free(capability);
    return answer;
}

/* One text that is sent: what stands at the front of the room, and that no place is written. */
static void sends(const char *text, const ti_parameter *parameters, size_t count, const char *wanted, size_t length) {
    memset(out, '~', sizeof out);
    uint32_t answer = send_text(text, parameters, count, sizeof out);
    expect(answer == TI_DONE && sent.length == length && memcmp(out, wanted, length) == 0, text);
    expect(are_unwritten(&sent.place, sizeof sent.place), "no place after a text that is sent");
}

/* One text that is not sent: the fault and its place, the terminal and the length as they were, and the room too if it is kept. */
static void send_fault(const char *text, const ti_parameter *parameters, size_t count, size_t room, uint32_t fault, size_t place,
                       int keeps_room) {
    ti_terminal before = terminal;
    memset(out, '~', sizeof out);
    expect(send_text(text, parameters, count, room) == fault && sent.place == place, text);
    expect(are_unwritten(&sent.length, sizeof sent.length), "no length after a fault");
    expect(memcmp(&before.vars, &terminal.vars, sizeof before.vars) == 0, "the variables after a fault");
    expect(before.padding.rate == terminal.padding.rate && before.padding.affected_lines == terminal.padding.affected_lines
               && before.padding.xon == terminal.padding.xon && before.padding.pad == terminal.padding.pad,
           "the padding after a fault");
    expect(!keeps_room || are_unwritten(out, sizeof out), "the room after a fault");
}

/* UNWRITTEN in each byte of a number. */
static const size_t UNWRITTEN_PLACE = (size_t)-1 / 255 * UNWRITTEN;

static void test_sending(void) {
    ti_parameter at[2] = {ti_number(4), ti_number(9)}, marked = ti_text("a$<2>b", 6), ten[10];
    terminal = ti_terminal_at(0);
    sends(CUP, at, 2, E "[5;10H", 7);
    sends(E "[H$<5>" E "[J", NULL, 0, E "[H" E "[J", 6);
    sends("%p1%s", &marked, 1, "ab", 2);
    sends("", NULL, 0, "", 0);
    sends("$<x>$<100000>$", NULL, 0, "$<x>$<100000>$", 14);
    terminal = ti_terminal_at(1000);
    sends("a$<3>b", NULL, 0, "a\0\0\0b", 5);
    sends("%p1%s$<1>", &marked, 1, "a\0\0b\0", 5);
    sends("$<%p1%d>", at, 1, "\0\0\0\0", 4);
    terminal.padding = padding_of(1000, 2, 0, '!');
    sends("a$<2*>b", NULL, 0, "a!!!!b", 6);
    terminal.padding.xon = 1;
    sends("a$<2*>b$<2*/>", NULL, 0, "ab!!!!", 6);
    sends("%p1%Pa%p2%PZ", at, 2, "", 0);
    expect(terminal.vars.values[0] == 4 && terminal.vars.values[51] == 9, "variables that are set");
    sends("%ga%d,%gZ%d", NULL, 0, "4,9", 3);
    for (int i = 0; i < 10; i++) ten[i] = ti_number(i);
    terminal = ti_terminal_at(1000);
    for (int i = 0; i < 52; i++) terminal.vars.values[i] = i - 26;
    send_fault("%p1%Pa%z", ten, 1, ROOM, TI_UNKNOWN_ESCAPE, 6, 1);
    send_fault("%p1%d", ten, 10, ROOM, TI_TOO_MANY_PARAMETERS, UNWRITTEN_PLACE, 1);
    send_fault("%p1%Pb%p1%d", ten, 1, 10, TI_OUT_TOO_SMALL, 11, 1);
    send_fault("%p1%PA%{7}%Pzab$<3>c", ten, 1, 12, TI_OUT_TOO_SMALL, 13, 0);
    expect(send_text("%p1%PA%{7}%Pzab$<3>c", ten, 1, 13) == TI_DONE && sent.length == 6, "the room that is needed");
    expect(terminal.vars.values[25] == 7 && terminal.vars.values[26] == 0, "variables that are set once");
    send_fault("%p1%PAa$c", ten, 1, 5, TI_OUT_TOO_SMALL, 6, 0);
    send_fault("%p1%PAabc", ten, 1, 5, TI_OUT_TOO_SMALL, 6, 0);
    expect(send_text("%{8}%PAabc", ten, 1, 6) == TI_DONE && sent.length == 3 && terminal.vars.values[26] == 8, "the same without a mark");
    terminal.padding.rate = 1000001;
    send_fault("%p1%Pb%z", ten, 10, ROOM, TI_BAD_PADDING, UNWRITTEN_PLACE, 1);
    terminal.padding = padding_of(1000000, 65535, 0, 0);
    send_fault("%p1%Pb$<99999.9*>", ten, 1, ROOM, TI_TOO_MUCH, 6553493446500, 0);
    ti_terminal none = ti_terminal_at(0);
    expect(ti_send(NULL, 0, NULL, 0, &none, NULL, 0, &sent) == TI_DONE && sent.length == 0, "no text into no room");
}

/* Compiles a text and sends it over two numbers. */
static uint32_t send_compiled(const char *text, int32_t first, int32_t second, size_t count, size_t room) {
    int32_t numbers[10] = {first, second};
    size_t place;
    memset(&sent, UNWRITTEN, sizeof sent);
    expect(compile((const unsigned char *)text, strlen(text), &place) == TI_DONE, text);
    return ti_send_kept(&compiled, numbers, count, &terminal, out, room, &sent);
}

static void sends_compiled(const char *text, int32_t first, int32_t second, const char *wanted, size_t length) {
    uint32_t answer = send_compiled(text, first, second, 2, ROOM);
    expect(answer == TI_DONE && sent.length == length && memcmp(out, wanted, length) == 0, text);
    expect(are_unwritten(&sent.place, sizeof sent.place), "no place after a compiled text that is sent");
}

static void send_compiled_fault(const char *text, size_t count, size_t room, uint32_t fault, size_t place) {
    ti_terminal before = terminal;
    expect(send_compiled(text, 1, 0, count, room) == fault && sent.place == place, text);
    expect(are_unwritten(&sent.length, sizeof sent.length), "no length after a fault of a compiled text");
    expect(memcmp(&before.vars, &terminal.vars, sizeof before.vars) == 0, "the variables after a fault of a compiled text");
}

static void test_sending_compiled(void) {
    terminal = ti_terminal_at(0);
    sends_compiled(CUP, 4, 9, E "[5;10H", 7);
    sends_compiled("%?%p1%{8}%<%t3%p1%d%e9%;$<5>m", 3, 0, "33m", 3);
    sends_compiled("%?%p1%{8}%<%t3%p1%d%e9%;$<5>m", 12, 0, "9m", 2);
    sends_compiled("$<x>$", 0, 0, "$<x>$", 5);
    terminal = ti_terminal_at(1000);
    sends_compiled("a$<3>b", 0, 0, "a\0\0\0b", 5);
    sends_compiled("%p1%c<2>", '$', 0, "\0\0", 2);
    sends_compiled("%p1%c<2>", '#', 0, "#<2>", 4);
    sends_compiled("%p1%Pa%p2%PZ", 4, 9, "", 0);
    expect(terminal.vars.values[0] == 4 && terminal.vars.values[51] == 9, "variables that a compiled text sets");
    send_compiled_fault("%p1%Pa", 10, ROOM, TI_TOO_MANY_PARAMETERS, UNWRITTEN_PLACE);
    send_compiled_fault("%p1%Pb%p1%d", 1, 10, TI_OUT_TOO_SMALL, 11);
    send_compiled_fault("%p1%PA%{7}%Pzab$<3>c", 1, 12, TI_OUT_TOO_SMALL, 13);
    send_compiled_fault("%p1%PAabc", 1, 5, TI_OUT_TOO_SMALL, 6);
    expect(send_compiled("%{8}%PAabc", 0, 0, 0, 6) == TI_DONE && sent.length == 3 && terminal.vars.values[26] == 8, "the room that it needs");
    terminal.padding.rate = 1000001;
    send_compiled_fault("%p1%Pb", 10, 0, TI_BAD_PADDING, UNWRITTEN_PLACE);
    terminal.padding = padding_of(1000000, 65535, 0, 0);
    send_compiled_fault("%p1%Pb$<99999.9*>", 1, ROOM, TI_TOO_MUCH, 6553493446500);
}

/* ---- names as strings */

static void test_strings(void) {
    uint32_t kind;
    size_t index;
    expect(ti_find_name("cup", &kind, &index) == TI_DONE && kind == TI_TEXT && index == TI_CURSOR_ADDRESS, "a name as a string");
    expect(ti_find_name("nosuch", &kind, &index) == TI_NOT_NAMED, "a string that is no name");
}

int main(void) {
    draw();
    test_expansions();
    test_parameters();
    test_variables();
    test_expansion_faults();
    test_order_of_faults();
    test_compiled();
    test_compiled_conditionals();
    test_random_capabilities(0, "random capabilities do what their bytes do");
    test_random_capabilities(3, "and so do those with conditionals");
    test_not_compiled();
    test_compiled_faults();
    test_forged();
    test_checks();
    test_refusals();
    test_limits();
    test_reading();
    test_rooms();
    test_entry_faults();
    test_broken_entries();
    test_fresh_memory();
    test_encoding();
    test_encode_faults();
    test_views();
    test_view_items();
    test_view_names();
    test_view_faults();
    test_any_view();
    test_names();
    test_ends_of_names();
    test_finding();
    test_words();
    test_messages();
    test_padding();
    test_padding_faults();
    test_sending();
    test_sending_compiled();
    test_strings();
    expect(ti_version() == 1024, "version 0.4.0");
    printf("c: %d passed, %d failed\n", passed, failed);
    return failed != 0;
}
