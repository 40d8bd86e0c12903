/* ti.h: terminfo entries and their capabilities, for C and C++ on Linux for x86-64 and aarch64. Link with -lti, as ./install puts
 * it in place. It may be included beside <term.h>, in any order.
 *
 * An expansion may have delays, such as $<5>, which a terminal would show: ti_expand and ti_expand_kept write them as they
 * stand. ti_send and ti_send_kept expand and pad in one call, so what they write can be sent; ti_pad pads what was expanded.
 *
 * A call that returns a uint32_t returns TI_DONE or the number of a fault, but for ti_version. Nothing is
 * allocated, nothing is kept between calls, and any thread may call. The caller must pass valid pointers with correct
 * lengths: each pointer has as many elements as the length beside it says, and what is written overlaps no other argument.
 * A pointer may be null if its length is 0, the others not, but for the variables of ti_expand_kept. Memory that a call fills may
 * never have been written before; only ti_vars and ti_terminal are read first.
 * Lengths and places are in bytes. Capabilities are bytes as a compiled entry holds them: no NUL ends them, and escape is
 * the byte 27.
 *
 * A call writes only what its comment names. A place is written with its fault, and never after TI_DONE,
 * TI_ROOM_TOO_SMALL, TI_TOO_MANY_PARAMETERS and TI_BAD_PADDING.
 *
 * An entry is opened once; then the program takes what it needs. Its strings are pointers into its bytes. In the names of the
 * calls a flag is a boolean capability of terminfo(5), a number a numeric one, a text a string, and an extended one is
 * user-defined.
 *
 *     ti_view view;
 *     ti_bytes cup;
 *     ti_terminal terminal = ti_terminal_at(0);
 *     ti_parameter at[2] = {ti_number(4), ti_number(9)};
 *     unsigned char out[256];
 *     ti_sent sent;
 *     if (ti_open(file, file_length, &view) == TI_DONE && ti_view_text(&view, TI_CURSOR_ADDRESS, &cup) == 0
 *         && ti_send(cup.bytes, cup.length, at, 2, &terminal, out, sizeof out, &sent) == TI_DONE)
 *         fwrite(out, 1, sent.length, stdout);
 */
#ifndef TI_H
#define TI_H

#include <stddef.h>
#include <stdint.h>
#include <string.h>

#include "ti_names.h"

#ifdef __cplusplus
extern "C" {
#endif

/* C89 has no inline functions, but its compilers may have them under another name. */
#if defined(__cplusplus) || (defined(__STDC_VERSION__) && __STDC_VERSION__ >= 199901L)
#define TI_INLINE static inline
#elif defined(__GNUC__)
#define TI_INLINE static __inline__
#else
#define TI_INLINE static
#endif

/* The version of this header; ti_version() returns the version of the library. */
#define TI_VERSION 0x000400

enum {
    TI_DONE = 0,
    /* Faults of an entry (term(5)): the first check that does not hold. The place is where the item at fault is. */
    TI_TRUNCATED = 1,             /* the bytes end before a section does; the place is the length */
    TI_BAD_MAGIC = 2,             /* the first two bytes are neither 1a 01 nor 1e 02 */
    TI_BAD_HEADER = 3,            /* a size or a count of the header is negative */
    TI_HEADER_TOO_BIG = 4,        /* by its header the entry has more than 32768 bytes; the place is 0 */
    TI_BAD_NAMES = 5,             /* the names are empty, hold a NUL or do not end with one */
    TI_BAD_FLAG = 6,              /* a byte is no boolean */
    TI_BAD_PAD = 7,               /* the byte that brings the next section to an even place is not 0 */
    TI_BAD_NUMBER = 8,            /* a number is below -2 */
    TI_BAD_OFFSET = 9,            /* the offset of a string is below -2, or past its table */
    TI_UNTERMINATED = 10,         /* a string or a user-defined name runs to the end of its table with no NUL */
    TI_BAD_EXTENDED_HEADER = 11,  /* a size or a count of the extended header is negative */
    TI_EXTENDED_TOO_BIG = 12,     /* with its extended part the entry has more than 32768 bytes */
    TI_BAD_EXTENDED_NAME = 13,    /* the offset of a user-defined name is negative, or past its table */
    TI_TRAILING = 14,             /* bytes follow the end of the entry */
    /* Faults of a capability; the place is where the offending escape starts. */
    TI_TOO_LONG = 101,            /* more than 32767 bytes; the place is 32767 */
    TI_CUT_SHORT = 102,           /* the bytes end inside an escape */
    TI_UNKNOWN_ESCAPE = 103,      /* no escape starts with the byte after % */
    TI_BAD_PARAMETER = 104,       /* %p without a digit 1 to 9 */
    TI_BAD_VARIABLE = 105,        /* %P or %g without a letter */
    TI_BAD_CONSTANT = 106,        /* %'c' or %{n} that is not ended, or n above 2147483647 */
    TI_BAD_FORMAT = 107,          /* no conversion follows, or a width or precision is above 255 */
    TI_STRAY_THEN = 108,          /* %t while no conditional is open, or in a body */
    TI_STRAY_ELSE = 109,          /* %e while no conditional is open, or in an otherwise part */
    TI_STRAY_END = 110,           /* %; while no conditional is open */
    TI_NO_THEN = 111,             /* %e, %; or the end in a test that comes first; of the end the place is the length */
    TI_NEST_TOO_DEEP = 112,       /* more than 32 open conditionals */
    TI_STACK_TOO_DEEP = 113,      /* more than 32 values on the stack */
    /* Faults of an expansion. */
    TI_TOO_MANY_PARAMETERS = 201, /* more than nine; no place is written */
    TI_TEXT_TOO_LONG = 202,       /* a string of more than 32767 bytes; the place is its parameter, counted from 1 */
    TI_OUT_TOO_SMALL = 203,       /* less room than the capability's bound, or than the padded string; what is needed is written */
    TI_DOES_NOT_FIT = 204,        /* a capability that ti_compile does not take */
    TI_NO_VARIABLES = 205,        /* a compiled capability sets or gets a variable, and there are none */
    /* Faults of padding. */
    TI_BAD_PADDING = 301,         /* a rate above 1000000, or affected lines above 65535; no length is written */
    TI_TOO_MUCH = 302,            /* the padded string would have more than 67108864 bytes */
    /* Faults of a search, and of arrays. */
    TI_NOT_NAMED = 401,           /* nothing has this index, this name or this fault number */
    TI_ROOM_TOO_SMALL = 402,      /* an array has less room than the entry requires; ti_read writes the counts */
    /* Faults of an entry that is to be written; no place is written. */
    TI_BAD_NAME = 501,            /* the names are empty or hold a NUL, or a user-defined name holds one */
    TI_NUL_IN_TEXT = 502,         /* a string holds a NUL */
    TI_NUMBER_OUT_OF_RANGE = 503, /* a number is below -2, or with 16 bits above 32767 */
    TI_TOO_MANY_OR_LONG = 504     /* the entry would have more than 32768 bytes */
};

/* Marks of capabilities of each kind (term(5)). */
enum {
    TI_ABSENT = -1,
    TI_CANCELLED = -2
};

/* The kinds of capabilities. */
enum {
    TI_FLAG = 0,
    TI_NUMBER = 1,
    TI_TEXT = 2
};

/* Limits. No entry, and no call, needs more. */
enum {
    TI_MOST_BYTES = 32768,            /* of an entry */
    TI_MOST_FLAGS = 32768,            /* of an entry, standard and user-defined ones together, as ti_read fills its arrays */
    TI_MOST_NUMBERS = 16384,          /* the same */
    TI_MOST_TEXTS = 16384,            /* the same */
    TI_MOST_EXTENDED = 10923,         /* user-defined capabilities of an entry, each of which has a name */
    TI_MOST_CAPABILITY_BYTES = 32767, /* of a capability */
    TI_MOST_PARAMETERS = 9,           /* of an expansion */
    TI_MOST_TEXT_BYTES = 32767,       /* of a string among the parameters */
    TI_MOST_DEPTH = 32,               /* values on the stack of a capability */
    TI_MOST_NEST = 32,                /* conditionals of a capability that are open at once */
    TI_MOST_RATE = 1000000,           /* bytes per second */
    TI_MOST_AFFECTED_LINES = 65535,   /* of a padding */
    TI_MOST_PADDED_BYTES = 67108864   /* of a padded string */
};

/* Bytes that are lent. No NUL ends them, but for the names of ti_name, the words of ti_word and the sentences of ti_message. */
typedef struct {
    const unsigned char *bytes;
    size_t length;
} ti_bytes;

/* A string of an entry. If the mark is 0, it is there, and these are its bytes, possibly none. Otherwise the mark is TI_ABSENT
 * or TI_CANCELLED, and the length is 0. */
typedef struct {
    ti_bytes text;
    int8_t mark;
} ti_text_item;

/* The arrays that ti_read fills and ti_encode writes, each with how many elements it has. If every room is 0, ti_read writes only the
 * counts. */
typedef struct {
    int8_t *flags;
    size_t flag_room;
    int32_t *numbers;
    size_t number_room;
    ti_text_item *texts;
    size_t text_room;
    ti_bytes *names; /* of the user-defined booleans, then numeric ones, then strings */
    size_t name_room;
} ti_arrays;

/* The names of an entry and how many capabilities it has, or where its fault is. */
typedef struct {
    ti_bytes names; /* separated by |, in the entry's bytes */
    size_t flags;
    size_t numbers;
    size_t texts;
    size_t extended_flags;
    size_t extended_numbers;
    size_t extended_texts;
    uint32_t number_bits; /* how wide its numbers are: 16 or 32 */
    size_t place;         /* of a fault */
} ti_counts;

/* An entry that was opened: what ti_open fills, and the calls of a view take. It may be copied and moved, but must not be
 * changed, and the bytes must stay as they are and where they are. */
typedef struct {
    ti_counts counts; /* with the names, or where the fault is */
    ti_bytes bytes;   /* those that were opened */
    size_t base;      /* for the calls alone */
} ti_view;

/* What an entry says of a capability. */
typedef struct {
    ti_bytes text;  /* the bytes of a string that is there, else none */
    int32_t number; /* 1, 0 or a mark of a boolean, the value or the mark of a numeric one, 0 or the mark of a string */
    uint32_t kind;  /* TI_FLAG, TI_NUMBER or TI_TEXT */
} ti_value;

/* A parameter: the number if is_text is 0, otherwise the string. A missing parameter is the number 0. */
typedef struct {
    ti_bytes text;
    int32_t number;
    uint8_t is_text;
} ti_parameter;

/* The variables a to z, then A to Z. Start with zeros; each expansion goes on with what the one before left. */
typedef struct {
    int32_t values[52];
} ti_vars;

/* The most that a capability needs, and its parameters, or where its fault is. */
typedef struct {
    size_t depth;   /* values on the stack */
    size_t nest;    /* conditionals that are open at once */
    uint64_t bound; /* bytes of output */
    size_t place;   /* of a fault */
    uint16_t named; /* the parameters that it names, by %p1 to %p9: bit N - 1 is for parameter N */
    uint16_t texts; /* those that it takes as strings, by %s or %l */
} ti_limits;

/* How an expansion went, or where its fault is. */
typedef struct {
    size_t written; /* bytes of output; the rest of the room is as it was */
    size_t ran;     /* tokens (plain bytes and escapes) that ran */
    size_t passed;  /* tokens that were passed over, in the parts of conditionals that were not taken */
    size_t peak;    /* the most values that were on the stack */
    size_t place;   /* of a fault */
} ti_run;

/* A step of a compiled capability. */
typedef struct {
    uint8_t kind;
    uint8_t small;
    uint16_t place;
    int32_t number;
} ti_step;

/* A compiled capability. It may be copied and moved. It is not for files: another version may have other steps. */
typedef struct {
    ti_bytes bytes;    /* the capability */
    uint64_t bound;    /* bytes of output, at most */
    uint32_t count;    /* steps */
    uint16_t marked;   /* 1 if $<, with which each delay starts, stands in the bytes, else 0 */
    uint16_t varied;   /* 1 if it sets or gets a variable, else 0 */
    ti_step steps[96]; /* the steps, of which the first count */
} ti_kept;

/* How a string is padded. */
typedef struct {
    uint32_t rate;           /* of the line, in bytes per second, at most 1000000; with 0 there are no pad bytes */
    uint32_t affected_lines; /* at most 65535: a mark with a * pads for each of them, so with 0 it pads nothing */
    uint8_t xon;             /* not 0 if the terminal has flow control: then only a mark with a / is padded */
    uint8_t pad;             /* the pad byte; 0 in nearly all terminals */
} ti_padding;

/* What lasts from one string to the next: how the line to a terminal pads, and the variables of its capabilities. */
typedef struct {
    ti_padding padding;
    ti_vars vars;
} ti_terminal;

/* What is to be sent, or where the fault is. */
typedef struct {
    size_t length; /* bytes at the front of the room */
    size_t place;  /* of a fault */
} ti_sent;

/* Opens a compiled entry, which has to be all of the bytes, for the calls that follow. Nothing is copied.
 *
 * TI_DONE: the view is written, but for the place of its counts.
 * 1 to 14: the bytes are no entry; view->counts.place says where. Nothing else is written.
 *
 * The view holds pointers into the bytes. A Go program must therefore pin them or keep them in C memory. */
uint32_t ti_open(const unsigned char *bytes, size_t length, ti_view *view);

/* What the entry of a view says of the standard boolean, numeric capability or string at an index, such as TI_AUTO_RIGHT_MARGIN,
 * TI_MAX_COLORS or TI_CURSOR_ADDRESS. A boolean is 1 or 0, or one of the marks; one that the entry is too short for is 0. A
 * numeric capability is its value, from 0, or one of the marks. Of a string that is there 0 is returned, and its bytes are
 * written; otherwise one of the marks is returned, and the place for the string is as it was.
 *
 *     int32_t colors = ti_view_number(&view, TI_MAX_COLORS); */
int8_t ti_view_flag(const ti_view *view, size_t index);
int32_t ti_view_number(const ti_view *view, size_t index);
int8_t ti_view_text(const ti_view *view, size_t index, ti_bytes *text);

/* Finds what the entry of a view says of the capability with a name: a short name of terminfo(5), such as "cup", else a long
 * one, such as "cursor_address", else the first name equal to it among the user-defined ones: booleans, numeric ones, strings.
 * TI_DONE with the value, which has a mark if the entry lacks a standard capability, or TI_NOT_NAMED, and the value is as it
 * was.
 *
 *     ti_value clipboard;
 *     if (ti_view_find_name(&view, "Ms", &clipboard) == TI_DONE && clipboard.kind == TI_TEXT && clipboard.number == 0)
 *         fault = ti_check(clipboard.text.bytes, clipboard.text.length, 1000, &limits);
 *
 * ti_view_find_name takes the name as a string of C. */
uint32_t ti_view_find(const ti_view *view, const unsigned char *name, size_t length, ti_value *value);

TI_INLINE uint32_t ti_view_find_name(const ti_view *view, const char *name, ti_value *value) {
    return ti_view_find(view, (const unsigned char *)name, strlen(name), value);
}

/* Finds the name and the value of a user-defined capability of a kind by its index, from 0 to below the count in view->counts:
 * TI_DONE with both, or TI_NOT_NAMED, and both are as they were. */
uint32_t ti_view_extended(const ti_view *view, uint32_t kind, size_t index, ti_bytes *name, ti_value *value);

/* Finds the capability at a place of the list of all: the standard booleans, numeric ones and strings, and then the user-defined
 * ones. TI_DONE with its value, its name, and 1 in extended if the entry names it itself, else 0; or TI_NOT_NAMED at and past the
 * end, and all three are as they were. A standard capability has its short name, as ti_name finds it, or none. Those that are
 * absent or cancelled are in the list too, and have a mark; an absent boolean is 0.
 *
 *     for (size_t place = 0; ti_view_item(&view, place, &name, &extended, &value) == TI_DONE; place++)
 *         if (value.kind == TI_TEXT && value.number == 0)
 *             printf("%.*s\n", (int)name.length, (const char *)name.bytes); */
uint32_t ti_view_item(const ti_view *view, size_t place, ti_bytes *name, uint32_t *extended, ti_value *value);

/* Reads a compiled entry, which has to be all of the bytes, into four arrays: for those who want all capabilities at once.
 *
 * TI_DONE: the arrays start with the booleans, the numeric capabilities and the strings, in each the standard ones by their index
 * and after them the user-defined ones, and with the names of these: booleans, then numeric ones, then strings. A boolean is 1 or
 * 0, or one of the marks; a numeric capability is its value, from 0, or one of the marks. Strings and names point into the
 * entry's bytes. The rest of an array stays as it was. Of the ti_counts all is written but the place.
 * 1 to 14: the bytes are no entry; the place says where. Nothing else is written.
 * TI_ROOM_TOO_SMALL: an array has fewer elements than that. The ti_counts is written as after TI_DONE, so you can call once with
 * no room to learn the counts. The arrays are as they were.
 *
 * Room for TI_MOST_FLAGS, TI_MOST_NUMBERS, TI_MOST_TEXTS and TI_MOST_EXTENDED is always enough. The ti_arrays itself is as it
 * was after each call.
 *
 * Afterwards the arrays and the ti_counts hold pointers to the entry's bytes, which must stay where they are. A Go program
 * must therefore pin them or keep them in C memory. */
uint32_t ti_read(const unsigned char *bytes, size_t length, ti_arrays *arrays, ti_counts *counts);

/* Writes a compiled entry of what ti_read fills, the names and the counts of the ti_counts and as many items of the arrays, with
 * numbers of 32 bits if number_bits is 32, and of 16 otherwise. No number is cut: one that 16 bits do not hold is a fault. The strings
 * follow each other in their order, each with its NUL, and none is shared, so equal items give equal bytes.
 *
 * TI_DONE: the room starts with the entry, and its length is written. ti_read reads the same items of it. The rest of the room is as
 * it was.
 * Otherwise the first fault in this order is returned, and the room is as it was:
 * TI_ROOM_TOO_SMALL: an array has fewer elements than the counts say.
 * TI_BAD_NAME, TI_NUL_IN_TEXT, TI_NUMBER_OUT_OF_RANGE, TI_TOO_MANY_OR_LONG: the items are those of no entry.
 * TI_OUT_TOO_SMALL: the room has fewer bytes than the entry. Its length is written, so you can call once with no room to learn it.
 *
 * Room for TI_MOST_BYTES is always enough. A boolean other than 0 and the marks is written as 1, and a string with another mark than 0
 * and TI_CANCELLED as absent. Of a string that is not there no bytes are looked at.
 *
 *     unsigned char out[TI_MOST_BYTES];
 *     size_t written;
 *     if (ti_read(file, length, &arrays, &counts) == TI_DONE) {
 *         if (counts.numbers > TI_MAX_COLORS) numbers[TI_MAX_COLORS] = 256;
 *         if (ti_encode(&arrays, &counts, counts.number_bits, out, sizeof out, &written) == TI_DONE)
 *             fwrite(out, 1, written, stdout);
 *     } */
uint32_t ti_encode(const ti_arrays *arrays, const ti_counts *counts, uint32_t number_bits, unsigned char *out, size_t room,
                   size_t *written);

/* Checks a capability. TI_DONE: all but the place is written, and the place is as it was. 101 to 113: the place alone
 * is written. longest_text is the length of the longest string among the parameters, 0 if all are numbers; ti_expand needs
 * room for bound bytes. The masks are exact: a bit is set if some way through the conditionals names the parameter, or takes
 * its value as a string. So you can compare an untrusted capability with the parameters that you pass.
 *
 *     ti_limits limits;
 *     if (ti_check(cup, cup_length, 0, &limits) != TI_DONE)
 *         fprintf(stderr, "fault at byte %zu\n", limits.place);
 *     else if (limits.texts & 1)
 *         fprintf(stderr, "its first parameter has to be a string\n");
 *     else
 *         room = malloc(limits.bound); */
uint32_t ti_check(const unsigned char *capability, size_t length, uint16_t longest_text, ti_limits *limits);

/* Expands a capability. Delays, such as $<5>, are written as they stand: pad the output before it is sent, or call ti_send.
 *
 * TI_DONE: the room starts with the output, the variables are those that the capability leaves, and the counts are
 * written. The place and the rest of the room are as they were.
 * Otherwise the first fault in this order is returned, and the output, the variables and the counts are as they were:
 * TI_TOO_MANY_PARAMETERS: nothing is written at all.
 * 101 to 113: the bytes are no capability; the place says where.
 * TI_TEXT_TOO_LONG: the place is the first parameter whose string is too long, counted from 1.
 * TI_OUT_TOO_SMALL: the place is the room that is needed, the bound for the longest string among the parameters. */
uint32_t ti_expand(const unsigned char *capability, size_t length, const ti_parameter *parameters, size_t count,
                   ti_vars *vars, unsigned char *out, size_t room, ti_run *run);

/* Compiles a capability, so that ti_expand_kept and ti_send_kept can expand it many times over numbers.
 *
 * TI_DONE: the ti_kept is written, and the place is as it was.
 * 101 to 113: the bytes are no capability; the place says where. The ti_kept is as it was.
 * TI_DOES_NOT_FIT: nothing is written. The capability takes a string (by %s or %l), needs more than 8 values on the stack or more
 * than 96 steps, each of which is an escape or a run of up to 255 plain bytes. Expand it with ti_expand.
 *
 * The ti_kept holds a pointer to the bytes, which must stay where they are and as they are. A Go program must therefore pin them
 * or keep them in C memory. */
uint32_t ti_compile(const unsigned char *capability, size_t length, ti_kept *kept, size_t *place);

/* What ti_expand_kept calls, with variables and without, for languages that have no inline functions of C. */
uint32_t ti_expand_kept_over(const ti_kept *kept, const int32_t *parameters, size_t count, ti_vars *vars, unsigned char *out,
                             size_t room, size_t *written);
uint32_t ti_expand_kept_alone(const ti_kept *kept, const int32_t *parameters, size_t count, unsigned char *out, size_t room,
                              size_t *written);

/* Expands a compiled capability over numbers, and may write over all of the room. What it writes, and the variables afterwards,
 * are those of ti_expand for the same numbers. A missing parameter is 0. vars may be null if kept->varied is 0.
 *
 * TI_DONE: the room starts with the output, and its length is written. What the rest of the room holds is left open.
 * TI_TOO_MANY_PARAMETERS: more than nine; nothing is written.
 * TI_NO_VARIABLES: vars is null, and kept->varied is not 0; nothing is written.
 * TI_OUT_TOO_SMALL: less room than kept->bound; nothing is written.
 *
 * If the ti_kept was changed, or was never compiled, the output may be wrong, but nothing is written past the room.
 *
 *     typedef struct {
 *         ti_kept kept;
 *         ti_bytes bytes;
 *         int fits;
 *     } text;
 *
 *     uint32_t compile(text *t) {
 *         size_t place;
 *         uint32_t fault = ti_compile(t->bytes.bytes, t->bytes.length, &t->kept, &place);
 *         t->fits = fault == TI_DONE;
 *         return fault == TI_DOES_NOT_FIT ? TI_DONE : fault;
 *     }
 *
 *     uint32_t expand(const text *t, const int32_t *numbers, size_t count, ti_vars *vars, unsigned char *out, size_t room,
 *                     size_t *written) {
 *         ti_parameter parameters[TI_MOST_PARAMETERS];
 *         ti_vars zeros = {{0}};
 *         ti_run run;
 *         uint32_t fault;
 *         if (t->fits) return ti_expand_kept(&t->kept, numbers, count, vars, out, room, written);
 *         if (count > TI_MOST_PARAMETERS) return TI_TOO_MANY_PARAMETERS;
 *         for (size_t i = 0; i < count; i++) parameters[i] = ti_number(numbers[i]);
 *         fault = ti_expand(t->bytes.bytes, t->bytes.length, parameters, count, vars ? vars : &zeros, out, room, &run);
 *         if (fault == TI_DONE) *written = run.written;
 *         return fault;
 *     } */
TI_INLINE uint32_t ti_expand_kept(const ti_kept *kept, const int32_t *parameters, size_t count, ti_vars *vars,
                                      unsigned char *out, size_t room, size_t *written) {
    return vars != NULL ? ti_expand_kept_over(kept, parameters, count, vars, out, room, written)
                        : ti_expand_kept_alone(kept, parameters, count, out, room, written);
}

/* Pads a string, such as the output of ti_expand: each delay, such as $<5> (terminfo(5), "Delays and Padding"),
 * becomes the smallest number of pad bytes that takes its time.
 *
 * TI_DONE: the room starts with the padded string, and its length is written. The rest of the room is as it was.
 * TI_BAD_PADDING: the rate or the lines are above their limits. No length is written, and the room is as it was.
 * TI_TOO_MUCH, TI_OUT_TOO_SMALL: the length that the padded string would have is written, or SIZE_MAX if it is greater
 * still, so you can call once with no room to learn the length. The room is as it was.
 *
 *     ti_padding padding = ti_padding_at(960);
 *     size_t padded;
 *     if (ti_pad(out, run.written, &padding, more, sizeof more, &padded) == TI_DONE)
 *         fwrite(more, 1, padded, stdout); */
uint32_t ti_pad(const unsigned char *text, size_t length, const ti_padding *padding, unsigned char *out, size_t room,
                size_t *padded);

/* Expands a capability and pads its output, the delays of strings among its parameters too, so that what it writes can be sent.
 *
 * TI_DONE: the room starts with what is to be sent, and its length is written. The variables of the terminal are those that the
 * capability leaves. What the rest of the room holds is left open.
 * Otherwise the first fault in this order is returned, the terminal and the length are as they were, and the place alone is
 * written; but after TI_TOO_MUCH and TI_OUT_TOO_SMALL it is left open what the room holds:
 * TI_BAD_PADDING, TI_TOO_MANY_PARAMETERS: no place is written.
 * 101 to 113, TI_TEXT_TOO_LONG: the place is that of ti_expand.
 * TI_OUT_TOO_SMALL: the place is the room that the expansion requires, its bound.
 * TI_TOO_MUCH: the place is the length that the padded string would have, or SIZE_MAX if it is greater still.
 * TI_OUT_TOO_SMALL: the place is the room for the output and the padded string, one after the other.
 *
 * Twice the bound is room enough if no mark becomes longer, as at the rate 0. Otherwise make the room as large as the place says,
 * and call again, twice at most.
 *
 *     ti_terminal terminal = ti_terminal_at(960);
 *     while ((fault = ti_send(text.bytes, text.length, NULL, 0, &terminal, out, room, &sent)) == TI_OUT_TOO_SMALL) {
 *         free(out);
 *         out = malloc(room = sent.place);
 *     } */
uint32_t ti_send(const unsigned char *capability, size_t length, const ti_parameter *parameters, size_t count,
                 ti_terminal *terminal, unsigned char *out, size_t room, ti_sent *sent);

/* Expands a compiled capability over numbers and pads its output. What it returns and writes is what ti_send returns and writes
 * for the same numbers, but for the rest of the room. A missing parameter is 0.
 *
 * TI_DONE: the room starts with what is to be sent, and its length is written.
 * TI_BAD_PADDING, TI_TOO_MANY_PARAMETERS: no place is written.
 * TI_OUT_TOO_SMALL: the place is kept->bound, or then the room for the output and the padded string, one after the other.
 * TI_TOO_MUCH: the place is the length that the padded string would have, or SIZE_MAX if it is greater still.
 * After a fault the terminal and the length are as they were.
 *
 * If the ti_kept was changed, or was never compiled, what is sent may be wrong, but nothing is written past the room.
 *
 *     ti_terminal terminal = ti_terminal_at(960);
 *     const int32_t at[2] = {4, 9};
 *     if (ti_send_kept(&kept, at, 2, &terminal, out, sizeof out, &sent) == TI_DONE)
 *         fwrite(out, 1, sent.length, stdout); */
uint32_t ti_send_kept(const ti_kept *kept, const int32_t *parameters, size_t count, ti_terminal *terminal, unsigned char *out,
                      size_t room, ti_sent *sent);

/* Finds the short name of a boolean, a numeric capability or a string (TI_FLAG, TI_NUMBER, TI_TEXT) by its index, among all names
 * of the header term.h of ncurses 6.4, which are 44, 39 and 414: TI_DONE with the name, which lasts as long as the program,
 * or TI_NOT_NAMED, and the name is as it was. After the bytes of the name there is a NUL, which its length does not count, so
 * %s prints it. ti_name(TI_TEXT, TI_CURSOR_ADDRESS, &name) finds "cup". */
uint32_t ti_name(uint32_t kind, size_t index, ti_bytes *name);

/* Finds the kind and the index of the capability with a name among these: TI_DONE with both, as ti_name takes them, or
 * TI_NOT_NAMED, and both are as they were. For "cup" they are TI_TEXT and TI_CURSOR_ADDRESS. ti_view_find finds the names
 * of user-defined capabilities too, and ti_view_item lists all of an entry. ti_find_name takes the name as a string of C. */
uint32_t ti_find(const unsigned char *name, size_t length, uint32_t *kind, size_t *index);

TI_INLINE uint32_t ti_find_name(const char *name, uint32_t *kind, size_t *index) {
    return ti_find((const unsigned char *)name, strlen(name), kind, index);
}

/* Finds the word of a fault by its number, to be printed: TI_DONE with the word, which lasts as long as the program, or
 * TI_NOT_NAMED, and the word is as it was. After the word there is a NUL, as after a name of ti_name. The word of
 * TI_STRAY_THEN is "StrayThen". ti(1) prints the same words for 1 to 14, 101 to 113, 501 to 504, TI_TEXT_TOO_LONG and
 * TI_TOO_MUCH; the words of the other faults are their names without TI_, such as "OutTooSmall".
 *
 *     if (ti_word(fault, &word) == TI_DONE)
 *         fprintf(stderr, "%s\n", (const char *)word.bytes); */
uint32_t ti_word(uint32_t number, ti_bytes *word);

/* Finds the sentence of a fault by its number, which says to a person what is wrong: TI_DONE with the sentence, which lasts as
 * long as the program, or TI_NOT_NAMED, and the message is as it was. No full stop stands at its end, but a NUL, as after a word.
 * The sentence of TI_BAD_MAGIC is "the first two bytes are those of no compiled entry".
 *
 * ti_reason returns it as a string of C, which is empty if no fault has the number.
 *
 *     fprintf(stderr, "%s: %s\n", path, ti_reason(fault)); */
uint32_t ti_message(uint32_t number, ti_bytes *message);

TI_INLINE const char *ti_reason(uint32_t number) {
    ti_bytes message = {(const unsigned char *)"", 0};
    (void)ti_message(number, &message);
    return (const char *)message.bytes;
}

/* The version of the library: 65536 times its first number, 256 times its second, and its third. For 0.4.0 it is 1024. */
uint32_t ti_version(void);

TI_INLINE ti_parameter ti_number(int32_t number) {
    ti_parameter parameter = {{NULL, 0}, 0, 0};
    parameter.number = number;
    return parameter;
}

TI_INLINE ti_parameter ti_text(const void *bytes, size_t length) {
    ti_parameter parameter = {{NULL, 0}, 0, 1};
    parameter.text.bytes = (const unsigned char *)bytes;
    parameter.text.length = length;
    return parameter;
}

/* How to pad for a line of this rate, for one affected line, without flow control and with NULs. At the rate 0 marks vanish. */
TI_INLINE ti_padding ti_padding_at(uint32_t rate) {
    ti_padding padding = {0, 1, 0, 0};
    padding.rate = rate;
    return padding;
}

/* A terminal whose line has this rate, padded so, and whose variables are 0. */
TI_INLINE ti_terminal ti_terminal_at(uint32_t rate) {
    ti_terminal terminal = {{0, 1, 0, 0}, {{0}}};
    terminal.padding.rate = rate;
    return terminal;
}

/* The layouts that the library was built with. */
#if defined(__cplusplus) && __cplusplus >= 201103L
#define TI_LAYOUT(holds) static_assert(holds, "layout")
#elif defined(__STDC_VERSION__) && __STDC_VERSION__ >= 201112L
#define TI_LAYOUT(holds) _Static_assert(holds, "layout")
#endif
#ifdef TI_LAYOUT
TI_LAYOUT(sizeof(ti_bytes) == 16 && offsetof(ti_bytes, bytes) == 0 && offsetof(ti_bytes, length) == 8);
TI_LAYOUT(sizeof(ti_text_item) == 24 && offsetof(ti_text_item, text) == 0 && offsetof(ti_text_item, mark) == 16);
TI_LAYOUT(sizeof(ti_arrays) == 64 && offsetof(ti_arrays, flags) == 0 && offsetof(ti_arrays, flag_room) == 8);
TI_LAYOUT(offsetof(ti_arrays, numbers) == 16 && offsetof(ti_arrays, number_room) == 24);
TI_LAYOUT(offsetof(ti_arrays, texts) == 32 && offsetof(ti_arrays, text_room) == 40);
TI_LAYOUT(offsetof(ti_arrays, names) == 48 && offsetof(ti_arrays, name_room) == 56);
TI_LAYOUT(sizeof(ti_counts) == 80 && offsetof(ti_counts, names) == 0 && offsetof(ti_counts, flags) == 16);
TI_LAYOUT(offsetof(ti_counts, numbers) == 24 && offsetof(ti_counts, texts) == 32);
TI_LAYOUT(offsetof(ti_counts, extended_flags) == 40 && offsetof(ti_counts, extended_numbers) == 48);
TI_LAYOUT(offsetof(ti_counts, extended_texts) == 56 && offsetof(ti_counts, number_bits) == 64);
TI_LAYOUT(offsetof(ti_counts, place) == 72);
TI_LAYOUT(sizeof(ti_view) == 104 && offsetof(ti_view, counts) == 0 && offsetof(ti_view, bytes) == 80);
TI_LAYOUT(offsetof(ti_view, base) == 96);
TI_LAYOUT(sizeof(ti_value) == 24 && offsetof(ti_value, text) == 0 && offsetof(ti_value, number) == 16);
TI_LAYOUT(offsetof(ti_value, kind) == 20);
TI_LAYOUT(sizeof(ti_parameter) == 24 && offsetof(ti_parameter, text) == 0);
TI_LAYOUT(offsetof(ti_parameter, number) == 16 && offsetof(ti_parameter, is_text) == 20);
TI_LAYOUT(sizeof(ti_vars) == 208 && offsetof(ti_vars, values) == 0);
TI_LAYOUT(sizeof(ti_limits) == 40 && offsetof(ti_limits, depth) == 0 && offsetof(ti_limits, nest) == 8);
TI_LAYOUT(offsetof(ti_limits, bound) == 16 && offsetof(ti_limits, place) == 24);
TI_LAYOUT(offsetof(ti_limits, named) == 32 && offsetof(ti_limits, texts) == 34);
TI_LAYOUT(sizeof(ti_run) == 40 && offsetof(ti_run, written) == 0 && offsetof(ti_run, ran) == 8);
TI_LAYOUT(offsetof(ti_run, passed) == 16 && offsetof(ti_run, peak) == 24 && offsetof(ti_run, place) == 32);
TI_LAYOUT(sizeof(ti_step) == 8 && offsetof(ti_step, kind) == 0 && offsetof(ti_step, small) == 1);
TI_LAYOUT(offsetof(ti_step, place) == 2 && offsetof(ti_step, number) == 4);
TI_LAYOUT(sizeof(ti_kept) == 800 && offsetof(ti_kept, bytes) == 0 && offsetof(ti_kept, bound) == 16);
TI_LAYOUT(offsetof(ti_kept, count) == 24 && offsetof(ti_kept, marked) == 28 && offsetof(ti_kept, varied) == 30);
TI_LAYOUT(offsetof(ti_kept, steps) == 32);
TI_LAYOUT(sizeof(ti_padding) == 12 && offsetof(ti_padding, rate) == 0 && offsetof(ti_padding, affected_lines) == 4);
TI_LAYOUT(offsetof(ti_padding, xon) == 8 && offsetof(ti_padding, pad) == 9);
TI_LAYOUT(sizeof(ti_terminal) == 220 && offsetof(ti_terminal, padding) == 0 && offsetof(ti_terminal, vars) == 12);
TI_LAYOUT(sizeof(ti_sent) == 16 && offsetof(ti_sent, length) == 0 && offsetof(ti_sent, place) == 8);
#undef TI_LAYOUT
#endif

#ifdef __cplusplus
}
#endif

#endif
