/* The module mogyarsu._ti: the calls of libti for Python 3.11 and later, on its stable ABI. _compiled.py beside it adds what is written
 * in Python, and hands over the classes that are needed here.
 *
 * Bytes that a call of the library reads are those of an object that nobody can change and that is held meanwhile: they are copied if
 * they are not bytes. Python code can run while arguments are converted, so nothing is read before that which it could change after. No call
 * lets other threads run, since each takes less time than that.
 */
#define Py_LIMITED_API 0x030b0000
#define PY_SSIZE_T_CLEAN
#include <Python.h>

#include "ti.h"

/* The room of most outputs. A longer one is written into memory that is taken for it. */
enum { ROOM = 1024 };

/* Fault and Variables of _compiled.py. */
static PyObject *fault_class, *variables_class;

/* ---- what is wrong */

/* Raises TypeError: what is wanted, and the type of the value in its place. */
static void raise_type(const char *argument, const char *wanted, PyObject *value) {
    PyObject *name = PyType_GetName(Py_TYPE(value));
    if (name == NULL) return;
    PyErr_Format(PyExc_TypeError, "%s: %s wanted, and this is a %U", argument, wanted, name);
    Py_DECREF(name);
}

/* Raises the fault with a number, and returns NULL. */
static PyObject *raise_fault(const char *argument, uint32_t number, PyObject *place) {
    PyObject *fault = place == NULL ? NULL : PyObject_CallFunction(fault_class, "sIO", argument, (unsigned)number, place);
    if (fault != NULL) PyErr_SetObject(fault_class, fault);
    Py_XDECREF(fault);
    Py_XDECREF(place);
    return NULL;
}

static PyObject *no_place(void) { return Py_NewRef(Py_None); }

/* Raises the fault of an expansion, with the argument at which it is. */
static PyObject *raise_expansion(uint32_t number, size_t place) {
    char argument[32];
    if (number == TI_TOO_MANY_PARAMETERS) return raise_fault("parameters", number, no_place());
    if (number >= TI_BAD_PADDING) return raise_fault("padding", number, no_place());
    if (number != TI_TEXT_TOO_LONG) return raise_fault("capability", number, PyLong_FromSize_t(place));
    PyOS_snprintf(argument, sizeof argument, "parameter %zu", place);
    return raise_fault(argument, number, PyLong_FromSize_t(place));
}

/* ---- arguments */

/* The bytes of an argument, which is no str and no number; what a class says of their length does not count. */
static PyObject *bytes_of(const char *argument, PyObject *value) {
    if (PyBytes_CheckExact(value)) return Py_NewRef(value);
    if (PyBytes_Check(value)) return PyBytes_FromStringAndSize(PyBytes_AsString(value), PyBytes_Size(value));
    if (PyByteArray_Check(value) || PyMemoryView_Check(value)) return PyBytes_FromObject(value);
    raise_type(argument, "bytes are", value);
    return NULL;
}

/* The bytes of a name or of a string among parameters; those of a str are UTF-8, as Python has the names of files. */
static PyObject *text_of(const char *argument, PyObject *value, const char *wanted) {
    PyObject *bytes;
    if (PyBytes_Check(value) || PyByteArray_Check(value) || PyMemoryView_Check(value)) return bytes_of(argument, value);
    if (!PyUnicode_Check(value)) {
        raise_type(argument, wanted, value);
        return NULL;
    }
    bytes = PyUnicode_AsEncodedString(value, "utf-8", "surrogateescape");
    if (bytes == NULL && PyErr_ExceptionMatches(PyExc_UnicodeEncodeError)) {
        PyErr_Clear();
        PyErr_Format(PyExc_ValueError, "%s: a surrogate is in it, which has no bytes in UTF-8", argument);
    }
    return bytes;
}

static const unsigned char *start_of(PyObject *bytes) { return (const unsigned char *)PyBytes_AsString(bytes); }

static size_t length_of(PyObject *bytes) { return (size_t)PyBytes_Size(bytes); }

/* Whether an int lies between two numbers, and then its value. */
static int fits(PyObject *value, long long least, long long most, long long *number) {
    int overflow;
    *number = PyLong_AsLongLongAndOverflow(value, &overflow);
    return !overflow && least <= *number && *number <= most;
}

/* A number for C; -1 after ValueError or TypeError. */
static int number_of(const char *argument, PyObject *value, long long least, long long most, long long *number) {
    PyObject *shown;
    if (!PyLong_Check(value)) {
        raise_type(argument, "a number is", value);
        return -1;
    }
    if (fits(value, least, most, number)) return 0;
    if ((shown = PyNumber_Index(value)) == NULL) return -1;
    PyErr_Format(PyExc_ValueError, "%s: %S is not between %lld and %lld", argument, shown, least, most);
    Py_DECREF(shown);
    return -1;
}

/* The positional arguments of a call, as a tuple or as an array. */
struct words {
    PyObject *tuple;
    PyObject *const *array;
    Py_ssize_t first, end;
};

static PyObject *word_at(const struct words *words, Py_ssize_t place) {
    return words->tuple != NULL ? PyTuple_GetItem(words->tuple, place) : words->array[place];
}

/* The parameters of an expansion, of which more than ten are ten to the library, and the texts into which they point. */
struct given {
    ti_parameter parameters[TI_MOST_PARAMETERS + 1];
    PyObject *held[TI_MOST_PARAMETERS + 1];
    size_t count;
};

static void drop(struct given *given) {
    for (size_t i = 0; i < given->count; i++) Py_XDECREF(given->held[i]);
}

/* Takes a parameter, counted from 1; -1 after an exception. */
static int take_one(struct given *given, Py_ssize_t place, PyObject *value) {
    char argument[32];
    long long number;
    PyObject *text;
    size_t last = place <= TI_MOST_PARAMETERS ? (size_t)place - 1 : TI_MOST_PARAMETERS;
    if (given->count == last) given->held[given->count++] = NULL;
    if (PyLong_Check(value) && fits(value, INT32_MIN, INT32_MAX, &number)) {
        given->parameters[last] = ti_number((int32_t)number);
        return 0;
    }
    PyOS_snprintf(argument, sizeof argument, "parameter %zd", place);
    if (PyLong_Check(value)) return number_of(argument, value, INT32_MIN, INT32_MAX, &number);
    if ((text = text_of(argument, value, "an int, a str or bytes are")) == NULL) return -1;
    Py_XDECREF(given->held[last]);
    given->held[last] = text;
    given->parameters[last] = ti_text(start_of(text), length_of(text));
    return 0;
}

/* Raises TypeError if the capability takes a string only as a number. A fault of it is that of the call that follows. */
static int refuse_texts(PyObject *capability, const struct given *given) {
    ti_limits limits;
    size_t texts = 0;
    for (size_t i = 0; i < given->count; i++) texts += given->held[i] != NULL;
    if (texts == 0 || ti_check(start_of(capability), length_of(capability), 0, &limits) != TI_DONE) return 0;
    for (size_t i = 0; i < given->count && i < TI_MOST_PARAMETERS; i++)
        if (given->held[i] != NULL && (limits.named & ~limits.texts) >> i & 1) {
            PyErr_Format(PyExc_TypeError, "parameter %zd: the capability takes an int, and this is a string", (Py_ssize_t)i + 1);
            return -1;
        }
    return 0;
}

/* Takes all parameters; -1 after an exception. What it took is to be dropped in each case. */
static int take(struct given *given, PyObject *capability, const struct words *words) {
    given->count = 0;
    for (Py_ssize_t i = words->first; i < words->end; i++)
        if (take_one(given, i - words->first + 1, word_at(words, i))) return -1;
    return refuse_texts(capability, given);
}

/* The numbers among Variables; 0 for None. -1 after an exception. */
static int read_variables(PyObject *variables, ti_vars *vars) {
    PyObject *values, *list;
    Py_ssize_t count;
    long long number;
    int is = variables == NULL || variables == Py_None ? 2 : PyObject_IsInstance(variables, variables_class);
    memset(vars, 0, sizeof *vars);
    if (is == 2) return 0;
    if (is == 0) raise_type("variables", "Variables are", variables);
    if (is != 1 || (values = PyObject_GetAttrString(variables, "values")) == NULL) return -1;
    list = PySequence_List(values);
    Py_DECREF(values);
    if (list == NULL) return -1;
    if ((count = PyList_Size(list)) != 52) {
        PyErr_Format(PyExc_ValueError, "variables: there are %zd values, and 52 are wanted", count);
        Py_DECREF(list);
        return -1;
    }
    for (Py_ssize_t i = 0; i < 52; i++) {
        if (number_of("variables", PyList_GetItem(list, i), INT32_MIN, INT32_MAX, &number)) {
            Py_DECREF(list);
            return -1;
        }
        vars->values[i] = (int32_t)number;
    }
    Py_DECREF(list);
    return 0;
}

/* Gives Variables what an expansion left; -1 after an exception. */
static int write_variables(PyObject *variables, const ti_vars *vars) {
    PyObject *list, *number;
    int status;
    if (variables == NULL || variables == Py_None) return 0;
    if ((list = PyList_New(52)) == NULL) return -1;
    for (Py_ssize_t i = 0; i < 52; i++) {
        if ((number = PyLong_FromLong(vars->values[i])) == NULL) {
            Py_DECREF(list);
            return -1;
        }
        PyList_SetItem(list, i, number);
    }
    status = PyObject_SetAttrString(variables, "values", list);
    Py_DECREF(list);
    return status;
}

/* The arguments that have names. */
struct options {
    PyObject *capability, *variables, *rate, *affected_lines, *xon, *pad_byte;
};

/* Takes an argument that has a name; -1 after TypeError. pads: whether the call pads too. */
static int take_option(struct options *options, PyObject *name, PyObject *value, int pads) {
    const struct {
        const char *name;
        PyObject **place;
        int is_known;
    } all[] = {
        {"capability", &options->capability, options->capability == NULL},
        {"variables", &options->variables, 1},
        {"rate", &options->rate, pads},
        {"affected_lines", &options->affected_lines, pads},
        {"xon", &options->xon, pads},
        {"pad_byte", &options->pad_byte, pads},
    };
    for (size_t i = 0; i < sizeof all / sizeof *all; i++)
        if (all[i].is_known && PyUnicode_CompareWithASCIIString(name, all[i].name) == 0) {
            *all[i].place = value;
            return 0;
        }
    PyErr_Format(PyExc_TypeError, "an argument %R is unknown, or there twice", name);
    return -1;
}

/* The same for the names of a call by an array, whose values stand after the positional arguments. */
static int take_named(struct options *options, const struct words *words, PyObject *names, int pads) {
    Py_ssize_t count = names == NULL ? 0 : PyTuple_Size(names);
    for (Py_ssize_t i = 0; i < count; i++)
        if (take_option(options, PyTuple_GetItem(names, i), words->array[words->end + i], pads)) return -1;
    return 0;
}

/* How to pad; -1 after an exception. */
static int read_padding(const struct options *options, ti_padding *padding) {
    long long rate = 0, lines = 1, pad = 0;
    int xon = 0;
    if (options->rate != NULL && number_of("rate", options->rate, 0, UINT32_MAX, &rate)) return -1;
    if (options->affected_lines != NULL && number_of("affected_lines", options->affected_lines, 0, UINT32_MAX, &lines)) return -1;
    if (options->xon != NULL && (xon = PyObject_IsTrue(options->xon)) < 0) return -1;
    if (options->pad_byte != NULL && number_of("pad_byte", options->pad_byte, 0, 255, &pad)) return -1;
    padding->rate = (uint32_t)rate;
    padding->affected_lines = (uint32_t)lines;
    padding->xon = (uint8_t)xon;
    padding->pad = (uint8_t)pad;
    return 0;
}

/* ---- outputs */

/* Room for an output: what most take, or memory. */
struct room {
    unsigned char few[ROOM];
    unsigned char *bytes, *taken;
    size_t length;
};

static void start_room(struct room *room) {
    room->bytes = room->few;
    room->taken = NULL;
    room->length = sizeof room->few;
}

/* Makes the room as long as is needed; -1 after MemoryError. */
static int widen(struct room *room, size_t need) {
    unsigned char *more = PyMem_Realloc(room->taken, need);
    if (more == NULL) {
        PyErr_NoMemory();
        return -1;
    }
    room->bytes = room->taken = more;
    room->length = need;
    return 0;
}

/* The front of the room as bytes. The room is then gone. */
static PyObject *front_of(struct room *room, size_t length) {
    PyObject *made = PyBytes_FromStringAndSize((const char *)room->bytes, (Py_ssize_t)length);
    PyMem_Free(room->taken);
    return made;
}

/* Ends a call that failed. */
static PyObject *leave(struct room *room) {
    PyMem_Free(room->taken);
    return NULL;
}

static PyObject *expand_given(PyObject *capability, const struct given *given, PyObject *variables) {
    struct room room;
    ti_vars vars;
    ti_run run;
    uint32_t fault;
    if (read_variables(variables, &vars)) return NULL;
    start_room(&room);
    while ((fault = ti_expand(start_of(capability), length_of(capability), given->parameters, given->count, &vars, room.bytes,
                              room.length, &run)) == TI_OUT_TOO_SMALL)
        if (widen(&room, run.place)) return leave(&room);
    if (fault != TI_DONE) raise_expansion(fault, run.place);
    if (fault != TI_DONE || write_variables(variables, &vars)) return leave(&room);
    return front_of(&room, run.written);
}

static PyObject *send_given(PyObject *capability, const struct given *given, const struct options *options) {
    struct room room;
    ti_terminal terminal;
    ti_sent sent;
    uint32_t fault;
    if (read_padding(options, &terminal.padding) || read_variables(options->variables, &terminal.vars)) return NULL;
    start_room(&room);
    while ((fault = ti_send(start_of(capability), length_of(capability), given->parameters, given->count, &terminal, room.bytes,
                            room.length, &sent)) == TI_OUT_TOO_SMALL)
        if (widen(&room, sent.place)) return leave(&room);
    if (fault != TI_DONE) raise_expansion(fault, sent.place);
    if (fault != TI_DONE || write_variables(options->variables, &terminal.vars)) return leave(&room);
    return front_of(&room, sent.length);
}

/* Expands the bytes of a capability over parameters, and pads the output too if that is wanted. */
static PyObject *run_bytes(PyObject *capability, const struct words *words, const struct options *options, int pads) {
    struct given given;
    PyObject *made = NULL;
    if (take(&given, capability, words) == 0)
        made = pads ? send_given(capability, &given, options) : expand_given(capability, &given, options->variables);
    drop(&given);
    return made;
}

/* ---- calls over the bytes of a capability */

static PyObject *run_anew(PyObject *const *array, Py_ssize_t count, PyObject *names, int pads) {
    struct words words = {NULL, array, count > 0, count};
    struct options options = {count > 0 ? array[0] : NULL, NULL, NULL, NULL, NULL, NULL};
    PyObject *capability, *made;
    if (take_named(&options, &words, names, pads)) return NULL;
    if (options.capability == NULL) {
        PyErr_SetString(PyExc_TypeError, "a capability is wanted");
        return NULL;
    }
    if ((capability = bytes_of("capability", options.capability)) == NULL) return NULL;
    made = run_bytes(capability, &words, &options, pads);
    Py_DECREF(capability);
    return made;
}

static PyObject *expand(PyObject *module, PyObject *const *array, Py_ssize_t count, PyObject *names) {
    (void)module;
    return run_anew(array, count, names, 0);
}

static PyObject *send(PyObject *module, PyObject *const *array, Py_ssize_t count, PyObject *names) {
    (void)module;
    return run_anew(array, count, names, 1);
}

/* A text with its padding. */
static PyObject *pad_bytes(const unsigned char *text, size_t length, const ti_padding *padding) {
    struct room room;
    size_t padded;
    uint32_t fault;
    start_room(&room);
    while ((fault = ti_pad(text, length, padding, room.bytes, room.length, &padded)) == TI_OUT_TOO_SMALL)
        if (widen(&room, padded)) return leave(&room);
    if (fault == TI_DONE) return front_of(&room, padded);
    raise_fault(fault == TI_BAD_PADDING ? "padding" : "text", fault, no_place());
    return leave(&room);
}

static PyObject *pad(PyObject *module, PyObject *args, PyObject *named) {
    static char *names[] = {"text", "rate", "affected_lines", "xon", "pad_byte", NULL};
    struct options options = {NULL, NULL, NULL, NULL, NULL, NULL};
    PyObject *value, *text, *padded = NULL;
    ti_padding padding;
    (void)module;
    if (!PyArg_ParseTupleAndKeywords(args, named, "O|OOOO:pad", names, &value, &options.rate, &options.affected_lines, &options.xon,
                                     &options.pad_byte))
        return NULL;
    if ((text = bytes_of("text", value)) == NULL) return NULL;
    if (read_padding(&options, &padding) == 0) padded = pad_bytes(start_of(text), length_of(text), &padding);
    Py_DECREF(text);
    return padded;
}

/* The limits of a capability as a tuple: depth, nest, bound, and the masks of its parameters. */
static PyObject *check(PyObject *module, PyObject *args) {
    PyObject *value, *longest, *capability;
    ti_limits limits;
    long long most = 0;
    uint32_t fault;
    (void)module;
    if (!PyArg_ParseTuple(args, "OO:check", &value, &longest)) return NULL;
    if ((capability = bytes_of("capability", value)) == NULL) return NULL;
    if (number_of("longest_text", longest, 0, 65535, &most)) {
        Py_DECREF(capability);
        return NULL;
    }
    fault = ti_check(start_of(capability), length_of(capability), (uint16_t)most, &limits);
    Py_DECREF(capability);
    if (fault != TI_DONE) return raise_fault("capability", fault, PyLong_FromSize_t(limits.place));
    return Py_BuildValue("nnKii", (Py_ssize_t)limits.depth, (Py_ssize_t)limits.nest, (unsigned long long)limits.bound, (int)limits.named,
                         (int)limits.texts);
}

/* ---- a capability that is kept */

/* One that takes a string or needs more than is kept is expanded from its bytes at each call. */
typedef struct {
    PyObject_HEAD
    ti_kept kept;
    PyObject *bytes;
    int is_kept;
} capability_object;

static PyObject *capability_new(PyTypeObject *type, PyObject *args, PyObject *named) {
    static char *names[] = {"capability", NULL};
    allocfunc allocate = (allocfunc)PyType_GetSlot(type, Py_tp_alloc);
    PyObject *value;
    capability_object *made;
    size_t place;
    uint32_t fault;
    if (!PyArg_ParseTupleAndKeywords(args, named, "O:Capability", names, &value)) return NULL;
    if ((value = bytes_of("capability", value)) == NULL) return NULL;
    if ((made = (capability_object *)allocate(type, 0)) == NULL) {
        Py_DECREF(value);
        return NULL;
    }
    made->bytes = value;
    fault = ti_compile(start_of(value), length_of(value), &made->kept, &place);
    made->is_kept = fault == TI_DONE;
    if (fault == TI_DONE || fault == TI_DOES_NOT_FIT) return (PyObject *)made;
    Py_DECREF(made);
    return raise_fault("capability", fault, PyLong_FromSize_t(place));
}

static void capability_free(PyObject *self) {
    PyTypeObject *type = Py_TYPE(self);
    freefunc release = (freefunc)PyType_GetSlot(type, Py_tp_free);
    Py_XDECREF(((capability_object *)self)->bytes);
    release(self);
    Py_DECREF(type);
}

/* The parameters as numbers: 1, or 0 if one is none or there are too many, or -1 after an exception. */
static int read_numbers(const struct words *words, int32_t *numbers) {
    if (words->end - words->first > TI_MOST_PARAMETERS) return 0;
    for (Py_ssize_t i = words->first; i < words->end; i++) {
        PyObject *value = word_at(words, i), *number = NULL;
        long long one;
        int is;
        if (!PyLong_Check(value)) {
            if (!PyIndex_Check(value)) return 0;
            if ((number = PyNumber_Index(value)) == NULL) return -1;
        }
        is = fits(number != NULL ? number : value, INT32_MIN, INT32_MAX, &one);
        Py_XDECREF(number);
        if (!is) return 0;
        numbers[i - words->first] = (int32_t)one;
    }
    return 1;
}

/* Variables are read and written only if it has some. */
static PyObject *expand_kept(capability_object *self, const int32_t *numbers, size_t count, PyObject *variables) {
    struct room room;
    ti_vars vars;
    size_t written;
    uint32_t fault;
    int varied = self->kept.varied;
    if (varied && read_variables(variables, &vars)) return NULL;
    start_room(&room);
    if (self->kept.bound > room.length && widen(&room, (size_t)self->kept.bound)) return leave(&room);
    fault = ti_expand_kept(&self->kept, numbers, count, varied ? &vars : NULL, room.bytes, room.length, &written);
    if (fault != TI_DONE) raise_expansion(fault, 0);
    if (fault != TI_DONE || (varied && write_variables(variables, &vars))) return leave(&room);
    return front_of(&room, written);
}

static PyObject *send_kept(capability_object *self, const int32_t *numbers, size_t count, const struct options *options) {
    struct room room;
    ti_terminal terminal;
    ti_sent sent;
    uint32_t fault;
    if (read_padding(options, &terminal.padding) || read_variables(options->variables, &terminal.vars)) return NULL;
    start_room(&room);
    while ((fault = ti_send_kept(&self->kept, numbers, count, &terminal, room.bytes, room.length, &sent)) == TI_OUT_TOO_SMALL)
        if (widen(&room, sent.place)) return leave(&room);
    if (fault != TI_DONE) raise_expansion(fault, sent.place);
    if (fault != TI_DONE || write_variables(options->variables, &terminal.vars)) return leave(&room);
    return front_of(&room, sent.length);
}

/* Runs a kept capability over numbers, and any other over its bytes. */
static PyObject *run_object(capability_object *self, const struct words *words, const struct options *options, int pads) {
    int32_t numbers[TI_MOST_PARAMETERS];
    size_t count = (size_t)(words->end - words->first);
    int are_numbers = self->is_kept ? read_numbers(words, numbers) : 0;
    if (are_numbers < 0) return NULL;
    if (are_numbers == 0) return run_bytes(self->bytes, words, options, pads);
    return pads ? send_kept(self, numbers, count, options) : expand_kept(self, numbers, count, options->variables);
}

static PyObject *capability_call(PyObject *self, PyObject *args, PyObject *named) {
    struct words words = {args, NULL, 0, PyTuple_Size(args)};
    /* So no argument of the name `capability` is known. */
    struct options options = {self, NULL, NULL, NULL, NULL, NULL};
    PyObject *name, *value;
    Py_ssize_t at = 0;
    while (named != NULL && PyDict_Next(named, &at, &name, &value))
        if (take_option(&options, name, value, 0)) return NULL;
    return run_object((capability_object *)self, &words, &options, 0);
}

static PyObject *capability_send(PyObject *self, PyObject *const *array, Py_ssize_t count, PyObject *names) {
    struct words words = {NULL, array, 0, count};
    struct options options = {self, NULL, NULL, NULL, NULL, NULL};
    if (take_named(&options, &words, names, 1)) return NULL;
    return run_object((capability_object *)self, &words, &options, 1);
}

static PyObject *capability_bytes(PyObject *self, void *unused) {
    (void)unused;
    return Py_NewRef(((capability_object *)self)->bytes);
}

/* One that does not fit is searched, as the library searches one that does. */
static PyObject *capability_marked(PyObject *self, void *unused) {
    PyObject *bytes = ((capability_object *)self)->bytes;
    const char *text = PyBytes_AsString(bytes);
    size_t length = length_of(bytes);
    (void)unused;
    for (size_t i = 0; i + 1 < length; i++)
        if (text[i] == '$' && text[i + 1] == '<') Py_RETURN_TRUE;
    Py_RETURN_FALSE;
}

static PyObject *capability_shown(PyObject *self) { return PyUnicode_FromFormat("Capability(%R)", ((capability_object *)self)->bytes); }

static PyObject *capability_reduced(PyObject *self, PyObject *unused) {
    PyObject *module = PyImport_ImportModule("mogyarsu"), *type, *made;
    (void)unused;
    if (module == NULL) return NULL;
    type = PyObject_GetAttrString(module, "Capability");
    Py_DECREF(module);
    made = type == NULL ? NULL : Py_BuildValue("O(O)", type, ((capability_object *)self)->bytes);
    Py_XDECREF(type);
    return made;
}

static PyMethodDef capability_methods[] = {
    {"send", (PyCFunction)(void (*)(void))capability_send, METH_FASTCALL | METH_KEYWORDS,
     "What a terminal gets: the output, as a call has it, with each delay as pad has it."},
    {"__reduce__", capability_reduced, METH_NOARGS, NULL},
    {NULL, NULL, 0, NULL},
};

static PyGetSetDef capability_members[] = {
    {"bytes", capability_bytes, NULL, "The capability.", NULL},
    {"marked", capability_marked, NULL, "Whether delays can start in it.", NULL},
    {NULL, NULL, NULL, NULL, NULL},
};

static PyType_Slot capability_slots[] = {
    {Py_tp_doc,
     "A capability that is compiled once, for what is sent often. Called with its parameters, it returns what expand does; its\n"
     "delays are still in it, and send returns what a terminal gets. Raises Fault if the bytes are no capability."},
    {Py_tp_new, capability_new},
    {Py_tp_dealloc, capability_free},
    {Py_tp_call, capability_call},
    {Py_tp_repr, capability_shown},
    {Py_tp_methods, capability_methods},
    {Py_tp_getset, capability_members},
    {0, NULL},
};

static PyType_Spec capability_type = {
    "mogyarsu.Capability", sizeof(capability_object), 0, Py_TPFLAGS_DEFAULT | Py_TPFLAGS_BASETYPE, capability_slots};

/* ---- entries */

/* What the class Entry of _compiled.py stands on: an entry that was opened, and its bytes. */
typedef struct {
    PyObject_HEAD
    ti_view view;
    PyObject *bytes;
} view_object;

static PyObject *view_new(PyTypeObject *type, PyObject *args, PyObject *named) {
    static char *names[] = {"data", NULL};
    allocfunc allocate = (allocfunc)PyType_GetSlot(type, Py_tp_alloc);
    PyObject *value;
    view_object *made;
    uint32_t fault;
    size_t place;
    if (!PyArg_ParseTupleAndKeywords(args, named, "O:Entry", names, &value)) return NULL;
    if ((value = bytes_of("data", value)) == NULL) return NULL;
    if ((made = (view_object *)allocate(type, 0)) == NULL) {
        Py_DECREF(value);
        return NULL;
    }
    made->bytes = value;
    fault = ti_open(start_of(value), length_of(value), &made->view);
    if (fault == TI_DONE) return (PyObject *)made;
    place = made->view.counts.place;
    Py_DECREF(made);
    return raise_fault("data", fault, PyLong_FromSize_t(place));
}

static void view_free(PyObject *self) {
    PyTypeObject *type = Py_TYPE(self);
    freefunc release = (freefunc)PyType_GetSlot(type, Py_tp_free);
    Py_XDECREF(((view_object *)self)->bytes);
    release(self);
    Py_DECREF(type);
}

static PyObject *copy_of(const ti_bytes *bytes) { return PyBytes_FromStringAndSize((const char *)bytes->bytes, (Py_ssize_t)bytes->length); }

/* A name as a str. */
static PyObject *name_of(const ti_bytes *name) {
    PyObject *bytes = copy_of(name), *made = bytes == NULL ? NULL : PyUnicode_FromEncodedObject(bytes, "utf-8", "surrogateescape");
    Py_XDECREF(bytes);
    return made;
}

/* Whether the entry has the capability. */
static int is_there(const ti_value *value) { return value->kind == TI_FLAG ? value->number == 1 : value->number >= 0; }

/* The value of a capability that is there. */
static PyObject *held(const ti_value *value) {
    if (value->kind == TI_FLAG) return PyBool_FromLong(1);
    return value->kind == TI_NUMBER ? PyLong_FromLong(value->number) : copy_of(&value->text);
}

/* Finds what the entry says of the capability with a name; -1 after KeyError or TypeError. */
static int find(view_object *self, PyObject *name, ti_value *value) {
    PyObject *word = text_of("name", name, "a str or bytes are");
    uint32_t fault = TI_NOT_NAMED;
    if (word != NULL) fault = ti_view_find(&self->view, start_of(word), length_of(word), value);
    else if (!PyErr_ExceptionMatches(PyExc_ValueError)) return -1;
    Py_XDECREF(word);
    if (fault == TI_DONE) return 0;
    PyErr_Clear();
    PyErr_Format(PyExc_KeyError, "%R: no capability has this name", name);
    return -1;
}

static PyObject *view_item(PyObject *self, PyObject *name) {
    static const char *const kinds[] = {"boolean", "numeric capability", "string"};
    ti_value value;
    if (find((view_object *)self, name, &value)) return NULL;
    if (is_there(&value)) return held(&value);
    PyErr_Format(PyExc_KeyError, "%R: the terminal has no such %s", name, kinds[value.kind]);
    return NULL;
}

static int view_contains(PyObject *self, PyObject *name) {
    ti_value value;
    if (!PyUnicode_Check(name) && !PyBytes_Check(name)) return 0;
    if (find((view_object *)self, name, &value) == 0) return is_there(&value);
    if (!PyErr_ExceptionMatches(PyExc_KeyError)) return -1;
    PyErr_Clear();
    return 0;
}

/* The kind of the capability with a name, its number, and the bytes of a text that is there. */
static PyObject *view_found(PyObject *self, PyObject *name) {
    ti_value value;
    if (find((view_object *)self, name, &value)) return NULL;
    if (value.kind == TI_TEXT && value.number == 0) return Py_BuildValue("iiN", (int)value.kind, (int)value.number, copy_of(&value.text));
    return Py_BuildValue("iiO", (int)value.kind, (int)value.number, Py_None);
}

/* Adds a capability to those that the terminal has; the first of a name stays. -1 after an exception. */
static int add(PyObject *all, const ti_bytes *name, const ti_value *value) {
    PyObject *key, *one;
    int status = -1;
    if (!is_there(value) || name->length == 0) return 0;
    key = name_of(name);
    one = key == NULL ? NULL : held(value);
    if (one != NULL) {
        status = PyDict_Contains(all, key);
        if (status == 0) status = PyDict_SetItem(all, key, one);
    }
    Py_XDECREF(key);
    Py_XDECREF(one);
    return status < 0 ? -1 : 0;
}

/* What the terminal has, by short names. */
static PyObject *view_listed(PyObject *self, PyObject *unused) {
    PyObject *all = PyDict_New();
    ti_bytes name;
    ti_value value;
    uint32_t extended;
    (void)unused;
    for (size_t place = 0; all != NULL; place++) {
        if (ti_view_item(&((view_object *)self)->view, place, &name, &extended, &value) != TI_DONE) break;
        if (add(all, &name, &value)) Py_CLEAR(all);
    }
    return all;
}

/* The names of the extended capabilities of a kind. */
static PyObject *view_extended(PyObject *self, PyObject *args) {
    PyObject *all, *one;
    ti_bytes name;
    ti_value value;
    int kind, status;
    if (!PyArg_ParseTuple(args, "i", &kind) || (all = PyList_New(0)) == NULL) return NULL;
    for (size_t index = 0; ti_view_extended(&((view_object *)self)->view, (uint32_t)kind, index, &name, &value) == TI_DONE; index++) {
        one = copy_of(&name);
        status = one == NULL ? -1 : PyList_Append(all, one);
        Py_XDECREF(one);
        if (status) {
            Py_DECREF(all);
            return NULL;
        }
    }
    return all;
}

static PyObject *view_names(PyObject *self, void *unused) {
    (void)unused;
    return copy_of(&((view_object *)self)->view.counts.names);
}

static PyObject *view_number_bits(PyObject *self, void *unused) {
    (void)unused;
    return PyLong_FromUnsignedLong(((view_object *)self)->view.counts.number_bits);
}

static PyObject *view_data(PyObject *self, void *unused) {
    (void)unused;
    return Py_NewRef(((view_object *)self)->bytes);
}

static PyMethodDef view_methods[] = {
    {"_found", view_found, METH_O, NULL},
    {"_listed", view_listed, METH_NOARGS, NULL},
    {"_extended", view_extended, METH_VARARGS, NULL},
    {NULL, NULL, 0, NULL},
};

static PyGetSetDef view_members[] = {
    {"_names", view_names, NULL, NULL, NULL},
    {"number_bits", view_number_bits, NULL, "How wide the numbers are in the file: 16 or 32.", NULL},
    {"_data", view_data, NULL, NULL, NULL},
    {NULL, NULL, NULL, NULL, NULL},
};

static PyType_Slot view_slots[] = {
    {Py_tp_new, view_new},         {Py_tp_dealloc, view_free},   {Py_mp_subscript, view_item}, {Py_sq_contains, view_contains},
    {Py_tp_methods, view_methods}, {Py_tp_getset, view_members}, {0, NULL},
};

static PyType_Spec view_type = {"mogyarsu._ti.View", sizeof(view_object), 0, Py_TPFLAGS_DEFAULT | Py_TPFLAGS_BASETYPE, view_slots};

/* ---- writing entries */

/* The items of an entry that is to be written, and a list of the bytes into which they point. */
struct items {
    ti_arrays arrays;
    ti_counts counts;
    PyObject *held;
};

/* The bytes of an argument, which last as long as the items; -1 after an exception. */
static int hold(struct items *items, const char *argument, PyObject *value, ti_bytes *at) {
    PyObject *bytes = text_of(argument, value, "a str or bytes are");
    int status = bytes == NULL ? -1 : PyList_Append(items->held, bytes);
    if (status == 0) *at = (ti_bytes){start_of(bytes), length_of(bytes)};
    Py_XDECREF(bytes);
    return status;
}

/* Adds a capability of a kind after those that there are: None is absent, and -2 cancelled; -1 after an exception. */
static int add_item(struct items *items, int kind, PyObject *value) {
    static const ti_bytes nothing = {NULL, 0};
    long long number = TI_ABSENT;
    ti_text_item *text = items->arrays.texts + items->arrays.text_room;
    if (kind == TI_TEXT && value != Py_None && !PyLong_Check(value)) {
        text->mark = 0;
        items->arrays.text_room++;
        return hold(items, "texts", value, &text->text);
    }
    if (value != Py_None) {
        if (kind == TI_FLAG && number_of("flags", value, TI_CANCELLED, 1, &number)) return -1;
        if (kind == TI_NUMBER && number_of("numbers", value, INT32_MIN, INT32_MAX, &number)) return -1;
        if (kind == TI_TEXT && number_of("texts", value, TI_CANCELLED, TI_ABSENT, &number)) return -1;
    }
    if (kind == TI_FLAG) items->arrays.flags[items->arrays.flag_room++] = (int8_t)number;
    if (kind == TI_NUMBER) items->arrays.numbers[items->arrays.number_room++] = (int32_t)number;
    if (kind == TI_TEXT) {
        *text = (ti_text_item){nothing, (int8_t)number};
        items->arrays.text_room++;
    }
    return 0;
}

/* Adds the values of a tuple. */
static int add_all(struct items *items, int kind, PyObject *values) {
    for (Py_ssize_t i = 0; i < PyTuple_Size(values); i++)
        if (add_item(items, kind, PyTuple_GetItem(values, i))) return -1;
    return 0;
}

/* The kind of a user-defined capability by the type of its value: bool, int, or str and bytes. */
static int kind_of(PyObject *value) { return PyBool_Check(value) ? TI_FLAG : PyLong_Check(value) ? TI_NUMBER : TI_TEXT; }

/* Adds those of a kind of the pairs of a name and a value, and their names. */
static int add_extended(struct items *items, int kind, PyObject *pairs) {
    for (Py_ssize_t i = 0; i < PyTuple_Size(pairs); i++) {
        PyObject *name, *value, *pair = PyTuple_GetItem(pairs, i);
        if (!PyTuple_Check(pair)) {
            raise_type("extended", "pairs are", pair);
            return -1;
        }
        if (!PyArg_ParseTuple(pair, "OO;extended: pairs of a name and a value are wanted", &name, &value)) return -1;
        if (kind_of(value) != kind) continue;
        if (hold(items, "extended", name, &items->arrays.names[items->arrays.name_room++]) || add_item(items, kind, value)) return -1;
    }
    return 0;
}

/* Adds the standard capabilities of each kind, and then the extended ones, and counts them. */
static int add_lists(struct items *items, PyObject *const *lists, PyObject *pairs) {
    size_t *rooms[] = {&items->arrays.flag_room, &items->arrays.number_room, &items->arrays.text_room};
    size_t *counts[] = {&items->counts.flags, &items->counts.numbers, &items->counts.texts};
    size_t *extended[] = {&items->counts.extended_flags, &items->counts.extended_numbers, &items->counts.extended_texts};
    for (int kind = TI_FLAG; kind <= TI_TEXT; kind++) {
        if (add_all(items, kind, lists[kind])) return -1;
        *counts[kind] = *rooms[kind];
        if (add_extended(items, kind, pairs)) return -1;
        *extended[kind] = *rooms[kind] - *counts[kind];
    }
    return 0;
}

/* Takes memory for the items of these lists; -1 after MemoryError. */
static int take_room(struct items *items, PyObject *const *lists, PyObject *pairs) {
    size_t more = (size_t)PyTuple_Size(pairs) + 1;
    items->arrays.flags = PyMem_Calloc((size_t)PyTuple_Size(lists[TI_FLAG]) + more, sizeof *items->arrays.flags);
    items->arrays.numbers = PyMem_Calloc((size_t)PyTuple_Size(lists[TI_NUMBER]) + more, sizeof *items->arrays.numbers);
    items->arrays.texts = PyMem_Calloc((size_t)PyTuple_Size(lists[TI_TEXT]) + more, sizeof *items->arrays.texts);
    items->arrays.names = PyMem_Calloc(more, sizeof *items->arrays.names);
    items->held = PyList_New(0);
    if (items->arrays.flags && items->arrays.numbers && items->arrays.texts && items->arrays.names && items->held) return 0;
    if (!PyErr_Occurred()) PyErr_NoMemory();
    return -1;
}

/* The bytes of the entry of these items. */
static PyObject *written(const struct items *items, uint32_t number_bits) {
    static const char *const arguments[] = {"names", "texts", "numbers", "entry"};
    unsigned char out[TI_MOST_BYTES];
    size_t length;
    uint32_t fault = ti_encode(&items->arrays, &items->counts, number_bits, out, sizeof out, &length);
    if (fault == TI_DONE) return PyBytes_FromStringAndSize((const char *)out, (Py_ssize_t)length);
    return raise_fault(fault < TI_BAD_NAME ? "entry" : arguments[fault - TI_BAD_NAME], fault, no_place());
}

static PyObject *encode_lists(PyObject *value, PyObject *const *lists, PyObject *pairs, uint32_t number_bits) {
    struct items items = {{NULL, 0, NULL, 0, NULL, 0, NULL, 0}, {{NULL, 0}, 0, 0, 0, 0, 0, 0, 0, 0}, NULL};
    PyObject *entry = NULL;
    if (take_room(&items, lists, pairs) == 0 && hold(&items, "names", value, &items.counts.names) == 0
        && add_lists(&items, lists, pairs) == 0)
        entry = written(&items, number_bits);
    PyMem_Free(items.arrays.flags);
    PyMem_Free(items.arrays.numbers);
    PyMem_Free(items.arrays.texts);
    PyMem_Free(items.arrays.names);
    Py_XDECREF(items.held);
    return entry;
}

static PyObject *encode(PyObject *module, PyObject *args, PyObject *named) {
    static char *words[] = {"names", "flags", "numbers", "texts", "extended", "number_bits", NULL};
    PyObject *names, *given[4] = {NULL, NULL, NULL, NULL}, *lists[4] = {NULL, NULL, NULL, NULL}, *entry = NULL;
    int number_bits = 16, taken = 0;
    (void)module;
    if (!PyArg_ParseTupleAndKeywords(args, named, "O|OOOOi:encode", words, &names, &given[0], &given[1], &given[2], &given[3],
                                     &number_bits))
        return NULL;
    if (number_bits != 16 && number_bits != 32) {
        PyErr_Format(PyExc_ValueError, "number_bits: %d is neither 16 nor 32", number_bits);
        return NULL;
    }
    while (taken < 4 && (lists[taken] = given[taken] == NULL ? PyTuple_New(0) : PySequence_Tuple(given[taken])) != NULL) taken++;
    if (taken == 4) entry = encode_lists(names, lists, lists[3], (uint32_t)number_bits);
    for (int i = 0; i < 4; i++) Py_XDECREF(lists[i]);
    return entry;
}

/* ---- the module */

static PyObject *said(uint32_t fault, const ti_bytes *words) {
    if (fault != TI_DONE) return PyUnicode_FromString("");
    return PyUnicode_FromStringAndSize((const char *)words->bytes, (Py_ssize_t)words->length);
}

static PyObject *word(PyObject *module, PyObject *args) {
    unsigned number;
    ti_bytes words;
    (void)module;
    return PyArg_ParseTuple(args, "I", &number) ? said(ti_word(number, &words), &words) : NULL;
}

static PyObject *message(PyObject *module, PyObject *args) {
    unsigned number;
    ti_bytes words;
    (void)module;
    return PyArg_ParseTuple(args, "I", &number) ? said(ti_message(number, &words), &words) : NULL;
}

static PyObject *version(PyObject *module, PyObject *unused) {
    uint32_t number = ti_version();
    (void)module;
    (void)unused;
    return Py_BuildValue("iii", (int)(number >> 16), (int)(number >> 8 & 255), (int)(number & 255));
}

/* Takes the classes Fault and Variables. Those before are kept too, since an object may be of them. */
static PyObject *take_classes(PyObject *module, PyObject *args) {
    PyObject *fault, *variables;
    (void)module;
    if (!PyArg_ParseTuple(args, "OO", &fault, &variables)) return NULL;
    fault_class = Py_NewRef(fault);
    variables_class = Py_NewRef(variables);
    Py_RETURN_NONE;
}

static PyMethodDef functions[] = {
    {"expand", (PyCFunction)(void (*)(void))expand, METH_FASTCALL | METH_KEYWORDS,
     "The output of a capability for up to nine parameters, each a number of 32 bits or a string. Delays are still in it; what a\n"
     "terminal gets, send returns.\n\n"
     "Raises Fault if the bytes are no capability, there are more parameters, or a string is longer than 32767 bytes, ValueError if a\n"
     "number does not have 32 bits, and TypeError if a parameter is a string that the capability takes as a number. Then the variables\n"
     "are as before."},
    {"send", (PyCFunction)(void (*)(void))send, METH_FASTCALL | METH_KEYWORDS,
     "What a terminal gets: the output of a capability, as expand has it, with each delay as pad has it."},
    {"pad", (PyCFunction)(void (*)(void))pad, METH_VARARGS | METH_KEYWORDS,
     "The string with each delay, such as $<5>, as pad bytes for a line of this rate, in bytes per second. At the rate 0\n"
     "the delays vanish. Raises Fault if the rate, the lines or the padded string are above their limits, and ValueError if a number\n"
     "does not fit C's type of it."},
    {"encode", (PyCFunction)(void (*)(void))encode, METH_VARARGS | METH_KEYWORDS,
     "The bytes of the entry with these names, which | separates, and these capabilities: lists of the standard ones by their\n"
     "indexes, and of the user-defined ones pairs of a name and a bool, an int or bytes. None is absent, and -2 cancelled. Its numbers\n"
     "have 16 bits or 32. Raises Fault if the names are empty, a name or a string holds a NUL, a number is out of range, or the\n"
     "entry would have more than 32768 bytes."},
    {"check", check, METH_VARARGS, NULL},
    {"word", word, METH_VARARGS, NULL},
    {"message", message, METH_VARARGS, NULL},
    {"version", version, METH_NOARGS, "The version of the library."},
    {"take_classes", take_classes, METH_VARARGS, NULL},
    {NULL, NULL, 0, NULL},
};

static struct PyModuleDef definition = {PyModuleDef_HEAD_INIT, "mogyarsu._ti", NULL, -1, functions, NULL, NULL, NULL, NULL};

/* Adds a type to the module; -1 after an exception. */
static int add_type(PyObject *module, const char *name, PyType_Spec *spec) {
    PyObject *type = PyType_FromSpec(spec);
    int status = type == NULL ? -1 : PyModule_AddObjectRef(module, name, type);
    Py_XDECREF(type);
    return status;
}

PyMODINIT_FUNC PyInit__ti(void) {
    PyObject *module = PyModule_Create(&definition);
    if (module == NULL) return NULL;
    if (add_type(module, "Capability", &capability_type) == 0 && add_type(module, "View", &view_type) == 0) return module;
    Py_DECREF(module);
    return NULL;
}
