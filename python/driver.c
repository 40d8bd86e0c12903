/* Calls the compiled module for Python where there is no Python for its processor:
 *
 *     driver
 *
 * It is linked with the module, and has as much of a Python as these calls take: ints, bytes, and which fault or exception was
 * raised. Each other function and object of Python is one in stubs.c, which dist/qemu writes: a call of it ends the program. The closing
 * line is 'driver: N passed, M failed'.
 */
#define Py_LIMITED_API 0x030b0000
#define PY_SSIZE_T_CLEAN
#include <Python.h>
#include <stdarg.h>
#include <stdio.h>
#include <stdlib.h>
#include <string.h>

typedef struct {
    PyObject head;
    long long number;
} an_int;

typedef struct {
    PyObject head;
    Py_ssize_t size;
    char bytes[];
} some_bytes;

static PyMethodDef *functions;
static PyObject module = {.ob_refcnt = 1};
/* What was raised last: an exception, and the number of a fault. */
static PyObject *raised;
static unsigned fault;
static long alive;
static int passed, failed;

/* ---- a Python */

static void *made(size_t size, PyTypeObject *type) {
    PyObject *object = calloc(1, size);
    if (object == NULL) exit(2);
    object->ob_refcnt = 1;
    object->ob_type = type;
    alive++;
    return object;
}

void _Py_Dealloc(PyObject *object) {
    alive--;
    free(object);
}

PyObject *PyModule_Create2(PyModuleDef *definition, int version) {
    functions = version == PYTHON_ABI_VERSION ? definition->m_methods : NULL;
    return &module;
}

PyObject *PyType_FromSpec(PyType_Spec *spec) { return spec->slots != NULL ? made(sizeof(PyObject), NULL) : NULL; }

int PyModule_AddObjectRef(PyObject *owner, const char *name, PyObject *value) { return owner != &module || name == NULL || value == NULL; }

unsigned long PyType_GetFlags(PyTypeObject *type) {
    return type == &PyLong_Type ? Py_TPFLAGS_LONG_SUBCLASS : type == &PyBytes_Type ? Py_TPFLAGS_BYTES_SUBCLASS : 0;
}

long long PyLong_AsLongLongAndOverflow(PyObject *value, int *overflow) {
    *overflow = 0;
    return ((an_int *)value)->number;
}

PyObject *PyLong_FromSize_t(size_t number) {
    an_int *value = made(sizeof *value, &PyLong_Type);
    value->number = (long long)number;
    return &value->head;
}

PyObject *PyNumber_Index(PyObject *value) { return Py_NewRef(value); }

PyObject *PyBytes_FromStringAndSize(const char *bytes, Py_ssize_t size) {
    some_bytes *value = made(sizeof *value + (size_t)size + 1, &PyBytes_Type);
    value->size = size;
    memcpy(value->bytes, bytes, (size_t)size);
    return &value->head;
}

char *PyBytes_AsString(PyObject *value) { return ((some_bytes *)value)->bytes; }

Py_ssize_t PyBytes_Size(PyObject *value) { return ((some_bytes *)value)->size; }

void *PyMem_Realloc(void *old, size_t size) { return realloc(old, size); }

void PyMem_Free(void *old) { free(old); }

int PyOS_snprintf(char *out, size_t room, const char *form, ...) { return snprintf(out, room, "%s", form); }

PyObject *PyErr_Format(PyObject *exception, const char *form, ...) {
    (void)form;
    raised = exception;
    return NULL;
}

void PyErr_SetString(PyObject *exception, const char *text) { (void)PyErr_Format(exception, text); }

void PyErr_SetObject(PyObject *exception, PyObject *value) { (void)PyErr_Format(exception, value != NULL ? "a fault" : "none"); }

/* A fault is made of the argument, its number and a place. */
PyObject *_PyObject_CallFunction_SizeT(PyObject *called, const char *form, ...) {
    va_list list;
    (void)called;
    va_start(list, form);
    (void)va_arg(list, const char *);
    fault = va_arg(list, unsigned);
    va_end(list);
    return made(sizeof(PyObject), NULL);
}

/* ---- calls */

static PyObject *number(long long value) {
    PyObject *made_number = PyLong_FromSize_t(0);
    ((an_int *)made_number)->number = value;
    return made_number;
}

static PyObject *call(const char *name, const char *capability, size_t count, const long long *numbers) {
    PyObject *words[10], *result = NULL;
    raised = NULL, fault = 0;
    words[0] = PyBytes_FromStringAndSize(capability, (Py_ssize_t)strlen(capability));
    for (size_t i = 0; i < count; i++) words[i + 1] = number(numbers[i]);
    for (PyMethodDef *one = functions; one != NULL && one->ml_name != NULL; one++)
        if (strcmp(one->ml_name, name) == 0)
            result = ((_PyCFunctionFastWithKeywords)(void (*)(void))one->ml_meth)(&module, words, (Py_ssize_t)count + 1, NULL);
    for (size_t i = 0; i <= count; i++) Py_DECREF(words[i]);
    return result;
}

static void expect(int holds, const char *what) {
    passed += holds, failed += !holds;
    if (!holds) printf("driver: %s\n", what);
}

static void writes(const char *name, const char *capability, size_t count, const long long *numbers, const char *wanted) {
    PyObject *result = call(name, capability, count, numbers);
    expect(result != NULL && strcmp(PyBytes_AsString(result), wanted) == 0, capability);
    Py_XDECREF(result);
}

static void refuses(const char *capability, long long value, unsigned wanted, PyObject *exception) {
    expect(call("expand", capability, 1, &value) == NULL && fault == wanted && (wanted != 0 || raised == exception), capability);
}

extern PyObject *PyInit__ti(void);

int main(void) {
    static char many[1601], wanted[1201];
    long before;
    expect(PyInit__ti() == &module && functions != NULL, "the module is made");
    before = alive;
    writes("expand", "\33[%i%p1%d;%p2%dH", 2, (long long[]){4, 9}, "\33[5;10H");
    writes("expand", "%p1%d", 1, (long long[]){-2147483648}, "-2147483648");
    writes("expand", "a$<5>", 0, NULL, "a$<5>");
    writes("send", "a$<5>", 0, NULL, "a");
    writes("expand", "%?%p1%t1%e2%;", 1, (long long[]){0}, "2");
    /* More than the room that most outputs take. */
    for (int i = 0; i < 400; i++) memcpy(many + 4 * i, "%%ab", 4), memcpy(wanted + 3 * i, "%ab", 3);
    writes("expand", many, 0, NULL, wanted);
    refuses("ab%p0", 1, 104, NULL);
    refuses("%p1%d", 1LL << 31, 0, PyExc_ValueError);
    expect(alive == before, "all objects are given back");
    printf("driver: %d passed, %d failed\n", passed, failed);
    return failed != 0;
}
