/* SPDX-License-Identifier: Apache-2.0
 *
 * Stands before each function by which the extension and the library allocate, in the test build alone. One chosen call
 * of them fails; all others pass on.
 */
#define _DEFAULT_SOURCE
#include "../../native/native.h"

#include <malloc.h>
#include <stdarg.h>
#include <unistd.h>

#define EXPORTED __attribute__((visibility("default")))

/* Of each thread. */
static __thread long left = -1;
static __thread int has_refused_shrink;
static __thread unsigned pause_before;

static long kept;

/* Lets the allocation at `place` of this thread, from 0, fail; none if it is below 0. */
EXPORTED void refuse_at(long place)
{
    left = place;
    has_refused_shrink = 0;
}

/* Whether the chosen allocation has come. */
EXPORTED int has_refused(void)
{
    return left < 0;
}

/* Whether it was to make a block shorter: the library may go on with the longer one then. */
EXPORTED int was_shrink(void)
{
    return has_refused_shrink;
}

/* How many blocks of the library are not freed. */
EXPORTED long blocks_kept(void)
{
    return kept;
}

/* How many microseconds pass before an allocation of this thread fails. */
EXPORTED void pause_before_refusal(unsigned long microseconds)
{
    pause_before = (unsigned)microseconds;
}

static int refuses(void)
{
    if (left < 0 || left-- != 0)
        return 0;
    usleep(pause_before);
    return 1;
}

void *__real_malloc(size_t size);
void *__real_realloc(void *block, size_t size);
void __real_free(void *block);

void *__wrap_malloc(size_t size)
{
    void *block = refuses() ? NULL : __real_malloc(size);
    kept += block != NULL;
    return block;
}

void *__wrap_realloc(void *block, size_t size)
{
    size_t before = malloc_usable_size(block);
    void *moved = refuses() ? NULL : __real_realloc(block, size);
    has_refused_shrink |= moved == NULL && size <= before;
    kept += block == NULL && moved != NULL;
    return moved;
}

void __wrap_free(void *block)
{
    kept -= block != NULL;
    __real_free(block);
}

/* PyMem_Malloc and PyMem_Calloc set no exception. */
void *__real_PyMem_Malloc(size_t size);
void *__wrap_PyMem_Malloc(size_t size)
{
    return refuses() ? NULL : __real_PyMem_Malloc(size);
}

void *__real_PyMem_Calloc(size_t count, size_t size);
void *__wrap_PyMem_Calloc(size_t count, size_t size)
{
    return refuses() ? NULL : __real_PyMem_Calloc(count, size);
}

/* A function of Python that sets an exception where it fails. */
#define WRAPPED(result, name, parameters, arguments)             \
    result __real_##name parameters;                             \
    result __wrap_##name parameters                              \
    {                                                            \
        return refuses() ? PyErr_NoMemory() : __real_##name arguments; \
    }

WRAPPED(PyObject *, _PyObject_GC_New, (PyTypeObject * type), (type))
WRAPPED(PyObject *, PyUnicode_FromStringAndSize, (const char *text, Py_ssize_t size), (text, size))
WRAPPED(PyObject *, PyUnicode_FromString, (const char *text), (text))
WRAPPED(PyObject *, PyBytes_FromStringAndSize, (const char *bytes, Py_ssize_t size), (bytes, size))
WRAPPED(PyObject *, PyTuple_New, (Py_ssize_t size), (size))
WRAPPED(PyObject *, PyList_New, (Py_ssize_t size), (size))
WRAPPED(PyObject *, PyList_AsTuple, (PyObject * list), (list))
WRAPPED(PyObject *, PySequence_List, (PyObject * items), (items))
WRAPPED(PyObject *, PyLong_FromUnsignedLong, (unsigned long number), (number))
WRAPPED(PyObject *, PyLong_FromUnsignedLongLong, (unsigned long long number), (number))
WRAPPED(PyObject *, PyUnicode_AsEncodedString, (PyObject * text, const char *encoding, const char *errors),
        (text, encoding, errors))
WRAPPED(PyObject *, PyObject_Format, (PyObject * value, PyObject *format), (value, format))
WRAPPED(PyObject *, PyLong_FromString, (const char *text, char **end, int base), (text, end, base))

int __real_PyList_Append(PyObject *list, PyObject *item);
int __wrap_PyList_Append(PyObject *list, PyObject *item)
{
    if (!refuses())
        return __real_PyList_Append(list, item);
    PyErr_NoMemory();
    return -1;
}

PyObject *__wrap_PyUnicode_FromFormat(const char *format, ...)
{
    PyObject *text;
    va_list arguments;
    va_start(arguments, format);
    text = refuses() ? PyErr_NoMemory() : PyUnicode_FromFormatV(format, arguments);
    va_end(arguments);
    return text;
}

PyObject *__wrap_Py_BuildValue(const char *format, ...)
{
    PyObject *value;
    va_list arguments;
    va_start(arguments, format);
    value = refuses() ? PyErr_NoMemory() : Py_VaBuildValue(format, arguments);
    va_end(arguments);
    return value;
}

PyObject *__wrap_PyObject_CallFunction(PyObject *function, const char *format, ...)
{
    PyObject *value = NULL, *tuple;
    va_list arguments;
    va_start(arguments, format);
    tuple = refuses() ? PyErr_NoMemory() : Py_VaBuildValue(format, arguments);
    va_end(arguments);
    if (tuple != NULL)
        value = PyObject_CallObject(function, tuple);
    Py_XDECREF(tuple);
    return value;
}
