/* SPDX-License-Identifier: Apache-2.0
 *
 * Arguments, texts and what else Version and Range share.
 */
#include "native.h"

#include <string.h>

PyObject *printed(printer *print, const void *value, size_t place)
{
    char room[256];
    char *longer;
    PyObject *text;
    size_t again, length = print(value, place, room, sizeof room);
    if (length == 0)
        return PyErr_NoMemory();
    if (length <= sizeof room)
        return PyUnicode_FromStringAndSize(room, (Py_ssize_t)length);
    longer = PyMem_Malloc(length);
    if (longer == NULL)
        return PyErr_NoMemory();
    WHILE_OTHERS_RUN(length >= LONG, again = print(value, place, longer, length));
    if (again == length)
        text = PyUnicode_FromStringAndSize(longer, (Py_ssize_t)length);
    else
        text = PyErr_NoMemory();
    PyMem_Free(longer);
    return text;
}

PyObject *hidden_list(void)
{
    PyObject *list = PyList_New(0);
    if (list != NULL)
        PyObject_GC_UnTrack(list);
    return list;
}

/* An iterable is read into a list first. While `tuple(iterable)` reads an iterator, the tuple has empty places, and code that
 * the iterator runs may find it through the garbage collector. A list too: before Python 3.12, PyList_AsTuple reads it where it
 * stood before a collection, whose callbacks may change the caller's list. */
PyObject *items_of(PyObject *iterable, const char *name)
{
    PyObject *list, *items;
    if (PyUnicode_Check(iterable))
        return PyErr_Format(PyExc_TypeError, "%s, not a str", name);
    if (PyTuple_CheckExact(iterable))
        return Py_NewRef(iterable);
    list = PySequence_List(iterable);
    if (list == NULL)
        return NULL;
    PyObject_GC_UnTrack(list);
    items = PyList_AsTuple(list);
    Py_DECREF(list);
    return items;
}

const char *text_of(PyObject *value, const char *wanted, Py_ssize_t *length)
{
    if (!PyUnicode_Check(value)) {
        raise_wrong_type(wanted, value);
        return NULL;
    }
    return PyUnicode_AsUTF8AndSize(value, length);
}

/* Puts U+FFFD in the place of each surrogate. Their bytes begin with 0xED and a byte from 0xA0 on, and no other's do. */
static void replace_surrogates(unsigned char *bytes, Py_ssize_t length)
{
    Py_ssize_t at;
    for (at = 0; at + 2 < length; at++)
        if (bytes[at] == 0xED && bytes[at + 1] >= 0xA0)
            memcpy(bytes + at, "\xEF\xBF\xBD", 3);
}

/* The bytes of a str in which a surrogate stands alone, with U+FFFD in its place; NULL if out of memory. */
static PyObject *without_surrogates(PyObject *value)
{
    PyObject *encoded = PyUnicode_AsEncodedString(value, "utf-8", "surrogatepass"), *bytes;
    Py_ssize_t length = encoded == NULL ? 0 : PyBytes_Size(encoded);
    if (encoded == NULL)
        return NULL;
    bytes = PyBytes_FromStringAndSize(PyBytes_AsString(encoded), length);
    Py_DECREF(encoded);
    if (bytes != NULL)
        replace_surrogates((unsigned char *)PyBytes_AsString(bytes), length);
    return bytes;
}

int open_text(PyObject *value, const char *wanted, utf8 *text)
{
    Py_ssize_t length = 0;
    text->start = text_of(value, wanted, &length);
    text->held = NULL;
    if (text->start != NULL) {
        text->held = Py_NewRef(value);
    } else if (PyErr_ExceptionMatches(PyExc_UnicodeEncodeError)) {
        PyErr_Clear();
        text->held = without_surrogates(value);
        text->start = text->held == NULL ? NULL : PyBytes_AsString(text->held);
        length = text->held == NULL ? 0 : PyBytes_Size(text->held);
    }
    text->length = (size_t)length;
    return text->held == NULL ? -1 : 0;
}

void close_text(const utf8 *text)
{
    Py_XDECREF(text->held);
}

int read_included(const char *method, PyObject *const *arguments, Py_ssize_t count, PyObject *keywords,
                  PyObject **argument, int *is_included)
{
    static const char *const options[] = {"include_prerelease", NULL};
    const signature takes = {method, argument != NULL, options};
    PyObject *found[2];
    if (read_arguments(&takes, arguments, count, keywords, found) != 0)
        return -1;
    if (argument != NULL)
        *argument = found[0];
    *is_included = is_true(found[takes.required]);
    return *is_included < 0 ? -1 : 0;
}

PyObject *format_value(PyObject *self, PyObject *format)
{
    PyObject *text, *formatted;
    if (!PyUnicode_Check(format)) {
        raise_wrong_type("__format__() argument must be str", format);
        return NULL;
    }
    text = PyObject_Str(self);
    formatted = text == NULL ? NULL : PyObject_Format(text, format);
    Py_XDECREF(text);
    return formatted;
}

int visit_value(PyObject *self, visitproc visit, void *arg)
{
    Py_VISIT(Py_TYPE(self));
    return 0;
}

PyObject *same_object(PyObject *self, PyObject *ignored)
{
    (void)ignored;
    return Py_NewRef(self);
}

int reads_back(PyObject *self, PyObject *text)
{
    int same;
    PyObject *again = PyObject_CallFunction((PyObject *)Py_TYPE(self), "(O)", text);
    if (again == NULL) {
        if (!PyErr_ExceptionMatches(PyExc_ValueError))
            return -1;
        PyErr_Clear();
        return 0;
    }
    same = PyObject_RichCompareBool(self, again, Py_EQ);
    Py_DECREF(again);
    return same;
}

/* The repr is made before the message: if it failed inside PyErr_Format, an older Python would raise a ValueError
 * without a text. */
static void raise_not_read_back(PyObject *self)
{
    PyObject *repr = PyObject_Repr(self);
    if (repr == NULL)
        return;
    PyErr_Format(PyExc_ValueError, "cannot pickle %U: its text is not read as the same value", repr);
    Py_DECREF(repr);
}

/* The inner tuple is made first. With one format for both the outer one is first, and has an empty place, which code that the
 * garbage collector runs may find. */
PyObject *call_with(PyObject *make, PyObject *argument)
{
    PyObject *call, *arguments = Py_BuildValue("(O)", argument);
    if (arguments == NULL)
        return NULL;
    call = Py_BuildValue("(OO)", make, arguments);
    Py_DECREF(arguments);
    return call;
}

PyObject *reduced(PyObject *self, PyObject *text)
{
    PyObject *result = NULL;
    int same;
    if (text == NULL)
        return NULL;
    same = reads_back(self, text);
    if (same == 1)
        result = call_with((PyObject *)Py_TYPE(self), text);
    else if (same == 0)
        raise_not_read_back(self);
    Py_DECREF(text);
    return result;
}
