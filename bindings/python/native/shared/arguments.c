/* SPDX-License-Identifier: Apache-2.0
 *
 * How the functions of the extension modules read their arguments. The errors have the words of Python's own.
 */
#include "arguments.h"

const char *const NO_OPTIONS[] = {NULL};

/* Whether so many arguments are given by position as the function takes; sets a TypeError if not. */
static int check_count(const signature *takes, Py_ssize_t count)
{
    if (count == takes->required)
        return 0;
    if (takes->required == 0)
        PyErr_Format(PyExc_TypeError, "%s() takes no positional arguments", takes->function);
    else
        PyErr_Format(PyExc_TypeError, "%s() takes exactly %zd positional argument%s (%zd given)", takes->function,
                     takes->required, takes->required == 1 ? "" : "s", count);
    return -1;
}

/* Sets a TypeError for a keyword that names no option. */
static void raise_unexpected(const signature *takes, PyObject *keyword)
{
    if (takes->options[0] == NULL)
        PyErr_Format(PyExc_TypeError, "%s() takes no keyword arguments", takes->function);
    else
        PyErr_Format(PyExc_TypeError, "%s() got an unexpected keyword argument '%U'", takes->function, keyword);
}

/* Puts a value in the place of the option that a keyword names: 0, or -1 with a TypeError. No code of a caller runs. */
static int put_option(const signature *takes, PyObject *keyword, PyObject *value, PyObject **options)
{
    size_t place;
    if (!PyUnicode_Check(keyword)) {
        PyErr_SetString(PyExc_TypeError, "keywords must be strings");
        return -1;
    }
    for (place = 0; takes->options[place] != NULL; place++)
        if (PyUnicode_CompareWithASCIIString(keyword, takes->options[place]) == 0)
            break;
    if (takes->options[place] == NULL) {
        raise_unexpected(takes, keyword);
        return -1;
    }
    if (options[place] != NULL) {
        PyErr_Format(PyExc_TypeError, "%s() got multiple values for argument '%U'", takes->function, keyword);
        return -1;
    }
    options[place] = value;
    return 0;
}

/* Says of each option that it is not given, and returns their places. */
static PyObject **without_options(const signature *takes, PyObject **found)
{
    size_t place;
    for (place = 0; takes->options[place] != NULL; place++)
        found[takes->required + (Py_ssize_t)place] = NULL;
    return found + takes->required;
}

int read_arguments(const signature *takes, PyObject *const *arguments, Py_ssize_t count, PyObject *keywords,
                   PyObject **found)
{
    PyObject **options = without_options(takes, found);
    Py_ssize_t place, named = keywords == NULL ? 0 : PyTuple_Size(keywords);
    if (check_count(takes, count) != 0)
        return -1;
    for (place = 0; place < count; place++)
        found[place] = arguments[place];
    for (place = 0; place < named; place++)
        if (put_option(takes, PyTuple_GetItem(keywords, place), arguments[count + place], options) != 0)
            return -1;
    return 0;
}

/* The references are taken before any code of a caller can run, which may change the dict. */
int hold_arguments(const signature *takes, PyObject *arguments, PyObject *keywords, PyObject **found)
{
    PyObject *keyword, *value, **options = without_options(takes, found);
    Py_ssize_t place, at = 0;
    if (check_count(takes, PyTuple_Size(arguments)) != 0)
        return -1;
    while (keywords != NULL && PyDict_Next(keywords, &at, &keyword, &value))
        if (put_option(takes, keyword, value, options) != 0)
            return -1;
    for (place = 0; place < takes->required; place++)
        found[place] = Py_NewRef(PyTuple_GetItem(arguments, place));
    for (place = 0; takes->options[place] != NULL; place++)
        Py_XINCREF(options[place]);
    return 0;
}

void drop_arguments(const signature *takes, PyObject **found)
{
    Py_ssize_t place, count = takes->required;
    while (takes->options[count - takes->required] != NULL)
        count++;
    for (place = 0; place < count; place++)
        Py_XDECREF(found[place]);
}

int read_text(PyObject *value, const char **start, size_t *length)
{
    Py_ssize_t size = 0;
    char *bytes = NULL;
    *start = NULL;
    if (PyUnicode_CheckExact(value))
        *start = PyUnicode_AsUTF8AndSize(value, &size);
    else if (!PyBytes_CheckExact(value))
        PyErr_SetString(PyExc_TypeError, "a text must be a str or bytes, and of no class below these");
    else if (PyBytes_AsStringAndSize(value, &bytes, &size) == 0)
        *start = bytes;
    *length = (size_t)size;
    return *start == NULL ? -1 : 0;
}

int is_true(PyObject *option)
{
    return option == NULL ? 0 : PyObject_IsTrue(option);
}

int read_marks(PyObject *const *values, int count, bool *const *marks)
{
    int place;
    for (place = 0; place < count; place++) {
        int mark = is_true(values[place]);
        if (mark < 0)
            return -1;
        *marks[place] = mark != 0;
    }
    return 0;
}
