/* SPDX-License-Identifier: Apache-2.0
 *
 * How the functions of the extension modules read their arguments. Only Python's limited API of 3.10 is used.
 *
 * Python's own functions for that are not used: they borrow the values of the dict of a call with keywords, and code of an
 * argument, or another thread, may clear that dict while they are used.
 */
#ifndef ARGUMENTS_H
#define ARGUMENTS_H

#ifndef Py_LIMITED_API
#define Py_LIMITED_API 0x030A0000
#endif
#include <Python.h>

#include <stdbool.h>

/* What a function takes: so many arguments, by position alone and none of them optional, and then options, by keyword alone.
 * The names of the options end with NULL. */
typedef struct {
    const char *function;
    Py_ssize_t required;
    const char *const *options;
} signature;

/* The names of no options. */
extern const char *const NO_OPTIONS[];

/* A function that reads its arguments so, as PyMethodDef takes it. */
#define TAKES_ARGUMENTS(function) (PyCFunction)(void (*)(void))function, METH_FASTCALL | METH_KEYWORDS

/* Reads the arguments of a call: those by position, and then the value of each option, or NULL if it is not given. 0, or -1 with
 * a TypeError. The references are borrowed: the caller holds each argument until the call returns. */
int read_arguments(const signature *takes, PyObject *const *arguments, Py_ssize_t count, PyObject *keywords,
                   PyObject **found);

/* The same for a constructor, which gets a tuple and a dict, or NULL for the dict. The references are new, and none is left if
 * it returns -1. */
int hold_arguments(const signature *takes, PyObject *arguments, PyObject *keywords, PyObject **found);

/* Gives up the references of hold_arguments. */
void drop_arguments(const signature *takes, PyObject **found);

/* The text of an exact str or of an exact bytes, as UTF-8 and as it stands, valid as long as the object: 0, or -1 with an
 * exception. No buffer is asked for, which a class of a caller could make. */
int read_text(PyObject *value, const char **start, size_t *length);

/* Whether the value of an option is true, which it is not where it is not given: 1, 0, or -1 with what its `__bool__` raises. */
int is_true(PyObject *option);

/* Reads what must be true or false into so many marks: 0, or -1 with what a `__bool__` raises. */
int read_marks(PyObject *const *values, int count, bool *const *marks);

#endif
