/* SPDX-License-Identifier: Apache-2.0
 *
 * The extension module node_semver._calls, with a library of its own. It has one function and no state. Only Python's
 * limited API of 3.10 is used.
 */
#include "../shared/arguments.h"

#include "npm_calls.h"

#include <stdlib.h>

/* An answer is seldom longer than the text of its call and this. */
#define MORE 4096

/* From how many bytes of a text on other threads of Python run meanwhile. */
#define LONG 10000

/* The name and the text of a call. */
struct asked {
    const char *name;
    size_t name_length;
    const char *text;
    size_t text_length;
};

static npm_status make(const struct asked *asked, char *room, size_t size, size_t *length)
{
    npm_status status;
    PyThreadState *saved = asked->text_length >= LONG ? PyEval_SaveThread() : NULL;
    status = npm_call(asked->name, asked->name_length, asked->text, asked->text_length, room, size, length);
    if (saved != NULL)
        PyEval_RestoreThread(saved);
    return status;
}

/* The tuple of the status and the answer. */
static PyObject *told(npm_status status, const char *room, size_t length)
{
    PyObject *text, *tuple;
    if (status == NPM_OUT_OF_MEMORY)
        return PyErr_NoMemory();
    text = PyUnicode_FromStringAndSize(room, (Py_ssize_t)length);
    if (text == NULL)
        return NULL;
    tuple = Py_BuildValue("(iO)", (int)status, text);
    Py_DECREF(text);
    return tuple;
}

/* Makes the call with a room of the length that a call has told. The answer has that length again, or there is none. */
static PyObject *answer_of_length(const struct asked *asked, size_t size)
{
    size_t length = 0;
    npm_status status;
    PyObject *answer;
    char *room = malloc(size);
    if (room == NULL)
        return PyErr_NoMemory();
    status = make(asked, room, size, &length);
    if (status != NPM_OUT_OF_MEMORY && length != size)
        answer = PyErr_Format(PyExc_SystemError, "the library told an answer of %zu bytes, and then one of %zu", size,
                              length);
    else
        answer = told(status, room, length);
    free(room);
    return answer;
}

/* Makes the call, and once more if the answer is longer than most. */
static PyObject *answer_of(const struct asked *asked)
{
    size_t size = asked->text_length + MORE, length = 0;
    npm_status status;
    PyObject *answer = NULL;
    char *room = malloc(size);
    if (room == NULL)
        return PyErr_NoMemory();
    status = make(asked, room, size, &length);
    if (length <= size)
        answer = told(status, room, length);
    free(room);
    return length > size ? answer_of_length(asked, length) : answer;
}

PyDoc_STRVAR(call_doc,
"call($module, name, text, /)\n"
"--\n"
"\n"
"The status of a call, and its answer in JSON.");

static PyObject *call(PyObject *module, PyObject *const *arguments, Py_ssize_t count, PyObject *keywords)
{
    static const signature takes = {"call", 2, NO_OPTIONS};
    PyObject *found[2];
    struct asked asked;
    (void)module;
    if (read_arguments(&takes, arguments, count, keywords, found) != 0)
        return NULL;
    if (read_text(found[0], &asked.name, &asked.name_length) != 0 || read_text(found[1], &asked.text, &asked.text_length) != 0)
        return NULL;
    return answer_of(&asked);
}

static PyMethodDef module_functions[] = {
    {"call", TAKES_ARGUMENTS(call), call_doc},
    {NULL, NULL, 0, NULL},
};

static PyModuleDef_Slot module_slots[] = {
    {0, NULL},
};

static PyModuleDef module_definition = {
    PyModuleDef_HEAD_INIT, "node_semver._calls", "Calls of npm's files, by their names.", 0,
    module_functions, module_slots, NULL, NULL, NULL,
};

PyMODINIT_FUNC PyInit__calls(void)
{
    return PyModuleDef_Init(&module_definition);
}
