/* SPDX-License-Identifier: Apache-2.0
 *
 * Makes the calls of the package with arbitrary objects in arbitrary order, in a Python inside, and looks for an access to
 * memory that is not the extension's own, for a block of the library that is not freed, and for what calls.py looks for.
 *
 * The extension is part of the program. PYTHONPATH has the package's own files and calls.py. Python allocates by malloc.
 */
#define PY_SSIZE_T_CLEAN
#include <Python.h>

#include "../../c/tests/memory.h"

#include <stdint.h>
#include <stdlib.h>

PyMODINIT_FUNC PyInit__native(void);
PyMODINIT_FUNC PyInit__calls(void);

/* Ends the run with the exception, if there is one. */
static PyObject *must(PyObject *value)
{
    if (value == NULL) {
        PyErr_Print();
        abort();
    }
    return value;
}

/* Imports a function of calls.py. */
static PyObject *function(const char *name)
{
    static PyObject *module;
    if (module == NULL) {
        setenv("PYTHONMALLOC", "malloc", 1);
        PyImport_AppendInittab("node_semver._native", PyInit__native);
        PyImport_AppendInittab("node_semver._calls", PyInit__calls);
        Py_Initialize();
        module = must(PyImport_ImportModule("calls"));
    }
    return must(PyObject_GetAttrString(module, name));
}

/* An input, whose commands calls.py runs. It forgets all objects of an input at its end. */
int LLVMFuzzerTestOneInput(const uint8_t *bytes, size_t length);
int LLVMFuzzerTestOneInput(const uint8_t *bytes, size_t length)
{
    static PyObject *run;
    if (run == NULL) {
        run = function("run");
    }
    long before = blocks;
    Py_DECREF(must(PyObject_CallFunction(run, "y#", (const char *)bytes, (Py_ssize_t)length)));
    if (blocks != before) {
        fprintf(stderr, "WRONG: %ld blocks are not freed\n", blocks - before);
        abort();
    }
    return 0;
}
