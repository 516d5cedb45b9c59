/* SPDX-License-Identifier: Apache-2.0
 *
 * The extension module node_semver._native. It has no global state: each interpreter has types of its own.
 *
 * It is no module over ctypes, with which `copy.copy` frees a handle twice, and a version passed for a range crashes. It costs the
 * free-threaded build.
 */
#include "native.h"

/* The state, if fill_module has filled it: the type of ranges is the last that it makes. */
static native_state *full_state(native_state *state)
{
    if (state != NULL && state->range_type != NULL)
        return state;
    if (!PyErr_Occurred())
        PyErr_SetString(PyExc_RuntimeError, "node_semver._native is not imported");
    return NULL;
}

native_state *state_of_module(PyObject *module)
{
    return full_state(PyModule_GetState(module));
}

native_state *state_of_type(PyTypeObject *type)
{
    return full_state(PyType_GetModuleState(type));
}

native_state *state_of(PyObject *value)
{
    return state_of_type(Py_TYPE(value));
}

PyDoc_STRVAR(satisfies_doc,
"satisfies($module, version, range, /)\n"
"--\n"
"\n"
"Whether the version of one text is in the range of another, read and checked in one call.\n"
"\n"
">>> satisfies('1.3.0', '^1.2.3'), satisfies('2.0.0', '^1.2.3')\n"
"(True, False)");

/* Opens the texts of a version and of a range: 0, or -1 with an exception. */
static int open_texts(PyObject *const *texts, utf8 *version, utf8 *range)
{
    if (open_text(texts[0], "a version must be a str", version) != 0)
        return -1;
    if (open_text(texts[1], "a range must be a str", range) == 0)
        return 0;
    close_text(version);
    return -1;
}

/* The arguments are the two texts, the version's first. The range is read first, and its fault alone is
 * NoValidRanges. */
static PyObject *satisfies(PyObject *module, PyObject *const *arguments, Py_ssize_t count, PyObject *keywords)
{
    static const signature takes = {"satisfies", 2, NO_OPTIONS};
    node_semver_fault fault = {0, 0, 0};
    node_semver_status status;
    native_state *state = state_of_module(module);
    PyObject *texts[2];
    utf8 version, range;
    bool inside;
    if (state == NULL || read_arguments(&takes, arguments, count, keywords, texts) != 0
        || open_texts(texts, &version, &range) != 0)
        return NULL;
    WHILE_OTHERS_RUN(version.length + range.length >= LONG,
                     status = node_semver_satisfies_text(range.start, range.length, version.start, version.length,
                                                         &inside, &fault));
    close_text(&version);
    close_text(&range);
    if (status == NODE_SEMVER_OK)
        return PyBool_FromLong(inside);
    raise_status(state->range_type, status, texts[fault.kind == NODE_SEMVER_NO_VALID_RANGES], &fault);
    return NULL;
}

static PyMethodDef module_functions[] = {
    {"satisfies", TAKES_ARGUMENTS(satisfies), satisfies_doc},
    {NULL, NULL, 0, NULL},
};

/* Makes a type and adds it to the module; NULL with an exception. */
static PyTypeObject *add_type(PyObject *module, PyType_Spec *spec)
{
    PyTypeObject *type = (PyTypeObject *)PyType_FromModuleAndSpec(module, spec, NULL);
    if (type != NULL && PyModule_AddType(module, type) != 0)
        Py_CLEAR(type);
    return type;
}

static int fill_module(PyObject *module)
{
    native_state *state = PyModule_GetState(module);
    PyObject *errors = PyImport_ImportModule("node_semver._error");
    if (errors == NULL)
        return -1;
    state->error_type = PyObject_GetAttrString(errors, "SemverError");
    state->bump_error_type = state->error_type == NULL ? NULL : PyObject_GetAttrString(errors, "BumpError");
    Py_DECREF(errors);
    if (state->bump_error_type == NULL)
        return -1;
    state->version_type = add_type(module, &version_spec);
    if (state->version_type == NULL)
        return -1;
    state->range_type = add_type(module, &range_spec);
    return state->range_type == NULL ? -1 : 0;
}

static int visit_module(PyObject *module, visitproc visit, void *arg)
{
    native_state *state = PyModule_GetState(module);
    if (state == NULL)
        return 0;
    Py_VISIT(state->version_type);
    Py_VISIT(state->range_type);
    Py_VISIT(state->error_type);
    Py_VISIT(state->bump_error_type);
    return 0;
}

static int clear_module(PyObject *module)
{
    native_state *state = PyModule_GetState(module);
    if (state == NULL)
        return 0;
    Py_CLEAR(state->range_type); /* first: full_state reads it */
    Py_CLEAR(state->version_type);
    Py_CLEAR(state->error_type);
    Py_CLEAR(state->bump_error_type);
    return 0;
}

static void free_module(void *module)
{
    clear_module(module);
}

static PyModuleDef_Slot module_slots[] = {
    {Py_mod_exec, fill_module},
    {0, NULL},
};

static PyModuleDef module_definition = {
    PyModuleDef_HEAD_INIT, "node_semver._native", "npm's versions and version ranges.", sizeof(native_state),
    module_functions, module_slots, visit_module, clear_module, free_module,
};

PyMODINIT_FUNC PyInit__native(void)
{
    return PyModuleDef_Init(&module_definition);
}
