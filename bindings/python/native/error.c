/* SPDX-License-Identifier: Apache-2.0
 *
 * The exceptions that the module raises.
 */
#include "native.h"

/* The names of the kinds of faults, which node_semver.h numbers from 1. */
static const char *const KIND_NAMES[] = {
    NULL, "MaxLengthError", "IncompleteInput", "ParseIntError", "MaxIntError", "Context", "NoValidRanges", "Other",
};

/* The name of a value's type: what `type` itself has as `__name__`. A metaclass may have a `__name__` of its own, which
 * may be no str, and it is not asked. NULL with an exception. */
static PyObject *type_name(PyObject *value)
{
    PyObject *members = PyObject_GetAttrString((PyObject *)&PyType_Type, "__dict__");
    PyObject *field = members == NULL ? NULL : PyMapping_GetItemString(members, "__name__");
    PyObject *name = field == NULL ? NULL : PyObject_CallMethod(field, "__get__", "O", (PyObject *)Py_TYPE(value));
    Py_XDECREF(field);
    Py_XDECREF(members);
    return name;
}

void raise_wrong_type(const char *wanted, PyObject *value)
{
    PyObject *name = type_name(value);
    if (name == NULL)
        return;
    PyErr_Format(PyExc_TypeError, "%s, not %U", wanted, name);
    Py_DECREF(name);
}

/* SemverError(text, kind, offset, number), where the number is that of MaxIntError and None of every other kind. */
static void raise_refusal(native_state *state, PyObject *text, const node_semver_fault *fault)
{
    PyObject *number, *error;
    if (fault->kind == 0 || fault->kind >= sizeof KIND_NAMES / sizeof *KIND_NAMES) {
        PyErr_Format(PyExc_SystemError, "a fault of unknown kind %u", (unsigned)fault->kind);
        return;
    }
    number = fault->kind == NODE_SEMVER_MAX_INT ? PyLong_FromUnsignedLongLong(fault->number) : Py_NewRef(Py_None);
    if (number == NULL)
        return;
    error = PyObject_CallFunction(state->error_type, "OsnO", text, KIND_NAMES[fault->kind],
                                  (Py_ssize_t)fault->offset, number);
    Py_DECREF(number);
    if (error == NULL)
        return;
    PyErr_SetObject(state->error_type, error);
    Py_DECREF(error);
}

void raise_failure(node_semver_status status)
{
    if (status == NODE_SEMVER_OUT_OF_MEMORY)
        PyErr_NoMemory();
    else
        PyErr_Format(PyExc_SystemError, "the library returned an unexpected status, %u", (unsigned)status);
}

void raise_status(PyTypeObject *type, node_semver_status status, PyObject *text, const node_semver_fault *fault)
{
    native_state *state;
    if (status != NODE_SEMVER_REFUSED) {
        raise_failure(status);
        return;
    }
    state = state_of_type(type);
    if (state != NULL)
        raise_refusal(state, text, fault);
}

/* The names of why a version is not raised, by status from NODE_SEMVER_INVALID_IDENTIFIER on. */
static const char *const BUMP_FAULTS[] = {"InvalidIdentifier", "NoIdentifier", "SameIdentifier", "NumberTooLarge"};

void raise_bump_status(PyTypeObject *type, node_semver_status status)
{
    native_state *state;
    PyObject *error;
    if (status < NODE_SEMVER_INVALID_IDENTIFIER || status > NODE_SEMVER_NUMBER_TOO_LARGE) {
        raise_failure(status);
        return;
    }
    state = state_of_type(type);
    if (state == NULL)
        return;
    error = PyObject_CallFunction(state->bump_error_type, "(s)", BUMP_FAULTS[status - NODE_SEMVER_INVALID_IDENTIFIER]);
    if (error == NULL)
        return;
    PyErr_SetObject(state->bump_error_type, error);
    Py_DECREF(error);
}
