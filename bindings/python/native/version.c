/* SPDX-License-Identifier: Apache-2.0
 *
 * The type Version.
 */
#include "native.h"

#include <string.h>

PyObject *new_version(PyTypeObject *type, node_semver_version handle)
{
    version_object *self = PyObject_GC_New(version_object, type);
    if (self == NULL) {
        node_semver_version_free(handle);
        return NULL;
    }
    self->handle = handle;
    self->weak = NULL;
    PyObject_GC_Track(self);
    return (PyObject *)self;
}

typedef node_semver_status version_parser(const char *, size_t, node_semver_version *, node_semver_fault *);

int read_version(PyTypeObject *type, PyObject *text, bool is_strict, const char *wanted, node_semver_version *handle)
{
    node_semver_fault fault = {0, 0, 0};
    node_semver_status status;
    version_parser *parse = is_strict ? node_semver_version_parse_strict : node_semver_version_parse;
    utf8 read;
    if (open_text(text, wanted, &read) != 0)
        return -1;
    WHILE_OTHERS_RUN(read.length >= LONG, status = parse(read.start, read.length, handle, &fault));
    close_text(&read);
    if (status == NODE_SEMVER_OK)
        return 0;
    raise_status(type, status, text, &fault);
    return -1;
}

/* The Version of a text, where `strict` is NULL if it is not given. */
static PyObject *version_of(PyTypeObject *type, PyObject *text, PyObject *strict)
{
    node_semver_version handle = NODE_SEMVER_EMPTY;
    int is_strict = is_true(strict);
    if (is_strict < 0 || read_version(type, text, is_strict, "a version must be a str", &handle) != 0)
        return NULL;
    return new_version(type, handle);
}

static PyObject *version_new(PyTypeObject *type, PyObject *arguments, PyObject *keywords)
{
    static const char *const options[] = {"strict", NULL};
    static const signature takes = {"Version", 1, options};
    PyObject *found[2], *version;
    if (hold_arguments(&takes, arguments, keywords, found) != 0)
        return NULL;
    version = version_of(type, found[0], found[1]);
    drop_arguments(&takes, found);
    return version;
}

static void version_dealloc(PyObject *self)
{
    PyTypeObject *type = Py_TYPE(self);
    PyObject_GC_UnTrack(self);
    if (((version_object *)self)->weak != NULL)
        PyObject_ClearWeakRefs(self);
    node_semver_version_free(*VERSION_OF(self));
    PyObject_GC_Del(self);
    Py_DECREF(type);
}

static size_t print_version(const void *version, size_t place, char *room, size_t size)
{
    (void)place;
    return node_semver_version_print(version, room, size);
}

static PyObject *version_str(PyObject *self)
{
    return printed(print_version, VERSION_OF(self), 0);
}

static PyObject *version_repr(PyObject *self)
{
    PyObject *repr, *text = version_str(self);
    if (text == NULL)
        return NULL;
    repr = PyUnicode_FromFormat("Version(%R)", text);
    Py_DECREF(text);
    return repr;
}

/* The type is final, so two values of one type are two Versions. */
static PyObject *version_compare(PyObject *one, PyObject *other, int operation)
{
    int32_t order;
    if (Py_TYPE(one) != Py_TYPE(other))
        Py_RETURN_NOTIMPLEMENTED;
    order = node_semver_version_compare(VERSION_OF(one), VERSION_OF(other));
    Py_RETURN_RICHCOMPARE(order, 0, operation);
}

/* Whether the argument of a method is a Version; sets a TypeError if not. */
static int is_version(PyObject *self, PyObject *other)
{
    if (Py_TYPE(self) == Py_TYPE(other))
        return 1;
    raise_wrong_type("the other version must be a Version", other);
    return 0;
}

static PyObject *version_compare_build(PyObject *self, PyObject *other)
{
    if (!is_version(self, other))
        return NULL;
    return PyLong_FromLong(node_semver_version_compare_build(VERSION_OF(self), VERSION_OF(other)));
}

static PyObject *version_diff(PyObject *self, PyObject *other)
{
    uint32_t bump;
    const char *name;
    if (!is_version(self, other))
        return NULL;
    bump = node_semver_version_diff(VERSION_OF(self), VERSION_OF(other));
    if (bump == NODE_SEMVER_NO_BUMP)
        Py_RETURN_NONE;
    name = name_of_bump(bump);
    if (name != NULL)
        return PyUnicode_FromString(name);
    return PyErr_Format(PyExc_SystemError, "a bump of unknown kind %u", (unsigned)bump);
}

static PyObject *version_major(PyObject *self, void *ignored)
{
    (void)ignored;
    return PyLong_FromUnsignedLongLong(node_semver_version_major(VERSION_OF(self)));
}

static PyObject *version_minor(PyObject *self, void *ignored)
{
    (void)ignored;
    return PyLong_FromUnsignedLongLong(node_semver_version_minor(VERSION_OF(self)));
}

static PyObject *version_patch(PyObject *self, void *ignored)
{
    (void)ignored;
    return PyLong_FromUnsignedLongLong(node_semver_version_patch(VERSION_OF(self)));
}

static PyObject *version_is_prerelease(PyObject *self, void *ignored)
{
    (void)ignored;
    return PyBool_FromLong(node_semver_version_is_prerelease(VERSION_OF(self)));
}

/* Whether an identifier is a number: digits alone, at most 18446744073709551615. The library prints such a number
 * without leading zeros, and keeps a greater one as a text. */
static int is_number(const char *text, size_t length)
{
    if (strspn(text, "0123456789") != length)
        return 0;
    return length < 20 || (length == 20 && strcmp(text, "18446744073709551615") <= 0);
}

static PyObject *identifier(printer *print, const node_semver_version *version, size_t place)
{
    PyObject *result = NULL, *text = printed(print, version, place);
    Py_ssize_t length;
    const char *start;
    if (text == NULL)
        return NULL;
    start = PyUnicode_AsUTF8AndSize(text, &length);
    if (start != NULL)
        result = is_number(start, (size_t)length) ? PyLong_FromString(start, NULL, 10) : Py_NewRef(text);
    Py_DECREF(text);
    return result;
}

/* A hidden list is filled, and no tuple: `printed` lets other threads run while it writes a long identifier, and they may find a
 * tuple with empty places through the garbage collector. */
static PyObject *identifiers(printer *print, const node_semver_version *version, size_t count)
{
    size_t place;
    PyObject *list = hidden_list(), *tuple;
    for (place = 0; list != NULL && place < count; place++) {
        PyObject *item = identifier(print, version, place);
        if (item == NULL || PyList_Append(list, item) != 0)
            Py_CLEAR(list);
        Py_XDECREF(item);
    }
    tuple = list == NULL ? NULL : PyList_AsTuple(list);
    Py_XDECREF(list);
    return tuple;
}

static size_t print_prerelease(const void *version, size_t place, char *room, size_t size)
{
    return node_semver_version_pre_release_print(version, place, room, size);
}

static size_t print_build(const void *version, size_t place, char *room, size_t size)
{
    return node_semver_version_build_print(version, place, room, size);
}

static PyObject *version_prerelease(PyObject *self, void *ignored)
{
    const node_semver_version *version = VERSION_OF(self);
    (void)ignored;
    return identifiers(print_prerelease, version, node_semver_version_pre_release_count(version));
}

static PyObject *version_build(PyObject *self, void *ignored)
{
    const node_semver_version *version = VERSION_OF(self);
    (void)ignored;
    return identifiers(print_build, version, node_semver_version_build_count(version));
}

static PyObject *version_reduce(PyObject *self, PyObject *ignored)
{
    (void)ignored;
    return reduced(self, version_str(self));
}

#include "version_docs.h"

static PyGetSetDef version_fields[] = {
    {"major", version_major, NULL, "The first number.\n\n>>> Version('1.2.3').major\n1", NULL},
    {"minor", version_minor, NULL, "The second number.\n\n>>> Version('1.2.3').minor\n2", NULL},
    {"patch", version_patch, NULL, "The third number.\n\n>>> Version('1.2.3').patch\n3", NULL},
    {"prerelease", version_prerelease, NULL,
     "The identifiers of the prerelease: an int where one is a number, and a str otherwise.\n\n"
     ">>> Version('1.2.3-rc.4').prerelease\n('rc', 4)\n>>> Version('1.2.3').prerelease\n()", NULL},
    {"build", version_build, NULL,
     "The identifiers of the build: an int where one is a number, and a str otherwise.\n\n"
     ">>> Version('1.2.3+linux.64').build\n('linux', 64)", NULL},
    {"is_prerelease", version_is_prerelease, NULL,
     "Whether the version has a prerelease.\n\n>>> Version('1.2.3-rc.4').is_prerelease\nTrue\n"
     ">>> Version('1.2.3+build').is_prerelease\nFalse", NULL},
    {"key", version_key, NULL, key_doc, NULL},
    {NULL, NULL, NULL, NULL, NULL},
};

static PyMethodDef version_methods[] = {
    {"coerce", TAKES_ARGUMENTS(version_coerce) | METH_CLASS, coerce_doc},
    {"diff", version_diff, METH_O, diff_doc},
    {"bump", TAKES_ARGUMENTS(version_bump), bump_doc},
    {"compare_build", version_compare_build, METH_O, compare_build_doc},
    {"__copy__", same_object, METH_NOARGS, "__copy__($self, /)\n--\n\nThe version itself: it never changes."},
    {"__deepcopy__", same_object, METH_O, "__deepcopy__($self, memo, /)\n--\n\nThe version itself: it never changes."},
    {"__format__", format_value, METH_O, FORMAT_DOC},
    {"__reduce__", version_reduce, METH_NOARGS,
     "__reduce__($self, /)\n--\n\nWhat pickle stores: the text. Raises ValueError if the text is not read back."},
    {NULL, NULL, 0, NULL},
};

static PyMemberDef version_members[] = WEAK_MEMBERS(version_object);

static PyType_Slot version_slots[] = {
    {Py_tp_doc, (void *)version_doc},
    {Py_tp_new, version_new},
    {Py_tp_dealloc, version_dealloc},
    {Py_tp_traverse, visit_value},
    {Py_tp_str, version_str},
    {Py_tp_repr, version_repr},
    {Py_tp_hash, version_hash},
    {Py_tp_richcompare, version_compare},
    {Py_tp_getset, version_fields},
    {Py_tp_methods, version_methods},
    {Py_tp_members, version_members},
    {0, NULL},
};

PyType_Spec version_spec = {
    "node_semver.Version", sizeof(version_object), 0, VALUE_FLAGS, version_slots,
};
