/* SPDX-License-Identifier: Apache-2.0
 *
 * What the files of the extension module share. Only Python's limited API of 3.10 is used, so one build serves 3.10 and
 * every later Python 3.
 */
#ifndef NATIVE_H
#define NATIVE_H

#include "shared/arguments.h"

#include <stddef.h>
#include <structmember.h>

#include "node_semver.h"

/* The types of one interpreter. */
typedef struct {
    PyTypeObject *version_type;
    PyTypeObject *range_type;
    PyObject *error_type;
    PyObject *bump_error_type;
} native_state;

/* ---- module.c ---- */

/* The state of the module, and of the module of a Version or a Range or of their types. NULL with an exception if the
 * module was made and never executed, or if the garbage collector has cleared it. */
native_state *state_of_module(PyObject *module);
native_state *state_of_type(PyTypeObject *type);
native_state *state_of(PyObject *value);

/* Runs a statement that reads no Python object. Other threads of Python run meanwhile if it is long. */
#define WHILE_OTHERS_RUN(is_long, statement)                              \
    do {                                                                  \
        PyThreadState *saved_ = (is_long) ? PyEval_SaveThread() : NULL;   \
        statement;                                                        \
        if (saved_ != NULL)                                               \
            PyEval_RestoreThread(saved_);                                 \
    } while (0)

/* From how many steps a call is long: bytes of a text, versions of a list, sets of two ranges, or pairs of their sets.
 * Fewer take at most some milliseconds, and Python lets each thread run that long. */
#define LONG 10000

/* A `Version` and a `Range`: the handle is full from the moment the object exists until it is freed. Python keeps the weak
 * references to the object in its `weak`. A range keeps how many sets it has and, from the first `str` and `hash` on, its print
 * and its hash, which are NULL and -1 before. */
typedef struct {
    PyObject_HEAD
    node_semver_version handle;
    PyObject *weak;
} version_object;

typedef struct {
    PyObject_HEAD
    node_semver_range handle;
    PyObject *weak;
    size_t set_count;
    PyObject *text;
    Py_hash_t hash;
} range_object;

#define VERSION_OF(object) (&((version_object *)(object))->handle)
#define RANGE_OF(object) (&((range_object *)(object))->handle)
#define SET_COUNT(object) (((range_object *)(object))->set_count)

extern PyType_Spec version_spec;
extern PyType_Spec range_spec;

/* The flags of both types. A value holds its type, and the garbage collector must see that: a value that its own module
 * can reach would keep the module otherwise. */
#define VALUE_FLAGS (Py_TPFLAGS_DEFAULT | Py_TPFLAGS_IMMUTABLETYPE | Py_TPFLAGS_HAVE_GC)

/* ---- error.c: each sets an exception ---- */

/* TypeError: "`wanted`, not `the type of value`". */
void raise_wrong_type(const char *wanted, PyObject *value);

/* MemoryError, or SystemError for a status that the call never returns. */
void raise_failure(node_semver_status status);

/* The same, or SemverError for a text that is refused. `type` is one of our two, since its module has the exception. */
void raise_status(PyTypeObject *type, node_semver_status status, PyObject *text, const node_semver_fault *fault);

/* MemoryError, or BumpError for a version that is not raised. */
void raise_bump_status(PyTypeObject *type, node_semver_status status);

/* ---- text.c ---- */

/* Prints a value, or the identifier of a version at `place`, as the print functions of node_semver.h do. */
typedef size_t printer(const void *value, size_t place, char *room, size_t size);

/* The str that `print` writes; NULL with an exception if out of memory. */
PyObject *printed(printer *print, const void *value, size_t place);

/* An empty list that no other code can find, since the garbage collector does not know it: code that runs meanwhile, of a callback
 * of the collector or of another thread, cannot change it. NULL if out of memory. */
PyObject *hidden_list(void);

/* The items of an iterable in a tuple, which no other code changes; NULL with an exception. A str is refused, although
 * its characters could be iterated: `name` begins the error. */
PyObject *items_of(PyObject *iterable, const char *name);

/* The UTF-8 of a str, valid as long as the str; NULL with a TypeError that starts with `wanted`, or with a
 * UnicodeEncodeError where a surrogate stands alone. */
const char *text_of(PyObject *value, const char *wanted, Py_ssize_t *length);

/* The UTF-8 of a str, and a reference to what has it: the str, or a copy of its bytes. */
typedef struct {
    const char *start;
    size_t length;
    PyObject *held;
} utf8;

/* Fills the UTF-8 of a str: 0, or -1 with a TypeError that starts with `wanted`, or if out of memory. A surrogate that stands
 * alone becomes U+FFFD, which has as many bytes, and is no part of a version or a range either. */
int open_text(PyObject *value, const char *wanted, utf8 *text);

/* Gives up the reference. */
void close_text(const utf8 *text);

/* The argument of a method, unless `argument` is NULL, and its option `include_prerelease`: 0, or -1 with an exception. The
 * reference is borrowed. */
int read_included(const char *method, PyObject *const *arguments, Py_ssize_t count, PyObject *keywords,
                  PyObject **argument, int *is_included);

/* What a value holds, for the garbage collector: its type. It is never cleared. */
int visit_value(PyObject *self, visitproc visit, void *arg);

/* `format` of a value: that of its str. */
PyObject *format_value(PyObject *self, PyObject *format);
#define FORMAT_DOC "__format__($self, format_spec, /)\n--\n\nThe text, as `format` lays out a str."

/* Where an object keeps its weak references, as PyMemberDef takes it. */
#define WEAK_MEMBERS(object)                                                             \
    {                                                                                    \
        {"__weaklistoffset__", T_PYSSIZET, offsetof(object, weak), READONLY, NULL},      \
        {NULL, 0, 0, 0, NULL},                                                           \
    }

/* `copy.copy` and `copy.deepcopy` of a value that never changes: the value. */
PyObject *same_object(PyObject *self, PyObject *ignored);

/* Whether the text is read as a value equal to `self`: 1, 0, or -1 with an exception. A refusal counts as 0. */
int reads_back(PyObject *self, PyObject *text);

/* A pair of what makes a value and the tuple of its argument, which is what pickle stores; NULL with an exception. */
PyObject *call_with(PyObject *make, PyObject *argument);

/* What pickle stores: the type and the text. NULL with a ValueError if the text is not read as an equal value. Takes
 * the reference to `text`, which may be NULL with an exception. */
PyObject *reduced(PyObject *self, PyObject *text);

/* ---- version.c ---- */

PyObject *new_version(PyTypeObject *type, node_semver_version handle);

/* Reads the version of a str into an empty handle, in loose form or by the grammar of SemVer 2.0.0 alone: 0, or -1 with
 * an exception, a TypeError that starts with `wanted` if it is no str. `type` is as for raise_status. */
int read_version(PyTypeObject *type, PyObject *text, bool is_strict, const char *wanted, node_semver_version *handle);

/* ---- coerce.c ---- */

/* `Version.coerce`. */
PyObject *version_coerce(PyObject *type, PyObject *const *arguments, Py_ssize_t count, PyObject *keywords);

/* ---- bump.c ---- */

/* npm's name of a bump, or NULL for a number that is none. */
const char *name_of_bump(uint32_t bump);

/* `Version.bump`. */
PyObject *version_bump(PyObject *self, PyObject *const *arguments, Py_ssize_t count, PyObject *keywords);

/* ---- range.c ---- */

PyObject *new_range(PyTypeObject *type, node_semver_range handle);

/* ---- range_text.c ---- */

PyObject *range_new(PyTypeObject *type, PyObject *arguments, PyObject *keywords);
PyObject *range_parse_npm(PyObject *type, PyObject *const *arguments, Py_ssize_t count, PyObject *keywords);

/* ---- sets.c: the sets of a Range ---- */

PyObject *range_sets(PyObject *self, void *ignored);
PyObject *range_from_sets(PyObject *type, PyObject *sets);

/* ---- keys.c: what a database sorts by ---- */

/* The bytes of a version's key; NULL with an exception. */
PyObject *key_of(const node_semver_version *version);

/* Appends a value, and takes the reference: 0, or -1 with an exception, as for NULL. */
int append(PyObject *list, PyObject *value);

PyObject *version_key(PyObject *self, void *ignored);
PyObject *range_intervals(PyObject *self, PyObject *const *arguments, Py_ssize_t count, PyObject *keywords);
PyObject *range_sql(PyObject *self, PyObject *const *arguments, Py_ssize_t count, PyObject *keywords);

/* ---- hash.c ---- */

Py_hash_t version_hash(PyObject *self);
Py_hash_t range_hash(PyObject *self);

/* ---- versions.c: methods of Range over an iterable of versions ---- */

PyObject *range_filter(PyObject *self, PyObject *const *arguments, Py_ssize_t count, PyObject *keywords);
PyObject *range_max_satisfying(PyObject *self, PyObject *const *arguments, Py_ssize_t count, PyObject *keywords);
PyObject *range_min_satisfying(PyObject *self, PyObject *const *arguments, Py_ssize_t count, PyObject *keywords);

#endif
