/* SPDX-License-Identifier: Apache-2.0
 *
 * The sets of a Range, and the Range of given sets. A set is a pair of cuts, the lower one and the upper one. A cut is
 * a pair of its kind, a str, and its version, which is None at the start and the end of all versions.
 */
#include "native.h"

#include <string.h>

/* The kinds of cuts, which node_semver.h numbers from 0. */
static const char *const KINDS[] = {"start", "before", "after", "end"};
#define KIND_COUNT (sizeof KINDS / sizeof *KINDS)

static bool has_version(uint32_t kind)
{
    return kind == NODE_SEMVER_BEFORE || kind == NODE_SEMVER_AFTER;
}

/* ---- from C to Python ---- */

/* The pair of a cut. Takes the cut's version. */
static PyObject *pair_of_cut(native_state *state, node_semver_cut cut)
{
    PyObject *version, *pair;
    if (cut.kind >= KIND_COUNT) {
        node_semver_version_free(cut.version);
        return PyErr_Format(PyExc_SystemError, "a cut of unknown kind %u", (unsigned)cut.kind);
    }
    version = has_version(cut.kind) ? new_version(state->version_type, cut.version) : Py_NewRef(Py_None);
    if (version == NULL)
        return NULL;
    pair = Py_BuildValue("(sO)", KINDS[cut.kind], version);
    Py_DECREF(version);
    return pair;
}

/* The pair of a set. Takes the versions of its cuts. */
static PyObject *pair_of_set(native_state *state, node_semver_set set)
{
    PyObject *pair = NULL, *lower = pair_of_cut(state, set.lower), *upper = pair_of_cut(state, set.upper);
    if (lower != NULL && upper != NULL)
        pair = Py_BuildValue("(OO)", lower, upper);
    Py_XDECREF(lower);
    Py_XDECREF(upper);
    return pair;
}

/* Adds the set at a place to a list: 0, or -1 with an exception. */
static int add_set(native_state *state, const node_semver_range *range, size_t place, PyObject *list)
{
    node_semver_set set = NODE_SEMVER_EMPTY_SET;
    node_semver_status status = node_semver_range_set(range, place, &set);
    PyObject *pair;
    int failed;
    if (status != NODE_SEMVER_OK) {
        raise_failure(status);
        return -1;
    }
    pair = pair_of_set(state, set);
    if (pair == NULL)
        return -1;
    failed = PyList_Append(list, pair);
    Py_DECREF(pair);
    return failed;
}

/* A hidden list is filled, and no tuple: other code may find a tuple with empty places through the garbage collector. */
PyObject *range_sets(PyObject *self, void *ignored)
{
    const node_semver_range *range = RANGE_OF(self);
    size_t place;
    native_state *state = state_of(self);
    PyObject *sets, *list = state == NULL ? NULL : hidden_list();
    (void)ignored;
    for (place = 0; list != NULL && place < SET_COUNT(self); place++)
        if (add_set(state, range, place, list) != 0)
            Py_CLEAR(list);
    sets = list == NULL ? NULL : PyList_AsTuple(list);
    Py_XDECREF(list);
    return sets;
}

/* ---- from Python to C ---- */

/* The sets that were given, with a reference to the Version of each cut: the lower cut of the set at a place has that
 * at twice this place, and the upper cut the next. No other code can see or change these arrays. */
typedef struct {
    node_semver_set *sets;
    PyObject **versions;
    size_t count;
} given_sets;

static void close_sets(given_sets *given)
{
    size_t place;
    for (place = 0; given->versions != NULL && place < 2 * given->count; place++)
        Py_XDECREF(given->versions[place]);
    PyMem_Free(given->versions);
    PyMem_Free(given->sets);
}

/* A new reference to a Version, or to the Version of a str; NULL with an exception. */
static PyObject *as_version(native_state *state, PyObject *given)
{
    node_semver_version read = NODE_SEMVER_EMPTY;
    if (Py_TYPE(given) == state->version_type)
        return Py_NewRef(given);
    if (read_version(state->version_type, given, false, "a version must be a Version or a str", &read) != 0)
        return NULL;
    return new_version(state->version_type, read);
}

/* The two items of an iterable, in a tuple; NULL with an exception, a ValueError if they are not two. */
static PyObject *pair_of(PyObject *iterable, const char *wanted)
{
    PyObject *pair = items_of(iterable, wanted);
    if (pair != NULL && PyTuple_Size(pair) != 2) {
        PyErr_Format(PyExc_ValueError, "%s, not %zd items", wanted, PyTuple_Size(pair));
        Py_CLEAR(pair);
    }
    return pair;
}

/* The number of a kind: 0, or -1 with an exception. */
static int read_kind(PyObject *kind, uint32_t *number)
{
    utf8 name;
    if (open_text(kind, "the kind of a cut must be a str", &name) != 0)
        return -1;
    for (*number = 0; *number < KIND_COUNT; ++*number)
        if (name.length == strlen(KINDS[*number]) && memcmp(name.start, KINDS[*number], name.length) == 0)
            break;
    close_text(&name);
    if (*number < KIND_COUNT)
        return 0;
    PyErr_SetString(PyExc_ValueError, "the kind of a cut must be 'start', 'before', 'after' or 'end'");
    return -1;
}

/* Fills a cut, and the place of its Version if it has one: 0, or -1 with an exception. */
static int read_cut(native_state *state, PyObject *iterable, node_semver_cut *cut, PyObject **version)
{
    PyObject *given, *pair = pair_of(iterable, "a cut must be a pair of a kind and a version");
    int failed = -1;
    if (pair == NULL)
        return -1;
    given = PyTuple_GetItem(pair, 1);
    if (read_kind(PyTuple_GetItem(pair, 0), &cut->kind) == 0) {
        if (has_version(cut->kind)) {
            *version = as_version(state, given);
            failed = *version == NULL ? -1 : 0;
        } else if (given == Py_None) {
            failed = 0;
        } else {
            raise_wrong_type("the version of a cut at the start or the end must be None", given);
        }
    }
    if (failed == 0 && *version != NULL)
        cut->version = *VERSION_OF(*version);
    Py_DECREF(pair);
    return failed;
}

/* Fills the set at a place: 0, or -1 with an exception. */
static int read_set(native_state *state, PyObject *iterable, given_sets *given, size_t place)
{
    node_semver_set *set = &given->sets[place];
    PyObject **versions = &given->versions[2 * place];
    PyObject *pair = pair_of(iterable, "a set must be a pair of cuts");
    int failed = pair == NULL || read_cut(state, PyTuple_GetItem(pair, 0), &set->lower, &versions[0]) != 0 ||
                 read_cut(state, PyTuple_GetItem(pair, 1), &set->upper, &versions[1]) != 0;
    Py_XDECREF(pair);
    return failed ? -1 : 0;
}

/* Fills the sets: 0, or -1 with an exception. They are closed in both cases. */
static int read_sets(native_state *state, PyObject *iterable, given_sets *given)
{
    size_t place;
    int failed = 0;
    PyObject *items = items_of(iterable, "sets must be an iterable of sets");
    memset(given, 0, sizeof *given);
    if (items == NULL)
        return -1;
    given->count = (size_t)PyTuple_Size(items);
    given->sets = PyMem_Calloc(given->count, sizeof *given->sets);
    given->versions = PyMem_Calloc(given->count, 2 * sizeof *given->versions);
    if (given->sets == NULL || given->versions == NULL) {
        PyErr_NoMemory();
        failed = -1;
    }
    for (place = 0; failed == 0 && place < given->count; place++)
        failed = read_set(state, PyTuple_GetItem(items, (Py_ssize_t)place), given, place);
    Py_DECREF(items);
    return failed;
}

/* Sets a ValueError for the first set that alone makes no range. */
static void raise_refused_set(const given_sets *given)
{
    size_t place;
    node_semver_status status = NODE_SEMVER_OK;
    for (place = 0; status == NODE_SEMVER_OK && place < given->count; place++) {
        node_semver_range alone = NODE_SEMVER_EMPTY;
        status = node_semver_range_from_sets(&given->sets[place], 1, &alone);
        node_semver_range_free(alone);
    }
    if (status == NODE_SEMVER_NONE)
        PyErr_Format(PyExc_ValueError,
                     "the set at %zu has no cut between its ends, or has a number above 9007199254740992", place - 1);
    else if (given->count == 0)
        PyErr_SetString(PyExc_ValueError, "a range has at least one set");
    else
        raise_failure(status);
}

PyObject *range_from_sets(PyObject *type, PyObject *iterable)
{
    given_sets given;
    node_semver_range handle = NODE_SEMVER_EMPTY;
    node_semver_status status;
    PyObject *range = NULL;
    native_state *state = state_of_type((PyTypeObject *)type);
    if (state == NULL)
        return NULL;
    if (read_sets(state, iterable, &given) == 0) {
        WHILE_OTHERS_RUN(given.count >= LONG,
                         status = node_semver_range_from_sets(given.sets, given.count, &handle));
        if (status == NODE_SEMVER_OK)
            range = new_range(state->range_type, handle);
        else if (status == NODE_SEMVER_NONE)
            raise_refused_set(&given);
        else
            raise_failure(status);
    }
    close_sets(&given);
    return range;
}
