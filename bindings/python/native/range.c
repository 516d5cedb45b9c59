/* SPDX-License-Identifier: Apache-2.0
 *
 * The type Range.
 */
#include "native.h"

PyObject *new_range(PyTypeObject *type, node_semver_range handle)
{
    range_object *self = PyObject_GC_New(range_object, type);
    if (self == NULL) {
        node_semver_range_free(handle);
        return NULL;
    }
    self->handle = handle;
    self->weak = NULL;
    self->set_count = node_semver_range_set_count(&self->handle);
    self->text = NULL;
    self->hash = -1;
    PyObject_GC_Track(self);
    return (PyObject *)self;
}

static void range_dealloc(PyObject *self)
{
    PyTypeObject *type = Py_TYPE(self);
    PyObject_GC_UnTrack(self);
    if (((range_object *)self)->weak != NULL)
        PyObject_ClearWeakRefs(self);
    node_semver_range_free(*RANGE_OF(self));
    Py_XDECREF(((range_object *)self)->text);
    PyObject_GC_Del(self);
    Py_DECREF(type);
}

static size_t print_range(const void *range, size_t place, char *room, size_t size)
{
    (void)place;
    return node_semver_range_print(range, room, size);
}

/* The print is kept: without that, `str` takes twice as long as that of a class in Python, which keeps its text too.
 * Of the prints of two threads, the first is kept. A thread that finds no memory has an error, although another may have kept
 * its print meanwhile. */
static PyObject *range_str(PyObject *self)
{
    range_object *range = (range_object *)self;
    if (range->text == NULL) {
        PyObject *text = printed(print_range, &range->handle, 0);
        if (text == NULL)
            return NULL;
        if (range->text == NULL)
            range->text = text;
        else
            Py_DECREF(text);
    }
    return Py_NewRef(range->text);
}

static PyObject *range_repr(PyObject *self)
{
    PyObject *repr, *text = range_str(self);
    if (text == NULL)
        return NULL;
    repr = PyUnicode_FromFormat("Range(%R)", text);
    Py_DECREF(text);
    return repr;
}

/* The type is final, so two values of one type are two Ranges. Ranges are equal or not, and have no order. */
static PyObject *range_compare(PyObject *one, PyObject *other, int operation)
{
    bool equal;
    if (Py_TYPE(one) != Py_TYPE(other) || (operation != Py_EQ && operation != Py_NE))
        Py_RETURN_NOTIMPLEMENTED;
    equal = node_semver_range_equals(RANGE_OF(one), RANGE_OF(other));
    return PyBool_FromLong(equal == (operation == Py_EQ));
}

typedef bool membership(const node_semver_range *, const node_semver_version *);

/* Whether a Version, or the version of a str, is in the range: 1, 0, or -1 with an exception. */
static int is_member(membership *ask, PyObject *self, PyObject *version)
{
    node_semver_version read = NODE_SEMVER_EMPTY;
    int inside;
    native_state *state = state_of(self);
    if (state == NULL)
        return -1;
    if (Py_TYPE(version) == state->version_type)
        return ask(RANGE_OF(self), VERSION_OF(version));
    if (read_version(Py_TYPE(self), version, false, "a version must be a Version or a str", &read) != 0)
        return -1;
    inside = ask(RANGE_OF(self), &read);
    node_semver_version_free(read);
    return inside;
}

static int range_has(PyObject *self, PyObject *version)
{
    return is_member(node_semver_satisfies, self, version);
}

static PyObject *range_contains(PyObject *self, PyObject *version)
{
    int inside = is_member(node_semver_range_contains, self, version);
    return inside < 0 ? NULL : PyBool_FromLong(inside);
}

typedef node_semver_status combination(const node_semver_range *, const node_semver_range *, node_semver_range *);

/* An operator of two ranges. One operand is a Range, since the operator is found through it. */
static PyObject *combined(combination *combine, PyObject *one, PyObject *other)
{
    node_semver_range handle = NODE_SEMVER_EMPTY;
    node_semver_status status;
    if (Py_TYPE(one) != Py_TYPE(other))
        Py_RETURN_NOTIMPLEMENTED;
    WHILE_OTHERS_RUN(SET_COUNT(one) * SET_COUNT(other) >= LONG,
                     status = combine(RANGE_OF(one), RANGE_OF(other), &handle));
    if (status == NODE_SEMVER_OK)
        return new_range(Py_TYPE(one), handle);
    if (status == NODE_SEMVER_NONE)
        Py_RETURN_NONE;
    raise_failure(status);
    return NULL;
}

/* The most pairs of sets that an intersection or a difference is made of. Each two that meet give a set of their own, so
 * more would take minutes and gigabytes. */
#define MOST_PAIRS 1000000

/* The same for operators that make something of each pair of sets: a ValueError if there are too many. */
static PyObject *combined_in_pairs(combination *combine, PyObject *one, PyObject *other)
{
    if (Py_TYPE(one) == Py_TYPE(other) && SET_COUNT(one) > MOST_PAIRS / SET_COUNT(other))
        return PyErr_Format(PyExc_ValueError, "the ranges have %zu and %zu sets, and more than %d pairs of them",
                            SET_COUNT(one), SET_COUNT(other), MOST_PAIRS);
    return combined(combine, one, other);
}

static PyObject *range_and(PyObject *one, PyObject *other)
{
    return combined_in_pairs(node_semver_range_intersect, one, other);
}

static PyObject *range_subtract(PyObject *one, PyObject *other)
{
    return combined_in_pairs(node_semver_range_difference, one, other);
}

static PyObject *range_or(PyObject *one, PyObject *other)
{
    return combined(node_semver_range_union, one, other);
}

/* Whether the argument of a method is a Range; sets a TypeError if not. */
static int is_range(PyObject *self, PyObject *other)
{
    if (Py_TYPE(self) == Py_TYPE(other))
        return 1;
    raise_wrong_type("the other range must be a Range", other);
    return 0;
}

typedef bool question(const node_semver_range *, const node_semver_range *);

/* A method of two ranges that returns a bool. */
static PyObject *asked(question *ask, PyObject *self, PyObject *other)
{
    bool answer;
    if (!is_range(self, other))
        return NULL;
    WHILE_OTHERS_RUN(SET_COUNT(self) + SET_COUNT(other) >= LONG, answer = ask(RANGE_OF(self), RANGE_OF(other)));
    return PyBool_FromLong(answer);
}

static PyObject *range_allows_any(PyObject *self, PyObject *other)
{
    return asked(node_semver_range_allows_any, self, other);
}

static PyObject *range_allows_all(PyObject *self, PyObject *other)
{
    return asked(node_semver_range_allows_all, self, other);
}

/* The Version of a call that may find none. */
static PyObject *found_version(native_state *state, node_semver_status status, node_semver_version handle)
{
    if (status == NODE_SEMVER_OK)
        return new_version(state->version_type, handle);
    if (status == NODE_SEMVER_NONE)
        Py_RETURN_NONE;
    raise_failure(status);
    return NULL;
}

typedef node_semver_status least(const node_semver_range *, node_semver_version *);

static PyObject *range_min_version(PyObject *self, PyObject *const *arguments, Py_ssize_t count, PyObject *keywords)
{
    node_semver_version handle = NODE_SEMVER_EMPTY;
    node_semver_status status;
    int is_included;
    least *find;
    native_state *state;
    if (read_included("min_version", arguments, count, keywords, NULL, &is_included) != 0)
        return NULL;
    state = state_of(self);
    if (state == NULL)
        return NULL;
    find = is_included ? node_semver_min_version_with_prereleases : node_semver_min_version;
    WHILE_OTHERS_RUN(SET_COUNT(self) >= LONG, status = find(RANGE_OF(self), &handle));
    return found_version(state, status, handle);
}

typedef node_semver_status search(const node_semver_range *, const node_semver_range *, node_semver_version *);

/* The most sets that two ranges of a search have together. It tries each end of a set against all sets of both, so the
 * steps are the square of this. */
#define MOST_SEARCHED 3000

/* A method of two ranges that returns a Version or None. */
static PyObject *found(search *find, PyObject *self, PyObject *other)
{
    node_semver_version handle = NODE_SEMVER_EMPTY;
    node_semver_status status;
    size_t count;
    native_state *state = state_of(self);
    if (state == NULL || !is_range(self, other))
        return NULL;
    count = SET_COUNT(self) + SET_COUNT(other);
    if (count > MOST_SEARCHED)
        return PyErr_Format(PyExc_ValueError, "the ranges have %zu and %zu sets, and more than %d together",
                            SET_COUNT(self), SET_COUNT(other), MOST_SEARCHED);
    WHILE_OTHERS_RUN(count * count >= LONG, status = find(RANGE_OF(self), RANGE_OF(other), &handle));
    return found_version(state, status, handle);
}

static PyObject *range_least_beyond(PyObject *self, PyObject *const *arguments, Py_ssize_t count, PyObject *keywords)
{
    PyObject *other;
    int is_included;
    if (read_included("least_beyond", arguments, count, keywords, &other, &is_included) != 0)
        return NULL;
    return found(is_included ? node_semver_least_beyond_with_prereleases : node_semver_least_beyond, self, other);
}

static PyObject *range_least_common(PyObject *self, PyObject *const *arguments, Py_ssize_t count, PyObject *keywords)
{
    PyObject *other;
    int is_included;
    if (read_included("least_common", arguments, count, keywords, &other, &is_included) != 0)
        return NULL;
    return found(is_included ? node_semver_range_least_common_with_prereleases : node_semver_range_least_common, self,
                 other);
}

/* What pickle stores of a range whose text is not read back: `Range.from_sets` and the sets. */
static PyObject *reduced_to_sets(PyObject *self)
{
    PyObject *result = NULL, *make = PyObject_GetAttrString((PyObject *)Py_TYPE(self), "from_sets");
    PyObject *sets = make == NULL ? NULL : range_sets(self, NULL);
    if (sets != NULL)
        result = call_with(make, sets);
    Py_XDECREF(sets);
    Py_XDECREF(make);
    return result;
}

static PyObject *range_reduce(PyObject *self, PyObject *ignored)
{
    PyObject *result = NULL, *text = range_str(self);
    int same = text == NULL ? -1 : reads_back(self, text);
    (void)ignored;
    if (same == 1)
        result = call_with((PyObject *)Py_TYPE(self), text);
    else if (same == 0)
        result = reduced_to_sets(self);
    Py_XDECREF(text);
    return result;
}

#include "range_docs.h"

static PyMethodDef range_methods[] = {
    {"contains", range_contains, METH_O, contains_doc},
    {"filter", TAKES_ARGUMENTS(range_filter), filter_doc},
    {"max_satisfying", TAKES_ARGUMENTS(range_max_satisfying), max_satisfying_doc},
    {"min_satisfying", TAKES_ARGUMENTS(range_min_satisfying), min_satisfying_doc},
    {"min_version", TAKES_ARGUMENTS(range_min_version), min_version_doc},
    {"allows_any", range_allows_any, METH_O, allows_any_doc},
    {"allows_all", range_allows_all, METH_O, allows_all_doc},
    {"least_beyond", TAKES_ARGUMENTS(range_least_beyond), least_beyond_doc},
    {"least_common", TAKES_ARGUMENTS(range_least_common), least_common_doc},
    {"intervals", TAKES_ARGUMENTS(range_intervals), intervals_doc},
    {"sql", TAKES_ARGUMENTS(range_sql), sql_doc},
    {"parse_npm", TAKES_ARGUMENTS(range_parse_npm) | METH_CLASS, parse_npm_doc},
    {"from_sets", range_from_sets, METH_O | METH_CLASS, from_sets_doc},
    {"__copy__", same_object, METH_NOARGS, "__copy__($self, /)\n--\n\nThe range itself: it never changes."},
    {"__deepcopy__", same_object, METH_O, "__deepcopy__($self, memo, /)\n--\n\nThe range itself: it never changes."},
    {"__format__", format_value, METH_O, FORMAT_DOC},
    {"__reduce__", range_reduce, METH_NOARGS,
     "__reduce__($self, /)\n--\n\nWhat pickle stores: the text, or the sets if the text is not read back."},
    {NULL, NULL, 0, NULL},
};

static PyGetSetDef range_fields[] = {
    {"sets", range_sets, NULL, sets_doc, NULL},
    {NULL, NULL, NULL, NULL, NULL},
};

static PyMemberDef range_members[] = WEAK_MEMBERS(range_object);

static PyType_Slot range_slots[] = {
    {Py_tp_doc, (void *)range_doc},
    {Py_tp_new, range_new},
    {Py_tp_dealloc, range_dealloc},
    {Py_tp_traverse, visit_value},
    {Py_tp_str, range_str},
    {Py_tp_repr, range_repr},
    {Py_tp_hash, range_hash},
    {Py_tp_richcompare, range_compare},
    {Py_sq_contains, range_has},
    {Py_nb_and, range_and},
    {Py_nb_subtract, range_subtract},
    {Py_nb_or, range_or},
    {Py_tp_methods, range_methods},
    {Py_tp_getset, range_fields},
    {Py_tp_members, range_members},
    {0, NULL},
};

PyType_Spec range_spec = {
    "node_semver.Range", sizeof(range_object), 0, VALUE_FLAGS, range_slots,
};
