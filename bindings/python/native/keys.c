/* SPDX-License-Identifier: Apache-2.0
 *
 * Keys: the bytes of a version by which a database sorts, and the intervals of keys that a range is.
 */
#include "native.h"

#include <string.h>

/* Writes bytes as the functions of node_semver.h that have a room do. */
typedef size_t writer(const void *value, size_t place, unsigned char *room, size_t size);

/* The bytes that `write` writes; NULL with an exception if out of memory. */
static PyObject *written(writer *write, const void *value, size_t place)
{
    unsigned char room[256];
    PyObject *bytes;
    size_t length = write(value, place, room, sizeof room);
    if (length <= sizeof room)
        return PyBytes_FromStringAndSize((const char *)room, (Py_ssize_t)length);
    bytes = PyBytes_FromStringAndSize(NULL, (Py_ssize_t)length);
    if (bytes != NULL && write(value, place, (unsigned char *)PyBytes_AsString(bytes), length) != length) {
        Py_DECREF(bytes);
        return PyErr_NoMemory();
    }
    return bytes;
}

static size_t write_key(const void *version, size_t place, unsigned char *room, size_t size)
{
    (void)place;
    return node_semver_version_key(version, room, size);
}

static size_t write_lower(const void *intervals, size_t place, unsigned char *room, size_t size)
{
    return node_semver_interval_lower(intervals, place, room, size);
}

static size_t write_upper(const void *intervals, size_t place, unsigned char *room, size_t size)
{
    return node_semver_interval_upper(intervals, place, room, size);
}

/* No key is empty: a length of 0 says that memory ran out. */
PyObject *key_of(const node_semver_version *version)
{
    PyObject *key = written(write_key, version, 0);
    if (key != NULL && PyBytes_Size(key) == 0) {
        Py_DECREF(key);
        return PyErr_NoMemory();
    }
    return key;
}

PyObject *version_key(PyObject *self, void *ignored)
{
    (void)ignored;
    return key_of(VERSION_OF(self));
}

/* ---- intervals ---- */

/* Makes the intervals of a range: 0, or -1 with an exception. */
static int make_intervals(PyObject *self, int is_included, node_semver_intervals *intervals)
{
    node_semver_status status;
    const node_semver_range *range = RANGE_OF(self);
    WHILE_OTHERS_RUN(SET_COUNT(self) >= LONG,
                     status = is_included ? node_semver_range_intervals_with_prereleases(range, intervals)
                                          : node_semver_range_intervals(range, intervals));
    if (status == NODE_SEMVER_OK)
        return 0;
    raise_failure(status);
    return -1;
}

int append(PyObject *list, PyObject *value)
{
    int failed = value == NULL ? -1 : PyList_Append(list, value);
    Py_XDECREF(value);
    return failed;
}

/* The tuple of an interval: its ends, and whether it is of prereleases. */
static PyObject *tuple_of(const node_semver_intervals *intervals, size_t place, bool is_of_prereleases)
{
    PyObject *tuple = NULL, *lower = written(write_lower, intervals, place), *upper = NULL;
    if (lower != NULL)
        upper = written(write_upper, intervals, place);
    if (upper != NULL)
        tuple = Py_BuildValue("(OOO)", lower, upper, is_of_prereleases ? Py_True : Py_False);
    Py_XDECREF(lower);
    Py_XDECREF(upper);
    return tuple;
}

/* Appends each interval: 0, or -1 with an exception. With prereleases included an interval is of both kinds, and is listed
 * for each of them. */
static int append_intervals(PyObject *list, const node_semver_intervals *intervals, int is_included)
{
    size_t place, count = node_semver_intervals_count(intervals);
    int failed = 0;
    for (place = 0; failed == 0 && place < count; place++)
        failed = append(list, tuple_of(intervals, place,
                                       !is_included && node_semver_interval_is_of_prereleases(intervals, place)));
    for (place = 0; is_included && failed == 0 && place < count; place++)
        failed = append(list, tuple_of(intervals, place, true));
    return failed;
}

/* A hidden list of the tuples of a range; NULL with an exception. */
static PyObject *list_of(PyObject *self, int is_included)
{
    node_semver_intervals intervals = NODE_SEMVER_EMPTY;
    PyObject *list;
    if (make_intervals(self, is_included, &intervals) != 0)
        return NULL;
    list = hidden_list();
    if (list != NULL && append_intervals(list, &intervals, is_included) != 0)
        Py_CLEAR(list);
    node_semver_intervals_free(intervals);
    return list;
}

PyObject *range_intervals(PyObject *self, PyObject *const *arguments, Py_ssize_t count, PyObject *keywords)
{
    int is_included;
    PyObject *list, *tuple;
    if (read_included("intervals", arguments, count, keywords, NULL, &is_included) != 0)
        return NULL;
    list = list_of(self, is_included);
    tuple = list == NULL ? NULL : PyList_AsTuple(list);
    Py_XDECREF(list);
    return tuple;
}

/* ---- a clause of SQL ---- */

static bool is_letter(char c)
{
    return (c >= 'a' && c <= 'z') || (c >= 'A' && c <= 'Z') || c == '_';
}

/* Whether the text is the name of a column: words of letters, digits and `_`, with dots between. */
static bool is_column(const char *text, size_t length)
{
    size_t at;
    bool is_start = true;
    for (at = 0; at < length; at++) {
        bool is_digit = text[at] >= '0' && text[at] <= '9';
        if (text[at] == '.' ? is_start : !is_letter(text[at]) && (is_start || !is_digit))
            return false;
        is_start = text[at] == '.';
    }
    return !is_start;
}

/* Whether the argument is the name of a column; sets an exception if not. */
static bool check_column(PyObject *name)
{
    utf8 text;
    bool is_name;
    if (open_text(name, "a column must be a str", &text) != 0)
        return false;
    is_name = is_column(text.start, text.length);
    close_text(&text);
    if (!is_name)
        PyErr_SetString(PyExc_ValueError, "a column has ASCII letters, digits, '_' and '.' alone");
    return is_name;
}

/* The part of the clause for one interval. */
static PyObject *part_of(PyObject *tuple, PyObject *column, PyObject *kind, PyObject *placeholder)
{
    const char *is = PyTuple_GetItem(tuple, 2) == Py_True ? "TRUE" : "FALSE";
    return PyUnicode_FromFormat("%U = %s AND %U >= %U AND %U < %U", kind, is, column, placeholder, column, placeholder);
}

/* Fills the lists of the parts and of the keys: 0, or -1 with an exception. */
static int fill_parts(PyObject *list, PyObject *column, PyObject *kind, PyObject *placeholder, PyObject *parts,
                      PyObject *keys)
{
    Py_ssize_t place;
    for (place = 0; place < PyList_Size(list); place++) {
        PyObject *tuple = PyList_GetItem(list, place);
        if (append(parts, part_of(tuple, column, kind, placeholder)) != 0 ||
            PyList_Append(keys, PyTuple_GetItem(tuple, 0)) != 0 || PyList_Append(keys, PyTuple_GetItem(tuple, 1)) != 0)
            return -1;
    }
    return 0;
}

/* The pair of the clause and its keys. Without an interval the clause is false for each row. */
static PyObject *clause_of(PyObject *parts, PyObject *keys)
{
    PyObject *pair = NULL, *joined, *clause = NULL, *all = PyList_AsTuple(keys);
    PyObject *between = PyUnicode_FromString(" OR ");
    joined = between == NULL ? NULL : PyUnicode_Join(between, parts);
    if (joined != NULL)
        clause = PyList_Size(parts) == 0 ? PyUnicode_FromString("(1 = 0)") : PyUnicode_FromFormat("(%U)", joined);
    if (clause != NULL && all != NULL)
        pair = Py_BuildValue("(OO)", clause, all);
    Py_XDECREF(clause);
    Py_XDECREF(joined);
    Py_XDECREF(between);
    Py_XDECREF(all);
    return pair;
}

/* The pair of the clause and its keys for a list of intervals; NULL with an exception. */
static PyObject *clause_for(PyObject *list, PyObject *column, PyObject *kind, PyObject *placeholder)
{
    PyObject *pair = NULL, *parts = hidden_list(), *keys = hidden_list();
    if (parts != NULL && keys != NULL && fill_parts(list, column, kind, placeholder, parts, keys) == 0)
        pair = clause_of(parts, keys);
    Py_XDECREF(keys);
    Py_XDECREF(parts);
    return pair;
}

/* A new reference to the placeholder that is given, or to `?` if none is; NULL with an exception. */
static PyObject *placeholder_of(PyObject *given)
{
    if (given == NULL)
        return PyUnicode_FromString("?");
    if (PyUnicode_Check(given))
        return Py_NewRef(given);
    raise_wrong_type("a placeholder must be a str", given);
    return NULL;
}

PyObject *range_sql(PyObject *self, PyObject *const *arguments, Py_ssize_t count, PyObject *keywords)
{
    static const char *const options[] = {"placeholder", "include_prerelease", NULL};
    static const signature takes = {"sql", 2, options};
    PyObject *found[4], *placeholder, *list, *pair = NULL;
    int is_included;
    if (read_arguments(&takes, arguments, count, keywords, found) != 0 || (is_included = is_true(found[3])) < 0
        || !check_column(found[0]) || !check_column(found[1]))
        return NULL;
    placeholder = placeholder_of(found[2]);
    list = placeholder == NULL ? NULL : list_of(self, is_included);
    if (list != NULL)
        pair = clause_for(list, found[0], found[1], placeholder);
    Py_XDECREF(list);
    Py_XDECREF(placeholder);
    return pair;
}
