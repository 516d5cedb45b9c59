/* SPDX-License-Identifier: Apache-2.0
 *
 * The hashes of both types. They are Python's own hashes of keys, which begin with the seed of the process, so nobody can
 * prepare versions or ranges that all have one hash: with the library's hash, which has no seed, 20,000 such versions took a set
 * 12 seconds.
 */
#include "native.h"

/* Equal versions have one key. */
Py_hash_t version_hash(PyObject *self)
{
    PyObject *key = key_of(VERSION_OF(self));
    Py_hash_t hash = key == NULL ? -1 : PyObject_Hash(key);
    Py_XDECREF(key);
    return hash;
}

/* Appends the kind of a cut, and the key of its version if it has one: 0, or -1 with an exception. */
static int append_cut(PyObject *list, const node_semver_cut *cut)
{
    if (append(list, PyLong_FromUnsignedLong(cut->kind)) != 0)
        return -1;
    return cut->version.at == NULL ? 0 : append(list, key_of(&cut->version));
}

/* Appends the cuts of the set at a place: 0, or -1 with an exception. */
static int append_set(PyObject *list, const node_semver_range *range, size_t place)
{
    node_semver_set set = NODE_SEMVER_EMPTY_SET;
    node_semver_status status = node_semver_range_set(range, place, &set);
    int failed = 0;
    if (status != NODE_SEMVER_OK) {
        raise_failure(status);
        return -1;
    }
    if (append_cut(list, &set.lower) != 0 || append_cut(list, &set.upper) != 0)
        failed = -1;
    node_semver_version_free(set.lower.version);
    node_semver_version_free(set.upper.version);
    return failed;
}

/* Equal ranges have equal cuts in the same order. */
static Py_hash_t hash_of_cuts(PyObject *self)
{
    size_t place;
    Py_hash_t hash;
    PyObject *tuple, *list = hidden_list();
    for (place = 0; list != NULL && place < SET_COUNT(self); place++)
        if (append_set(list, RANGE_OF(self), place) != 0)
            Py_CLEAR(list);
    tuple = list == NULL ? NULL : PyList_AsTuple(list);
    hash = tuple == NULL ? -1 : PyObject_Hash(tuple);
    Py_XDECREF(tuple);
    Py_XDECREF(list);
    return hash;
}

/* The hash of a range is kept. */
Py_hash_t range_hash(PyObject *self)
{
    range_object *range = (range_object *)self;
    if (range->hash == -1)
        range->hash = hash_of_cuts(self);
    return range->hash;
}
