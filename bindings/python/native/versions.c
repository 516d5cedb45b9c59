/* SPDX-License-Identifier: Apache-2.0
 *
 * The methods of Range over an iterable of versions. An item is a Version or a str, and is returned as it was given. A
 * str that is not a version is left out, as npm does.
 */
#include "native.h"

/* An item of the list: where it stands there, the text of a str, and its version. The list frees the version of a text,
 * and not that of a Version. */
typedef struct {
    Py_ssize_t place;
    const char *text; /* NULL if the item is a Version */
    size_t length;
    node_semver_version version; /* empty until the text is read */
} entry;

/* The items of an iterable in a tuple, and those of them that may be versions, in their order. */
typedef struct {
    PyObject *items;
    entry *entries;
    size_t count;
} version_list;

static void close_list(version_list *list)
{
    size_t place;
    for (place = 0; place < list->count; place++)
        if (list->entries[place].text != NULL)
            node_semver_version_free(list->entries[place].version);
    PyMem_Free(list->entries);
    Py_XDECREF(list->items);
}

/* Adds the item at a place: 0, or -1 with an exception. A str with a lone surrogate is no version, and is not added. */
static int add_item(native_state *state, version_list *list, Py_ssize_t place)
{
    PyObject *item = PyTuple_GetItem(list->items, place);
    entry *added = &list->entries[list->count];
    Py_ssize_t length = 0;
    added->place = place;
    if (Py_TYPE(item) == state->version_type) {
        added->version = *VERSION_OF(item);
        list->count++;
        return 0;
    }
    added->text = text_of(item, "a version must be a Version or a str", &length);
    added->length = (size_t)length;
    if (added->text != NULL)
        list->count++;
    else if (PyErr_ExceptionMatches(PyExc_UnicodeEncodeError))
        PyErr_Clear();
    else
        return -1;
    return 0;
}

/* Fills the list: 0, or -1 with an exception. It is closed in both cases. */
static int open_list(native_state *state, PyObject *iterable, version_list *list)
{
    Py_ssize_t place, count;
    list->entries = NULL;
    list->count = 0;
    list->items = items_of(iterable, "versions must be an iterable of versions");
    if (list->items == NULL)
        return -1;
    count = PyTuple_Size(list->items);
    list->entries = PyMem_Calloc((size_t)count, sizeof *list->entries);
    if (list->entries == NULL) {
        PyErr_NoMemory();
        return -1;
    }
    for (place = 0; place < count; place++)
        if (add_item(state, list, place) != 0)
            return -1;
    return 0;
}

typedef bool membership(const node_semver_range *range, const node_semver_version *version);

/* Reads the text of each entry. Keeps those that are versions and, if there is a range, are in it. If memory runs out,
 * it keeps what it has read. */
static node_semver_status read_texts(version_list *list, const node_semver_range *range, membership *is_in)
{
    size_t place, count = list->count;
    list->count = 0;
    for (place = 0; place < count; place++) {
        entry item = list->entries[place];
        node_semver_status status = NODE_SEMVER_OK;
        if (item.text != NULL)
            status = node_semver_version_parse(item.text, item.length, &item.version, NULL);
        if (status == NODE_SEMVER_REFUSED)
            continue;
        if (status != NODE_SEMVER_OK)
            return status;
        if (range == NULL || is_in(range, &item.version))
            list->entries[list->count++] = item;
        else if (item.text != NULL)
            node_semver_version_free(item.version);
    }
    return NODE_SEMVER_OK;
}

/* The items of the entries. No other code runs while the list has empty places: nothing is allocated between. */
static PyObject *items_left(const version_list *list)
{
    size_t place;
    PyObject *items = PyList_New((Py_ssize_t)list->count);
    for (place = 0; items != NULL && place < list->count; place++) {
        PyObject *item = PyTuple_GetItem(list->items, list->entries[place].place);
        if (PyList_SetItem(items, (Py_ssize_t)place, Py_NewRef(item)) != 0)
            Py_CLEAR(items);
    }
    return items;
}

PyObject *range_filter(PyObject *self, PyObject *const *arguments, Py_ssize_t count, PyObject *keywords)
{
    version_list list;
    node_semver_status status;
    PyObject *iterable, *items = NULL;
    int is_included;
    membership *is_in;
    native_state *state = state_of(self);
    if (state == NULL || read_included("filter", arguments, count, keywords, &iterable, &is_included) != 0)
        return NULL;
    is_in = is_included ? node_semver_range_contains : node_semver_satisfies;
    if (open_list(state, iterable, &list) == 0) {
        WHILE_OTHERS_RUN(list.count >= LONG, status = read_texts(&list, RANGE_OF(self), is_in));
        if (status == NODE_SEMVER_OK)
            items = items_left(&list);
        else
            raise_failure(status);
    }
    close_list(&list);
    return items;
}

typedef bool choice(const node_semver_version *versions, size_t count, const node_semver_range *range, size_t *place);

/* The item whose version is chosen, or None; NULL with an exception. The reference is new. */
static PyObject *chosen_item(choice *choose, const node_semver_range *range, const version_list *list)
{
    size_t place, found = 0;
    bool is_found;
    node_semver_version *versions = PyMem_Calloc(list->count, sizeof *versions);
    if (versions == NULL)
        return PyErr_NoMemory();
    for (place = 0; place < list->count; place++)
        versions[place] = list->entries[place].version;
    WHILE_OTHERS_RUN(list->count >= LONG, is_found = choose(versions, list->count, range, &found));
    PyMem_Free(versions);
    return Py_NewRef(is_found ? PyTuple_GetItem(list->items, list->entries[found].place) : Py_None);
}

static PyObject *chosen(choice *choose, PyObject *self, PyObject *iterable)
{
    version_list list;
    node_semver_status status;
    PyObject *item = NULL;
    native_state *state = state_of(self);
    if (state == NULL)
        return NULL;
    if (open_list(state, iterable, &list) == 0) {
        WHILE_OTHERS_RUN(list.count >= LONG, status = read_texts(&list, NULL, NULL));
        if (status == NODE_SEMVER_OK)
            item = chosen_item(choose, RANGE_OF(self), &list);
        else
            raise_failure(status);
    }
    close_list(&list);
    return item;
}

PyObject *range_max_satisfying(PyObject *self, PyObject *const *arguments, Py_ssize_t count, PyObject *keywords)
{
    PyObject *iterable;
    int is_included;
    if (read_included("max_satisfying", arguments, count, keywords, &iterable, &is_included) != 0)
        return NULL;
    return chosen(is_included ? node_semver_max_satisfying_with_prereleases : node_semver_max_satisfying, self, iterable);
}

PyObject *range_min_satisfying(PyObject *self, PyObject *const *arguments, Py_ssize_t count, PyObject *keywords)
{
    PyObject *iterable;
    int is_included;
    if (read_included("min_satisfying", arguments, count, keywords, &iterable, &is_included) != 0)
        return NULL;
    return chosen(is_included ? node_semver_min_satisfying_with_prereleases : node_semver_min_satisfying, self, iterable);
}
