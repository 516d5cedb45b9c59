/* SPDX-License-Identifier: Apache-2.0
 *
 * The Range of a text, as the Rust crate reads it and as npm itself does.
 */
#include "native.h"

/* The Range of a text. */
static PyObject *range_of(PyTypeObject *type, PyObject *text)
{
    node_semver_range handle = NODE_SEMVER_EMPTY;
    node_semver_fault fault = {0, 0, 0};
    node_semver_status status;
    utf8 read;
    if (open_text(text, "a range must be a str", &read) != 0)
        return NULL;
    WHILE_OTHERS_RUN(read.length >= LONG, status = node_semver_range_parse(read.start, read.length, &handle, &fault));
    close_text(&read);
    if (status == NODE_SEMVER_OK)
        return new_range(type, handle);
    raise_status(type, status, text, &fault);
    return NULL;
}

PyObject *range_new(PyTypeObject *type, PyObject *arguments, PyObject *keywords)
{
    static const signature takes = {"Range", 1, NO_OPTIONS};
    PyObject *text, *range;
    if (hold_arguments(&takes, arguments, keywords, &text) != 0)
        return NULL;
    range = range_of(type, text);
    drop_arguments(&takes, &text);
    return range;
}

PyObject *range_parse_npm(PyObject *type, PyObject *const *arguments, Py_ssize_t count, PyObject *keywords)
{
    static const char *const options[] = {"loose", "include_prerelease", NULL};
    static const signature takes = {"parse_npm", 1, options};
    node_semver_range handle = NODE_SEMVER_EMPTY;
    node_semver_fault fault = {0, 0, 0};
    node_semver_status status;
    PyObject *found[3];
    utf8 text;
    int is_loose, is_included;
    if (read_arguments(&takes, arguments, count, keywords, found) != 0 || (is_loose = is_true(found[1])) < 0
        || (is_included = is_true(found[2])) < 0 || open_text(found[0], "a range must be a str", &text) != 0)
        return NULL;
    WHILE_OTHERS_RUN(text.length >= LONG, status = node_semver_range_parse_npm(text.start, text.length, is_loose,
                                                                               is_included, &handle, &fault));
    close_text(&text);
    if (status == NODE_SEMVER_OK)
        return new_range((PyTypeObject *)type, handle);
    raise_status((PyTypeObject *)type, status, found[0], &fault);
    return NULL;
}
