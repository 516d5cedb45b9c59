/* SPDX-License-Identifier: Apache-2.0
 *
 * The version that is found in a text.
 */
#include "native.h"

PyObject *version_coerce(PyObject *type, PyObject *const *arguments, Py_ssize_t count, PyObject *keywords)
{
    static const char *const options[] = {"rtl", "include_prerelease", NULL};
    static const signature takes = {"coerce", 1, options};
    node_semver_version found = NODE_SEMVER_EMPTY;
    node_semver_status status;
    PyObject *given[3];
    utf8 text;
    int is_last, is_full;
    if (read_arguments(&takes, arguments, count, keywords, given) != 0 || (is_last = is_true(given[1])) < 0
        || (is_full = is_true(given[2])) < 0 || open_text(given[0], "a text must be a str", &text) != 0)
        return NULL;
    WHILE_OTHERS_RUN(text.length >= LONG,
                     status = is_full
                         ? node_semver_version_coerce_with_prerelease(text.start, text.length, is_last, &found)
                         : node_semver_version_coerce(text.start, text.length, is_last, &found));
    close_text(&text);
    if (status == NODE_SEMVER_OK)
        return new_version((PyTypeObject *)type, found);
    if (status == NODE_SEMVER_NONE)
        Py_RETURN_NONE;
    raise_failure(status);
    return NULL;
}
