/* SPDX-License-Identifier: Apache-2.0
 *
 * Bumps: their names, and the version after one.
 */
#include "native.h"

#include <string.h>

/* npm's names of the bumps, which node_semver.h numbers from 1. */
static const char *const NAMES[] = {
    NULL, "major", "premajor", "minor", "preminor", "patch", "prepatch", "prerelease", "pre",
};
#define COUNT (sizeof NAMES / sizeof *NAMES)

const char *name_of_bump(uint32_t bump)
{
    return bump < COUNT ? NAMES[bump] : NULL;
}

/* The number of a name, or NODE_SEMVER_NO_BUMP. */
static uint32_t bump_of_name(const char *name, size_t length)
{
    uint32_t bump;
    for (bump = 1; bump < COUNT; bump++) {
        if (strlen(NAMES[bump]) == length && memcmp(NAMES[bump], name, length) == 0)
            return bump;
    }
    return NODE_SEMVER_NO_BUMP;
}

/* The number of a release type: 0, or -1 with an exception. */
static int read_release(PyObject *release, uint32_t *bump)
{
    utf8 name;
    if (open_text(release, "a release type must be a str", &name) != 0)
        return -1;
    *bump = bump_of_name(name.start, name.length);
    close_text(&name);
    if (*bump != NODE_SEMVER_NO_BUMP)
        return 0;
    PyErr_SetString(PyExc_ValueError, "a release type is 'major', 'premajor', 'minor', 'preminor', 'patch', "
                                      "'prepatch', 'prerelease' or 'pre'");
    return -1;
}

/* The identifier that is given, or the null pointer for None and where none is: 0, or -1 with an exception. */
static int open_identifier(PyObject *given, utf8 *identifier)
{
    identifier->start = NULL;
    identifier->length = 0;
    identifier->held = NULL;
    if (given == NULL || given == Py_None)
        return 0;
    return open_text(given, "an identifier must be a str or None", identifier);
}

/* The number of a base, which is 0 where none is given: 0, or -1 with an exception. `False` is no base in npm, and is refused. */
static int read_base(PyObject *base, uint32_t *number)
{
    long value;
    int overflow = 0;
    if (base == NULL || base == Py_None) {
        *number = base == NULL ? NODE_SEMVER_BASE_ZERO : NODE_SEMVER_NO_BASE;
        return 0;
    }
    if (!PyLong_Check(base) || PyBool_Check(base)) {
        raise_wrong_type("a base must be 0, 1 or None", base);
        return -1;
    }
    value = PyLong_AsLongAndOverflow(base, &overflow);
    if (value == 0 || value == 1) {
        *number = value == 0 ? NODE_SEMVER_BASE_ZERO : NODE_SEMVER_BASE_ONE;
        return 0;
    }
    PyErr_SetString(PyExc_ValueError, "a base is 0, 1 or None");
    return -1;
}

PyObject *version_bump(PyObject *self, PyObject *const *arguments, Py_ssize_t count, PyObject *keywords)
{
    static const char *const options[] = {"identifier", "base", NULL};
    static const signature takes = {"bump", 1, options};
    node_semver_version answer = NODE_SEMVER_EMPTY;
    node_semver_status status;
    PyObject *found[3];
    utf8 identifier;
    uint32_t bump, number;
    if (read_arguments(&takes, arguments, count, keywords, found) != 0 || read_release(found[0], &bump) != 0
        || read_base(found[2], &number) != 0 || open_identifier(found[1], &identifier) != 0)
        return NULL;
    WHILE_OTHERS_RUN(identifier.length >= LONG,
                     status = node_semver_version_bump(VERSION_OF(self), bump, identifier.start, identifier.length,
                                                       number, &answer));
    close_text(&identifier);
    if (status == NODE_SEMVER_OK)
        return new_version(Py_TYPE(self), answer);
    raise_bump_status(Py_TYPE(self), status);
    return NULL;
}
