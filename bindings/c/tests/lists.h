/* SPDX-License-Identifier: Apache-2.0 */
/* The values of a test of long lists, and how it reports a failure. */
#include "node_semver.h"

#include <stdio.h>
#include <string.h>

enum { MANY = 1000, ROOM = 64 * MANY };

/* What a test holds, and the runner frees. */
static struct {
    node_semver_range ranges[MANY + 4];
    node_semver_set sets[MANY];
    node_semver_version versions[MANY];
    node_semver_version found;
} held;

static char text[ROOM], print[ROOM];

/* What went wrong first in a test; and whether memory ran out. */
static const char *wrong;
static bool is_out;

/* Keeps the first failure, and returns whether the test may go on. */
static bool is(bool fact, const char *what) {
    if (!fact && wrong == NULL && !is_out) {
        wrong = what;
    }
    return fact;
}

static bool done(node_semver_status status, const char *what) {
    is_out = is_out || status == NODE_SEMVER_OUT_OF_MEMORY;
    return is(status == NODE_SEMVER_OK, what);
}

/* Writes the print of `0 || 2 || 4 ..`, of sets from this place up to another. */
static const char *evens(size_t from, size_t to) {
    size_t length = 0;
    text[0] = '\0';
    for (size_t i = from; i < to; i++) {
        length += (size_t)snprintf(text + length, ROOM - length, "%s>=%zu.0.0 <%zu.0.0-0", i == from ? "" : "||", 2 * i,
                                   2 * i + 1);
    }
    return text;
}

static bool parse(node_semver_range *range, const char *of) {
    return done(node_semver_range_parse(of, strlen(of), range, NULL), "a text is not parsed");
}

static bool parse_version(node_semver_version *version, const char *of) {
    return done(node_semver_version_parse(of, strlen(of), version, NULL), "a version is not parsed");
}

/* Returns whether this text was printed; 0 bytes mean out of memory. */
static bool is_print(size_t length, const char *wanted) {
    is_out = is_out || length == 0;
    return is(length == strlen(wanted) && memcmp(print, wanted, length) == 0, "another print");
}

static bool prints(const node_semver_range *range, const char *wanted) {
    return is_print(node_semver_range_print(range, print, ROOM), wanted);
}

/* Prints the version that was found, and frees it. */
static void finds(const char *wanted) {
    is_print(node_semver_version_print(&held.found, print, ROOM), wanted);
    node_semver_version_free(held.found);
    held.found = (node_semver_version)NODE_SEMVER_EMPTY;
}
