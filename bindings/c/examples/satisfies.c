/* SPDX-License-Identifier: Apache-2.0 */
/*
 * Says whether a version satisfies a range:
 *
 *     satisfies '^1.2.3' 1.3.0
 *
 * Prints yes or no. Prints the fault and ends with status 2 where a text is refused.
 */
#include <node_semver.h>

#include <stdio.h>
#include <string.h>

/* Prints the text, and a caret under the byte of the fault. */
static int refuse(const char *text, node_semver_status status, const node_semver_fault *fault) {
    if (status == NODE_SEMVER_REFUSED) {
        fprintf(stderr, "%s\n%*s^ fault %u\n", text, (int)fault->offset, "", (unsigned)fault->kind);
    } else {
        fputs(status == NODE_SEMVER_NOT_UTF8 ? "not UTF-8\n" : "out of memory\n", stderr);
    }
    return 2;
}

int main(int count, char **words) {
    node_semver_range range = NODE_SEMVER_EMPTY;
    node_semver_version version = NODE_SEMVER_EMPTY;
    node_semver_fault fault;
    if (count != 3) {
        fprintf(stderr, "usage: %s RANGE VERSION (node_semver %s)\n", words[0], node_semver_library_version());
        return 2;
    }
    node_semver_status status = node_semver_range_parse(words[1], strlen(words[1]), &range, &fault);
    if (status != NODE_SEMVER_OK) {
        return refuse(words[1], status, &fault);
    }
    status = node_semver_version_parse(words[2], strlen(words[2]), &version, &fault);
    if (status != NODE_SEMVER_OK) {
        node_semver_range_free(range);
        return refuse(words[2], status, &fault);
    }
    bool satisfies = node_semver_satisfies(&range, &version);
    puts(satisfies ? "yes" : "no");
    node_semver_version_free(version);
    node_semver_range_free(range);
    return satisfies ? 0 : 1;
}
