/* SPDX-License-Identifier: Apache-2.0 */
/* What a row returns, as a text. */
#ifndef ANSWERS_H
#define ANSWERS_H

#include "node_semver.h"

#include <inttypes.h>
#include <stdio.h>
#include <stdlib.h>
#include <string.h>

/* The result of a row. */
struct answer {
    char text[512];
};

static void tell(struct answer *answer, const char *text) {
    snprintf(answer->text, sizeof answer->text, "%s", text);
}

static void tell_truth(struct answer *answer, bool truth) {
    tell(answer, truth ? "true" : "false");
}

/* npm's name of a bump, which two calls returned. */
static void tell_bump(struct answer *answer, uint32_t bump, uint32_t again) {
    static const char *const names[] = {"none",  "major",    "premajor",   "minor", "preminor",
                                        "patch", "prepatch", "prerelease", "pre"};
    tell(answer, bump == again && bump <= NODE_SEMVER_PRE ? names[bump] : "two bumps");
}

/* A status other than NODE_SEMVER_OK, with the fault of a text that is refused. */
static void tell_status(struct answer *answer, node_semver_status status, const node_semver_fault *fault) {
    if (status == NODE_SEMVER_OUT_OF_MEMORY) {
        tell(answer, "out of memory");
    } else if (status == NODE_SEMVER_NOT_UTF8) {
        tell(answer, "not UTF-8");
    } else if (status == NODE_SEMVER_NONE) {
        tell(answer, "none");
    } else {
        snprintf(answer->text, sizeof answer->text, "refused %" PRIu32 " %zu %" PRIu64, fault->kind, fault->offset,
                 fault->number);
    }
}

/* What a fault has before a call. */
static const node_semver_fault UNTOLD = {99, 98, 97};

/* Returns whether the fault stayed as it was, as it must with each status but the two that may write it. */
static bool is_kept(node_semver_status status, const node_semver_fault *fault) {
    return status == NODE_SEMVER_REFUSED || status == NODE_SEMVER_OUT_OF_MEMORY
        || (fault->kind == UNTOLD.kind && fault->offset == UNTOLD.offset && fault->number == UNTOLD.number);
}

/* The print of a version or a range: its length from a first call, its text from a second. */
static void tell_print(struct answer *answer, size_t length, size_t again) {
    if (length == 0 || again == 0) {
        tell(answer, "out of memory");
    } else if (length != again || length >= sizeof answer->text) {
        tell(answer, "another length");
    } else {
        answer->text[length] = '\0';
    }
}

static void tell_version(struct answer *answer, const node_semver_version *version) {
    size_t length = node_semver_version_print(version, answer->text, 0);
    tell_print(answer, length, node_semver_version_print(version, answer->text, sizeof answer->text - 1));
}

static void tell_range(struct answer *answer, const node_semver_range *range) {
    size_t length = node_semver_range_print(range, answer->text, 0);
    tell_print(answer, length, node_semver_range_print(range, answer->text, sizeof answer->text - 1));
}

#endif
