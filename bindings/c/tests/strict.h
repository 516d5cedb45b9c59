/* SPDX-License-Identifier: Apache-2.0 */
/* The calls of the rows that read a text themselves: the version that is found in it, and whether it satisfies a range. */
#include "answers.h"

typedef node_semver_status coercion(const char *, size_t, bool, node_semver_version *);

static void run_coerce(coercion call, const char *text, bool rtl, struct answer *answer) {
    node_semver_version found = NODE_SEMVER_EMPTY;
    node_semver_status status = call(text, strlen(text), rtl, &found);
    if (status == NODE_SEMVER_OK) {
        tell_version(answer, &found);
    } else {
        tell_status(answer, status, NULL);
    }
    node_semver_version_free(found);
}

/* A call of a range and a text. */
typedef node_semver_status question(const node_semver_range *, const char *, size_t, bool *);

/* Makes the call with a bool of each value, which must keep it if the call does not succeed. */
static void run_question(question *call, const node_semver_range *range, const char *text, struct answer *answer) {
    bool answers[2] = {false, true};
    node_semver_status status = call(range, text, strlen(text), &answers[0]);
    if (call(range, text, strlen(text), &answers[1]) != status) {
        tell(answer, "two statuses");
    } else if (status != NODE_SEMVER_OK) {
        tell(answer, answers[0] || !answers[1] ? "an answer was written"
                : status == NODE_SEMVER_NOT_UTF8 ? "not UTF-8" : status == NODE_SEMVER_REFUSED ? "refused" : "status");
    } else if (answers[0] != answers[1]) {
        tell(answer, "two answers");
    } else {
        tell_truth(answer, answers[0]);
    }
}
