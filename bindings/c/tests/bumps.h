/* SPDX-License-Identifier: Apache-2.0 */
/* The call of the rows that raise a version. */
#include "answers.h"

/* Raises the version by the numbers of a bump and a base, and the identifier after them: `7 0 beta`. If the text ends
 * with the second number, the identifier is NULL. Writes the version or the status. */
static void run_bump(const char *words, const node_semver_version *version, struct answer *answer) {
    node_semver_version bumped = NODE_SEMVER_EMPTY;
    char *rest;
    uint32_t bump = (uint32_t)strtoul(words, &rest, 10), base = (uint32_t)strtoul(rest, &rest, 10);
    const char *identifier = *rest == '\0' ? NULL : rest + 1;
    size_t length = identifier == NULL ? 0 : strlen(identifier);
    node_semver_status status = node_semver_version_bump(version, bump, identifier, length, base, &bumped);
    if (status == NODE_SEMVER_OK) {
        tell_version(answer, &bumped);
    } else if (bumped.at != NULL) {
        tell(answer, "a version was written");
    } else if (status == NODE_SEMVER_OUT_OF_MEMORY) {
        tell(answer, "out of memory");
    } else {
        snprintf(answer->text, sizeof answer->text, "status %" PRIu32, status);
    }
    node_semver_version_free(bumped);
}
