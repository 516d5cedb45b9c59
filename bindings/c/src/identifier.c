/* SPDX-License-Identifier: Apache-2.0 */
/*
 * The call that takes an identifier, with a pointer that may be NULL.
 *
 * The proved call reads the identifier through a pointer that is not null, and the empty text is none. The
 * Makefile gives the proved call the name that is declared here.
 */
#include "node_semver.h"

node_semver_status proved_version_bump(const node_semver_version *version, uint32_t bump, const char *identifier,
                                       size_t length, uint32_t base, node_semver_version *answer);

node_semver_status node_semver_version_bump(const node_semver_version *version, uint32_t bump, const char *identifier,
                                            size_t length, uint32_t base, node_semver_version *answer) {
    if (identifier == NULL) {
        return proved_version_bump(version, bump, "", 0, base, answer);
    }
    return proved_version_bump(version, bump, identifier, length, base, answer);
}
