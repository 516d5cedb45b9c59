/* SPDX-License-Identifier: Apache-2.0 */
#include "node_semver.h"

const char *node_semver_library_version(void) {
    return NODE_SEMVER_LIBRARY_VERSION;
}
