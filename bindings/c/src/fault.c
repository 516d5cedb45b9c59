/* SPDX-License-Identifier: Apache-2.0 */
/*
 * The calls that tell a fault, with a fault pointer that may be NULL.
 *
 * The proved calls write the fault through a pointer that is not null. Here a fault that nobody reads takes the place
 * of a null pointer: with a pointer that may be null, three bodies would have to be proved by hand. The Makefile gives the
 * proved calls the names that are declared here.
 */
#include "node_semver.h"

node_semver_status proved_version_parse(const char *text, size_t length, node_semver_version *version,
                                        node_semver_fault *fault);
node_semver_status proved_version_parse_strict(const char *text, size_t length, node_semver_version *version,
                                               node_semver_fault *fault);
node_semver_status proved_range_parse(const char *text, size_t length, node_semver_range *range,
                                      node_semver_fault *fault);
node_semver_status proved_range_parse_npm(const char *text, size_t length, bool loose, bool include_prerelease,
                                          node_semver_range *range, node_semver_fault *fault);
node_semver_status proved_satisfies_text(const char *range, size_t range_length, const char *version,
                                         size_t version_length, bool *answer, node_semver_fault *fault);

node_semver_status node_semver_version_parse(const char *text, size_t length, node_semver_version *version,
                                             node_semver_fault *fault) {
    node_semver_fault unread = {0, 0, 0};
    return proved_version_parse(text, length, version, fault == NULL ? &unread : fault);
}

node_semver_status node_semver_version_parse_strict(const char *text, size_t length, node_semver_version *version,
                                                    node_semver_fault *fault) {
    node_semver_fault unread = {0, 0, 0};
    return proved_version_parse_strict(text, length, version, fault == NULL ? &unread : fault);
}

node_semver_status node_semver_range_parse(const char *text, size_t length, node_semver_range *range,
                                           node_semver_fault *fault) {
    node_semver_fault unread = {0, 0, 0};
    return proved_range_parse(text, length, range, fault == NULL ? &unread : fault);
}

node_semver_status node_semver_range_parse_npm(const char *text, size_t length, bool loose, bool include_prerelease,
                                               node_semver_range *range, node_semver_fault *fault) {
    node_semver_fault unread = {0, 0, 0};
    return proved_range_parse_npm(text, length, loose, include_prerelease, range, fault == NULL ? &unread : fault);
}

node_semver_status node_semver_satisfies_text(const char *range, size_t range_length, const char *version,
                                              size_t version_length, bool *answer, node_semver_fault *fault) {
    node_semver_fault unread = {0, 0, 0};
    return proved_satisfies_text(range, range_length, version, version_length, answer, fault == NULL ? &unread : fault);
}
