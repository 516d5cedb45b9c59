/* SPDX-License-Identifier: Apache-2.0 */
/*
 * The calls of node_semver.h for a program that runs natively and as WebAssembly. Handles and what a call writes have the layout
 * that the proved code has on both: a pointer, and a `size_t` in memory, take 8 bytes.
 */
#ifndef LIBRARY_H
#define LIBRARY_H

#include "../memory.h"

struct handle {
    uint64_t at;
};

struct fault {
    uint32_t kind, unused;
    uint64_t offset, number;
};

struct cut {
    uint32_t kind, unused;
    struct handle version;
};

struct set {
    struct cut lower, upper;
};

#define V const struct handle *
#define R const struct handle *
#define TO struct handle *
#define TEXT const char *, size_t
#define ROOM char *, size_t

uint32_t node_semver_version_parse(TEXT, TO, struct fault *), node_semver_version_parse_strict(TEXT, TO, struct fault *);
void node_semver_version_free(void *), node_semver_range_free(void *), node_semver_intervals_free(void *);
size_t node_semver_version_print(V, ROOM), node_semver_range_print(R, ROOM), node_semver_version_key(V, ROOM);
int32_t node_semver_version_compare(V, V), node_semver_version_compare_build(V, V);
uint32_t node_semver_version_diff(V, V), node_semver_version_bump(V, uint32_t, TEXT, uint32_t, TO);
uint32_t node_semver_version_coerce(TEXT, bool, TO), node_semver_version_coerce_with_prerelease(TEXT, bool, TO);
uint64_t node_semver_version_hash(V), node_semver_version_major(V), node_semver_version_minor(V), node_semver_version_patch(V);
uint64_t node_semver_range_hash(R);
bool node_semver_version_is_prerelease(V);
size_t node_semver_version_pre_release_count(V), node_semver_version_build_count(V);
size_t node_semver_version_pre_release_print(V, size_t, ROOM), node_semver_version_build_print(V, size_t, ROOM);
uint32_t node_semver_range_parse(TEXT, TO, struct fault *), node_semver_range_parse_npm(TEXT, bool, bool, TO, struct fault *);
bool node_semver_range_equals(R, R), node_semver_range_allows_any(R, R), node_semver_range_allows_all(R, R);
bool node_semver_satisfies(R, V), node_semver_range_contains(R, V);
uint32_t node_semver_satisfies_strict(R, TEXT, bool *), node_semver_contains_strict(R, TEXT, bool *);
uint32_t node_semver_range_intersect(R, R, TO), node_semver_range_difference(R, R, TO), node_semver_range_union(R, R, TO);
size_t node_semver_range_set_count(R);
uint32_t node_semver_range_set(R, size_t, struct set *), node_semver_range_from_sets(const struct set *, size_t, TO);
uint32_t node_semver_min_version(R, TO), node_semver_min_version_with_prereleases(R, TO);
uint32_t node_semver_least_beyond(R, R, TO), node_semver_least_beyond_with_prereleases(R, R, TO);
uint32_t node_semver_range_least_common(R, R, TO), node_semver_range_least_common_with_prereleases(R, R, TO);
bool node_semver_max_satisfying(V, size_t, R, uint64_t *), node_semver_max_satisfying_with_prereleases(V, size_t, R, uint64_t *);
bool node_semver_min_satisfying(V, size_t, R, uint64_t *), node_semver_min_satisfying_with_prereleases(V, size_t, R, uint64_t *);
uint32_t node_semver_version_of_key(TEXT, TO);
uint32_t node_semver_range_intervals(R, TO), node_semver_range_intervals_with_prereleases(R, TO);
size_t node_semver_intervals_count(R), node_semver_interval_lower(R, size_t, ROOM), node_semver_interval_upper(R, size_t, ROOM);
bool node_semver_interval_is_of_prereleases(R, size_t);
uint32_t node_semver_satisfies_text(TEXT, TEXT, bool *, struct fault *);

#undef V
#undef R
#undef TO
#undef TEXT
#undef ROOM

#endif
