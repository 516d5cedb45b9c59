/* SPDX-License-Identifier: Apache-2.0 */
/* What must hold of each version, and of each two. */
#ifndef VERSIONS_H
#define VERSIONS_H

#include "state.h"

#include <inttypes.h>

static size_t write_version(const void *version, size_t place, void *room, size_t size) {
    (void)place;
    return node_semver_version_print(version, room, size);
}

static size_t write_pre_release(const void *version, size_t place, void *room, size_t size) {
    return node_semver_version_pre_release_print(version, place, room, size);
}

static size_t write_build(const void *version, size_t place, void *room, size_t size) {
    return node_semver_version_build_print(version, place, room, size);
}

static size_t write_key(const void *version, size_t place, void *room, size_t size) {
    (void)place;
    return node_semver_version_key(version, room, size);
}

/* Whether the print goes on at a place with identifiers: each after a dot but for the first, which stands after `mark`. Moves
 * the place. */
static bool goes_on(struct placed print, size_t *at, writer *write, const node_semver_version *version, size_t count,
                    char mark) {
    for (size_t i = 0; i < count; i++) {
        struct placed identifier = written(write, version, i, IDENTIFIER, false);
        if (identifier.length == 0) {
            return false;
        }
        expect(*at + 1 + identifier.length <= print.length && print.bytes[*at] == (i == 0 ? mark : '.')
                   && memcmp(print.bytes + *at + 1, identifier.bytes, identifier.length) == 0,
               "a print has each identifier");
        *at += 1 + identifier.length;
    }
    char *room = open_room(IDENTIFIER, 1);
    expect(write(version, count, room, 1) == 0 && write(version, SIZE_MAX, room, 1) == 0 && is_kept_from(room, 0, 1),
           "past the last identifier there is none");
    return true;
}

/* The print is made of the parts. */
static void check_parts(const node_semver_version *version, struct placed print) {
    char numbers[80];
    size_t pre_release = node_semver_version_pre_release_count(version), build = node_semver_version_build_count(version);
    size_t at = (size_t)snprintf(numbers, sizeof numbers, "%" PRIu64 ".%" PRIu64 ".%" PRIu64,
                                 node_semver_version_major(version), node_semver_version_minor(version),
                                 node_semver_version_patch(version));
    expect(at <= print.length && memcmp(numbers, print.bytes, at) == 0, "a print has the three numbers");
    expect(node_semver_version_is_prerelease(version) == (pre_release > 0), "a prerelease has an identifier");
    if (goes_on(print, &at, write_pre_release, version, pre_release, '-')
        && goes_on(print, &at, write_build, version, build, '+')) {
        expect(at == print.length, "a print has its parts alone");
    }
}

/* A print that can be read is the same version. */
static void check_print(const node_semver_version *version, struct placed print) {
    node_semver_version again = NODE_SEMVER_EMPTY;
    node_semver_status status = node_semver_version_parse(print.bytes, print.length, &again, NULL);
    if (is_done(status, ONE_OF(NODE_SEMVER_REFUSED))) {
        expect(node_semver_version_compare_build(version, &again) == 0, "a print is read as the same version");
    }
    node_semver_version_free(again);
}

static void check_version(const node_semver_version *version) {
    struct placed print = written(write_version, version, 0, PRINT, false);
    struct placed key = written(write_key, version, 0, KEY, false);
    see('P', print.length / 16);
    expect(key.length == 0 || key.length >= 4, "a key has four bytes at least");
    expect(node_semver_version_compare_build(version, version) == 0, "a version is itself");
    if (print.length > 0) {
        check_parts(version, print);
        check_print(version, print);
    }
}

static void check_two(const node_semver_version *one, const node_semver_version *other) {
    int32_t order = node_semver_version_compare(one, other), build = node_semver_version_compare_build(one, other);
    uint32_t bump = node_semver_version_diff(one, other);
    see('Q', bump);
    expect(order >= -1 && order <= 1 && order == -node_semver_version_compare(other, one), "the order has two sides");
    expect(build == -node_semver_version_compare_build(other, one) && (order == 0 || build == order),
           "the order with builds is the order where that tells them apart");
    expect(bump == node_semver_version_diff(other, one) && bump < NODE_SEMVER_PRE
               && (bump == NODE_SEMVER_NO_BUMP) == (order == 0),
           "a bump leads from one version to another one");
    expect(order != 0 || node_semver_version_hash(one) == node_semver_version_hash(other), "equal versions have one hash");
    struct placed key = written(write_key, one, 0, KEY, false), other_key = written(write_key, other, 0, OTHER_KEY, false);
    expect(key.length == 0 || other_key.length == 0 || order_of(key, other_key) == order, "keys sort as versions do");
}

#endif
