/* SPDX-License-Identifier: Apache-2.0 */
/* What must hold of each range, of each two, and of each range beside the versions that are held. */
#ifndef RANGES_H
#define RANGES_H

#include "versions.h"

typedef bool membership(const node_semver_range *range, const node_semver_version *version);

static size_t write_range(const void *range, size_t place, void *room, size_t size) {
    (void)place;
    return node_semver_range_print(range, room, size);
}

static size_t write_lower(const void *intervals, size_t place, void *room, size_t size) {
    return node_semver_interval_lower(intervals, place, room, size);
}

static size_t write_upper(const void *intervals, size_t place, void *room, size_t size) {
    return node_semver_interval_upper(intervals, place, room, size);
}

/* ---- the sets of a range ---- */

static void free_sets(node_semver_set *sets, size_t count) {
    for (size_t i = 0; i < count; i++) {
        node_semver_version_free(sets[i].lower.version);
        node_semver_version_free(sets[i].upper.version);
    }
}

static bool is_cut(const node_semver_cut *cut) {
    bool has_version = cut->kind == NODE_SEMVER_BEFORE || cut->kind == NODE_SEMVER_AFTER;
    return cut->kind <= NODE_SEMVER_END && has_version == is_full(&cut->version);
}

/* Reads the sets, as many as there are. Returns false if memory is out. */
static bool read_sets(const node_semver_range *range, node_semver_set *sets, size_t count) {
    node_semver_set past = NODE_SEMVER_EMPTY_SET;
    for (size_t i = 0; i < count; i++) {
        if (!is_done(node_semver_range_set(range, i, &sets[i]), 0)) {
            expect(!is_full(&sets[i].lower.version) && !is_full(&sets[i].upper.version), "a set that is not read is empty");
            return false;
        }
        expect(is_cut(&sets[i].lower) && is_cut(&sets[i].upper), "a set has two cuts");
    }
    expect(node_semver_range_set(range, count, &past) == NODE_SEMVER_NONE && !is_full(&past.lower.version)
               && !is_full(&past.upper.version),
           "past the last set there is none");
    return true;
}

/* The sets of a range make the range again. */
static void check_sets(const node_semver_range *range) {
    size_t count = node_semver_range_set_count(range);
    node_semver_range again = NODE_SEMVER_EMPTY;
    node_semver_set *sets = (node_semver_set *)place_in(SETS, count * sizeof *sets, true);
    see('S', count);
    expect(count > 0, "a range has a set");
    for (size_t i = 0; i < count; i++) {
        sets[i] = (node_semver_set)NODE_SEMVER_EMPTY_SET;
    }
    if (read_sets(range, sets, count) && is_done(node_semver_range_from_sets(sets, count, &again), 0)) {
        expect(node_semver_range_equals(range, &again) && node_semver_range_equals(&again, range),
               "its sets make the range again");
        expect(node_semver_range_hash(range) == node_semver_range_hash(&again), "equal ranges have one hash");
    }
    node_semver_range_free(again);
    free_sets(sets, count);
}

/* ---- the intervals of a range ---- */

/* Whether the key lies in one of the intervals, of those that are of prereleases or of the others. */
static bool lies_inside(const node_semver_intervals *intervals, struct placed key, bool is_included, bool is_of_prereleases) {
    bool lies = false;
    for (size_t i = 0; i < node_semver_intervals_count(intervals); i++) {
        struct placed lower = written(write_lower, intervals, i, LOWER, true);
        struct placed upper = written(write_upper, intervals, i, UPPER, true);
        if (is_included || node_semver_interval_is_of_prereleases(intervals, i) == is_of_prereleases) {
            lies = lies || (order_of(lower, key) <= 0 && order_of(key, upper) < 0);
        }
    }
    return lies;
}

/* A version is in the range exactly if its key lies in an interval of its kind. */
static void check_intervals(const node_semver_range *range, bool is_included) {
    node_semver_intervals intervals = NODE_SEMVER_EMPTY;
    node_semver_status status = is_included ? node_semver_range_intervals_with_prereleases(range, &intervals)
                                            : node_semver_range_intervals(range, &intervals);
    if (!is_done(status, 0)) {
        return;
    }
    size_t count = node_semver_intervals_count(&intervals);
    see('I', count);
    expect(count <= (is_included ? 1 : 3) * node_semver_range_set_count(range), "the intervals are as few as the header says");
    for (unsigned i = 0; i < PLACES; i++) {
        const node_semver_version *version = &held.versions[i];
        struct placed key = is_full(version) ? written(write_key, version, 0, KEY, false) : (struct placed){NULL, 0};
        if (key.length > 0) {
            bool is_in = is_included ? node_semver_range_contains(range, version) : node_semver_satisfies(range, version);
            bool lies = lies_inside(&intervals, key, is_included, node_semver_version_is_prerelease(version));
            expect(lies == is_in || was_refused(),
                   "a key lies in an interval exactly if the version is in the range");
        }
    }
    expect(node_semver_interval_lower(&intervals, count, (unsigned char *)open_room(LOWER, 1), 1) == 0
               && !node_semver_interval_is_of_prereleases(&intervals, count),
           "past the last interval there is none");
    node_semver_intervals_free(intervals);
}

/* ---- searches ---- */

typedef node_semver_status search(const node_semver_range *one, const node_semver_range *other, node_semver_version *found);

static node_semver_status least(const node_semver_range *one, const node_semver_range *other, node_semver_version *found) {
    (void)other;
    return node_semver_min_version(one, found);
}

static node_semver_status least_included(const node_semver_range *one, const node_semver_range *other,
                                         node_semver_version *found) {
    (void)other;
    return node_semver_min_version_with_prereleases(one, found);
}

/* A found version is in the range and not in the other one, and no held version that is so is less; if there is none, no held
 * version is so. */
static void check_least(search *look, const node_semver_range *one, const node_semver_range *other, bool is_in_other,
                        membership *is_in) {
    node_semver_version found = NODE_SEMVER_EMPTY;
    node_semver_status status = look(one, other, &found);
    bool is_found = is_done(status, ONE_OF(NODE_SEMVER_NONE));
    expect(is_found == is_full(&found), "a handle is full exactly if a version is found");
    expect(!is_found || (is_in(one, &found) && is_in(other, &found) == is_in_other), "the least version is one of those");
    for (unsigned i = 0; i < PLACES; i++) {
        const node_semver_version *version = &held.versions[i];
        if (status != NODE_SEMVER_OUT_OF_MEMORY && is_full(version) && is_in(one, version)
            && is_in(other, version) == is_in_other) {
            expect(is_found && node_semver_version_compare(&found, version) <= 0, "no version is less than the least");
        }
    }
    node_semver_version_free(found);
}

static void check_searches(const node_semver_range *one, const node_semver_range *other) {
    check_least(least, one, one, true, node_semver_satisfies);
    check_least(node_semver_least_beyond, one, other, false, node_semver_satisfies);
    check_least(node_semver_range_least_common, one, other, true, node_semver_satisfies);
    check_least(least_included, one, one, true, node_semver_range_contains);
    check_least(node_semver_least_beyond_with_prereleases, one, other, false, node_semver_range_contains);
    check_least(node_semver_range_least_common_with_prereleases, one, other, true, node_semver_range_contains);
}

/* ---- one range, and two ---- */

static void check_range(const node_semver_range *range) {
    struct placed print = written(write_range, range, 0, PRINT, false);
    see('R', print.length / 16);
    expect(node_semver_range_equals(range, range) && node_semver_range_allows_all(range, range), "a range is itself");
    check_sets(range);
    check_intervals(range, false);
    check_intervals(range, true);
    for (unsigned i = 0; i < PLACES; i++) {
        const node_semver_version *version = &held.versions[i];
        expect(!is_full(version) || !node_semver_satisfies(range, version) || node_semver_range_contains(range, version),
               "a version that satisfies a range lies inside");
    }
}

typedef node_semver_status algebra(const node_semver_range *, const node_semver_range *, node_semver_range *);

/* What a version is in, of the range that is made of two ranges which it is in, or not. */
typedef bool truth(bool is_in_one, bool is_in_other);

static bool both(bool is_in_one, bool is_in_other) {
    return is_in_one && is_in_other;
}

static bool first_alone(bool is_in_one, bool is_in_other) {
    return is_in_one && !is_in_other;
}

static bool either(bool is_in_one, bool is_in_other) {
    return is_in_one || is_in_other;
}

/* Makes a range of two. A held version lies inside exactly where the truth says so. */
static node_semver_range combined(algebra *call, truth *is_inside, const node_semver_range *one,
                                  const node_semver_range *other) {
    node_semver_range made = NODE_SEMVER_EMPTY;
    node_semver_status status = call(one, other, &made);
    bool is_some = is_done(status, ONE_OF(NODE_SEMVER_NONE));
    expect(is_some == (made.at != NULL), "a handle is full exactly if a range is made");
    for (unsigned i = 0; i < PLACES && status != NODE_SEMVER_OUT_OF_MEMORY; i++) {
        const node_semver_version *version = &held.versions[i];
        if (is_full(version)) {
            bool lies = is_some && node_semver_range_contains(&made, version);
            expect(lies == is_inside(node_semver_range_contains(one, version), node_semver_range_contains(other, version)),
                   "a version lies inside exactly where it should");
        }
    }
    if (is_inside == both && status != NODE_SEMVER_OUT_OF_MEMORY) {
        expect(is_some == node_semver_range_allows_any(one, other), "ranges share a cut exactly if they have an intersection");
    }
    if (is_inside == first_alone && status != NODE_SEMVER_OUT_OF_MEMORY) {
        expect(is_some == !node_semver_range_allows_all(other, one),
               "a range covers another exactly if nothing is left of that");
    }
    return made;
}

#endif
