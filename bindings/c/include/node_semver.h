/* SPDX-License-Identifier: Apache-2.0 */
/*
 * npm's versions and version ranges, in loose mode.
 *
 * Each function makes one call of the proved crate `node_semver`, and the contract of its export in
 * crates/node_semver_c/src states what that call promises. Only the three calls that free have no contract: that they
 * give the memory back is tested. The contracts hold for every caller that follows the rules below. Nothing checks that
 * a caller does.
 *
 * - Handles. A `node_semver_version`, a `node_semver_range` or a `node_semver_intervals` is a struct of one pointer, which
 *   only this library reads. It starts as NODE_SEMVER_EMPTY. A call that makes one fills an empty handle. `.._free`
 *   frees what a full handle holds: exactly once, and then neither the handle nor a copy of it is used again. Freeing
 *   an empty handle does nothing. A copy of a handle points to the same version. Every other call reads: its handles
 *   are full, and no other thread frees them during the call. Versions and ranges never change, so any number of
 *   threads may read one.
 * - Pointers. A `fault` may be NULL, and then the fault is not reported. The `identifier` of a bump may be NULL, and then
 *   there is none. No other pointer is null, not even one to 0 bytes. A length is the length of what its pointer points
 *   to, at most SIZE_MAX / 2. What a call writes to does not overlap what it reads.
 * - Texts are UTF-8 and need no zero at the end. Other bytes return NODE_SEMVER_NOT_UTF8.
 * - Memory comes from the program's malloc, realloc and free, which align a block to each power of two up to 16 that
 *   divides its size. If an allocation fails, the call returns NODE_SEMVER_OUT_OF_MEMORY and frees what it allocated.
 *   It may be made again.
 * - No call is made from a signal handler, or in the forked child of a program with threads. The library keeps no
 *   state.
 * - Time. A call takes time in proportion to its texts, but for these: an intersection and a difference may make a set of each
 *   two sets of the ranges, and a search for a least version of two ranges may try each end of a set against all sets of
 *   both. If strangers write the ranges, ask node_semver_range_set_count first: 4,000 sets each are 16 million pairs.
 */
#ifndef NODE_SEMVER_H
#define NODE_SEMVER_H

#include <stdbool.h>
#include <stddef.h>
#include <stdint.h>

#ifdef __cplusplus
extern "C" {
#endif

/* The version of this header. */
#define NODE_SEMVER_LIBRARY_VERSION_MAJOR 1
#define NODE_SEMVER_LIBRARY_VERSION_MINOR 0
#define NODE_SEMVER_LIBRARY_VERSION_PATCH 0
#define NODE_SEMVER_LIBRARY_VERSION "1.0.0"

/* Returns the version of the library that the program runs with, as "1.0.0". It ends with a zero and is never freed. */
const char *node_semver_library_version(void);

/* A version: three numbers, a prerelease and a build. */
typedef struct node_semver_version {
    const void *at;
} node_semver_version;

/* A range: the sets of versions that a text writes. */
typedef struct node_semver_range {
    const void *at;
} node_semver_range;

/* An empty handle, of a version, a range or intervals. */
#define NODE_SEMVER_EMPTY { NULL }

/* What a call returns. */
typedef uint32_t node_semver_status;

#define NODE_SEMVER_OK 0u            /* the call did what it was called for */
#define NODE_SEMVER_NONE 1u          /* there is no such version, or no such range; the handle stays empty */
#define NODE_SEMVER_REFUSED 2u       /* parsing failed, and the fault says why; the handle stays empty */
#define NODE_SEMVER_NOT_UTF8 3u      /* the bytes are not UTF-8; the handle stays empty */
#define NODE_SEMVER_OUT_OF_MEMORY 4u /* an allocation failed; the handle stays empty */

/* What node_semver_version_bump alone returns. The handle stays empty. */
#define NODE_SEMVER_INVALID_BUMP 5u       /* no bump or no base has this number */
#define NODE_SEMVER_INVALID_IDENTIFIER 6u /* the text is no identifier: `beta.1`, `a b` */
#define NODE_SEMVER_NO_IDENTIFIER 7u      /* there is neither an identifier nor a number to begin a prerelease with */
#define NODE_SEMVER_SAME_IDENTIFIER 8u    /* the prerelease is the identifier alone, and no number is to follow it */
#define NODE_SEMVER_NUMBER_TOO_LARGE 9u   /* a number of the bumped version would be above 9007199254740991 */

/* The kinds of faults. */
#define NODE_SEMVER_MAX_LENGTH 1u       /* a version text of more than 256 bytes, at its last byte */
#define NODE_SEMVER_INCOMPLETE_INPUT 2u /* never returned */
#define NODE_SEMVER_PARSE_INT 3u        /* a number of a version text above UINT64_MAX, at its first digit */
#define NODE_SEMVER_MAX_INT 4u          /* a number that is too large and fits a uint64_t, at its first digit */
#define NODE_SEMVER_CONTEXT 5u          /* a number or a dot that is missing from a version text, at that place */
#define NODE_SEMVER_NO_VALID_RANGES 6u  /* a range text of which no alternative gives a set */
#define NODE_SEMVER_OTHER 7u            /* a version text that goes on after the version, at the first byte left; see also
                                           node_semver_version_parse_strict */
#define NODE_SEMVER_NO_MEMORY 8u        /* with NODE_SEMVER_OUT_OF_MEMORY alone */

/* Why parsing failed, and where. It is written if a call returns NODE_SEMVER_REFUSED, and may be written if the call
 * returns NODE_SEMVER_OUT_OF_MEMORY. With any other status it stays as it was. */
typedef struct node_semver_fault {
    uint32_t kind;   /* one of the kinds */
    size_t offset;   /* the byte offset of the fault in the text, from 0 */
    uint64_t number; /* the number of NODE_SEMVER_MAX_INT, and 0 for any other kind */
} node_semver_fault;

/* ---- versions ---- */

/* Parses a version in npm's loose form: `1.2.3-alpha.1+5`, and `v 01.2.3alpha.1+5` too. */
node_semver_status node_semver_version_parse(const char *text, size_t length, node_semver_version *version,
                                             node_semver_fault *fault);

/* Parses a version by the grammar of SemVer 2.0.0: `1.2.3-alpha.1+5`, and not `v1.2.3`, `01.2.3`, `1.2.3alpha` or
 * `1.2.3-01`. That grammar has zeros at the start of a number in the build, and they are not kept: `1.2.3+001` is read, and
 * is the version `1.2.3+1`. If node_semver_version_parse reads the text and this call does not, the fault is NODE_SEMVER_OTHER at the
 * first number or identifier that this grammar does not have: at 4 in `1.2.3alpha`. */
#define NODE_SEMVER_HAS_PARSE_STRICT 1
node_semver_status node_semver_version_parse_strict(const char *text, size_t length, node_semver_version *version,
                                                    node_semver_fault *fault);

/* Frees a version. Does nothing for an empty handle. */
void node_semver_version_free(node_semver_version version);

/* Prints a version: major, minor and patch with dots between, `-` and the prerelease, `+` and the build. It prints the
 * version and not the text that was parsed: `1.2.3+1` for `1.2.3+001`, and `1.2.3-alpha` for `v1.2.3alpha`. Returns the
 * length of the text. If the text fits the array, it is written at the start of the array, with no zero after it; the
 * rest of the array, or all of it where the text does not fit, stays as it was. Returns 0 and writes nothing if an
 * allocation fails. */
size_t node_semver_version_print(const node_semver_version *version, char *room, size_t size);

/* Compares two versions by SemVer 2.0.0, section 11. Returns -1 if the first is below the second, 0 if they are the
 * same but for their builds, 1 if the first is above. */
int32_t node_semver_version_compare(const node_semver_version *one, const node_semver_version *other);

/* Compares two versions as node_semver_version_compare does, and two that it finds the same by their builds: identifier
 * by identifier, and no build is below every build. Returns 0 only if all five fields are the same. */
#define NODE_SEMVER_HAS_COMPARE_BUILD 1
int32_t node_semver_version_compare_build(const node_semver_version *one, const node_semver_version *other);

/* Returns the bump that leads from the lower of the two versions to the higher one, as npm's `diff` does, or
 * NODE_SEMVER_NO_BUMP if node_semver_version_compare returns 0: of `1.2.3` and `1.3.0` NODE_SEMVER_MINOR. */
#define NODE_SEMVER_HAS_DIFF 1
uint32_t node_semver_version_diff(const node_semver_version *one, const node_semver_version *other);

#define NODE_SEMVER_NO_BUMP 0u
#define NODE_SEMVER_MAJOR 1u
#define NODE_SEMVER_PREMAJOR 2u
#define NODE_SEMVER_MINOR 3u
#define NODE_SEMVER_PREMINOR 4u
#define NODE_SEMVER_PATCH 5u
#define NODE_SEMVER_PREPATCH 6u
#define NODE_SEMVER_PRERELEASE 7u
#define NODE_SEMVER_PRE 8u /* never returned by node_semver_version_diff: npm's `pre`, the next prerelease of the same
                              three numbers */

/* Makes the version after a bump, as npm's `inc` does. It has no build.
 *
 *     NODE_SEMVER_MAJOR, _MINOR, _PATCH             `2.0.0`, `1.3.0`, `1.2.4` of `1.2.3`; `2.0.0` of `2.0.0-rc.1`
 *     NODE_SEMVER_PREMAJOR, _PREMINOR, _PREPATCH    `2.0.0-0`, `1.3.0-0`, `1.2.4-0` of `1.2.3`
 *     NODE_SEMVER_PRERELEASE                        `1.2.4-0` of `1.2.3`, and `1.2.4-rc.2` of `1.2.4-rc.1`
 *     NODE_SEMVER_PRE                               `1.2.3-0` of `1.2.3`, which is lower
 *
 * With the identifier `beta` a new prerelease begins with it: `1.2.4-beta.0`. If the prerelease begins with it and a
 * number already, its last number is raised: `1.2.4-beta.1`. An identifier has ASCII letters, digits and `-` alone, and
 * digits alone are a number. If `length` is 0 or `identifier` is NULL, there is no identifier. The base is the number
 * after the identifier: 0, 1, or NODE_SEMVER_NO_BASE for none, as in `1.2.4-beta`.
 *
 * Returns one of the five statuses from NODE_SEMVER_INVALID_BUMP on if there is no bumped version. */
#define NODE_SEMVER_HAS_BUMP 1
node_semver_status node_semver_version_bump(const node_semver_version *version, uint32_t bump, const char *identifier,
                                            size_t length, uint32_t base, node_semver_version *answer);

#define NODE_SEMVER_BASE_ZERO 0u
#define NODE_SEMVER_BASE_ONE 1u
#define NODE_SEMVER_NO_BASE 2u

/* Makes the version that is found in a text, as npm's `coerce` does: `1.2.0` of `node-1.2`. It is that of the first one, two
 * or three numbers with dots between them, of at most 16 digits each; missing numbers are 0. With `rtl` it is that of the
 * last: `2.3.4` of `1.2.3.4`. The version has no prerelease and no build. Returns NODE_SEMVER_NONE if there is none, or if
 * one of these numbers has a zero in front or is above 9007199254740991. */
#define NODE_SEMVER_HAS_COERCE 1
node_semver_status node_semver_version_coerce(const char *text, size_t length, bool rtl, node_semver_version *answer);

/* Makes the same version with the prerelease and the build that follow, as npm's `coerce` does with `includePrerelease`:
 * `1.2.0-rc.1` of `v1.2-rc.1`. What does not have the form of SemVer 2.0.0 is left out: `-01`, and `f` of `-4f`. Returns
 * NODE_SEMVER_NONE also if the version would have more than 256 bytes. */
#define NODE_SEMVER_HAS_COERCE_WITH_PRERELEASE 1
node_semver_status node_semver_version_coerce_with_prerelease(const char *text, size_t length, bool rtl,
                                                              node_semver_version *answer);

/* Returns a hash. Versions for which node_semver_version_compare returns 0 have the same hash. It has no seed, and others can
 * write versions that all have one hash: in a table of strangers' versions hash the bytes of node_semver_version_key with a
 * seed of your own. */
uint64_t node_semver_version_hash(const node_semver_version *version);

/* Returns whether the version has a prerelease. */
bool node_semver_version_is_prerelease(const node_semver_version *version);

/* Return the three numbers. */
uint64_t node_semver_version_major(const node_semver_version *version);
uint64_t node_semver_version_minor(const node_semver_version *version);
uint64_t node_semver_version_patch(const node_semver_version *version);

/* Return the number of identifiers of the prerelease, and of the build. */
size_t node_semver_version_pre_release_count(const node_semver_version *version);
size_t node_semver_version_build_count(const node_semver_version *version);

/* Print the identifier at a place, from 0: `rc` and `4` of `1.2.3-rc.4`. Return as node_semver_version_print does.
 * For a place past the last identifier they return 0 and write nothing. */
size_t node_semver_version_pre_release_print(const node_semver_version *version, size_t place, char *room, size_t size);
size_t node_semver_version_build_print(const node_semver_version *version, size_t place, char *room, size_t size);

/* ---- ranges ---- */

/* Parses a range of any length: `^1.2.3`, `1.2 - 3`, `>=1 <3 || 5.x`. Unknown words are ignored. */
node_semver_status node_semver_range_parse(const char *text, size_t length, node_semver_range *range,
                                           node_semver_fault *fault);

/* Parses a range as npm itself reads it. node_semver_range_parse reads a text as the Rust crate `node-semver` does: `<=20`
 * is `<21.0.0-0` here and `<=20.0.0-0` there, and the empty text is refused there alone. `loose` and `include_prerelease`
 * are npm's options. Ask a range that was parsed with prereleases included by node_semver_range_contains, and any other
 * by node_semver_satisfies. A text is refused with NODE_SEMVER_NO_VALID_RANGES: without `loose` if one of its words is no
 * comparator, with `loose` if none is, and always if a number is above 9007199254740991 or a version has more than 256
 * bytes. The offset is that of the first word that is no comparator, 3 for `^1 foo`, and 0 with `loose`. `>4 <3` is not
 * refused: it is `<0.0.0-0`, which no version satisfies. */
#define NODE_SEMVER_HAS_PARSE_NPM 1
node_semver_status node_semver_range_parse_npm(const char *text, size_t length, bool loose, bool include_prerelease,
                                               node_semver_range *range, node_semver_fault *fault);

/* Frees a range. Does nothing for an empty handle. */
void node_semver_range_free(node_semver_range range);

/* Prints a range: its sets with `||` between, as `>=1.2.0 <2.0.0-0||>=3.0.0`. Returns as node_semver_version_print. */
size_t node_semver_range_print(const node_semver_range *range, char *room, size_t size);

/* Returns whether both ranges have the same number of sets, and at each place the same ends but for builds. */
bool node_semver_range_equals(const node_semver_range *one, const node_semver_range *other);

/* Returns a hash. Ranges that are equal have the same hash. It has no seed either. */
uint64_t node_semver_range_hash(const node_semver_range *range);

/* Returns whether the version satisfies the range: it lies inside one of the sets and, if it is a prerelease, an end
 * of that set is a prerelease of the same three numbers. `1.2.3-rc.5` satisfies `^1.2.3-rc.4`, and `1.2.4-rc.6` does
 * not. */
bool node_semver_satisfies(const node_semver_range *range, const node_semver_version *version);

/* Returns whether the version lies inside one of the sets of the range, prerelease or not: `1.2.4-rc.6` lies inside
 * `^1.2.3-rc.4`. */
#define NODE_SEMVER_HAS_CONTAINS 1
bool node_semver_range_contains(const node_semver_range *range, const node_semver_version *version);

/* Write whether the version of a text satisfies the range, or lies inside one of its sets. The text is read by the grammar of
 * SemVer 2.0.0, as node_semver_version_parse_strict reads it, and nothing is allocated. Return NODE_SEMVER_REFUSED if it is
 * no version, and NODE_SEMVER_NOT_UTF8 for other bytes; then nothing is written. */
#define NODE_SEMVER_HAS_SATISFIES_STRICT 1
node_semver_status node_semver_satisfies_strict(const node_semver_range *range, const char *text, size_t length,
                                                bool *answer);
node_semver_status node_semver_contains_strict(const node_semver_range *range, const char *text, size_t length,
                                               bool *answer);

/* Returns whether the ranges have a cut in common, that is, whether node_semver_range_intersect returns a range. */
bool node_semver_range_allows_any(const node_semver_range *one, const node_semver_range *other);

/* Returns whether each cut of the second range is a cut of the first, as `Range::allows_all` of the library does. */
bool node_semver_range_allows_all(const node_semver_range *one, const node_semver_range *other);

/* Makes the intersection, the range of the cuts that both ranges have. Returns NODE_SEMVER_NONE if there are none. A
 * prerelease may satisfy the intersection and not one of the ranges: the intersection of `^2.0.0-rc.1` and `>=1.5`
 * admits `2.0.0-rc.4`, which `>=1.5` refuses. */
node_semver_status node_semver_range_intersect(const node_semver_range *one, const node_semver_range *other,
                                               node_semver_range *answer);

/* Makes the difference, the range of the cuts that the first range has and the second has not. Returns NODE_SEMVER_NONE
 * if there are none. */
node_semver_status node_semver_range_difference(const node_semver_range *one, const node_semver_range *other,
                                                node_semver_range *answer);

/* Makes the union, the sets of the first range and then those of the second. A version satisfies it exactly where it
 * satisfies one of the two. Sets are not joined: the union of `1` and `1` has two. */
#define NODE_SEMVER_HAS_UNION 1
node_semver_status node_semver_range_union(const node_semver_range *one, const node_semver_range *other,
                                           node_semver_range *answer);

/* What lies at an end of a set: a cut, which is a place between versions. */
typedef struct node_semver_cut {
    uint32_t kind;               /* one of the kinds below */
    node_semver_version version; /* the version of NODE_SEMVER_BEFORE and NODE_SEMVER_AFTER, else empty */
} node_semver_cut;

#define NODE_SEMVER_START 0u  /* below every version */
#define NODE_SEMVER_BEFORE 1u /* just below the version: where `>=1.2.3` begins, and where `<1.2.3` ends */
#define NODE_SEMVER_AFTER 2u  /* just above the version: where `>1.2.3` begins, and where `<=1.2.3` ends */
#define NODE_SEMVER_END 3u    /* above every version */

/* A set of a range: what lies from the lower cut up to the upper one. */
typedef struct node_semver_set {
    node_semver_cut lower;
    node_semver_cut upper;
} node_semver_set;

/* A set with empty handles. */
#define NODE_SEMVER_EMPTY_SET { { 0, NODE_SEMVER_EMPTY }, { 0, NODE_SEMVER_EMPTY } }

/* Returns the number of sets, at least 1: `1 || 1` has two. */
#define NODE_SEMVER_HAS_SETS 1
size_t node_semver_range_set_count(const node_semver_range *range);

/* Writes the set at a place, from 0, into a set with empty handles. Returns NODE_SEMVER_NONE for a place past the last
 * set. The caller frees both versions with node_semver_version_free, which does nothing for an empty handle. */
node_semver_status node_semver_range_set(const node_semver_range *range, size_t place, node_semver_set *set);

/* Makes the range of these sets in their order, with copies of their versions. Returns NODE_SEMVER_NONE if there are no
 * sets, or if one of them has a kind that is not listed above, lacks its version, has a lower cut that is not below the
 * upper one, or has an end with a number above 9007199254740992 or an identifier that no text writes. Each handle is
 * empty or full. */
node_semver_status node_semver_range_from_sets(const node_semver_set *sets, size_t count, node_semver_range *range);

/* Makes the least version that satisfies the range. Returns NODE_SEMVER_NONE if none does. */
node_semver_status node_semver_min_version(const node_semver_range *range, node_semver_version *answer);

/* Makes the least version that satisfies the first range and not the second. Returns NODE_SEMVER_NONE if none does. */
node_semver_status node_semver_least_beyond(const node_semver_range *one, const node_semver_range *other,
                                            node_semver_version *answer);

/* Makes the least version that satisfies both ranges, with no build. Returns NODE_SEMVER_NONE if none does. */
#define NODE_SEMVER_HAS_LEAST_COMMON 1
node_semver_status node_semver_range_least_common(const node_semver_range *one, const node_semver_range *other,
                                                  node_semver_version *answer);

/* Returns whether a version of the array satisfies the range, and writes the place of the greatest that does. Of equal
 * ones, which differ in the build alone, this is the first. If none does, the place means nothing. */
bool node_semver_max_satisfying(const node_semver_version *versions, size_t count, const node_semver_range *range,
                                size_t *place);

/* The same with the place of the least: of equal ones, which differ in the build alone, the first. */
bool node_semver_min_satisfying(const node_semver_version *versions, size_t count, const node_semver_range *range,
                                size_t *place);

/* The same calls with prereleases included, as npm has them with its option `includePrerelease`: a version counts if it
 * lies inside one of the sets, as node_semver_range_contains returns. The greatest of `1.2.3` and `1.3.0-rc.1` for `^1` is
 * `1.3.0-rc.1`; the least version of `>1.2.3` is `1.2.4-0`; and the least of `^2.0.0-rc.1` and `>=1.5` is `2.0.0-rc.1`. */
#define NODE_SEMVER_HAS_PRERELEASES_INCLUDED 1
bool node_semver_max_satisfying_with_prereleases(const node_semver_version *versions, size_t count,
                                                 const node_semver_range *range, size_t *place);
bool node_semver_min_satisfying_with_prereleases(const node_semver_version *versions, size_t count,
                                                 const node_semver_range *range, size_t *place);
node_semver_status node_semver_min_version_with_prereleases(const node_semver_range *range, node_semver_version *answer);
node_semver_status node_semver_least_beyond_with_prereleases(const node_semver_range *one, const node_semver_range *other,
                                                             node_semver_version *answer);
node_semver_status node_semver_range_least_common_with_prereleases(const node_semver_range *one,
                                                                   const node_semver_range *other,
                                                                   node_semver_version *answer);

/* ---- keys ---- */

/* Writes the key of a version: bytes that sort as versions do. The key of one version is less than that of another, byte by
 * byte as memcmp compares, exactly if node_semver_version_compare returns -1, and two keys are the same exactly if it
 * returns 0. No key is the start of another. `1.2.3` has the key 01 02 03 ff; the build is not in it. Returns the length
 * of the key, at least 4. If the key fits the array, it is written at the start of the array; the rest of the array, or all
 * of it where the key does not fit, stays as it was. Returns 0 and writes nothing if an allocation fails. */
#define NODE_SEMVER_HAS_KEYS 1
size_t node_semver_version_key(const node_semver_version *version, unsigned char *room, size_t size);

/* Reads a version back from its key. It has no build, since the key has none. Returns NODE_SEMVER_NONE for bytes that are no key of a
 * version. */
#define NODE_SEMVER_HAS_VERSION_OF_KEY 1
node_semver_status node_semver_version_of_key(const unsigned char *key, size_t length, node_semver_version *version);

/* Intervals of keys. A handle as the other two are. */
typedef struct node_semver_intervals {
    const void *at;
} node_semver_intervals;

/* Makes the intervals of a range, for a database that has the keys of versions in an index. A version satisfies the range
 * exactly if its key is at or above the lower end and below the upper end of one of the intervals that are of prereleases,
 * if the version is a prerelease, or else of one of those that are not. Those of releases come first. The intervals of one
 * kind ascend, and no two of them touch. There are at most as many of releases as the range has sets, and at most twice as
 * many of prereleases. */
node_semver_status node_semver_range_intervals(const node_semver_range *range, node_semver_intervals *answer);

/* The same with prereleases included: a version lies inside one of the sets, as node_semver_range_contains returns, exactly
 * if its key lies in one of the intervals. There are at most as many as the range has sets. */
node_semver_status node_semver_range_intervals_with_prereleases(const node_semver_range *range,
                                                                node_semver_intervals *answer);

/* Frees intervals. Does nothing for an empty handle. */
void node_semver_intervals_free(node_semver_intervals intervals);

/* Returns the number of intervals. */
size_t node_semver_intervals_count(const node_semver_intervals *intervals);

/* Write the lower end and the upper end of the interval at a place, from 0. Return the length, and write as
 * node_semver_version_key does. A lower end of 0 bytes is at or below each key. For a place past the last interval they
 * return 0 and write nothing. */
size_t node_semver_interval_lower(const node_semver_intervals *intervals, size_t place, unsigned char *room, size_t size);
size_t node_semver_interval_upper(const node_semver_intervals *intervals, size_t place, unsigned char *room, size_t size);

/* Returns whether the interval at a place is of prereleases. With prereleases included this is true, and releases are meant
 * too. For a place past the last interval it is false. */
bool node_semver_interval_is_of_prereleases(const node_semver_intervals *intervals, size_t place);

/* Writes whether the version of one text satisfies the range of the other. If one of the texts is not UTF-8, returns
 * NODE_SEMVER_NOT_UTF8. Otherwise the range is parsed first, so if both texts are refused, the fault is that of the
 * range. If the status is not NODE_SEMVER_OK, the bool keeps its value. */
node_semver_status node_semver_satisfies_text(const char *range, size_t range_length, const char *version,
                                              size_t version_length, bool *answer, node_semver_fault *fault);

#ifdef __cplusplus
}
#endif

#endif
