/* SPDX-License-Identifier: Apache-2.0 */
/*
 * A value of the type npm_range: its text as it was written, and its intervals of keys. Numbers have four bytes:
 *
 *     the length of the text; how many intervals are of releases; how many are of prereleases
 *     where each end stops in the keys: of the first interval the lower and the upper one, of the second, ..
 *     the text
 *     the keys
 *
 * Those of one kind ascend and do not touch, so a version is found in them by a binary search, and nothing is read or allocated.
 */
#ifndef DENIMSCREE_RANGE_H
#define DENIMSCREE_RANGE_H

#include "version.h"

struct range {
    const char *text;
    size_t text_length;
    size_t releases, prereleases; /* how many intervals */
    const char *stops;
    const unsigned char *keys;
};

struct end {
    const unsigned char *bytes;
    size_t length;
};

/* Makes the value of a text in the encoding of the server. If the text is no range, that is an error; with `is_tried` the
 * result is NULL then. */
struct varlena *new_range(const char *bytes, size_t length, bool is_tried);

/* The parts of a value. They lie in it. */
struct range range_of(const struct varlena *value);

/* An end of the interval at a place, from 0. Those of releases come first. */
struct end lower_end(const struct range *range, size_t place);
struct end upper_end(const struct range *range, size_t place);

/* The hull: the least lower end, and the greatest upper one. Both are empty if there is no interval. */
struct end hull_end(const struct range *range, bool is_upper);
bytea *bytea_of(struct end end);

/* Whether a version satisfies a range. */
bool has_version(const struct range *range, const struct version *version);

#define PG_GETARG_RANGE(n) ((struct varlena *)PG_DETOAST_DATUM_PACKED(PG_GETARG_DATUM(n)))

#endif
