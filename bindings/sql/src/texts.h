/* SPDX-License-Identifier: Apache-2.0 */
/*
 * What both databases share: texts are read, and their faults become messages. Nothing here calls a database, so no
 * error of a database can leak memory that is allocated here.
 *
 * A version is read by the grammar of SemVer 2.0.0, as a registry has it, and a range as npm's `semver` reads it without
 * options.
 */
#ifndef DENIMSCREE_TEXTS_H
#define DENIMSCREE_TEXTS_H

#include <node_semver.h>

#include <stdbool.h>
#include <stddef.h>

/* A text of a database: no zero at its end, and never a null pointer. */
struct text {
    const char *bytes;
    size_t length;
};

/* How long the text of a range may be, unless a setting or an argument says more. A long text takes far more memory than its
 * own, of which a database knows nothing, and no interrupt ends its reading. */
#define MAX_RANGE_BYTES 65536

/* What went wrong: a status of the library, and its fault if a text was refused. A text of a range that is too long has the
 * fault NODE_SEMVER_MAX_LENGTH at the first byte that is too many. */
struct failure {
    node_semver_status status;
    node_semver_fault fault;
    bool is_range;    /* the text is one of a range, and else of a version */
    struct text text; /* that was read: it lies where the caller has it */
};

/* A key, in `room` if it fits, else in memory of its own. */
struct key {
    unsigned char *bytes;
    size_t length;
    unsigned char room[512];
};

/* Read a text into an empty handle: true, or false with the failure. That of a range may have so many bytes. */
bool read_version(struct text text, node_semver_version *version, struct failure *failure);
bool read_range(struct text text, size_t most, node_semver_range *range, struct failure *failure);
bool is_too_long(const struct failure *failure);

/* Makes the key of the version of a text: true, or false with the failure, and then there is nothing to free. */
bool key_of_text(struct text text, struct key *key, struct failure *failure);
bool key_and_kind_of_text(struct text text, struct key *key, bool *is_prerelease, struct failure *failure);
void free_key(struct key *key);

/* Write whether the version of a text is a prerelease; whether it satisfies a range. */
bool is_text_of_prerelease(struct text text, bool *answer, struct failure *failure);
bool satisfies_text(const node_semver_range *range, struct text text, bool *answer, struct failure *failure);

/* Writes whether a text is a version; false if memory ran out. */
bool is_text_of_version(struct text text, bool *answer, struct failure *failure);

/* The numbers of a version and its prerelease, which lies in the text of the version and is empty for a release. */
struct parts {
    uint64_t numbers[3];
    struct text prerelease;
};
bool parts_of_text(struct text text, struct parts *parts, struct failure *failure);
/* The same of a text that is known to be a version: nothing is read by the library. */
struct parts parts_of_version(struct text text);

/* Writes the version that npm's `coerce` finds in a text, with its length, which is 0 if there is none. */
enum { MAX_COERCED = 64 };
bool coerced_text(struct text text, char room[MAX_COERCED], size_t *length, struct failure *failure);

/* Makes the intervals of the range of a text of at most so many bytes. */
bool intervals_of_text(struct text text, size_t most, node_semver_intervals *intervals, struct failure *failure);

/* The bytes at an end of an interval; false if memory ran out, and then there is nothing to free. */
bool lower_key(const node_semver_intervals *intervals, size_t place, struct key *key);
bool upper_key(const node_semver_intervals *intervals, size_t place, struct key *key);

/* The message of a failure, with the start of the text: `no version: Context at byte 3, a number or a dot is missing: "1.2"`. All
 * but ASCII is written as \xHH, and so are control characters. A room of MESSAGE bytes holds each message; in a smaller one it
 * is cut where the room ends. */
enum { MESSAGE = 512 };
void tell_failure(const struct failure *failure, char *room, size_t size);

#endif
