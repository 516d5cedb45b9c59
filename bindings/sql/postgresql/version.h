/* SPDX-License-Identifier: Apache-2.0 */
/*
 * A value of the type npm_version: two bytes, the key of the version, and its text as it was written. The two bytes are a number,
 * the high byte first: twice the length of the key, and one more if the version is a prerelease. So two values are compared by
 * the bytes of their keys, and nothing is read or allocated.
 *
 * A value without a text is no version but an end of an interval of keys. The planner compares versions with it. It is shown as
 * its bytes, which no input reads.
 */
#ifndef DENIMSCREE_VERSION_H
#define DENIMSCREE_VERSION_H

#include "extension.h"

struct version {
    const unsigned char *key;
    size_t key_length;
    const char *text;
    size_t text_length;
    bool is_prerelease;
};

/* The parts of a value. They lie in it. */
static inline struct version version_of(const struct varlena *value)
{
    const unsigned char *bytes = (const unsigned char *)VARDATA_ANY(value);
    size_t head = (size_t)bytes[0] << 8 | bytes[1], key_length = head >> 1;
    return (struct version){bytes + 2, key_length, (const char *)bytes + 2 + key_length,
                            VARSIZE_ANY_EXHDR(value) - 2 - key_length, (head & 1) != 0};
}

/* The value of the text of a version, which is an error if it is none. */
struct varlena *value_of(struct text text);

/* The value of an end of an interval. More than the first LONGEST_END bytes do not count: no key is so long. */
enum { LONGEST_END = 1024 };
struct varlena *value_of_end(const void *bytes, size_t length);

static inline bool is_end(const struct version *version)
{
    return version->text_length == 0;
}

static inline int order_of_versions(const struct version *one, const struct version *other)
{
    return order_of_bytes(one->key, one->key_length, other->key, other->key_length);
}

#define PG_GETARG_VERSION(n) ((struct varlena *)PG_DETOAST_DATUM_PACKED(PG_GETARG_DATUM(n)))

#endif
