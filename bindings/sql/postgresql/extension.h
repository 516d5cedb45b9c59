/* SPDX-License-Identifier: Apache-2.0 */
/*
 * What the files of this folder share.
 *
 * A call of the server may leave a function by a jump. So no call of the server stands between the making of a value of
 * the library and its freeing, but where a comment says how the value is freed.
 */
#ifndef DENIMSCREE_POSTGRESQL_H
#define DENIMSCREE_POSTGRESQL_H

#include "postgres.h"

#include "fmgr.h"

#include "../src/texts.h"

/* ---- extension.c ---- */

/* The setting semver.max_range_bytes. */
extern int max_range_bytes;

/* A text in UTF-8. Of a database in another encoding it is a converted copy; a text that cannot be converted is an error. */
struct text utf8_of(const char *bytes, size_t length);
struct text text_of(const text *value);

/* Raises the error of a failure; of a range that has more bytes than the setting says. */
void pg_attribute_noreturn() fail(const struct failure *failure);
void check_length(struct text range);
void pg_attribute_noreturn() fail_for_memory(void);

/* A bytea of a key, in memory of the server. */
bytea *bytes_of(const struct key *key);

/* The order of two byte strings: below, at or above 0. */
int order_of_bytes(const void *one, size_t length, const void *other, size_t other_length);

#endif
