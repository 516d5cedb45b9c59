/* SPDX-License-Identifier: Apache-2.0 */
/* What the files of this folder share. */
#ifndef DENIMSCREE_EXTENSION_H
#define DENIMSCREE_EXTENSION_H

#include "../src/texts.h"

#include <sqlite3ext.h>

/* Reads a value of SQLite as a text, as SQLite's own functions do: a number by its digits, a blob by its bytes. Returns
 * false if memory ran out. The text is valid until the value is read in another way. */
bool get_text(sqlite3_value *value, struct text *text);

/* How many bytes a value says that a range may have: none if it is no number. */
size_t get_most(sqlite3_value *value);

/* ---- functions.c ---- */

int add_functions(sqlite3 *database);

/* The flags of each function of the extension. */
#define FUNCTION_FLAGS (SQLITE_UTF8 | SQLITE_DETERMINISTIC | SQLITE_INNOCUOUS)

bool is_null(sqlite3_value *value);

/* Raises the error of a failure of a call: `semver_key: no version: ..` */
void fail(sqlite3_context *context, const char *name, const struct failure *failure);

/* ---- parts.c ---- */

int add_parts(sqlite3 *database);

/* ---- intervals.c ---- */

int add_intervals(sqlite3 *database);

/* ---- collation.c ---- */

int add_collation(sqlite3 *database);

#endif
