/* SPDX-License-Identifier: Apache-2.0 */
/* The entry of the extension for SQLite: `select load_extension('denimscree')` calls it. */
#include "extension.h"

SQLITE_EXTENSION_INIT1

int sqlite3_denimscree_init(sqlite3 *database, char **message, const sqlite3_api_routines *api) {
    SQLITE_EXTENSION_INIT2(api);
    (void)message;
    int status = add_functions(database);
    if (status == SQLITE_OK) {
        status = add_parts(database);
    }
    if (status == SQLITE_OK) {
        status = add_intervals(database);
    }
    return status == SQLITE_OK ? add_collation(database) : status;
}
