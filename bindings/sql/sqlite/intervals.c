/* SPDX-License-Identifier: Apache-2.0 */
/* semver_intervals(range): a table with a row for each interval of keys. A second argument is how many bytes the range may
 * have. */
#include "extension.h"

#include <string.h>

SQLITE_EXTENSION_INIT3

/* The columns, in the order of the declaration. The last two are the arguments. */
enum { LOWER, UPPER, PRERELEASES, RANGE, MAX_BYTES };

/* How xBestIndex tells xFilter which arguments are there. The range is the first of the values. */
enum { WITHOUT_RANGE, WITH_RANGE, WITH_BOTH, WITH_NULL };

struct cursor {
    sqlite3_vtab_cursor base;
    node_semver_intervals intervals;
    size_t place, count;
    sqlite3_value *range, *max_bytes; /* copies of the arguments, or NULL */
};

static int connect_table(sqlite3 *database, void *data, int count, const char *const *words, sqlite3_vtab **table,
                         char **message) {
    /* No column has a type: a comparison with a column that has one would keep SQLite from an index over calls. */
    int status = sqlite3_declare_vtab(database, "create table t (lower, upper, prereleases, range hidden, max_bytes hidden)");
    (void)data;
    (void)count;
    (void)words;
    (void)message;
    if (status != SQLITE_OK) {
        return status;
    }
    *table = sqlite3_malloc64(sizeof **table);
    if (*table == NULL) {
        return SQLITE_NOMEM;
    }
    memset(*table, 0, sizeof **table);
    return sqlite3_vtab_config(database, SQLITE_VTAB_INNOCUOUS);
}

static int disconnect_table(sqlite3_vtab *table) {
    sqlite3_free(table);
    return SQLITE_OK;
}

/* What the constraints say of an argument: the place of one that gives its value, or -1. */
struct given {
    int place;
    bool is_later; /* a constraint gives it once another table is read */
    bool is_null;  /* it is NULL */
};

static struct given find_argument(const sqlite3_index_info *info, int column) {
    struct given given = {-1, false, false};
    for (int i = 0; i < info->nConstraint; i++) {
        int op = info->aConstraint[i].op;
        if (info->aConstraint[i].iColumn != column) {
            continue;
        }
        if (op == SQLITE_INDEX_CONSTRAINT_ISNULL) {
            given.is_null = true;
        } else if (op != SQLITE_INDEX_CONSTRAINT_EQ && op != SQLITE_INDEX_CONSTRAINT_IS) {
            continue;
        } else if (!info->aConstraint[i].usable) {
            given.is_later = true;
        } else if (given.place < 0) {
            given.place = i;
        }
    }
    return given;
}

static void use(sqlite3_index_info *info, int place, int argument) {
    info->aConstraintUsage[place].argvIndex = argument;
    info->aConstraintUsage[place].omit = 1;
}

/* The range must be given, and by the left side of a join: a plan that has not read it yet is refused. One without a range
 * costs so much that any other is taken, and fails as it begins. Of two constraints on the range one gives it, and SQLite
 * tests the other with the column's value. */
static int choose_index(sqlite3_vtab *table, sqlite3_index_info *info) {
    struct given range = find_argument(info, RANGE), most = find_argument(info, MAX_BYTES);
    (void)table;
    info->idxNum = WITHOUT_RANGE;
    info->estimatedCost = 1e50;
    info->estimatedRows = 4;
    if ((range.place < 0 && range.is_later) || (most.place < 0 && most.is_later)) {
        return SQLITE_CONSTRAINT;
    }
    if (range.is_null) {
        info->idxNum = WITH_NULL;
        info->estimatedCost = 1;
    } else if (range.place >= 0) {
        info->idxNum = most.place >= 0 ? WITH_BOTH : WITH_RANGE;
        info->estimatedCost = 1;
        use(info, range.place, 1);
        if (most.place >= 0) {
            use(info, most.place, 2);
        }
    }
    return SQLITE_OK;
}

static int open_cursor(sqlite3_vtab *table, sqlite3_vtab_cursor **opened) {
    struct cursor *cursor = sqlite3_malloc64(sizeof *cursor);
    (void)table;
    if (cursor == NULL) {
        return SQLITE_NOMEM;
    }
    memset(cursor, 0, sizeof *cursor);
    *opened = &cursor->base;
    return SQLITE_OK;
}

static void let_intervals_go(struct cursor *cursor) {
    node_semver_intervals_free(cursor->intervals);
    cursor->intervals = (node_semver_intervals)NODE_SEMVER_EMPTY;
    cursor->place = 0;
    cursor->count = 0;
    sqlite3_value_free(cursor->range);
    sqlite3_value_free(cursor->max_bytes);
    cursor->range = NULL;
    cursor->max_bytes = NULL;
}

static int close_cursor(sqlite3_vtab_cursor *opened) {
    struct cursor *cursor = (struct cursor *)opened;
    let_intervals_go(cursor);
    sqlite3_free(cursor);
    return SQLITE_OK;
}

static int tell(struct cursor *cursor, const char *reason) {
    sqlite3_free(cursor->base.pVtab->zErrMsg);
    cursor->base.pVtab->zErrMsg = sqlite3_mprintf("semver_intervals: %s", reason);
    return cursor->base.pVtab->zErrMsg == NULL ? SQLITE_NOMEM : SQLITE_ERROR;
}

static int refuse(struct cursor *cursor, const struct failure *failure) {
    char reason[MESSAGE];
    if (failure->status == NODE_SEMVER_OUT_OF_MEMORY) {
        return SQLITE_NOMEM;
    }
    tell_failure(failure, reason, sizeof reason);
    return tell(cursor, reason);
}

/* Copies an argument, which is a column of each row. */
static int keep(sqlite3_value **kept, sqlite3_value *value) {
    *kept = sqlite3_value_dup(value);
    return *kept == NULL ? SQLITE_NOMEM : SQLITE_OK;
}

static int fill(struct cursor *cursor, sqlite3_value *range, size_t most) {
    struct text text;
    struct failure failure;
    if (!get_text(range, &text)) {
        return SQLITE_NOMEM;
    }
    if (!intervals_of_text(text, most, &cursor->intervals, &failure)) {
        return refuse(cursor, &failure);
    }
    cursor->count = node_semver_intervals_count(&cursor->intervals);
    return SQLITE_OK;
}

/* NULL has no interval. */
static int begin_rows(sqlite3_vtab_cursor *opened, int number, const char *name, int count, sqlite3_value **values) {
    struct cursor *cursor = (struct cursor *)opened;
    int status = SQLITE_OK;
    (void)name;
    let_intervals_go(cursor);
    if (number == WITHOUT_RANGE) {
        return tell(cursor, "no range is given");
    }
    for (int i = 0; i < count; i++) {
        if (sqlite3_value_type(values[i]) == SQLITE_NULL) {
            return SQLITE_OK;
        }
    }
    if (number == WITH_NULL) {
        return SQLITE_OK;
    }
    status = keep(&cursor->range, values[0]);
    if (status == SQLITE_OK && number == WITH_BOTH) {
        status = keep(&cursor->max_bytes, values[1]);
    }
    return status != SQLITE_OK ? status : fill(cursor, values[0], number == WITH_BOTH ? get_most(values[1]) : MAX_RANGE_BYTES);
}

static int next_row(sqlite3_vtab_cursor *opened) {
    ((struct cursor *)opened)->place++;
    return SQLITE_OK;
}

static int is_at_end(sqlite3_vtab_cursor *opened) {
    const struct cursor *cursor = (const struct cursor *)opened;
    return cursor->place >= cursor->count;
}

static int get_column(sqlite3_vtab_cursor *opened, sqlite3_context *context, int column) {
    const struct cursor *cursor = (const struct cursor *)opened;
    struct key key;
    if (column == PRERELEASES) {
        sqlite3_result_int(context, node_semver_interval_is_of_prereleases(&cursor->intervals, cursor->place));
    } else if (column == LOWER || column == UPPER) {
        bool is_made = column == LOWER ? lower_key(&cursor->intervals, cursor->place, &key)
                                       : upper_key(&cursor->intervals, cursor->place, &key);
        if (!is_made) {
            return SQLITE_NOMEM;
        }
        sqlite3_result_blob64(context, key.bytes, key.length, SQLITE_TRANSIENT);
        free_key(&key);
    } else if (column == RANGE && cursor->range != NULL) {
        sqlite3_result_value(context, cursor->range);
    } else if (column == MAX_BYTES && cursor->max_bytes != NULL) {
        sqlite3_result_value(context, cursor->max_bytes);
    }
    return SQLITE_OK;
}

static int get_row_number(sqlite3_vtab_cursor *opened, sqlite3_int64 *number) {
    *number = (sqlite3_int64)((const struct cursor *)opened)->place;
    return SQLITE_OK;
}

/* Without xCreate: the table is there in each database, and `create virtual table` makes none. */
static const sqlite3_module module = {
    .iVersion = 0,
    .xConnect = connect_table,
    .xBestIndex = choose_index,
    .xDisconnect = disconnect_table,
    .xOpen = open_cursor,
    .xClose = close_cursor,
    .xFilter = begin_rows,
    .xNext = next_row,
    .xEof = is_at_end,
    .xColumn = get_column,
    .xRowid = get_row_number,
};

int add_intervals(sqlite3 *database) {
    return sqlite3_create_module_v2(database, "semver_intervals", &module, NULL, NULL);
}
