/* SPDX-License-Identifier: Apache-2.0 */
/* semver_key, semver_is_prerelease and semver_satisfies. Each returns NULL if an argument is NULL. */
#include "extension.h"

SQLITE_EXTENSION_INIT3

bool get_text(sqlite3_value *value, struct text *text) {
    const void *bytes = sqlite3_value_text(value);
    int length = sqlite3_value_bytes(value);
    *text = (struct text){"", 0};
    if (length > 0 && bytes != NULL) {
        *text = (struct text){bytes, (size_t)length};
    }
    return length == 0 || bytes != NULL;
}

size_t get_most(sqlite3_value *value) {
    sqlite3_int64 most = sqlite3_value_int64(value);
    return most > 0 ? (size_t)most : 0;
}

bool is_null(sqlite3_value *value) {
    return sqlite3_value_type(value) == SQLITE_NULL;
}

void fail(sqlite3_context *context, const char *name, const struct failure *failure) {
    char reason[MESSAGE], message[MESSAGE + 32];
    if (failure->status == NODE_SEMVER_OUT_OF_MEMORY) {
        sqlite3_result_error_nomem(context);
        return;
    }
    tell_failure(failure, reason, sizeof reason);
    sqlite3_snprintf((int)sizeof message, message, "%s: %s", name, reason);
    sqlite3_result_error(context, message, -1);
}

static void semver_key(sqlite3_context *context, int count, sqlite3_value **arguments) {
    struct text text;
    struct key key;
    struct failure failure;
    (void)count;
    if (is_null(arguments[0])) {
        return;
    }
    if (!get_text(arguments[0], &text)) {
        sqlite3_result_error_nomem(context);
    } else if (key_of_text(text, &key, &failure)) {
        sqlite3_result_blob64(context, key.bytes, key.length, SQLITE_TRANSIENT);
        free_key(&key);
    } else {
        fail(context, "semver_key", &failure);
    }
}

static void semver_is_prerelease(sqlite3_context *context, int count, sqlite3_value **arguments) {
    struct text text;
    struct failure failure;
    bool answer = false;
    (void)count;
    if (is_null(arguments[0])) {
        return;
    }
    if (!get_text(arguments[0], &text)) {
        sqlite3_result_error_nomem(context);
    } else if (is_text_of_prerelease(text, &answer, &failure)) {
        sqlite3_result_int(context, answer);
    } else {
        fail(context, "semver_is_prerelease", &failure);
    }
}

/* ---- semver_satisfies ---- */

/* The range that SQLite keeps from row to row, and how long its text is. */
struct kept {
    node_semver_range range;
    size_t length;
};

static void free_kept(void *given) {
    struct kept *kept = given;
    node_semver_range_free(kept->range);
    sqlite3_free(kept);
}

/* Reads the range of a text into memory of its own; NULL with an error of the call. */
static struct kept *new_kept(sqlite3_context *context, sqlite3_value *value, size_t most) {
    struct text text;
    struct failure failure;
    struct kept *kept = sqlite3_malloc64(sizeof *kept);
    if (kept == NULL || !get_text(value, &text)) {
        sqlite3_free(kept);
        sqlite3_result_error_nomem(context);
        return NULL;
    }
    *kept = (struct kept){NODE_SEMVER_EMPTY, text.length};
    if (!read_range(text, most, &kept->range, &failure)) {
        sqlite3_free(kept);
        fail(context, "semver_satisfies", &failure);
        return NULL;
    }
    return kept;
}

static void answer_satisfies(sqlite3_context *context, const struct kept *kept, sqlite3_value *value) {
    struct text text;
    struct failure failure;
    bool answer = false;
    if (!get_text(value, &text)) {
        sqlite3_result_error_nomem(context);
    } else if (satisfies_text(&kept->range, text, &answer, &failure)) {
        sqlite3_result_int(context, answer);
    } else {
        fail(context, "semver_satisfies", &failure);
    }
}

/* The third argument, if there is one, is how many bytes the range may have. SQLite keeps the range of a constant text from
 * row to row. It may free a range at once, so it gets the range after the result is set. */
static void semver_satisfies(sqlite3_context *context, int count, sqlite3_value **arguments) {
    size_t most = count == 3 ? get_most(arguments[2]) : MAX_RANGE_BYTES;
    if (is_null(arguments[0]) || is_null(arguments[1]) || (count == 3 && is_null(arguments[2]))) {
        return;
    }
    struct kept *kept = sqlite3_get_auxdata(context, 0);
    if (kept != NULL && kept->length <= most) {
        answer_satisfies(context, kept, arguments[1]);
        return;
    }
    kept = new_kept(context, arguments[0], most);
    if (kept != NULL) {
        answer_satisfies(context, kept, arguments[1]);
        sqlite3_set_auxdata(context, 0, kept, free_kept);
    }
}

int add_functions(sqlite3 *database) {
    static const struct {
        const char *name;
        int arguments;
        void (*call)(sqlite3_context *, int, sqlite3_value **);
    } functions[] = {
        {"semver_key", 1, semver_key},
        {"semver_is_prerelease", 1, semver_is_prerelease},
        {"semver_satisfies", 2, semver_satisfies},
        {"semver_satisfies", 3, semver_satisfies},
    };
    int status = SQLITE_OK;
    for (size_t i = 0; i < sizeof functions / sizeof functions[0] && status == SQLITE_OK; i++) {
        status = sqlite3_create_function_v2(database, functions[i].name, functions[i].arguments, FUNCTION_FLAGS, NULL,
                                            functions[i].call, NULL, NULL, NULL);
    }
    return status;
}
