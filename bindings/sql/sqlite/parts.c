/* SPDX-License-Identifier: Apache-2.0 */
/* semver_is_valid, semver_major, semver_minor, semver_patch, semver_prerelease and semver_coerce. Each returns NULL for NULL. */
#include "extension.h"

SQLITE_EXTENSION_INIT3

/* Reads the only argument: false if there is no text to read, and then the result is set. */
static bool get_argument(sqlite3_context *context, sqlite3_value **arguments, struct text *text) {
    if (is_null(arguments[0])) {
        return false;
    }
    if (!get_text(arguments[0], text)) {
        sqlite3_result_error_nomem(context);
        return false;
    }
    return true;
}

static void semver_is_valid(sqlite3_context *context, int count, sqlite3_value **arguments) {
    struct text text;
    struct failure failure;
    bool answer = false;
    (void)count;
    if (!get_argument(context, arguments, &text)) {
        return;
    }
    if (is_text_of_version(text, &answer, &failure)) {
        sqlite3_result_int(context, answer);
    } else {
        sqlite3_result_error_nomem(context);
    }
}

/* The name of a function and the number that it returns. */
struct number {
    const char *name;
    int place;
};

static const struct number numbers[] = {{"semver_major", 0}, {"semver_minor", 1}, {"semver_patch", 2}};

static void semver_number(sqlite3_context *context, int count, sqlite3_value **arguments) {
    const struct number *number = sqlite3_user_data(context);
    struct text text;
    struct failure failure;
    struct parts parts;
    (void)count;
    if (!get_argument(context, arguments, &text)) {
        return;
    }
    if (parts_of_text(text, &parts, &failure)) {
        sqlite3_result_int64(context, (sqlite3_int64)parts.numbers[number->place]);
    } else {
        fail(context, number->name, &failure);
    }
}

/* NULL for a release. */
static void semver_prerelease(sqlite3_context *context, int count, sqlite3_value **arguments) {
    struct text text;
    struct failure failure;
    struct parts parts;
    (void)count;
    if (!get_argument(context, arguments, &text)) {
        return;
    }
    if (!parts_of_text(text, &parts, &failure)) {
        fail(context, "semver_prerelease", &failure);
    } else if (parts.prerelease.length > 0) {
        sqlite3_result_text(context, parts.prerelease.bytes, (int)parts.prerelease.length, SQLITE_TRANSIENT);
    }
}

/* NULL where no version is found. */
static void semver_coerce(sqlite3_context *context, int count, sqlite3_value **arguments) {
    struct text text;
    struct failure failure;
    char room[MAX_COERCED];
    size_t length;
    (void)count;
    if (!get_argument(context, arguments, &text)) {
        return;
    }
    if (!coerced_text(text, room, &length, &failure)) {
        fail(context, "semver_coerce", &failure);
    } else if (length > 0) {
        sqlite3_result_text(context, room, (int)length, SQLITE_TRANSIENT);
    }
}

int add_parts(sqlite3 *database) {
    static const struct {
        const char *name;
        const struct number *number;
        void (*call)(sqlite3_context *, int, sqlite3_value **);
    } functions[] = {
        {"semver_is_valid", NULL, semver_is_valid},
        {"semver_major", &numbers[0], semver_number},
        {"semver_minor", &numbers[1], semver_number},
        {"semver_patch", &numbers[2], semver_number},
        {"semver_prerelease", NULL, semver_prerelease},
        {"semver_coerce", NULL, semver_coerce},
    };
    int status = SQLITE_OK;
    for (size_t i = 0; i < sizeof functions / sizeof functions[0] && status == SQLITE_OK; i++) {
        status = sqlite3_create_function_v2(database, functions[i].name, 1, FUNCTION_FLAGS, (void *)functions[i].number,
                                            functions[i].call, NULL, NULL, NULL);
    }
    return status;
}
