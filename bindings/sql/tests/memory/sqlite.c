/* SPDX-License-Identifier: Apache-2.0 */
/*
 * Runs statements in SQLite with the extension, and refuses each request for memory of each statement in turn: it alone, and
 * it with all later ones. SQLite must say that memory is out, or give the right result: of an error it may have no memory for
 * the message. At its end a statement must have freed its memory. Then a range of a million alternatives is tried.
 *
 *     sqlite EXTENSION
 *
 * The last line is 'N passed, M failed'.
 */
#include "requests.h"

#include <sqlite3.h>
#include <stdio.h>
#include <stdlib.h>
#include <string.h>

/* A result is a text, or the beginning of an error's message. */
struct statement {
    const char *sql, *result;
};

static const struct statement statements[] = {
    {"select hex(semver_key('1.2.3'))", "010203FF"},
    {"select hex(semver_key('1.2.3-rc.4+build'))", "01020302726300010400"},
    {"select hex(semver_key('1.2'))", "semver_key: no version: Context at byte 3"},
    {"select semver_is_prerelease('1.2.3-rc.4+build')", "1"},
    {"select semver_is_prerelease('1.2.3+build')", "0"},
    {"select semver_satisfies('^1.2.3-rc.4 || >=3 || 2.5', '1.2.3-rc.5+build')", "1"},
    {"select semver_satisfies('^1.2.3-rc.4 || >=3 || 2.5', '2.4.0')", "0"},
    {"select sum(semver_satisfies('^1 || ^3 || 5.x', v.column1)) from (values ('1.2.3'), ('2.0.0'), ('3.4.5-a.b'), ('5.1.0')) v",
     "2"},
    {"select sum(semver_satisfies(r.column1, '1.2.3')) from (values ('^1 || ^3'), ('^2 || ^4'), ('1 - 2 || 7')) r", "2"},
    {"select semver_satisfies('^1 || 2 foo', '1.2.3')", "semver_satisfies: no range: NoValidRanges at byte 8"},
    {"select semver_satisfies('^1 || 2', '1.2.3.4')", "semver_satisfies: no version: Other at byte 5"},
    {"select group_concat(hex(lower) || '-' || hex(upper), ' ') from semver_intervals('1.2.3-rc.4 || ^3')",
     "01020302726300010400-0102030272630001040000 030000FF-040000010000 01020302726300010400-0102030272630001040000"},
    {"select count(*) from semver_intervals('^1 foo')", "semver_intervals: no range: NoValidRanges at byte 3"},
    {"select range || max_bytes from semver_intervals('^1.2.3-rc.4', 99) where range = '^1.2.3-rc.4'", "^1.2.3-rc.499"},
    {"select count(*) from semver_intervals", "semver_intervals: no range is given"},
    {"select semver_satisfies('^1', '1.2.3', 1)", "semver_satisfies: no range: MaxLengthError at byte 1"},
    {"select semver_satisfies('^1', '1.2.3', 2)", "1"},
    {"select semver_is_valid('1.2.3-rc.4') || semver_is_valid('1.2')", "10"},
    {"select semver_major(v) || ' ' || semver_minor(v) || ' ' || semver_patch(v) || ' ' || semver_prerelease(v)"
     " from (select '1.2.3-rc.4+build' as v)", "1 2 3 rc.4"},
    {"select semver_major('1.2')", "semver_major: no version: Context at byte 3"},
    {"select semver_coerce('node v1.2, or so') || ifnull(semver_coerce('none'), '!')", "1.2.0!"},
};

static int passed, failed;

static void check(bool is_right, const char *sql, const char *what, size_t number) {
    if (is_right) {
        passed++;
        return;
    }
    failed++;
    printf("WRONG: request %zu: %s: %s\n", number, what, sql);
}

static sqlite3 *open_with(const char *extension) {
    sqlite3 *database = NULL;
    char *message = NULL;
    if (sqlite3_open(":memory:", &database) != SQLITE_OK || sqlite3_enable_load_extension(database, 1) != SQLITE_OK
        || sqlite3_load_extension(database, extension, NULL, &message) != SQLITE_OK) {
        printf("the extension is not loaded: %s\n0 passed, 1 failed\n", message == NULL ? "" : message);
        exit(1);
    }
    return database;
}

/* Writes the result of a statement, or the error's message, and returns the status. */
static int run(sqlite3 *database, const char *sql, char *result, size_t size) {
    sqlite3_stmt *statement = NULL;
    const char *text = NULL;
    int status = sqlite3_prepare_v2(database, sql, -1, &statement, NULL);
    result[0] = 0;
    if (status == SQLITE_OK) {
        status = sqlite3_step(statement);
    }
    if (status == SQLITE_ROW) {
        text = (const char *)sqlite3_column_text(statement, 0);
        /* A text that could not be made is NULL, and then the connection says that memory is out. */
        status = text == NULL ? sqlite3_errcode(database) : SQLITE_ROW;
    } else if (status != SQLITE_NOMEM) {
        text = sqlite3_errmsg(database);
    }
    snprintf(result, size, "%s", text == NULL ? "" : text);
    sqlite3_finalize(statement);
    return status;
}

static bool is_result(const char *result, const struct statement *statement) {
    return strncmp(result, statement->result, strlen(statement->result)) == 0;
}

/* An error whose message SQLite had no memory for. */
static bool is_error_alone(int status, const struct statement *statement) {
    return status == SQLITE_ERROR && strncmp(statement->result, "semver_", 7) == 0;
}

/* Runs a statement with a request refused. Returns false if no request was refused, since there are not so many. */
static bool run_refused(const char *extension, const struct statement *statement, size_t number, bool and_later) {
    char result[400];
    size_t blocks = blocks_in_use(), bytes = bytes_in_use();
    sqlite3 *database = open_with(extension);
    refuse_request(number, and_later);
    int status = run(database, statement->sql, result, sizeof result);
    bool was_refused = refused() > 0;
    refuse_request(0, false);
    sqlite3_close(database);
    bool is_excused = was_refused && (status == SQLITE_NOMEM || is_error_alone(status, statement));
    check(is_excused || is_result(result, statement), statement->sql, result, number);
    check(blocks_in_use() == blocks && bytes_in_use() == bytes, statement->sql, "memory is not given back", number);
    return was_refused;
}

/* Returns how many requests a statement makes. */
static size_t refuse_each(const char *extension, const struct statement *statement, bool and_later) {
    size_t number = 1;
    while (run_refused(extension, statement, number, and_later)) {
        number++;
    }
    return number - 1;
}

/* A million alternatives `1`, and then `2`. */
static void run_long(const char *extension) {
    static const struct statement asked[] = {
        {"select semver_satisfies(replace(hex(zeroblob(1000000)), '00', '1||') || '2', '2.5.0', 9000000)", "1"},
        {"select semver_satisfies(replace(hex(zeroblob(1000000)), '00', '1||') || '2', '3.0.0', 9000000)", "0"},
    };
    for (size_t i = 0; i < sizeof asked / sizeof asked[0]; i++) {
        run_refused(extension, &asked[i], 0, false);
    }
}

int main(int count, char **words) {
    static char room[BUFSIZ];
    size_t number = sizeof statements / sizeof statements[0], tried = 0;
    if (count != 2) {
        return 2;
    }
    setvbuf(stdout, room, _IOFBF, sizeof room);
    sqlite3_initialize();
    /* What SQLite and the loader keep from their first uses on is there before anything is counted. */
    for (int round = 0; round < 2; round++) {
        char result[400];
        sqlite3 *database = open_with(words[1]);
        for (size_t i = 0; i < number; i++) {
            run(database, statements[i].sql, result, sizeof result);
            check(is_result(result, &statements[i]), statements[i].sql, result, 0);
        }
        sqlite3_close(database);
    }
    for (size_t i = 0; i < number; i++) {
        tried += refuse_each(words[1], &statements[i], false) + refuse_each(words[1], &statements[i], true);
    }
    run_long(words[1]);
    check(tried > 20 * number, "", "too few requests were refused", tried);
    printf("%zu requests were refused\n%d passed, %d failed\n", tried, passed, failed);
    return failed != 0;
}
