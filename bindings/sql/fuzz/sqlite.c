/* SPDX-License-Identifier: Apache-2.0 */
/*
 * Runs statements in SQLite with arbitrary values, and makes the calls of src/texts.h with arbitrary texts, with a request for
 * memory of the extension refused, and looks for an access to memory that is not the extension's own, for a block that is not
 * freed, and for a statement that neither gives rows nor says what was wrong.
 *
 * The first line of an input has a character that chooses a statement, and one that says which request is refused. A line for
 * each parameter follows: `t` a text, `b` a blob, `i` an integer, `d` a number, and otherwise NULL.
 */
#include "../src/texts.h"
#include "../../c/fuzz/input.h"
#include "../../c/tests/memory.h"

#include <sqlite3.h>

int sqlite3_denimscree_init(sqlite3 *database, char **message, const void *api);

static const char *const STATEMENTS[] = {
    "select semver_key(?1)",
    "select semver_is_prerelease(?1)",
    "select semver_satisfies(?1, ?2)",
    "select semver_satisfies(?1, ?2, ?3)",
    "select lower, upper, prereleases, range from semver_intervals(?1)",
    "select lower, upper, prereleases, range, max_bytes from semver_intervals(?1, ?2) where lower < upper",
    "select sum(semver_satisfies(?1, column1)) from (values (?2), (?3), ('1.2.3'), ('2.0.0-rc.1'))",
    "select sum(semver_satisfies(column1, ?1)) from (values (?2), (?3), ('^1.2.3-rc.1 || >=3'))",
    "select column1 from (values (?1), (?2), (?3), ('1.2.3'), ('1.2.3-rc.1')) order by column1 collate semver",
    "select ?1 < ?2 collate semver, ?1 = ?3 collate semver",
    "select count(*) from (values (?1), (?2)) v, semver_intervals(v.column1, ?3) i where i.range = v.column1",
    "select a.range from semver_intervals(?1) a join semver_intervals(?2) b on a.lower < b.upper and b.lower < a.upper",
    "select semver_is_valid(?1), semver_coerce(?2), semver_is_valid(semver_coerce(?2))",
    "select semver_major(?1), semver_minor(?1), semver_patch(?1), semver_prerelease(?1)",
};
enum { COUNT = sizeof STATEMENTS / sizeof *STATEMENTS, PARAMETERS = 3 };

static sqlite3_stmt *statements[COUNT];

static void open_database(void) {
    sqlite3 *database = NULL;
    expect(sqlite3_open(":memory:", &database) == SQLITE_OK && sqlite3_denimscree_init(database, NULL, NULL) == SQLITE_OK,
           "the extension is there");
    for (unsigned i = 0; i < COUNT; i++) {
        expect(sqlite3_prepare_v2(database, STATEMENTS[i], -1, &statements[i], NULL) == SQLITE_OK, "a statement is prepared");
    }
}

/* A value stands at the end of a room, with no byte behind it. */
static void bind(sqlite3_stmt *statement, unsigned place, struct line line) {
    char kind = (char)next_character(&line), digits[24] = {0};
    struct placed text = text_of(line, place, true);
    memcpy(digits, text.bytes, text.length < 23 ? text.length : 23);
    if (kind == 't') {
        sqlite3_bind_text(statement, (int)place, text.bytes, (int)text.length, SQLITE_STATIC);
    } else if (kind == 'b') {
        sqlite3_bind_blob(statement, (int)place, text.bytes, (int)text.length, SQLITE_STATIC);
    } else if (kind == 'i') {
        sqlite3_bind_int64(statement, (int)place, atoll(digits));
    } else if (kind == 'd') {
        sqlite3_bind_double(statement, (int)place, strtod(digits, NULL));
    } else {
        sqlite3_bind_null(statement, (int)place);
    }
}

/* Each row is read; the end is that of the rows, or an error with a message. */
static int run(sqlite3_stmt *statement) {
    int status;
    while ((status = sqlite3_step(statement)) == SQLITE_ROW) {
        for (int i = 0; i < sqlite3_column_count(statement); i++) {
            const unsigned char *bytes = sqlite3_column_blob(statement, i);
            for (int at = 0; at < sqlite3_column_bytes(statement, i); at++) {
                see('y', bytes[at] / 32);
            }
        }
    }
    if (status == SQLITE_ERROR) {
        const char *message = sqlite3_errmsg(sqlite3_db_handle(statement));
        expect(strncmp(message, "semver_", 7) == 0, "an error says of which function it is");
        see('e', strlen(message) / 8);
    }
    return status;
}

/* ---- the calls of both databases ---- */

/* A message is written whole or cut, with a zero at its end, in a room of any length. */
static void check_message(const struct failure *failure) {
    char whole[MESSAGE];
    tell_failure(failure, whole, sizeof whole);
    for (size_t size = 1; size <= strlen(whole) + 1; size += 7) {
        char *room = open_room(ROOMS - 1, size);
        tell_failure(failure, room, size);
        expect(strnlen(room, size) == size - 1 && memcmp(room, whole, size - 1) == 0 && is_kept_from(room, size, size),
               "a message is the start of the whole one");
    }
}

static bool is_told(bool is_made, const struct failure *failure) {
    if (!is_made) {
        see('m', failure->status == NODE_SEMVER_REFUSED ? failure->fault.kind : 8 + failure->status);
        expect(failure->status != NODE_SEMVER_OK, "what is not made has a failure");
        expect(failure->status != NODE_SEMVER_OUT_OF_MEMORY || (refused > 0 && refused <= requests), "memory was refused");
        check_message(failure);
    }
    return is_made;
}

/* The keys of all ends ascend. */
static void check_intervals(struct text text) {
    node_semver_intervals intervals = NODE_SEMVER_EMPTY;
    struct failure failure = {0};
    if (!is_told(intervals_of_text(text, 4096, &intervals, &failure), &failure)) {
        return;
    }
    for (size_t place = 0; place < node_semver_intervals_count(&intervals); place++) {
        struct key lower, upper;
        if (lower_key(&intervals, place, &lower)) {
            if (upper_key(&intervals, place, &upper)) {
                size_t shorter = lower.length < upper.length ? lower.length : upper.length;
                int order = memcmp(lower.bytes, upper.bytes, shorter);
                expect(order < 0 || (order == 0 && lower.length < upper.length), "an interval ends above where it begins");
                free_key(&upper);
            }
            free_key(&lower);
        }
    }
    node_semver_intervals_free(intervals);
}

/* A version is made of its parts again, but for its build. */
static void check_parts(struct text text) {
    struct failure failure = {0};
    struct parts parts;
    char again[400];
    bool is_valid = false;
    if (is_text_of_version(text, &is_valid, &failure) && is_told(parts_of_text(text, &parts, &failure), &failure)) {
        int length = snprintf(again, sizeof again, "%llu.%llu.%llu%s%.*s", (unsigned long long)parts.numbers[0],
                              (unsigned long long)parts.numbers[1], (unsigned long long)parts.numbers[2],
                              parts.prerelease.length > 0 ? "-" : "", (int)parts.prerelease.length, parts.prerelease.bytes);
        expect(is_valid && memcmp(again, text.bytes, (size_t)length) == 0, "a version begins with its parts");
        expect((size_t)length == text.length || text.bytes[length] == '+', "a build follows the parts, or nothing");
    }
}

/* What is found in a text is a version. */
static void check_coerced(struct text text) {
    struct failure failure = {0};
    char room[MAX_COERCED];
    size_t length = 0;
    bool is_valid = false;
    if (is_told(coerced_text(text, room, &length, &failure), &failure) && length > 0
        && is_text_of_version((struct text){room, length}, &is_valid, &failure)) {
        expect(is_valid, "what is found is a version");
    }
}

static void check_texts(struct text range, struct text version) {
    node_semver_range read = NODE_SEMVER_EMPTY;
    struct failure failure = {0};
    struct key key;
    bool answer = false, is_prerelease = false, again = false;
    bool is_key = is_told(key_and_kind_of_text(version, &key, &is_prerelease, &failure), &failure);
    if (is_key) {
        free_key(&key);
    }
    if (is_told(is_text_of_prerelease(version, &again, &failure), &failure)) {
        expect(!is_key || is_prerelease == again, "both calls say whether it is a prerelease");
    }
    if (is_told(read_range(range, 4096, &read, &failure), &failure)) {
        is_told(satisfies_text(&read, version, &answer, &failure), &failure);
    }
    node_semver_range_free(read);
    check_intervals(range);
    check_parts(version);
    check_coerced(version);
}

static struct text as_text(struct line line, unsigned room) {
    next_character(&line);
    struct placed placed = text_of(line, room, true);
    return (struct text){placed.bytes, placed.length};
}

/* ---- an input ---- */

int LLVMFuzzerTestOneInput(const uint8_t *bytes, size_t length);
int LLVMFuzzerTestOneInput(const uint8_t *bytes, size_t length) {
    struct line input = {bytes, length}, first = {NULL, 0}, lines[PARAMETERS] = {{NULL, 0}, {NULL, 0}, {NULL, 0}};
    if (statements[0] == NULL) {
        open_database();
    }
    next_line(&input, &first);
    sqlite3_stmt *statement = statements[next_choice(&first, COUNT)];
    unsigned request = next_character(&first) % 64;
    for (unsigned i = 0; i < PARAMETERS; i++) {
        next_line(&input, &lines[i]);
        if (i < (unsigned)sqlite3_bind_parameter_count(statement)) {
            bind(statement, i + 1, lines[i]);
        }
    }
    long before = blocks;
    requests = 0;
    refused = request;
    int status = run(statement);
    expect(status != SQLITE_NOMEM || (refused > 0 && refused <= requests), "memory is out only if a request was refused");
    sqlite3_reset(statement);
    requests = 0;
    check_texts(as_text(lines[0], PARAMETERS + 1), as_text(lines[1], PARAMETERS + 2));
    refused = 0;
    sqlite3_clear_bindings(statement);
    expect(blocks == before, "each block is freed");
    return 0;
}
