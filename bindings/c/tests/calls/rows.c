/* SPDX-License-Identifier: Apache-2.0 */
/*
 * Tests of npm_calls.h: calls, and what they answer.
 *
 *     rows           makes each call
 *     rows refuse    also makes each call with each request for memory refused in turn
 *
 * To be linked with -Wl,--wrap=malloc -Wl,--wrap=realloc -Wl,--wrap=free. Where the library is the static one, its requests
 * are counted too: each call gives back each block that it got. Ends with status 0 if each answer is right.
 */
#include "../memory.h"

#include <npm_calls.h>
#include <stdbool.h>
#include <stdio.h>
#include <string.h>

struct text {
    const char *bytes;
    size_t length;
};

struct row {
    struct text name, text;
    npm_status status;
    /* The answer, or a part of it. */
    const char *answer;
};

#define TEXT(text) { text, sizeof text - 1 }
#define ROW(name, text, status, answer) {TEXT(name), TEXT(text), status, answer},
#include "rows.h"

enum { COUNT = sizeof ROWS / sizeof *ROWS };

#define ROOM 4096

/* Makes the call, and writes the answer. Nothing is written to the room past the answer, or without one. */
static npm_status told(const struct row *row, char *answer) {
    size_t i, used, length = 77;
    memset(answer, '#', ROOM);
    npm_status status = npm_call(row->name.bytes, row->name.length, row->text.bytes, row->text.length, answer, ROOM - 1, &length);
    used = status == NPM_OUT_OF_MEMORY ? 0 : length;
    for (i = used; i < ROOM; i++) {
        if (answer[i] != '#') {
            strcpy(answer, "the room was written to");
            return status;
        }
    }
    answer[used] = '\0';
    if (status == NPM_OUT_OF_MEMORY && length != 77) {
        strcpy(answer, "the length was written to");
    }
    return status;
}

static int wrong(const struct row *row, npm_status status, const char *answer) {
    if (status == row->status && strstr(answer, row->answer) != NULL) {
        return 0;
    }
    printf("%.*s %.*s: status %u and %s, not %u and %s\n", (int)row->name.length, row->name.bytes, (int)row->text.length,
           row->text.bytes, (unsigned)status, answer, (unsigned)row->status, row->answer);
    return 1;
}

static int run_rows(void) {
    char answer[ROOM];
    int failed = 0, i;
    for (i = 0; i < COUNT; i++) {
        long before = blocks;
        npm_status status = told(&ROWS[i], answer);
        failed += wrong(&ROWS[i], status, answer) + (blocks != before);
    }
    return failed;
}

/* Each request refused in turn: the status says so, or the answer is the same; and no block is left. */
static int run_refused(unsigned long *made) {
    char answer[ROOM];
    int failed = 0, i;
    for (i = 0; i < COUNT; i++) {
        unsigned long place, count;
        requests = refused = 0;
        told(&ROWS[i], answer);
        count = requests;
        for (place = 1; place <= count; place++) {
            long before = blocks;
            requests = 0;
            refused = place;
            npm_status status = told(&ROWS[i], answer);
            refused = 0;
            failed += status == NPM_OUT_OF_MEMORY ? answer[0] != '\0' : wrong(&ROWS[i], status, answer);
            failed += blocks != before;
        }
        *made += count;
    }
    return failed;
}

static int expect(bool is_right, const char *what) {
    if (!is_right) {
        printf("%s\n", what);
    }
    return !is_right;
}

static npm_status pick_one(char *room, size_t size, size_t *length) {
    static const char text[] = "{\"packument\":" ONE "}";
    return npm_call("pick", 4, text, sizeof text - 1, room, size, length);
}

/* Null pointers, and rooms of each length. */
static int run_pointers(void) {
    static const char one[] = PICKED("1.0.0", "false", "false", "false");
    enum { LENGTH = sizeof one - 1, MOST = LENGTH + 4 };
    char room[MOST];
    size_t size, length = 0;
    int failed = 0;
    failed += expect(npm_call(NULL, 0, NULL, 0, NULL, 0, NULL) == NPM_REFUSED, "all are null");
    failed += expect(npm_call(NULL, 9, NULL, 9, NULL, 9, NULL) == NPM_REFUSED, "null with lengths");
    failed += expect(npm_call("pick", 4, NULL, 9, room, MOST, NULL) == NPM_REFUSED, "no text");
    failed += expect(pick_one(NULL, 0, &length) == NPM_OK && length == LENGTH, "no room");
    failed += expect(pick_one(room, MOST, NULL) == NPM_OK, "no length");
    failed += expect(memcmp(room, one, LENGTH) == 0, "the answer without a length");
    for (size = 0; size < MOST; size++) {
        memset(room, '#', MOST);
        failed += expect(pick_one(room, size, &length) == NPM_OK && length == LENGTH, "the length");
        failed += expect(size < LENGTH ? room[0] == '#' : memcmp(room, one, LENGTH) == 0, "a room");
        failed += expect(memcmp(room + LENGTH, "####", MOST - LENGTH) == 0, "the rest of a room");
    }
    return failed;
}

/* A thousand packages, of which each asks for the next one. */
static int run_many(void) {
    enum { PACKAGES = 1000, SIZE = 128 * PACKAGES };
    static char text[SIZE], room[SIZE];
    size_t length = 0, at = 0;
    int i;
    at += (size_t)sprintf(text, "{\"manifest\":" ASKS("\"p0\":\"1\"") ",\"packuments\":{");
    for (i = 0; i < PACKAGES; i++) {
        at += (size_t)sprintf(text + at, "%s\"p%d\":{\"versions\":{\"1.0.0\":{\"peerDependencies\":{\"p%d\":\"^1\"}}}}",
                              i == 0 ? "" : ",", i, (i + 1) % PACKAGES);
    }
    at += (size_t)sprintf(text + at, "}}");
    npm_status status = npm_call("resolve", 7, text, at, room, sizeof room - 1, &length);
    room[status == NPM_OK ? length : 0] = '\0';
    return expect(strstr(room, PACKAGE("p999", "1.0.0") "]") != NULL, "a thousand packages");
}

int main(int count, char **words) {
    int failed = run_rows() + run_pointers() + run_many();
    unsigned long made = 0;
    if (count > 1 && strcmp(words[1], "refuse") == 0) {
        failed += run_refused(&made);
    }
    if (strcmp(npm_calls_library_version(), NPM_CALLS_LIBRARY_VERSION) != 0 || blocks != 0) {
        failed++;
        printf("%ld blocks are left\n", blocks);
    }
    printf("%d rows, %lu requests refused, %d wrong\n", (int)COUNT, made, failed);
    return failed != 0;
}
