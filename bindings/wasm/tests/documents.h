/* SPDX-License-Identifier: Apache-2.0 */
/* Calls that take texts in JSON: the texts are made by a generator, and each call is made with each of its requests for memory refused. */
#ifndef DOCUMENTS_H
#define DOCUMENTS_H

#include "said.h"
#include "text.h"

static char room[1 << 16];

static void clear(struct text *text) {
    text->length = 0;
}

/* A text of a row of the tests for C. */
struct string {
    const char *bytes;
    size_t length;
};

static void set(struct text *text, struct string from) {
    for (text->length = 0; text->length < from.length; text->length++) {
        text->bytes[text->length] = from.bytes[text->length];
    }
}

/* A key of a version, few of which differ; a rare one is none. */
static void add_key(struct text *text) {
    static const char *const numbers[] = {"0", "1", "1", "2", "2", "3"};
    static const char *const tails[] = {"-rc.1", "-rc.2", "-a", "+b", "-0"};
    static const char *const rare[] = {"", "x", "1.2", "v1.0.0", "01.0.0", "1.0.0-\xc3\xa9", "9007199254740993.0.0"};
    if (below(20) == 0) {
        add(text, ONE_OF(rare));
        return;
    }
    add(text, ONE_OF(numbers)), add(text, "."), add(text, ONE_OF(numbers)), add(text, "."), add(text, ONE_OF(numbers));
    add(text, below(5) == 0 ? ONE_OF(tails) : "");
}

/* A range over such keys, or what is asked for otherwise. */
static void add_wish(struct text *text) {
    static const char *const marks[] = {"^", "~", ">=", "<", "", "<=", "^", ">"};
    static const char *const others[] = {"", "*", "latest", "next", "1", "2.x", "a b", "x"};
    if (below(4) == 0) {
        add(text, ONE_OF(others));
        return;
    }
    for (uint32_t n = below(4) == 0 ? 2 : 1; n > 0; n--) {
        add(text, ONE_OF(marks)), add_key(text), add(text, n > 1 ? (below(2) == 0 ? " || " : " ") : "");
    }
}

static void add_time(struct text *text) {
    static const char *const years[] = {"2020", "2021", "2022", "2023"};
    static const char *const tails[] = {"-03-01T12:00:00.000Z", "-01-31T00:00:00Z", "-12-01T23:59:59.5Z"};
    static const char *const rare[] = {"", "-", "2021-02-30T00:00:00Z", "soon"};
    if (below(12) == 0) {
        add(text, ONE_OF(rare));
        return;
    }
    add(text, ONE_OF(years)), add(text, ONE_OF(tails));
}

/* A string of JSON. */
static void add_string(struct text *text, void (*add_letters)(struct text *)) {
    add(text, "\""), add_letters(text), add(text, "\"");
}

/* Changes a byte of the text, so that it may be no JSON. */
static void spoil(struct text *text) {
    static const char bytes[] = "{}[]:,\"\\ue0-1.\n\xff";
    if (text->length > 0) {
        text->bytes[below((uint32_t)text->length)] = bytes[below(sizeof bytes - 1)];
    }
}

/* Makes the call with each of its requests for memory refused in turn, and then with none refused. */
static void make(const char *name, void (*call)(void)) {
    for (uint32_t refused = 1; refused != 0;) {
        int32_t before = heap_blocks();
        say(name);
        heap_refuse(refused);
        call();
        refused = heap_requests() >= refused ? refused + 1 : 0;
        heap_refuse(0);
        say(before == heap_blocks() ? "\n" : " KEPT A BLOCK\n");
    }
}

/* After the calls. */
static void end(void) {
    say("blocks that are left:"), say_number((uint64_t)(uint32_t)heap_blocks()), say("\n");
    flush();
}

#endif
