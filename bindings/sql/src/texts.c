/* SPDX-License-Identifier: Apache-2.0 */
/* Reads texts, and writes messages about their faults. */
#include "texts.h"

#include <stdio.h>
#include <stdlib.h>

static bool is_done(node_semver_status status, bool is_range, struct text text, struct failure *failure) {
    failure->status = status;
    failure->is_range = is_range;
    failure->text = text;
    return status == NODE_SEMVER_OK;
}

bool read_version(struct text text, node_semver_version *version, struct failure *failure) {
    node_semver_status status = node_semver_version_parse_strict(text.bytes, text.length, version, &failure->fault);
    return is_done(status, false, text, failure);
}

bool read_range(struct text text, size_t most, node_semver_range *range, struct failure *failure) {
    node_semver_status status;
    if (text.length > most) {
        failure->fault = (node_semver_fault){NODE_SEMVER_MAX_LENGTH, most, 0};
        return is_done(NODE_SEMVER_REFUSED, true, text, failure);
    }
    status = node_semver_range_parse_npm(text.bytes, text.length, false, false, range, &failure->fault);
    return is_done(status, true, text, failure);
}

bool is_too_long(const struct failure *failure) {
    return failure->is_range && failure->status == NODE_SEMVER_REFUSED && failure->fault.kind == NODE_SEMVER_MAX_LENGTH;
}

/* ---- keys ---- */

void free_key(struct key *key) {
    if (key->bytes != key->room) {
        free(key->bytes);
    }
    key->bytes = NULL;
}

/* Returns room for so many bytes, or false if memory ran out. */
static bool make_room(struct key *key, size_t length) {
    key->length = length;
    key->bytes = length <= sizeof key->room ? key->room : malloc(length);
    return key->bytes != NULL;
}

/* Makes the key of a version. No key is empty: a length of 0 says that memory ran out. */
static bool key_of_version(const node_semver_version *version, struct key *key) {
    size_t length = node_semver_version_key(version, key->room, sizeof key->room);
    if (length == 0 || !make_room(key, length)) {
        return false;
    }
    if (key->bytes == key->room) {
        return true;
    }
    if (node_semver_version_key(version, key->bytes, length) == length) {
        return true;
    }
    free_key(key);
    return false;
}

bool key_of_text(struct text text, struct key *key, struct failure *failure) {
    bool unread;
    return key_and_kind_of_text(text, key, &unread, failure);
}

bool key_and_kind_of_text(struct text text, struct key *key, bool *is_prerelease, struct failure *failure) {
    node_semver_version version = NODE_SEMVER_EMPTY;
    if (!read_version(text, &version, failure)) {
        return false;
    }
    bool is_made = key_of_version(&version, key);
    *is_prerelease = node_semver_version_is_prerelease(&version);
    node_semver_version_free(version);
    return is_made || is_done(NODE_SEMVER_OUT_OF_MEMORY, false, text, failure);
}

typedef size_t end_writer(const node_semver_intervals *intervals, size_t place, unsigned char *room, size_t size);

static bool end_key(end_writer *write, const node_semver_intervals *intervals, size_t place, struct key *key) {
    size_t length = write(intervals, place, key->room, sizeof key->room);
    if (!make_room(key, length)) {
        return false;
    }
    if (key->bytes != key->room) {
        write(intervals, place, key->bytes, length);
    }
    return true;
}

bool lower_key(const node_semver_intervals *intervals, size_t place, struct key *key) {
    return end_key(node_semver_interval_lower, intervals, place, key);
}

bool upper_key(const node_semver_intervals *intervals, size_t place, struct key *key) {
    return end_key(node_semver_interval_upper, intervals, place, key);
}

/* ---- questions ---- */

bool is_text_of_prerelease(struct text text, bool *answer, struct failure *failure) {
    node_semver_version version = NODE_SEMVER_EMPTY;
    if (!read_version(text, &version, failure)) {
        return false;
    }
    *answer = node_semver_version_is_prerelease(&version);
    node_semver_version_free(version);
    return true;
}

/* The library's call allocates nothing, and tells no fault: a text that it refuses is read again for that. */
bool satisfies_text(const node_semver_range *range, struct text text, bool *answer, struct failure *failure) {
    node_semver_version version = NODE_SEMVER_EMPTY;
    node_semver_status status = node_semver_satisfies_strict(range, text.bytes, text.length, answer);
    if (status != NODE_SEMVER_REFUSED) {
        return is_done(status, false, text, failure);
    }
    if (!read_version(text, &version, failure)) {
        return false;
    }
    *answer = node_semver_satisfies(range, &version);
    node_semver_version_free(version);
    return true;
}

bool is_text_of_version(struct text text, bool *answer, struct failure *failure) {
    node_semver_version version = NODE_SEMVER_EMPTY;
    *answer = read_version(text, &version, failure);
    node_semver_version_free(version);
    return failure->status != NODE_SEMVER_OUT_OF_MEMORY;
}

/* ---- parts ---- */

/* Reads the digits at a place, which it moves past them and the character that follows. */
static uint64_t next_number(struct text text, size_t *place) {
    uint64_t number = 0;
    for (; *place < text.length && text.bytes[*place] >= '0' && text.bytes[*place] <= '9'; ++*place) {
        number = number * 10 + (uint64_t)(text.bytes[*place] - '0');
    }
    ++*place;
    return number;
}

struct parts parts_of_version(struct text text) {
    struct parts parts = {{0, 0, 0}, {text.bytes, 0}};
    size_t place = 0, start;
    for (int i = 0; i < 3; i++) {
        parts.numbers[i] = next_number(text, &place);
    }
    if (place > text.length || text.bytes[place - 1] != '-') {
        return parts;
    }
    for (start = place; place < text.length && text.bytes[place] != '+'; place++) {
    }
    parts.prerelease = (struct text){text.bytes + start, place - start};
    return parts;
}

bool parts_of_text(struct text text, struct parts *parts, struct failure *failure) {
    node_semver_version version = NODE_SEMVER_EMPTY;
    if (!read_version(text, &version, failure)) {
        return false;
    }
    node_semver_version_free(version);
    *parts = parts_of_version(text);
    return true;
}

bool coerced_text(struct text text, char room[MAX_COERCED], size_t *length, struct failure *failure) {
    node_semver_version version = NODE_SEMVER_EMPTY;
    node_semver_status status = node_semver_version_coerce(text.bytes, text.length, false, &version);
    *length = 0;
    if (status == NODE_SEMVER_OK) {
        *length = node_semver_version_print(&version, room, MAX_COERCED);
        node_semver_version_free(version);
        if (*length == 0 || *length > MAX_COERCED) {
            status = NODE_SEMVER_OUT_OF_MEMORY;
        }
    } else if (status == NODE_SEMVER_NONE) {
        status = NODE_SEMVER_OK;
    }
    return is_done(status, false, text, failure);
}

bool intervals_of_text(struct text text, size_t most, node_semver_intervals *intervals, struct failure *failure) {
    node_semver_range range = NODE_SEMVER_EMPTY;
    if (!read_range(text, most, &range, failure)) {
        return false;
    }
    node_semver_status status = node_semver_range_intervals(&range, intervals);
    node_semver_range_free(range);
    return is_done(status, true, text, failure);
}

/* ---- messages ---- */

static const char *name_of(uint32_t kind) {
    switch (kind) {
    case NODE_SEMVER_MAX_LENGTH:
        return "MaxLengthError";
    case NODE_SEMVER_PARSE_INT:
        return "ParseIntError";
    case NODE_SEMVER_MAX_INT:
        return "MaxIntError";
    case NODE_SEMVER_CONTEXT:
        return "Context";
    case NODE_SEMVER_NO_VALID_RANGES:
        return "NoValidRanges";
    default:
        return "Other";
    }
}

static const char *reason_of(const struct failure *failure) {
    switch (failure->fault.kind) {
    case NODE_SEMVER_MAX_LENGTH:
        return "a version has at most 256 bytes";
    case NODE_SEMVER_PARSE_INT:
        return "a number is above 18446744073709551615";
    case NODE_SEMVER_MAX_INT:
        return "a number is above 9007199254740991";
    case NODE_SEMVER_CONTEXT:
        return "a number or a dot is missing";
    case NODE_SEMVER_NO_VALID_RANGES:
        return "what begins here is no comparator";
    default:
        return "what begins here is no part of a version";
    }
}

/* How many bytes of a text a message shows. */
#define SHOWN 60

/* A message that is written into a room, as much of it as there is room for. */
struct message {
    char *room;
    size_t size, length;
};

static void put(struct message *message, const char *text) {
    for (; *text != '\0' && message->length + 1 < message->size; text++) {
        message->room[message->length++] = *text;
    }
    message->room[message->length] = '\0';
}

static void put_byte(struct message *message, unsigned char byte) {
    char shown[5] = {(char)byte, '\0'};
    if (byte == '"' || byte == '\\') {
        put(message, "\\");
    } else if (byte < 0x20 || byte > 0x7e) {
        snprintf(shown, sizeof shown, "\\x%02x", byte);
    }
    put(message, shown);
}

/* Puts the start of a text, and how many bytes it has more. */
static void put_text(struct message *message, struct text text) {
    char more[48];
    size_t shown = text.length < SHOWN ? text.length : SHOWN;
    put(message, ": \"");
    for (size_t place = 0; place < shown; place++) {
        put_byte(message, (unsigned char)text.bytes[place]);
    }
    put(message, "\"");
    if (text.length > shown) {
        snprintf(more, sizeof more, " and %zu more bytes", text.length - shown);
        put(message, more);
    }
}

/* What is wrong, without the text. */
static void tell_reason(const struct failure *failure, char *room, size_t size) {
    const char *what = failure->is_range ? "range" : "version";
    if (is_too_long(failure)) {
        snprintf(room, size, "no range: MaxLengthError at byte %zu, a range has at most %zu bytes here",
                 failure->fault.offset, failure->fault.offset);
    } else if (failure->status == NODE_SEMVER_REFUSED) {
        snprintf(room, size, "no %s: %s at byte %zu, %s", what, name_of(failure->fault.kind), failure->fault.offset,
                 reason_of(failure));
    } else {
        snprintf(room, size, "no %s: the bytes are not UTF-8", what);
    }
}

void tell_failure(const struct failure *failure, char *room, size_t size) {
    struct message message = {room, size, 0};
    char reason[160];
    if (failure->status == NODE_SEMVER_OUT_OF_MEMORY) {
        put(&message, "out of memory");
        return;
    }
    tell_reason(failure, reason, sizeof reason);
    put(&message, reason);
    put_text(&message, failure->text);
}
