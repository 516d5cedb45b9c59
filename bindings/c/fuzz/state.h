/* SPDX-License-Identifier: Apache-2.0 */
/* What the target `calls` holds: versions and ranges in numbered places, and whether a request for memory may have failed. */
#ifndef STATE_H
#define STATE_H

#include "input.h"
#include "../tests/memory.h"

#include <node_semver.h>

enum { PLACES = 4 };

/* What each room is for. */
enum { TEXT, OTHER_TEXT, SHORT, PRINT, IDENTIFIER, KEY, OTHER_KEY, LOWER, UPPER, SETS };

static struct {
    node_semver_version versions[PLACES];
    node_semver_range ranges[PLACES];
    unsigned long requests; /* those made when the command began */
} held;

static bool is_full(const node_semver_version *version) {
    return version->at != NULL;
}

static void keep_version(unsigned place, node_semver_version version) {
    node_semver_version_free(held.versions[place]);
    held.versions[place] = version;
}

static void keep_range(unsigned place, node_semver_range range) {
    node_semver_range_free(held.ranges[place]);
    held.ranges[place] = range;
}

/* Whether a request was refused since the command began. */
static bool was_refused(void) {
    return refused > held.requests && refused <= requests;
}

#define ONE_OF(status) (1u << (status))

/* Whether a call is done. Its status must be NODE_SEMVER_OK or one of these, or say that memory is out if a request was
 * refused. */
static bool is_done(node_semver_status status, unsigned others) {
    expect(status < 32, "the status is one of the header's");
    if (status == NODE_SEMVER_OUT_OF_MEMORY) {
        expect(was_refused(), "a call is out of memory only if a request was refused");
    } else {
        expect(((others | ONE_OF(NODE_SEMVER_OK)) & ONE_OF(status)) != 0, "the status is one that the call returns");
    }
    return status == NODE_SEMVER_OK;
}

/* A length of 0 says that memory is out. */
static bool is_made(size_t length) {
    expect(length > 0 || was_refused(), "a result is empty only if a request was refused");
    return length > 0;
}

/* Writes as the calls of the header with a room do. */
typedef size_t writer(const void *value, size_t place, void *room, size_t size);

/* What a call writes, into a room of its length. Nothing is written to a room that is a byte too short, nor outside. Returns
 * an empty text if memory is out. */
static struct placed written(writer *write, const void *value, size_t place, unsigned number, bool may_be_empty) {
    char *room = open_room(number, 0);
    size_t length = write(value, place, room, 0);
    struct placed text = {room, 0};
    expect(is_kept_from(room, 0, 0), "nothing is written to a room of no bytes");
    if (length == 0 && may_be_empty) {
        return text;
    }
    if (!is_made(length)) {
        return text;
    }
    if (length > ROOM_SIZE - MARGIN) {
        return text;
    }
    room = open_room(number, length - 1);
    size_t again = write(value, place, room, length - 1);
    expect(again == length || was_refused(), "the length is the same again");
    expect(is_kept_from(room, 0, length - 1), "nothing is written to a room that is too short");
    room = open_room(number, length);
    again = write(value, place, room, length);
    expect(again == length || was_refused(), "the length is the same with room");
    expect(is_kept_from(room, again == length ? length : 0, length), "nothing is written but the result");
    return again == length ? (struct placed){room, length} : (struct placed){room, 0};
}

/* Compares bytes as memcmp does; of two of which one is the start of the other the shorter is less. */
static int order_of(struct placed one, struct placed other) {
    size_t shorter = one.length < other.length ? one.length : other.length;
    int order = shorter == 0 ? 0 : memcmp(one.bytes, other.bytes, shorter);
    if (order == 0) {
        return (one.length > other.length) - (one.length < other.length);
    }
    return order < 0 ? -1 : 1;
}

#endif
