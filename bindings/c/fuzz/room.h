/* SPDX-License-Identifier: Apache-2.0 */
/*
 * Rooms for texts and results, each between two pages that nobody may touch. The proved library has no checks of the
 * compiler inside, so its own reads and writes are watched by these pages.
 */
#ifndef ROOM_H
#define ROOM_H

#include <stdbool.h>
#include <stddef.h>
#include <stdint.h>
#include <stdio.h>
#include <stdlib.h>
#include <string.h>
#include <sys/mman.h>

/* The rooms of a target, and how many bytes each has. */
enum { ROOMS = 12, ROOM_SIZE = 65536, PAGE = 4096 };

/* Ends the run, so that libFuzzer keeps the input, if a law does not hold. */
static inline void expect(bool is_right, const char *what) {
    if (!is_right) {
        fprintf(stderr, "WRONG: %s\n", what);
        abort();
    }
}

static inline char *start_of(unsigned number) {
    static char *rooms;
    if (rooms == NULL) {
        rooms = mmap(NULL, ROOMS * (ROOM_SIZE + PAGE) + PAGE, PROT_NONE, MAP_PRIVATE | MAP_ANONYMOUS, -1, 0);
        expect(rooms != MAP_FAILED, "there is memory for the rooms");
        for (unsigned i = 0; i < ROOMS; i++) {
            expect(mprotect(rooms + i * (ROOM_SIZE + PAGE) + PAGE, ROOM_SIZE, PROT_READ | PROT_WRITE) == 0,
                   "a room is opened");
        }
    }
    return rooms + number * (ROOM_SIZE + PAGE) + PAGE;
}

/* The place for so many bytes in a room: where it ends, or where it begins. */
static inline char *place_in(unsigned number, size_t size, bool at_end) {
    expect(number < ROOMS && size <= ROOM_SIZE, "the bytes fit a room");
    return start_of(number) + (at_end ? ROOM_SIZE - size : 0);
}

/* ---- a room for a result ---- */

/* Fills so many bytes at the end of a room, and some before them. */
enum { MARGIN = 16 };

static inline char *open_room(unsigned number, size_t size) {
    char *room = place_in(number, size, true);
    memset(room - MARGIN, '#', MARGIN + size);
    return room;
}

/* Whether nothing was written to the room from this byte on, and nothing before the room. */
static inline bool is_kept_from(const char *room, size_t from, size_t size) {
    for (size_t i = from; i < size; i++) {
        if (room[i] != '#') {
            return false;
        }
    }
    for (size_t i = 1; i <= MARGIN; i++) {
        if (room[-(ptrdiff_t)i] != '#') {
            return false;
        }
    }
    return true;
}

#endif
