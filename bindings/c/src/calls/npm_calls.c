/* SPDX-License-Identifier: Apache-2.0 */
/*
 * The calls of npm_calls.h. The proved call reads through pointers that are not null: here an empty text, a room of no bytes and a
 * length that nobody reads take the place of a null pointer. The Makefile gives the proved call the name that is declared here.
 *
 * An answer is written to the caller's array: a text of the library's own would need the steps of a handle. If the array is too short, a
 * second call does all again.
 */
#include "npm_calls.h"

npm_status proved_call(const char *name, size_t name_length, const char *text, size_t text_length, char *room, size_t size, size_t *length);

npm_status npm_call(const char *name, size_t name_length, const char *text, size_t text_length, char *room, size_t size, size_t *length) {
    size_t unread = 0;
    char no_room = 0;
    return proved_call(name == NULL ? "" : name, name == NULL ? 0 : name_length, text == NULL ? "" : text,
                       text == NULL ? 0 : text_length, room == NULL ? &no_room : room, room == NULL ? 0 : size,
                       length == NULL ? &unread : length);
}

const char *npm_calls_library_version(void) {
    return NPM_CALLS_LIBRARY_VERSION;
}
