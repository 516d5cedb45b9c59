/* SPDX-License-Identifier: Apache-2.0 */
/*
 * The input of a target: lines, of which each is a command. Its characters say what is done, and the rest is a text, in which
 * `$` stands for a line feed.
 */
#ifndef INPUT_H
#define INPUT_H

#include "room.h"

struct line {
    const uint8_t *at;
    size_t length;
};

/* Takes the next line. Returns false if there is none. */
static inline bool next_line(struct line *input, struct line *line) {
    if (input->length == 0) {
        return false;
    }
    const uint8_t *end = memchr(input->at, '\n', input->length);
    line->at = input->at;
    line->length = end == NULL ? input->length : (size_t)(end - input->at);
    size_t taken = line->length + (end != NULL);
    input->at += taken;
    input->length -= taken;
    return true;
}

/* Takes a character; 0 at the end of the line. */
static inline unsigned next_character(struct line *line) {
    if (line->length == 0) {
        return 0;
    }
    line->length--;
    return *line->at++;
}

/* Takes a character as a number below this one. */
static inline unsigned next_choice(struct line *line, unsigned count) {
    return next_character(line) % count;
}

/* A text in a room, with no byte behind it, or none before it. */
struct placed {
    char *bytes;
    size_t length;
};

static inline struct placed text_of(struct line line, unsigned room, bool at_end) {
    size_t length = line.length < ROOM_SIZE ? line.length : ROOM_SIZE;
    struct placed text = {place_in(room, length, at_end), length};
    for (size_t i = 0; i < length; i++) {
        text.bytes[i] = line.at[i] == '$' ? '\n' : (char)line.at[i];
    }
    return text;
}

/* Takes what stands before this character, or all that is left, and the character. */
static inline struct line next_part(struct line *line, char stop) {
    struct line part = *line;
    const uint8_t *end = line->length == 0 ? NULL : memchr(line->at, stop, line->length);
    if (end == NULL) {
        line->length = 0;
        return part;
    }
    part.length = (size_t)(end - line->at);
    line->at = end + 1;
    line->length -= part.length + 1;
    return part;
}

/* How many bytes the character has that begins here, by the table of the Unicode Standard of well-formed byte sequences; 0 if
 * none does. */
static inline size_t character_length(const unsigned char *at, size_t left) {
    unsigned char low = 0x80, high = 0xbf, first = at[0];
    size_t length = first < 0x80 ? 1 : first < 0xc2 ? 0 : first < 0xe0 ? 2 : first < 0xf0 ? 3 : first < 0xf5 ? 4 : 0;
    low = first == 0xe0 ? 0xa0 : first == 0xf0 ? 0x90 : low;
    high = first == 0xed ? 0x9f : first == 0xf4 ? 0x8f : high;
    if (length > left) {
        return 0;
    }
    for (size_t i = 1; i < length; i++) {
        if (at[i] < (i == 1 ? low : 0x80) || at[i] > (i == 1 ? high : 0xbf)) {
            return 0;
        }
    }
    return length;
}

static inline bool is_utf8(struct placed text) {
    size_t at = 0, length = 1;
    while (at < text.length && length > 0) {
        length = character_length((const unsigned char *)text.bytes + at, text.length - at);
        at += length;
    }
    return at == text.length;
}

/* What libFuzzer counts as new beside the edges of this code: what the library returned, which has no edges to see. A number
 * above 15 counts by its magnitude alone. */
__attribute__((section("__libfuzzer_extra_counters"))) static uint8_t returned[4096];

static inline void see(unsigned command, size_t value) {
    size_t kind = value < 16 ? value : 16;
    for (; value >= 16 && kind < 31; value /= 4) {
        kind++;
    }
    returned[(command * 32 + kind) % sizeof returned] = 1;
}

#endif
