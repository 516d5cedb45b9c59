/* SPDX-License-Identifier: Apache-2.0 */
/*
 * Makes the call of npm_calls.h with arbitrary texts, with null pointers, with rooms of each length and with a request for memory refused,
 * and looks for a sentence of the header that does not hold, for an access to memory that no text and no answer has, and for a block that
 * is not freed.
 *
 * The first line has characters that say: which pointers are null; how many bytes the room has; which request is refused; and at which
 * end of its room a text stands. The second is the name of the call. The rest is its text.
 */
#include "input.h"
#include "../tests/memory.h"

#include <npm_calls.h>

enum { NAME, TEXT, ANSWER };

struct asked {
    struct placed name, text;
    size_t size;
    bool has_room, has_length;
};

static unsigned read_asked(struct line *input, struct asked *asked) {
    struct line first = {NULL, 0}, name = {NULL, 0};
    next_line(input, &first);
    next_line(input, &name);
    unsigned marks = next_character(&first), size = next_character(&first), request = next_character(&first);
    unsigned ends = next_character(&first);
    asked->name = text_of(name, NAME, (ends & 1) == 0);
    asked->text = text_of(*input, TEXT, (ends & 2) == 0);
    if ((marks & 1) != 0) {
        asked->name.bytes = NULL;
    }
    if ((marks & 2) != 0) {
        asked->text.bytes = NULL;
    }
    asked->size = size % 64 * 8;
    asked->has_room = (marks & 4) == 0;
    asked->has_length = (marks & 8) == 0;
    return request % 64;
}

static npm_status call(const struct asked *asked, char *room, size_t *length) {
    return npm_call(asked->name.bytes, asked->name.length, asked->text.bytes, asked->text.length, room, asked->size, length);
}

/* Of a call without a refused request: there is an answer, and nothing is written but it. */
static npm_status check_call(const struct asked *asked, size_t *length) {
    char *room = open_room(ANSWER, asked->size);
    *length = 77;
    npm_status status = call(asked, room, length);
    bool fits = *length <= asked->size;
    see('k', status);
    expect(status == NPM_OK || status == NPM_REFUSED, "there is an answer");
    expect(*length >= 2, "an object has two bytes at least");
    expect(is_kept_from(room, fits ? *length : 0, asked->size), "nothing is written to the room but an answer that fits");
    if (fits) {
        expect(is_utf8((struct placed){room, *length}), "an answer is UTF-8");
        expect(room[0] == '{' && room[*length - 1] == '}', "an answer is an object");
    }
    return status;
}

/* Without a room and without a length the status is the same. */
static void check_null(const struct asked *asked, npm_status status, size_t length) {
    size_t again = 77;
    char *room = open_room(ANSWER, asked->size);
    npm_status said = call(asked, asked->has_room ? room : NULL, asked->has_length ? &again : NULL);
    expect(said == status, "the status is the same again");
    expect(again == (asked->has_length ? length : 77), "the length is the same again");
}

/* With a request refused the call is out of memory and writes nothing, or all is as without. */
static void check_refused(const struct asked *asked, npm_status status, unsigned request) {
    size_t length = 77;
    char *room = open_room(ANSWER, asked->size);
    requests = 0;
    refused = request;
    npm_status said = call(asked, room, &length);
    bool was_refused = requests >= request;
    refused = 0;
    expect(said == status || (was_refused && said == NPM_OUT_OF_MEMORY), "only a refused request changes the status");
    if (said == NPM_OUT_OF_MEMORY) {
        expect(length == 77 && is_kept_from(room, 0, asked->size), "nothing is written if memory is out");
    }
}

int LLVMFuzzerTestOneInput(const uint8_t *bytes, size_t length);
int LLVMFuzzerTestOneInput(const uint8_t *bytes, size_t length) {
    struct line input = {bytes, length};
    struct asked asked;
    size_t told = 0;
    long before = blocks;
    unsigned request = read_asked(&input, &asked);
    npm_status status = check_call(&asked, &told);
    check_null(&asked, status, told);
    if (request > 0) {
        check_refused(&asked, status, request);
    }
    expect(blocks == before, "each block is freed");
    return 0;
}
