/* SPDX-License-Identifier: Apache-2.0 */
/*
 * Prints the answer to a call of npm_calls.h, of the name and of a file with the JSON text of the call:
 *
 *     call pick left-pad.json
 *
 * Ends with status 1 if the call is refused; the answer says why.
 */
#include <npm_calls.h>

#include <stdio.h>
#include <stdlib.h>
#include <string.h>

/* The bytes of a text, which the caller frees. */
struct text {
    char *bytes;
    size_t length;
};

/* Reads a file. `bytes` is NULL if it cannot be read. */
static struct text read_file(const char *path) {
    struct text read = {NULL, 0};
    size_t room = 0, count = 0;
    FILE *file = fopen(path, "rb");
    if (file == NULL) {
        return read;
    }
    do {
        char *larger = realloc(read.bytes, room += 65536);
        if (larger == NULL) {
            break;
        }
        read.bytes = larger;
        count = fread(read.bytes + read.length, 1, room - read.length, file);
        read.length += count;
    } while (count != 0);
    if (count != 0 || ferror(file)) {
        free(read.bytes);
        read.bytes = NULL;
    }
    fclose(file);
    return read;
}

/* Makes a call, and once more if the first room is too short. `bytes` of the answer is NULL if memory is out. */
static npm_status call(const char *name, struct text text, struct text *answer) {
    size_t size = text.length + 4096;
    npm_status status;
    do {
        free(answer->bytes);
        answer->bytes = malloc(size);
        if (answer->bytes == NULL) {
            return NPM_OUT_OF_MEMORY;
        }
        status = npm_call(name, strlen(name), text.bytes, text.length, answer->bytes, size, &answer->length);
    } while (status != NPM_OUT_OF_MEMORY && answer->length > size && (size = answer->length) > 0);
    return status;
}

int main(int count, char **words) {
    struct text answer = {NULL, 0};
    if (count != 3) {
        fprintf(stderr, "usage: %s NAME FILE (npm_calls %s)\n", words[0], npm_calls_library_version());
        return 2;
    }
    struct text text = read_file(words[2]);
    if (text.bytes == NULL) {
        fprintf(stderr, "%s cannot be read\n", words[2]);
        return 2;
    }
    npm_status status = call(words[1], text, &answer);
    if (status == NPM_OUT_OF_MEMORY) {
        fprintf(stderr, "out of memory\n");
    } else {
        printf("%.*s\n", (int)answer.length, answer.bytes);
    }
    free(text.bytes);
    free(answer.bytes);
    return status != NPM_OK;
}
