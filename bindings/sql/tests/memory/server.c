/* SPDX-License-Identifier: Apache-2.0 */
/*
 * Is preloaded into a server of PostgreSQL, and refuses one request for memory that the extension makes in a process: the one whose
 * number is in the file that DENIMSCREE_REFUSE names. It removes that file when it refuses. The server's own requests are not
 * counted.
 */
#define _GNU_SOURCE
#include <dlfcn.h>
#include <errno.h>
#include <stdbool.h>
#include <stdio.h>
#include <stdlib.h>
#include <string.h>
#include <unistd.h>

extern void *__libc_malloc(size_t size);
extern void *__libc_calloc(size_t count, size_t size);
extern void *__libc_realloc(void *block, size_t size);

static size_t count, at;

static bool is_of_extension(const void *caller) {
    Dl_info found;
    return dladdr(caller, &found) != 0 && found.dli_fname != NULL && strstr(found.dli_fname, "/denimscree.so") != NULL;
}

/* The number is read at the first request of a process. */
static bool is_refused(void) {
    const char *name = getenv("DENIMSCREE_REFUSE");
    if (name == NULL) {
        return false;
    }
    count++;
    if (count == 1) {
        FILE *file = fopen(name, "r");
        if (file != NULL) {
            if (fscanf(file, "%zu", &at) != 1) {
                at = 0;
            }
            fclose(file);
        }
    }
    if (count != at) {
        return false;
    }
    unlink(name);
    errno = ENOMEM;
    return true;
}

static bool is_refused_to(const void *caller) {
    return is_of_extension(caller) && is_refused();
}

void *malloc(size_t size) {
    return is_refused_to(__builtin_return_address(0)) ? NULL : __libc_malloc(size);
}

void *calloc(size_t number, size_t size) {
    return is_refused_to(__builtin_return_address(0)) ? NULL : __libc_calloc(number, size);
}

void *realloc(void *block, size_t size) {
    return is_refused_to(__builtin_return_address(0)) ? NULL : __libc_realloc(block, size);
}
