/* SPDX-License-Identifier: Apache-2.0 */
/* These replace functions of the C library, and call them. The program has one thread. */
#include "requests.h"

#include <errno.h>
#include <malloc.h>

extern void *__libc_malloc(size_t size);
extern void *__libc_calloc(size_t count, size_t size);
extern void *__libc_realloc(void *block, size_t size);
extern void *__libc_memalign(size_t alignment, size_t size);
extern void __libc_free(void *block);

static size_t count, refusals, at, bytes, blocks;
static bool later;

void refuse_request(size_t number, bool and_later) {
    count = 0;
    refusals = 0;
    at = number;
    later = and_later;
}

size_t requests(void) {
    return count;
}

size_t refused(void) {
    return refusals;
}

size_t bytes_in_use(void) {
    return bytes;
}

size_t blocks_in_use(void) {
    return blocks;
}

static bool is_refused(void) {
    count++;
    if (at == 0 || count < at || (count > at && !later)) {
        return false;
    }
    refusals++;
    errno = ENOMEM;
    return true;
}

static void *counted(void *block) {
    if (block != NULL) {
        bytes += malloc_usable_size(block);
        blocks++;
    }
    return block;
}

static void uncount(void *block) {
    if (block != NULL) {
        bytes -= malloc_usable_size(block);
        blocks--;
    }
}

void *malloc(size_t size) {
    return is_refused() ? NULL : counted(__libc_malloc(size));
}

void *calloc(size_t number, size_t size) {
    return is_refused() ? NULL : counted(__libc_calloc(number, size));
}

/* The old block stays in use where there is no new one. */
void *realloc(void *block, size_t size) {
    if (is_refused()) {
        return NULL;
    }
    uncount(block);
    void *moved = __libc_realloc(block, size);
    return moved == NULL && size != 0 ? (counted(block), NULL) : counted(moved);
}

void free(void *block) {
    uncount(block);
    __libc_free(block);
}

void *aligned_alloc(size_t alignment, size_t size) {
    return is_refused() ? NULL : counted(__libc_memalign(alignment, size));
}

int posix_memalign(void **block, size_t alignment, size_t size) {
    *block = is_refused() ? NULL : counted(__libc_memalign(alignment, size));
    return *block == NULL ? ENOMEM : 0;
}
