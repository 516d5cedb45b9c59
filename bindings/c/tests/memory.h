/* SPDX-License-Identifier: Apache-2.0 */
/* Counts requests for memory and blocks in use, and refuses a request. Included once in a program that is linked with
 * -Wl,--wrap=malloc -Wl,--wrap=realloc -Wl,--wrap=free. Where the library is the shared one, only the program's own
 * requests are counted. */
#include <stddef.h>

/* The number of the request for memory that is refused, from 1, or 0 for none; the requests made; the blocks in use. */
static unsigned long refused, requests;
static long blocks;

void *__real_malloc(size_t size);
void *__real_realloc(void *block, size_t size);
void __real_free(void *block);
void *__wrap_malloc(size_t size);
void *__wrap_realloc(void *block, size_t size);
void __wrap_free(void *block);

void *__wrap_malloc(size_t size) {
    void *block = ++requests == refused ? NULL : __real_malloc(size);
    blocks += block != NULL;
    return block;
}

void *__wrap_realloc(void *block, size_t size) {
    void *moved = ++requests == refused ? NULL : __real_realloc(block, size);
    blocks += block == NULL && moved != NULL;
    return moved;
}

void __wrap_free(void *block) {
    blocks -= block != NULL;
    __real_free(block);
}
