/* SPDX-License-Identifier: Apache-2.0 */
/*
 * The heap of the module, over the memory of WebAssembly, for one thread; and the calls that LLVM makes of a product of 128 bits
 * and of copies.
 *
 * A block has one of some sizes: multiples of 16 up to 128, and then four to each power of two. Each size has a list of its blocks
 * that are free. A block that is freed is used again for a request of its size, and never given back: who wants the memory back
 * makes a new instance. Each block is aligned to 16, and has before it the number of its size.
 */
#include "memory.h"

#define HEAD 16u
#define STEP 16u
#define SMALL 8u       /* sizes that are multiples of STEP */
#define SMALLEST_TOP 7 /* 1 << 7 is STEP * SMALL */
#define SIZES (SMALL + 4u * (31u - SMALLEST_TOP))
#define MOST ((size_t)1 << 30)

/* What stands before a block. `next` is the next free block of its size while it is free. */
struct head {
    uint32_t number;
    struct head *next;
};

static struct head *lists[SIZES];
static uintptr_t at, end;

/* The number of the least size that holds n bytes, where n is from 1 to MOST. */
static uint32_t number_of(size_t n) {
    if (n <= STEP * SMALL) {
        return (uint32_t)((n - 1) / STEP);
    }
    uint32_t top = 31u - (uint32_t)__builtin_clz((unsigned)(n - 1)); /* 2^top is at most n - 1 */
    return SMALL + 4u * (top - SMALLEST_TOP) + (uint32_t)((n - 1) >> (top - 2) & 3u);
}

static size_t size_of(uint32_t number) {
    if (number < SMALL) {
        return (number + 1u) * STEP;
    }
    uint32_t top = SMALLEST_TOP + (number - SMALL) / 4u;
    return ((size_t)1 << top) + (((number - SMALL) % 4u + 1u) * ((size_t)1 << (top - 2)));
}

/* Takes bytes from the end of what is used. The memory grows by an eighth, so that it rarely has to. */
static struct head *fresh(size_t size) {
    if (at == 0) {
        at = (memory_start() + (STEP - 1u)) & ~(uintptr_t)(STEP - 1u);
        end = memory_end();
    }
    if (size > end - at) {
        size_t wanted = (size - (end - at) + (PAGE - 1u)) / PAGE, eighth = (end - memory_start()) / PAGE / 8u + 1u;
        size_t pages = wanted > eighth ? wanted : eighth;
        if (!memory_grow(pages)) {
            pages = wanted;
            if (!memory_grow(pages)) {
                return NULL;
            }
        }
        end += pages * PAGE;
    }
    struct head *made = (struct head *)at;
    at += size;
    return made;
}

void *heap_get(size_t n) {
    if (n > MOST || is_refused()) {
        return NULL;
    }
    uint32_t number = number_of(n == 0 ? 1 : n);
    struct head *block = lists[number];
    if (block != NULL) {
        lists[number] = block->next;
    } else {
        block = fresh(HEAD + size_of(number));
        if (block == NULL) {
            return NULL;
        }
        block->number = number;
    }
    count_block(1);
    return (char *)block + HEAD;
}

static struct head *head_of(void *block) {
    return (struct head *)((char *)block - HEAD);
}

void heap_free(void *block) {
    if (block == NULL) {
        return;
    }
    struct head *head = head_of(block);
    head->next = lists[head->number];
    lists[head->number] = head;
    count_block(-1);
}

/* A block of n bytes with what the old one had. It stays where it is unless it is too small, or four times too large. */
static void *heap_resize(void *block, size_t n) {
    size_t had = size_of(head_of(block)->number);
    if (n <= had && n > had / 4u) {
        return is_refused() ? NULL : block;
    }
    void *made = heap_get(n);
    if (made != NULL) {
        __builtin_memcpy(made, block, n < had ? n : had);
        heap_free(block);
    }
    return made;
}

/* ---- the calls of the proved code, as the toolchain's C part has them over malloc, realloc and free ---- */

/* Whether there is memory, and its address. The proved code reads the first byte of `is_there`, and an address of 64 bits. */
struct tried {
    uint64_t is_there;
    uint64_t address;
};

/* Where an address points that is of no block. */
static char nowhere;

static struct tried tried(void *block) {
    return (struct tried){block != NULL, (uintptr_t)(block != NULL ? block : &nowhere)};
}

static size_t request(uint64_t n) {
    return n > MOST ? MOST + 1u : (size_t)n;
}

/* A request of 0 bytes is one of as many as the alignment. */
struct tried rattle_alloc(uint64_t n, uint64_t alignment) {
    return tried(heap_get(request(n == 0 ? alignment : n)));
}

struct tried rattle_realloc(void *block, uint64_t kept, uint64_t n, uint64_t alignment) {
    (void)kept;
    return tried(heap_resize(block, request(n == 0 ? alignment : n)));
}

void rattle_dealloc(void *block) {
    heap_free(block);
}

#include "compiler.h"
