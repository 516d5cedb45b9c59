/* SPDX-License-Identifier: Apache-2.0 */
/* What the heap stands on: the memory of WebAssembly, which grows by pages. The tests of the heap have an array in its place. */
#ifndef MEMORY_H
#define MEMORY_H

/* The toolchain has a compiler and no headers of C. */
typedef __SIZE_TYPE__ size_t;
typedef __UINTPTR_TYPE__ uintptr_t;
typedef __UINT32_TYPE__ uint32_t;
typedef __INT32_TYPE__ int32_t;
typedef __UINT64_TYPE__ uint64_t;
typedef _Bool bool;
#define NULL ((void *)0)
#define true 1
#define false 0

#define PAGE 65536u

#ifdef __wasm__

extern unsigned char __heap_base;

static inline uintptr_t memory_start(void) {
    return (uintptr_t)&__heap_base;
}

static inline uintptr_t memory_end(void) {
    return (uintptr_t)__builtin_wasm_memory_size(0) * PAGE;
}

static inline bool memory_grow(size_t pages) {
    return __builtin_wasm_memory_grow(0, pages) != (size_t)-1;
}

#else

uintptr_t memory_start(void);
uintptr_t memory_end(void);
bool memory_grow(size_t pages);

#endif

#ifdef HEAP_IS_TESTED

/* In a build for tests, the request with this number is refused, counted from 1, and the blocks that are in use are counted. */
static uint32_t refused_request;
static uint32_t requests;
static int32_t blocks;

static inline bool is_refused(void) {
    requests++;
    return requests == refused_request;
}

static inline void count_block(int32_t more) {
    blocks += more;
}

/* From now on the n-th request is refused; 0: none. */
void heap_refuse(uint32_t n) {
    requests = 0;
    refused_request = n;
}

uint32_t heap_requests(void) {
    return requests;
}

int32_t heap_blocks(void) {
    return blocks;
}

#else

static inline bool is_refused(void) {
    return false;
}

static inline void count_block(int32_t more) {
    (void)more;
}

#endif

#endif
