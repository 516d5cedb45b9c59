/* SPDX-License-Identifier: Apache-2.0 */
/*
 * Tests of the heap and of the product of 128 bits. Built natively, over an array and with the sanitizers, and as WebAssembly, they are
 * the same. `run` returns how many checks failed.
 */
#define HEAP_IS_TESTED
#include "../heap.c"

#ifndef __wasm__

#include <stdio.h>

static _Alignas(65536) unsigned char memory[256u << 20];
static uintptr_t used = PAGE;

uintptr_t memory_start(void) {
    return (uintptr_t)memory + 24u;
}

uintptr_t memory_end(void) {
    return (uintptr_t)memory + used;
}

bool memory_grow(size_t pages) {
    if (pages > (sizeof memory - used) / PAGE) {
        return false;
    }
    used += pages * PAGE;
    return true;
}

#endif

void write_out(const char *bytes, size_t length);

static uint32_t failed;

static void check(const char *what, bool holds) {
    if (!holds) {
        size_t length = 0;
        while (what[length] != '\0') {
            length++;
        }
        failed++;
        write_out("failed: ", 8), write_out(what, length), write_out("\n", 1);
    }
}

static uint64_t seed = 7;

static uint32_t below(uint32_t n) {
    seed = seed * 6364136223846793005u + 1442695040888963407u;
    return (uint32_t)((seed >> 33) % n);
}

/* Fills a block with bytes that depend on its address, and tells whether they are still there. */
static void fill(unsigned char *block, size_t n) {
    for (size_t i = 0; i < n; i++) {
        block[i] = (unsigned char)((uintptr_t)block * 31u + i * 7u);
    }
}

static bool is_filled(const unsigned char *block, const unsigned char *was_at, size_t n) {
    for (size_t i = 0; i < n; i++) {
        if (block[i] != (unsigned char)((uintptr_t)was_at * 31u + i * 7u)) {
            return false;
        }
    }
    return true;
}

/* Each size holds what is asked for, wastes less than a fifth of the larger ones, and is the least that does. */
static void check_sizes(void) {
    size_t around[] = {1, 16, 17, 127, 128, 129, 160, 161, 4095, 4096, 4097, 65536, 2097151, 2097152, 2097153, 3000000, 1u << 29, MOST};
    for (size_t i = 0; i < sizeof around / sizeof *around; i++) {
        size_t n = around[i], size = size_of(number_of(n));
        check("a size holds what is asked for", size >= n && number_of(n) < SIZES);
        check("a size is the least", number_of(n) == 0 || size_of(number_of(n) - 1u) < n);
        check("a size is a multiple of 16", size % 16u == 0);
        check("a size wastes little", n <= 128 || size - n < n / 4u + 1u);
    }
    for (uint32_t number = 0; number < SIZES - 4u; number++) {
        check("a size has its number", number_of(size_of(number)) == number && number_of(size_of(number) + 1u) == number + 1u);
    }
}

static void check_blocks(void) {
    static struct {
        unsigned char *at;
        size_t n;
    } live[400];
    uintptr_t end_before = 0;
    for (int round = 0; round < 2; round++) {
        seed = 7;
        for (int i = 0; i < 60000; i++) {
            uint32_t place = below(400);
            size_t n = below(50) == 0 ? below(300000) : below(600);
            if (live[place].at == NULL) {
                live[place].at = heap_get(n);
            } else if (below(2) == 0) {
                unsigned char *old = live[place].at, *made = (unsigned char *)(uintptr_t)rattle_realloc(old, 0, n, 16).address;
                size_t kept = n < live[place].n ? n : live[place].n;
                check("what a block had stays where it is resized", is_filled(made, old, kept));
                live[place].at = made;
            } else {
                check("what a block had is its own", is_filled(live[place].at, live[place].at, live[place].n));
                heap_free(live[place].at);
                live[place].at = NULL;
                continue;
            }
            check("a block is aligned", live[place].at != NULL && (uintptr_t)live[place].at % 16u == 0);
            live[place].n = n;
            fill(live[place].at, n);
        }
        for (int i = 0; i < 400; i++) {
            heap_free(live[i].at);
            live[i].at = NULL;
        }
        check("no block is left", heap_blocks() == 0);
        check("the same requests again take no more memory", round == 0 || memory_end() == end_before);
        end_before = memory_end();
    }
}

static void check_large(void) {
    for (size_t n = 1u << 20; n <= 1u << 25; n *= 2) {
        unsigned char *block = heap_get(n + 1u);
        check("a large block is there", block != NULL);
        if (block != NULL) {
            block[0] = 1, block[n] = 2;
            unsigned char *more = (unsigned char *)(uintptr_t)rattle_realloc(block, 0, n + n / 2u, 1).address;
            check("a large block grows", more[0] == 1 && more[n] == 2);
            rattle_dealloc(more);
        }
    }
    check("no large block is left", heap_blocks() == 0);
}

static void check_refusals(void) {
    check("more than the most is refused", heap_get((size_t)MOST + 1u) == NULL);
    check("what no memory holds is refused", rattle_alloc((uint64_t)1 << 40, 8).is_there == 0 && rattle_alloc((uint64_t)1 << 62, 8).is_there == 0);
    struct tried zero = rattle_alloc(0, 16);
    check("no bytes have an address", zero.is_there == 1 && zero.address % 16u == 0);
    rattle_dealloc((void *)(uintptr_t)zero.address);
    unsigned char *block = heap_get(100);
    fill(block, 100);
    struct tried refused = rattle_realloc(block, 100, (uint64_t)1 << 40, 1);
    check("a block that cannot grow is as it was", refused.is_there == 0 && is_filled(block, block, 100));
    check("an address of no block is no null", refused.address != 0);
    heap_free(block);
    heap_free(NULL);
    heap_refuse(2);
    void *first = heap_get(8), *second = heap_get(8), *third = heap_get(8);
    check("the second request is refused, and no other", first != NULL && second == NULL && third != NULL && heap_requests() == 3);
    heap_refuse(0);
    heap_free(first), heap_free(third);
    void *all[64];
    uint32_t count = 0;
    while (count < 64 && (all[count] = heap_get((size_t)200 << 20)) != NULL) {
        count++;
    }
    check("the memory ends", count < 64);
    block = heap_get(50);
    check("what is small fits after that", block != NULL);
    heap_free(block);
    while (count > 0) {
        heap_free(all[--count]);
    }
    check("no block is left at the end", heap_blocks() == 0);
}

/* The product bit by bit. */
static unsigned __int128 product(unsigned __int128 left, unsigned __int128 right) {
    uint64_t halves[] = {(uint64_t)right, (uint64_t)(right >> 64)};
    unsigned __int128 sum = 0;
    for (int i = 0; i < 128; i++) {
        if (halves[i / 64] >> (i % 64) & 1) {
            sum += left;
        }
        left += left;
    }
    return sum;
}

static unsigned __int128 any_wide(void) {
    unsigned __int128 made = 0;
    for (int i = 0; i < 8; i++) {
        made = made << 16 | (below(4) == 0 ? 0u : below(4) == 0 ? 0xffffu : below(0x10000));
    }
    return made;
}

static void check_products(void) {
    for (int i = 0; i < 20000; i++) {
        unsigned __int128 left = any_wide(), right = any_wide();
        check("a product of 128 bits", (unsigned __int128)__multi3((__int128)left, (__int128)right) == product(left, right));
    }
}

/* The shift by doubling, and by halving. */
static void check_shifts(void) {
    for (int i = 0; i < 2000; i++) {
        unsigned __int128 value = any_wide(), left = value;
        int bits = (int)below(128);
        for (int j = 0; j < bits; j++) {
            left += left;
        }
        check("a shift to the left", (unsigned __int128)__ashlti3((__int128)value, bits) == left);
        unsigned __int128 right = (unsigned __int128)__lshrti3((__int128)value, bits), back = right;
        for (int j = 0; j < bits; j++) {
            back += back;
        }
        unsigned __int128 rest = value - back, above = 1;
        for (int j = 0; j < bits; j++) {
            above += above;
        }
        check("a shift to the right", rest < above && right <= value);
    }
}

uint32_t run(uint32_t count) {
    (void)count;
    check_sizes();
    check_blocks();
    check_large();
    check_products();
    check_shifts();
    check_refusals();
    return failed;
}

#ifndef __wasm__

void write_out(const char *bytes, size_t length) {
    fwrite(bytes, 1, length, stdout);
}

int main(void) {
    return run(0) == 0 ? 0 : 1;
}

#endif
