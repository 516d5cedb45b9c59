/* SPDX-License-Identifier: Apache-2.0 */
/* Runs the calls natively: the proved library over malloc, realloc and free, of which requests can be refused. */
#include <stdint.h>
#include <stdio.h>
#include <stdlib.h>

static uint32_t refused_request, requests;
static int32_t blocks;

void heap_refuse(uint32_t n) {
    requests = 0;
    refused_request = n;
}

uint32_t heap_requests(void) {
    return requests;
}

int32_t heap_blocks(void) {
    return blocks;
}

struct tried {
    uint64_t is_there;
    void *address;
};

static char nowhere;

static struct tried tried(void *block) {
    return (struct tried){block != NULL, block != NULL ? block : &nowhere};
}

struct tried rattle_alloc(uint64_t n, uint64_t alignment) {
    void *block = ++requests == refused_request ? NULL : malloc(n == 0 ? alignment : n);
    blocks += block != NULL;
    return tried(block);
}

struct tried rattle_realloc(void *block, uint64_t kept, uint64_t n, uint64_t alignment) {
    (void)kept;
    return tried(++requests == refused_request ? NULL : realloc(block, n == 0 ? alignment : n));
}

void rattle_dealloc(void *block) {
    blocks -= block != NULL;
    free(block);
}

void write_out(const char *bytes, size_t length) {
    fwrite(bytes, 1, length, stdout);
}

void run(uint32_t count);

int main(int count, char **words) {
    run(count > 1 ? (uint32_t)strtoul(words[1], NULL, 10) : 0);
    return 0;
}
