/* SPDX-License-Identifier: Apache-2.0 */
/* A text that grows, and a generator of numbers: the same on each machine. */
#ifndef TEXT_H
#define TEXT_H

#include "../memory.h"

static uint64_t seed;

static uint32_t below(uint32_t n) {
    seed = seed * 6364136223846793005u + 1442695040888963407u;
    return (uint32_t)((seed >> 33) % n);
}

struct text {
    size_t length;
    char bytes[1 << 15];
};

static void add(struct text *text, const char *bytes) {
    while (*bytes != '\0' && text->length < sizeof text->bytes) {
        text->bytes[text->length++] = *bytes++;
    }
}

#define ONE_OF(list) list[below(sizeof list / sizeof *list)]

#endif
