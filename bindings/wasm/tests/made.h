/* SPDX-License-Identifier: Apache-2.0 */
/* Texts of versions and of ranges that are made by a generator: the same on each machine. */
#ifndef MADE_H
#define MADE_H

#include "text.h"

static void add_number(struct text *text) {
    static const char *const rare[] = {"01", "65535", "65536", "9007199254740991", "9007199254740992", "18446744073709551615",
        "18446744073709551616", "100000000000000000000000", "x", "*", "X", ""};
    static const char *const usual[] = {"0", "1", "2", "3", "4", "10", "20", "39"};
    add(text, below(14) == 0 ? ONE_OF(rare) : ONE_OF(usual));
}

static void add_identifiers(struct text *text) {
    static const char *const words[] = {"a", "rc", "beta", "0", "1", "01", "-", "a-b", "x", "\xc3\xa9", "\xff", "A", "9007199254740993", "",
        "rc1", "v", "12345678901234567890123456789012345678901234567890", "abcdefghijklmnopqrstuvwxyz", "7", "2"};
    for (uint32_t n = 1 + below(3); n > 0; n--) {
        add(text, ONE_OF(words));
        add(text, n > 1 ? "." : "");
    }
}

static void add_version(struct text *text) {
    static const char *const before[] = {"v", "=", " ", "\t"};
    size_t from = text->length;
    add(text, below(12) == 0 ? ONE_OF(before) : "");
    add_number(text), add(text, "."), add_number(text), add(text, "."), add_number(text);
    if (below(3) == 0) {
        add(text, "-"), add_identifiers(text);
    }
    if (below(6) == 0) {
        add(text, "+"), add_identifiers(text);
    }
    if (below(20) == 0 && text->length > from) {
        text->length = from + below((uint32_t)(text->length - from));
    }
}

static void add_partial(struct text *text) {
    if (below(2) == 0) {
        add_version(text);
        return;
    }
    add_number(text);
    for (uint32_t n = below(3); n > 0; n--) {
        add(text, "."), add_number(text);
    }
}

static void add_range(struct text *text) {
    static const char *const marks[] = {"", "^", "~", ">", "<", ">=", "<=", "=", "~>", "> ", "^ "};
    for (uint32_t n = below(60) == 0 ? 40 : 1 + below(3); n > 0; n--) {
        if (below(5) == 0) {
            add_partial(text), add(text, " - "), add_partial(text);
        } else {
            for (uint32_t m = 1 + below(3); m > 0; m--) {
                add(text, ONE_OF(marks)), add_partial(text), add(text, m > 1 ? " " : "");
            }
        }
        add(text, n > 1 ? " || " : "");
    }
}

#endif
