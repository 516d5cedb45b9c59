/* SPDX-License-Identifier: Apache-2.0 */
/* What a program writes that makes calls natively and as WebAssembly, and the heap whose requests it refuses. */
#ifndef SAID_H
#define SAID_H

#include "../memory.h"

/* Writes to standard output. */
void write_out(const char *bytes, size_t length);

/* The heap of a build for tests. */
void heap_refuse(uint32_t n);
uint32_t heap_requests(void);
int32_t heap_blocks(void);

static char line[1 << 16];
static size_t written;

static void flush(void) {
    write_out(line, written);
    written = 0;
}

static void say_byte(char byte) {
    if (written == sizeof line) {
        flush();
    }
    line[written++] = byte;
}

static void say(const char *text) {
    while (*text != '\0') {
        say_byte(*text++);
    }
}

static void say_number(uint64_t number) {
    char digits[20];
    size_t count = 0;
    do {
        digits[count++] = (char)('0' + number % 10);
        number /= 10;
    } while (number > 0);
    say_byte(' ');
    while (count > 0) {
        say_byte(digits[--count]);
    }
}

static void say_bytes(const char *bytes, size_t length) {
    static const char hex[] = "0123456789abcdef";
    say_byte(' ');
    for (size_t i = 0; i < length; i++) {
        char byte = bytes[i];
        if (byte > ' ' && byte < 127 && byte != '\\') {
            say_byte(byte);
        } else {
            say_byte('\\'), say_byte(hex[(byte >> 4) & 15]), say_byte(hex[byte & 15]);
        }
    }
}

#endif
